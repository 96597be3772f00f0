/* Stubs for the functions of drivers/iommu/intel: the fields that they use, and a unit that takes what is queued. */
#include "common.h"

struct device { void *priv; int is_present; };
struct pci_dev { struct device dev; };
struct iommu_domain { int type; struct mm_struct *mm; const void *iopf_handler, *ops; };
struct iopf_queue;
struct q_inval {
  raw_spinlock_t q_lock;
  void *desc;
  int *desc_status;
  int free_head, free_tail, free_cnt;
};
struct intel_iommu {
  char *reg, *name;
  u64 cap, ecap;
  u32 gcmd;
  spinlock_t lock;
  struct q_inval *qi;
  struct page_req_dsc *prq;
  struct mutex iopf_lock;
  unsigned long prq_seq_number;
  struct completion prq_complete;
  struct { void (*flush_iotlb)(struct intel_iommu *, u16, u64, unsigned int, u64); } flush;
  struct iopf_queue *iopf_queue;
};
struct dmar_domain {
  spinlock_t lock, cache_lock;
  struct list_head devices, dev_pasids, cache_tags;
  struct mmu_notifier notifier;
  struct iommu_domain domain;
  bool use_first_level, iotlb_sync_map;
  struct qi_batch *qi_batch;
};
struct device_domain_info {
  u8 bus, devfn;
  u16 pfsid, segment;
  u8 ats_enabled, pri_enabled, pasid_enabled, ats_supported, pri_supported, domain_attached;
  u8 ats_qdep;
  int iopf_refcount;
  bool dtlb_extra_inval;
  struct device *dev;
  struct intel_iommu *iommu;
  struct dmar_domain *domain;
  struct list_head link;
};
struct dev_pasid_info {
  struct list_head link_domain;
  struct device *dev;
  ioasid_t pasid;
};

#define IOMMU_DOMAIN_IDENTITY 4
#define IOMMU_DOMAIN_BLOCKED 0
#define IOMMU_DOMAIN_SVA 5
#define IOMMU_DOMAIN_NESTED 6
#define dev_iommu_priv_get(d) ((d)->priv)
#define dev_is_pci(d) true
#define to_pci_dev(d) container_of(d, struct pci_dev, dev)
#define to_dmar_domain(d) container_of(d, struct dmar_domain, domain)
#define pci_device_is_present(p) ((p)->dev.is_present)
#define pci_ats_queue_depth(p) 0
#define domain_id_iommu(d, i) 7
#define intel_domain_is_fs_paging(d) true
#define intel_domain_is_ss_paging(d) false
#define dev_is_real_dma_subdevice(d) false
#define sm_supported(i) true
#define domain_need_iotlb_sync_map(...) false
#define is_canonical_address(a) true
#define trace_prq_report(...) ((void)0)
#define trace_qi_submit(...) ((void)0)
#define trace_cache_tag_flush_range(...) ((void)0)
#define qi_dump_fault(...) ((void)0)
#define device_rbtree_find(i, sid) ((sid) == 0x100 ? &the_device.dev : NULL)
#define dmar_latency_enabled(...) false
#define dmar_latency_update(...) ((void)0)
#define ktime_get() 0
#define ktime_to_ns(x) (x)
#define clflush_cache_range(...) ((void)0)

static struct pci_dev the_device;
static struct mutex pasid_mutex;
static struct intel_iommu the_unit;
struct pasid_entry;
static struct pasid_entry *entry_of(void);
#define intel_pasid_get_entry(d, p) entry_of()

/* the host spins: what the unit has got is done now */
static void spun(void);
#define cpu_relax() spun()
typedef int irqreturn_t;
#define IRQ_RETVAL(x) (x)
#define reinit_completion(c) ((c)->done = 0)
#define completion_done(c) ((c)->done > 0)
#define complete(c) ((c)->done++, act("the page request thread completes"))
static void slept(struct completion *on);
#define wait_for_completion(c) slept(c)

static u64 read_register(void *at);
static void write_register(u64 value, void *at);
#define readl(a) ((u32)read_register(a))
#define readq(a) read_register(a)
#define readl_relaxed(a) readl(a)
#define writel(v, a) write_register(v, a)
#define writeq(v, a) write_register(v, a)
