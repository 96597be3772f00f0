/* Stubs for the functions of drivers/iommu/amd: the fields that they use, and a unit that takes what is queued. */
#include "common.h"

struct device { void *priv; };
struct pci_dev { struct device dev; };
struct iommu_domain { int type; struct mm_struct *mm; const void *ops; };
struct gcr3_tbl_info {
  u64 *gcr3_tbl;
  int glx;
  u32 pasid_cnt;
  u16 domid;
};
struct amd_iommu {
  raw_spinlock_t lock;
  char *mmio_base;
  u8 *cmd_buf;
  u32 cmd_buf_head, cmd_buf_tail;
  volatile u64 *cmd_sem;
  u64 cmd_sem_val, cmd_sem_paddr;
  bool need_sync;
};
struct protection_domain {
  struct iommu_domain domain;
  spinlock_t lock;
  struct list_head dev_list, dev_data_list;
  struct mmu_notifier mn;
  u16 id;
  int pd_mode;
};
struct iommu_dev_data {
  struct protection_domain *domain;
  struct gcr3_tbl_info gcr3_info;
  struct device *dev;
  u16 devid;
  u32 max_pasids, flags;
  int ats_qdep;
  u8 ats_enabled, pri_enabled, pasid_enabled, pri_tlp, ppr;
};

static struct amd_iommu the_unit;
#define get_amd_iommu_from_dev(d) ((void)(d), &the_unit)
#define get_amd_iommu_from_dev_data(d) ((void)(d), &the_unit)
#define rlookup_amd_iommu(d) ((void)(d), &the_unit)
#define amd_iommu_dump false
#define dev_iommu_priv_get(d) ((d)->priv)
#define __sme_set(x) (x)
#define __sme_clr(x) (x)
#define iommu_num_pages(address, size, page) DIV_ROUND_UP(((address) & ((page) - 1)) + (size), (page))
#define get_zeroed_page(flags) ((u64)(uintptr_t)calloc(1, 4096))
#define dump_command_buffer(...) ((void)0)

/* the host spins: what the unit has got is done now */
static void spun(void);
#define udelay(n) spun()
static u64 read_register(void *at);
static void write_register(u64 value, void *at);
#define readl(a) ((u32)read_register(a))
#define writel(v, a) write_register(v, a)
