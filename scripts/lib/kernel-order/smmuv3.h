/* Stubs for the functions of drivers/iommu/arm/arm-smmu-v3: the fields that they use, and a queue that tells what it
   is given. */
#include "common.h"
#include <limits.h>
#include <strings.h>

typedef u64 __le64;
typedef struct { int counter; } atomic_t;
typedef struct { int taken; } rwlock_t;
struct device { void *priv; };
struct pci_dev { struct device dev; };
struct iommu_domain;
struct iommu_domain_ops { int (*attach_dev)(); };
struct iommu_domain {
  int type;
  u64 pgsize_bitmap;
  struct mm_struct *mm;
  const struct iommu_domain_ops *ops;
  const void *iopf_handler;
};
struct iommufd_viommu { int unused; };
struct arm_smmu_cd;
struct arm_smmu_cmdq { int unused; };
struct arm_smmu_invs;
struct arm_smmu_vmaster;
struct arm_smmu_stream { u32 id; };
struct arm_smmu_device { u32 features, options, asid_bits, pgsize_bitmap; };
struct arm_smmu_ctx_desc_cfg { unsigned int used_ssids; u8 in_ste, s1fmt, s1cdmax; };
struct arm_smmu_master {
  struct arm_smmu_device *smmu;
  struct device *dev;
  struct arm_smmu_stream *streams;
  struct arm_smmu_ctx_desc_cfg cd_table;
  struct arm_smmu_invs *build_invs;
  struct arm_smmu_vmaster *vmaster;
  unsigned int num_streams, ssid_bits, iopf_refcount;
  bool ats_enabled, ste_ats_enabled, stall_enabled, sva_enabled, iopf_enabled, ats_always_on;
};
struct arm_smmu_domain {
  struct arm_smmu_device *smmu;
  struct mutex init_mutex;
  atomic_t nr_ats_masters;
  int stage;
  struct { u16 asid; } cd;
  struct { u16 vmid; } s2_cfg;
  struct iommu_domain domain;
  struct arm_smmu_invs *invs;
  struct list_head devices;
  spinlock_t devices_lock;
  struct mmu_notifier mmu_notifier;
  bool nest_parent, enforce_cache_coherency;
};

static struct mutex arm_smmu_asid_lock;
static struct arm_smmu_cd *descriptor(void);
static struct iommu_domain the_own;
static void commands(const u64 *list, int count, bool is_synced);

#define VISIBLE_IF_KUNIT
#define static_assert(x) _Static_assert(x, "")
#define SZ_16K 16384
#define SZ_64K 65536
#define vabits_actual 48
#define system_supports_haft() false
#define system_supports_poe() false
#define system_supports_gcs() false
#define static_branch_unlikely(x) false
#define cmp_int(a, b) (((a) > (b)) - ((a) < (b)))
#define u64p_replace_bits(p, v, mask) (*(p) = (*(p) & ~(u64)(mask)) | FIELD_PREP(mask, v))
#define dev_warn_once(...) ((void)0)
#define arm_smmu_master_canwbs(m) true
#define read_sysreg(x) 0
#define read_sanitised_ftr_reg(x) 0
#define cpuid_feature_extract_unsigned_field(x, y) 0
#define __counted_by(x)
#define IOMMU_DOMAIN_BLOCKED 0
#define IOMMU_DOMAIN_IDENTITY 4
#define __IOMMU_DOMAIN_PAGING 1
#define IOMMU_DOMAIN_SVA 16
#define IOMMU_DOMAIN_NESTED 32
#define cpu_to_le64(x) ((u64)(x))
#define le64_to_cpu(x) ((u64)(x))
#define hweight8(x) __builtin_popcount((u8)(x))
#define smp_mb() ((void)0)
#define wmb() ((void)0)
#define atomic_read(a) ((a)->counter)
#define atomic_inc(a) ((a)->counter++)
#define atomic_dec(a) ((a)->counter--)
#define rcu_dereference_protected(p, c) (p)
#define read_lock_irqsave(l, f) ((void)((l), (f) = 0), act("read lock %s", #l))
#define read_unlock_irqrestore(l, f) ((void)((l), (f)), act("read unlock %s", #l))
#define write_lock_irqsave(l, f) ((void)((l), (f) = 0), act("write lock %s", #l))
#define write_unlock_irqrestore(l, f) ((void)((l), (f)), act("write unlock %s", #l))
#define IS_ENABLED(x) true
#define to_pci_dev(d) container_of(d, struct pci_dev, dev)
#define to_smmu_domain(d) container_of(d, struct arm_smmu_domain, domain)
#define dev_iommu_priv_get(d) ((d)->priv)
#define iommu_get_domain_for_dev(d) (&the_own)
#define iommu_driver_get_domain_for_dev(d) (&the_own)
#define struct_size(p, member, n) (sizeof(*(p)) + (n) * sizeof((p)->member[0]))
#define kzalloc_flex(p, member, n) given(struct_size(&(p), member, n))
#define rwlock_init(l) ((void)(l))
#define dev_warn(...) ((void)0)
#define arm_smmu_cdtab_allocated(t) true
#define arm_smmu_ssids_in_use(t) true
#define arm_smmu_get_cd_ptr(m, s) descriptor()
#define arm_smmu_alloc_cd_ptr(m, s) descriptor()
#define arm_smmu_ats_supported(m) true
#define arm_smmu_update_ste(...) ((void)0)
#define arm_smmu_enable_ats(m) ((void)0)
#define arm_smmu_attach_prepare_vmaster(...) 0
#define arm_smmu_attach_commit_vmaster(...) ((void)0)
#define arm_smmu_enable_iopf(...) 0
#define arm_smmu_get_cmdq(...) NULL
#define arm_smmu_cmdq_supports_cmd(...) true
#define arm_smmu_cmdq_issue_cmdlist(smmu, queue, list, count, is_synced) \
  (commands((const u64 *)(list), count, is_synced), 0)
