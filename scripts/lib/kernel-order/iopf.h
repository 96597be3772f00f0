/* Stubs for drivers/iommu/io-pgfault.c and the worker of iommu-sva.c: a device, its handles, work that is run by
   hand. */
#include "common.h"

typedef struct { int count; } refcount_t;
struct work_struct { void (*run)(struct work_struct *work); };
struct workqueue_struct;
struct iopf_group;
struct iopf_fault;
struct iommu_page_response;
struct iommu_fault_param;
struct dev_iommu { struct mutex lock; struct iommu_fault_param *fault_param; };
struct device { struct dev_iommu *iommu; void *iommu_group; };
struct iommu_domain {
  int type, users;
  struct mm_struct *mm;
  struct list_head next;
  int (*iopf_handler)(struct iopf_group *group);
};
struct iommu_ops {
  void (*page_response)(struct device *dev, struct iopf_fault *fault, struct iommu_page_response *response);
  bool user_pasid_table;
};

static struct iommu_ops the_operations;
static struct mutex iommu_sva_lock;
static struct list_head iommu_sva_mms = {&iommu_sva_mms, &iommu_sva_mms};
static bool iommu_sva_present = true;
static void queued(struct work_struct *work);
static void flushed(void);
static void *handle_of(ioasid_t pasid);

#define IOMMU_DOMAIN_NESTED 32
#define dev_iommu_ops(d) (&the_operations)
#define iommu_attach_handle_get(group, pasid, type) handle_of(pasid)
#define iommu_sva_handle_mm(...) (act("a worker handles a page"), 0)
#define rcu_dereference_check(p, c) (p)
#define refcount_inc_not_zero(r) ((r)->count ? (r)->count++ : 0)
#define refcount_dec_and_test(r) (--(r)->count == 0)
#define refcount_set(r, n) ((r)->count = (n))
#define mutex_init(m) ((void)(m))
#define INIT_WORK(w, f) ((w)->run = (f))
#define queue_work(q, w) (queued(w), true)
#define flush_workqueue(q) flushed()
#define list_move(n, h) (link_out(n), link_after(n, h))
#define dev_warn_ratelimited(...) ((void)0)

static inline size_t list_count_nodes(struct list_head *head) {
  size_t count = 0;
  for (struct list_head *at = head->next; at != head; at = at->next) count++;
  return count;
}
