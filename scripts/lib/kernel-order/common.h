/* Stubs for scripts/by-hand/kernel-order: what functions of a kernel stand on here. Each act that is looked for prints
   a line; locks of queues, logs and latencies print nothing. Nothing of a kernel's text is in this file. */
#include <errno.h>
#include <stdarg.h>
#include <stdbool.h>
#include <stddef.h>
#include <stdint.h>
#include <stdio.h>
#include <stdlib.h>
#include <string.h>
#include <sys/wait.h>
#include <ucontext.h>
#include <unistd.h>

typedef uint8_t u8;
typedef uint16_t u16;
typedef uint32_t u32;
typedef uint64_t u64;
typedef int64_t s64;
typedef int64_t __s64;
typedef uint32_t ioasid_t;
typedef u64 dma_addr_t;
typedef u64 phys_addr_t;
typedef struct { int taken; } spinlock_t;
typedef spinlock_t raw_spinlock_t;
typedef struct { u64 pgd; } pgd_t;

struct list_head { struct list_head *next, *prev; };
struct mutex { int taken; };
struct rcu_head { void *next; };
struct completion { int done; };
struct mm_struct { pgd_t *pgd; void *iommu_mm; };
struct mmu_notifier { const void *ops; struct mm_struct *mm; };

#define __iomem
#define __init
#define __always_inline inline
#define __maybe_unused
#define __must_check
#define __rcu
#define __user
#define fallthrough ((void)0)
#define likely(x) (x)
#define unlikely(x) (x)
#define READ_ONCE(x) (*(volatile __typeof__(x) *)&(x))
#define WRITE_ONCE(x, v) (*(volatile __typeof__(x) *)&(x) = (v))
#define BIT(n) (1UL << (n))
#define BIT_ULL(n) (1ULL << (n))
#define GENMASK_ULL(h, l) ((~0ULL << (l)) & (~0ULL >> (63 - (h))))
#define GENMASK(h, l) GENMASK_ULL(h, l)
#define GENMASK_U64(h, l) GENMASK_ULL(h, l)
#define SZ_4K 4096
#define ALIGN_DOWN(x, a) ((x) & ~((__typeof__(x))(a) - 1))
#define IS_ALIGNED(x, a) (((x) & ((__typeof__(x))(a) - 1)) == 0)
#define U64_MAX (~0ULL)
#define BITS_PER_LONG 64
#define __ffs(x) __builtin_ctzll(x)
#define PAGE_SHIFT 12
#define PAGE_SIZE 4096UL
#define PAGE_MASK (~(PAGE_SIZE - 1))
#define PAGE_ALIGN(x) (((x) + PAGE_SIZE - 1) & PAGE_MASK)
#define DIV_ROUND_UP(n, d) (((n) + (d) - 1) / (d))
#define min(a, b) ((a) < (b) ? (a) : (b))
#define max(a, b) ((a) > (b) ? (a) : (b))
#define ilog2(n) (63 - __builtin_clzll((u64)(n)))
#define fls64(x) ((x) ? 64 - __builtin_clzll((u64)(x)) : 0)
#define fls_long(x) fls64(x)
#define __roundup_pow_of_two(n) ((n) > 1 ? 1ULL << (ilog2((n) - 1) + 1) : 1ULL)
#define lower_32_bits(n) ((u32)(n))
#define upper_32_bits(n) ((u32)((u64)(n) >> 32))
#define container_of(p, type, member) ((type *)((char *)(p) - offsetof(type, member)))
#define FIELD_GET(mask, value) (((value) & (mask)) >> __builtin_ctzll(mask))
#define FIELD_PREP(mask, value) (((u64)(value) << __builtin_ctzll(mask)) & (mask))
#define IOMMU_NO_PASID 0U
#define MMIO_SIZE 0x10000
#define PCI_BUS_NUM(d) ((d) >> 8 & 0xff)
#define PCI_SLOT(d) ((d) >> 3 & 0x1f)
#define PCI_FUNC(d) ((d) & 7)
#define PCI_DEVID(bus, devfn) ((u16)((bus) << 8 | (devfn)))
#define GFP_KERNEL 0
#define GFP_ATOMIC 0

/* what changed in watched memory is told ahead of the next act; each kernel's file says what is watched */
static void look(void);
/* while a world is set up nothing is told */
static bool is_quiet;

static void act(const char *text, ...) {
  va_list list;
  look();
  if (is_quiet) return;
  va_start(list, text);
  printf("  ");
  vprintf(text, list);
  printf("\n");
  va_end(list);
}

/* a function that isn't taken out of the tree is told as a call, with the text of what it is given */
static inline long called(const char *name, const char *given) {
  act("call %s(%s)", name, given);
  return 0;
}

/* does something in a process of its own, so that a fault ends no more than that */
#define BY_ITSELF(...) \
  do { \
    int status; \
    setvbuf(stdout, NULL, _IOLBF, 0); \
    if (fork() == 0) { \
      __VA_ARGS__; \
      fflush(stdout); \
      _exit(0); \
    } \
    wait(&status); \
    if (WIFSIGNALED(status)) printf("  a fault, by signal %d\n", WTERMSIG(status)); \
  } while (0)

static inline bool warned(bool is_so, const char *text) {
  if (is_so) act("WARN_ON(%s)", text);
  return is_so;
}
#define WARN_ON(x) warned(!!(x), #x)
#define WARN_ON_ONCE(x) warned(!!(x), #x)
#define ERR_PTR(e) ((void *)(long)(e))
#define PTR_ERR(p) ((long)(p))
#define IS_ERR(p) ((unsigned long)(p) > -4096UL)
#define BUG_ON(x) ((void)warned(!!(x), #x))

#define pr_err(...) ((void)0)
#define pr_info(...) ((void)0)
#define pr_alert(...) ((void)0)
#define pr_warn(...) ((void)0)
#define pr_info_ratelimited(...) ((void)0)
#define pr_warn_ratelimited(...) ((void)0)
#define dma_wmb() ((void)0)
#define DO_ONCE_LITE(...) ((void)0)
#define lockdep_assert_held(x) ((void)0)
#define iommu_group_mutex_assert(x) ((void)0)
#define lockdep_is_held(l) true
#define rcu_dereference(p) (p)
#define rcu_assign_pointer(p, v) ((p) = (v))
#define rcu_read_lock() ((void)0)
#define rcu_read_unlock() ((void)0)

/* queue locks stay silent, the others are told */
#define raw_spin_lock_irqsave(l, f) ((void)((l), (f) = 0))
#define raw_spin_unlock_irqrestore(l, f) ((void)((l), (f)))
#define raw_spin_lock(l) ((void)(l))
#define raw_spin_unlock(l) ((void)(l))
#define spin_lock(l) ((void)(l), act("lock %s", #l))
#define spin_unlock(l) ((void)(l), act("unlock %s", #l))
#define spin_lock_irqsave(l, f) ((void)((l), (f) = 0), act("lock %s", #l))
#define spin_unlock_irqrestore(l, f) ((void)((l), (f)), act("unlock %s", #l))
#define mutex_lock(l) ((void)(l), act("lock %s", #l))
#define mutex_unlock(l) ((void)(l), act("unlock %s", #l))

static inline void init_list(struct list_head *h) { h->next = h->prev = h; }
static inline void link_after(struct list_head *n, struct list_head *h) {
  n->next = h->next, n->prev = h, h->next->prev = n, h->next = n;
}
static inline void link_out(struct list_head *n) {
  n->prev->next = n->next, n->next->prev = n->prev;
}
#define INIT_LIST_HEAD(h) init_list(h)
#define list_empty(h) ((h)->next == (h))
#define list_add(n, h) (link_after(n, h), act("list_add(%s, %s)", #n, #h))
#define list_del(n) (link_out(n), act("list_del(%s)", #n))
#define list_del_init(n) (link_out(n), init_list(n), act("list_del(%s)", #n))
#define list_entry(p, type, member) container_of(p, type, member)
#define list_for_each_entry(p, h, member) \
  for ((p) = container_of((h)->next, __typeof__(*(p)), member); &(p)->member != (h); \
       (p) = container_of((p)->member.next, __typeof__(*(p)), member))
#define list_for_each_entry_safe(p, n, h, member) \
  for ((p) = container_of((h)->next, __typeof__(*(p)), member), \
       (n) = container_of((p)->member.next, __typeof__(*(p)), member); \
       &(p)->member != (h); (p) = (n), (n) = container_of((n)->member.next, __typeof__(*(n)), member))

static inline void *given(size_t size) { return calloc(1, size); }
#define kzalloc(size, flags) given(size)
#define kzalloc_obj(x) given(sizeof(x))
#define kfree(p) act("kfree(%s)", #p)
#define kfree_rcu(p, m) act("kfree_rcu(%s)", #p)
#define virt_to_phys(p) ((u64)(uintptr_t)(p))
#define phys_to_virt(p) ((void *)(uintptr_t)(p))
