/*
 * What the kernel's allocators take from the rest of the kernel, for a build in user space. Every header that they include and that
 * measure.py doesn't take from the kernel's source is an empty one that includes this.
 */
#ifndef SHIMS_KERNEL_H
#define SHIMS_KERNEL_H

#include <errno.h>
#include <limits.h>
#include <stdbool.h>
#include <stddef.h>
#include <stdint.h>
#include <stdio.h>
#include <stdlib.h>
#include <string.h>

typedef uint8_t u8;
typedef uint32_t u32;
typedef int32_t s32;
typedef unsigned long long u64;
typedef long long s64;
#define U64_MAX (~0ULL)

/* ---- the compiler ---- */

#define __init
#define __exit
#define __rcu
#define __must_check
#define __maybe_unused __attribute__((unused))
#define noinline __attribute__((noinline))
#undef __always_inline
#define __always_inline inline __attribute__((always_inline))
#define likely(x) __builtin_expect(!!(x), 1)
#define unlikely(x) __builtin_expect(!!(x), 0)
#define __same_type(a, b) __builtin_types_compatible_p(typeof(a), typeof(b))
#define static_assert(e, ...) _Static_assert(e, "" #e)
#define READ_ONCE(x) (*(const volatile typeof(x) *)&(x))
#define WRITE_ONCE(x, v) (*(volatile typeof(x) *)&(x) = (v))
#define smp_load_acquire(p) READ_ONCE(*(p))
#define smp_store_release(p, v) WRITE_ONCE(*(p), v)
#define rcu_assign_pointer(p, v) WRITE_ONCE(p, v)
#define rcu_dereference_raw(p) READ_ONCE(p)

#define EXPORT_SYMBOL(s)
#define EXPORT_SYMBOL_GPL(s)
#define MODULE_DESCRIPTION(s)
#define MODULE_LICENSE(s)
#define module_init(f) __attribute__((constructor)) static void begin_module(void) { f(); }
#define module_exit(f) __attribute__((destructor)) static void end_module(void) { f(); }

/* ---- what must not happen: tested, as in the kernel ---- */

#define BUG_ON(c) do { if (unlikely(c)) abort(); } while (0)
#define WARN_ON(c) ({ bool w = !!(c); if (unlikely(w)) abort(); w; })
#define WARN(c, ...) WARN_ON(c)
#define BUILD_BUG_ON(c) _Static_assert(!(c), #c)
#define BUILD_BUG_ON_INVALID(e) ((void)sizeof((long)(e)))
#define kunit_fail_current_test(...) abort()
#define DRM_ERROR(...) abort()
#define pr_info(...) ((void)0)
#define pr_err(...) ((void)0)
struct drm_printer { int unused; };
#define drm_printf(p, ...) ((void)(p))

#define MAX_ERRNO 4095
#define ERR_PTR(e) ((void *)(long)(e))
#define PTR_ERR(p) ((long)(p))
#define IS_ERR(p) unlikely((unsigned long)(p) >= (unsigned long)-MAX_ERRNO)
#define IS_ERR_OR_NULL(p) (!(p) || IS_ERR(p))

/* ---- numbers and bits ---- */

#define SZ_4K 0x1000
#define SZ_1M 0x100000
#define PAGE_SHIFT 12
#define PAGE_SIZE (1UL << PAGE_SHIFT)
#define BITS_PER_LONG 64
#define BIT(n) (1UL << (n))
#define BIT_ULL(n) (1ULL << (n))
#define GENMASK_ULL(h, l) ((~0ULL << (l)) & (~0ULL >> (63 - (h))))
#define ARRAY_SIZE(a) (sizeof(a) / sizeof((a)[0]))
#define IS_ALIGNED(x, a) (((x) & ((typeof(x))(a) - 1)) == 0)
#define is_power_of_2(n) ((n) && !((n) & ((n) - 1)))
#define hweight64 __builtin_popcountll
#define fls64(n) ((n) ? 64 - __builtin_clzll(n) : 0)
#define fls(n) ((int)(n) ? 32 - __builtin_clz(n) : 0)
#define ilog2(n) (63 - __builtin_clzll(n))
#define roundup_pow_of_two(n) (1ULL << fls64((u64)(n) - 1))
#define rounddown_pow_of_two(n) (1ULL << ilog2(n))
#define round_up(x, a) ((((x) - 1) | ((typeof(x))(a) - 1)) + 1)
#define round_down(x, a) ((x) & ~((typeof(x))(a) - 1))
#define min(a, b) ({ typeof(a) a_ = (a); typeof(b) b_ = (b); a_ < b_ ? a_ : b_; })
#define max(a, b) ({ typeof(a) a_ = (a); typeof(b) b_ = (b); a_ > b_ ? a_ : b_; })
#define swap(a, b) do { typeof(a) t_ = (a); (a) = (b); (b) = t_; } while (0)
#define range_overflows(start, size, max) ({ u64 s_ = (start), m_ = (max); s_ >= m_ || (size) > m_ - s_; })

static inline u64 div64_u64_rem(u64 n, u64 by, u64 *rem)
{
	*rem = n % by;
	return n / by;
}

static inline void __set_bit(long n, unsigned long *bits) { *bits |= 1UL << n; }
static inline void __clear_bit(long n, unsigned long *bits) { *bits &= ~(1UL << n); }
static inline bool test_bit(long n, const unsigned long *bits) { return *bits >> n & 1; }
#define clear_bit_unlock __clear_bit

/* ---- lists' and trees' types ---- */

struct list_head { struct list_head *next, *prev; };
struct hlist_node { struct hlist_node *next, **pprev; };
struct hlist_head { struct hlist_node *first; };

/* ---- memory: a cache is a list of free objects, for the fast path of the kernel's ---- */

#define GFP_KERNEL 0
#define GFP_NOWAIT 0
typedef unsigned int gfp_t;

struct kmem_cache {
	size_t size;
	void *free;
};

static inline struct kmem_cache *make_cache(size_t size)
{
	struct kmem_cache *cache = calloc(1, sizeof(*cache));

	cache->size = size;
	return cache;
}

static inline void *kmem_cache_zalloc(struct kmem_cache *cache, gfp_t flags)
{
	void *object = cache->free;

	(void)flags;
	if (unlikely(!object))
		return calloc(1, cache->size);
	cache->free = *(void **)object;
	return memset(object, 0, cache->size);
}

static inline void kmem_cache_free(struct kmem_cache *cache, void *object)
{
	*(void **)object = cache->free;
	cache->free = object;
}

#define KMEM_CACHE(type, flags) make_cache(sizeof(struct type))
#define kmem_cache_destroy free
#define kmalloc(size, flags) malloc(size)
#define kzalloc(size, flags) calloc(1, size)
#define kmalloc_array(n, size, flags) malloc((n) * (size))
#define kcalloc(n, size, flags) calloc(n, size)
#define kfree free
#define kmemleak_update_trace(p) ((void)0)
#define cond_resched() ((void)0)
#define might_sleep() ((void)0)

#endif
