/* Types, attributes and macros that the allocators alone don't need. */
#ifndef PEER_WORDS_H
#define PEER_WORDS_H

#include <malloc.h>
#include <sys/types.h>

/* linux/types.h */
typedef uint16_t u16;
typedef u8 __u8;
typedef u32 __u32;
typedef u64 __u64;
typedef s64 __s64;
typedef unsigned int vm_fault_t;
typedef unsigned long pgoff_t;
typedef u64 dma_addr_t;
typedef u64 phys_addr_t;
typedef u64 resource_size_t;
typedef s64 ktime_t;
typedef struct { unsigned long pgprot; } pgprot_t;
typedef struct { u64 val; } pfn_t;

/* linux/compiler.h, linux/compiler_attributes.h */
#define __always_unused __attribute__((unused))
#define __iomem
#define __user
#define __force
#define __percpu
#define __printf(a, b)
#define fallthrough __attribute__((fallthrough))
#define smp_wmb() ((void)0)
#define barrier() __asm__ __volatile__("" ::: "memory")
#define cpu_relax() ((void)0)

/* linux/export.h, linux/module.h: nothing is exported, and no parameter is set */
#undef EXPORT_SYMBOL
#undef EXPORT_SYMBOL_GPL
#undef MODULE_DESCRIPTION
#undef MODULE_LICENSE
#define EXPORT_SYMBOL(x) struct peer_unused_##x
#define EXPORT_SYMBOL_GPL(x) EXPORT_SYMBOL(x)
#define EXPORT_TRACEPOINT_SYMBOL(x) struct peer_unused_tracepoint_##x
#define MODULE_DESCRIPTION(x) struct peer_unused_description
#define MODULE_AUTHOR(x) struct peer_unused_author
#define MODULE_LICENSE(x) struct peer_unused_license
#define MODULE_PARM_DESC(n, x) struct peer_unused_description_##n
#define module_param_named(n, v, t, p) struct peer_unused_parameter_##n
#define IS_ENABLED(x) 0

/* linux/mm.h, linux/pfn.h */
#define PAGE_MASK (~(PAGE_SIZE - 1))
#define PAGE_ALIGN(x) (((x) + PAGE_SIZE - 1) & PAGE_MASK)
#define PFN_UP(x) (((x) + PAGE_SIZE - 1) >> PAGE_SHIFT)
#define MAX_ORDER 11

/* linux/minmax.h, linux/overflow.h, linux/wordpart.h */
#define struct_size(p, m, n) (sizeof(*(p)) + sizeof((p)->m[0]) * (n))
#define lower_32_bits(n) ((u32)((n) & 0xffffffff))
#define upper_32_bits(n) ((u32)(((n) >> 16) >> 16))

/* linux/bitops.h: one thread runs at a time, so no bit is changed in between */
#define set_bit __set_bit
#define clear_bit __clear_bit
static inline bool test_and_set_bit(int n, unsigned long *bits)
{
	bool was = test_bit(n, bits);

	__set_bit(n, bits);
	return was;
}

/* linux/list.h: its types are the benchmark's; linux/llist.h */
struct llist_node { struct llist_node *next; };

/* linux/errno.h */
#define ERESTARTSYS 512

#endif
