/* Stands for linux/slab.h: malloc, and 0xa5 in what isn't zeroed. */
#ifndef PEER_MEMORY_H
#define PEER_MEMORY_H

#undef GFP_KERNEL
#undef kmalloc
#undef kzalloc
#undef kcalloc
#undef kmalloc_array
#undef kfree
#define GFP_KERNEL 1
#define GFP_DMA32 4
#define __GFP_ZERO 0x100
#define SLAB_HWCACHE_ALIGN 0

static inline void *kmalloc(size_t size, gfp_t flags)
{
	void *p = malloc(size);

	(void)flags;
	if (p)
		memset(p, 0xa5, size);
	return p;
}
static inline void *kcalloc(size_t n, size_t size, gfp_t flags)
{
	(void)flags;
	return calloc(n, size);
}
static inline void *krealloc_array(void *p, size_t n, size_t size, gfp_t flags)
{
	(void)flags;
	return realloc(p, n * size);
}
static inline void kfree(const void *p) { free((void *)p); }
#define kzalloc(size, flags) kcalloc(1, size, flags)
#define kvcalloc kcalloc
#define kmalloc_array kcalloc
#define kvfree kfree
static inline size_t ksize(const void *p) { return malloc_usable_size((void *)p); }

#endif
