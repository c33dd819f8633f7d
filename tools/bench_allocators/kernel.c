/* The kernel's drm_mm, and its drm_buddy, which is gpu_buddy in later kernels. */
#include "allocators.h"

#include <drm/drm_mm.h>
#ifdef GPU_BUDDY
#include <linux/gpu_buddy.h>
#define BUDDY(name) gpu_buddy_##name
static struct gpu_buddy buddy;
typedef struct gpu_buddy_block block;
#define FREE_LIST(mm, list) gpu_buddy_free_list(mm, list, 0)
#define TOPDOWN_FLAG GPU_BUDDY_TOPDOWN_ALLOCATION
#define RANGE_FLAG GPU_BUDDY_RANGE_ALLOCATION
#define CONTIGUOUS_FLAG GPU_BUDDY_CONTIGUOUS_ALLOCATION
#else
#include <drm/drm_buddy.h>
#define BUDDY(name) drm_buddy_##name
static struct drm_buddy buddy;
typedef struct drm_buddy_block block;
#define TOPDOWN_FLAG DRM_BUDDY_TOPDOWN_ALLOCATION
#define RANGE_FLAG DRM_BUDDY_RANGE_ALLOCATION
#ifdef DRM_BUDDY_CONTIGUOUS_ALLOCATION
#define CONTIGUOUS_FLAG DRM_BUDDY_CONTIGUOUS_ALLOCATION
#endif
#ifdef DRM_BUDDY_CLEARED
#define FREE_LIST(mm, list) drm_buddy_free_list(mm, list, 0)
#else
#define FREE_LIST(mm, list) drm_buddy_free_list(mm, list)
#endif
#endif

static struct drm_mm mm;
static struct drm_mm_node *nodes;

void ranges_open(uint32_t pages, uint32_t slots)
{
	drm_mm_init(&mm, 0, pages);
	nodes = calloc(slots, sizeof(*nodes));
}

bool ranges_insert(uint32_t slot, const struct request *request, uint32_t *start)
{
	static const enum drm_mm_insert_mode modes[] = { DRM_MM_INSERT_BEST, DRM_MM_INSERT_LOW, DRM_MM_INSERT_HIGH };
	struct drm_mm_node *node = &nodes[slot];

	if (drm_mm_insert_node_in_range(&mm, node, request->pages, request->align, 0, request->first, request->last, modes[request->mode]))
		return false;
	*start = node->start;
	return true;
}

void ranges_remove(uint32_t slot)
{
	drm_mm_remove_node(&nodes[slot]);
}

static uint32_t size;
static struct list_head *lists;

void blocks_open(uint32_t pages, uint32_t slots)
{
	size = pages;
	if (BUDDY(init)(&buddy, (u64)pages << PAGE_SHIFT, PAGE_SIZE))
		abort();
	lists = calloc(slots, sizeof(*lists));
	for (uint32_t slot = 0; slot < slots; slot++)
		INIT_LIST_HEAD(&lists[slot]);
}

bool blocks_alloc(uint32_t slot, const struct request *request, uint32_t *start)
{
	unsigned long flags = request->flags & TOPDOWN ? TOPDOWN_FLAG : 0;

	if (request->first > 0 || request->last < size)
		flags |= RANGE_FLAG;
	if (request->flags & CONTIGUOUS) {
#ifdef CONTIGUOUS_FLAG
		flags |= CONTIGUOUS_FLAG;
#else
		exit(NO_SUCH_CALL);
#endif
	}
	if (BUDDY(alloc_blocks)(&buddy, (u64)request->first << PAGE_SHIFT, (u64)request->last << PAGE_SHIFT,
				(u64)request->pages << PAGE_SHIFT, PAGE_SIZE, &lists[slot], flags))
		return false;
	*start = BUDDY(block_offset)(list_first_entry(&lists[slot], block, link)) >> PAGE_SHIFT;
	return true;
}

void blocks_release(uint32_t slot)
{
	FREE_LIST(&buddy, &lists[slot]);
}
