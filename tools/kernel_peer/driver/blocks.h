/*
 * The kernel's buddy allocator by the names of 6.1, and a request of a manager over it. 6.12.117 calls a drm_buddy a gpu_buddy.
 */
#ifndef BLOCKS_H
#define BLOCKS_H

#include "peer.h"

#ifdef PEER_KERNEL_6_12
#include <linux/gpu_buddy.h>
#define drm_buddy gpu_buddy
#define drm_buddy_block gpu_buddy_block
#define drm_buddy_init gpu_buddy_init
#define drm_buddy_alloc_blocks gpu_buddy_alloc_blocks
#define drm_buddy_free_list(buddy, blocks) gpu_buddy_free_list(buddy, blocks, 0)
#define drm_buddy_block_offset gpu_buddy_block_offset
#define drm_buddy_block_size gpu_buddy_block_size
#define drm_buddy_block_is_free gpu_buddy_block_is_free
#define drm_buddy_block_is_split gpu_buddy_block_is_split
#define DRM_BUDDY_RANGE_ALLOCATION GPU_BUDDY_RANGE_ALLOCATION
#define DRM_BUDDY_TOPDOWN_ALLOCATION GPU_BUDDY_TOPDOWN_ALLOCATION
#else
#include <drm/drm_buddy.h>
#endif

/* a request, in bytes */
struct request {
	struct drm_buddy *buddy;
	u64 start, end, size, block_size; /* block_size: no block is smaller */
	bool topdown;
	struct list_head *blocks;
};

/* Takes the blocks that the kernel chooses; 0 or an error (linux_VERSION/blocks.c). */
int take_kernels_blocks(struct request *request, bool contiguous);

#endif
