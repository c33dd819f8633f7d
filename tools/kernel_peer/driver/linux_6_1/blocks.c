/* The blocks of drm_buddy: in 6.1 the manager rounds a contiguous request up to a power of two, and trims the block. */
#include "../blocks.h"

/* Gives back what the last block has more than was wanted. */
static void trim_last_block(struct request *request, u64 surplus)
{
	struct drm_buddy_block *last = list_last_entry(request->blocks, struct drm_buddy_block, link);
	LIST_HEAD(alone);

	list_move_tail(&last->link, &alone);
	drm_buddy_block_trim(request->buddy, drm_buddy_block_size(request->buddy, last) - surplus, &alone);
	list_splice_tail(&alone, request->blocks);
}

int take_kernels_blocks(struct request *request, bool contiguous)
{
	unsigned long flags = request->topdown ? DRM_BUDDY_TOPDOWN_ALLOCATION : 0;
	u64 size = request->size;
	int ret;

	if (request->start || request->end != request->buddy->size)
		flags |= DRM_BUDDY_RANGE_ALLOCATION;
	if (request->start + size != request->end) {
		if (contiguous)
			size = request->block_size = roundup_pow_of_two(size);
		else
			size = round_up(size, request->block_size);
	}
	ret = drm_buddy_alloc_blocks(request->buddy, request->start, request->end, size, request->block_size, request->blocks, flags);
	if (!ret && size > request->size)
		trim_last_block(request, size - request->size);
	return ret;
}
