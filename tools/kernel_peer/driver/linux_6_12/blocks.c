/* The blocks of gpu_buddy: in 6.12 the allocator rounds up and trims by itself. */
#include "../blocks.h"

int take_kernels_blocks(struct request *request, bool contiguous)
{
	unsigned long flags = (request->topdown ? GPU_BUDDY_TOPDOWN_ALLOCATION : 0) | (contiguous ? GPU_BUDDY_CONTIGUOUS_ALLOCATION : 0);

	if (request->start || request->end != request->buddy->size)
		flags |= GPU_BUDDY_RANGE_ALLOCATION;
	return gpu_buddy_alloc_blocks(request->buddy, request->start, request->end, request->size, request->block_size, request->blocks, flags);
}
