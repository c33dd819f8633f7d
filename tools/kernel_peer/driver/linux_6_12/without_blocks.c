/* Stands in for drivers/gpu/buddy.c where that wasn't unpacked: VRAM by blocks is refused. */
#ifdef PEER_WITHOUT_BLOCKS
#include "../blocks.h"

int gpu_buddy_init(struct gpu_buddy *buddy, u64 size, u64 chunk_size)
{
	(void)buddy;
	(void)size;
	(void)chunk_size;
	give_up("the kernel's source has no drivers/gpu/buddy.c", "vram buddy");
}

int gpu_buddy_alloc_blocks(struct gpu_buddy *buddy, u64 start, u64 end, u64 size, u64 least, struct list_head *blocks, unsigned long flags)
{
	(void)buddy;
	(void)start;
	(void)end;
	(void)size;
	(void)least;
	(void)blocks;
	(void)flags;
	return -ENOSPC;
}

void gpu_buddy_free_list(struct gpu_buddy *buddy, struct list_head *blocks, unsigned int flags)
{
	(void)buddy;
	(void)blocks;
	(void)flags;
}
#endif
