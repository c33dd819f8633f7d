/*
 * Rule partial: frames and slots go page by page. A buffer that is refused in SYSTEM keeps the frames that it got, and a victim gives to swap as
 * many pages as there are slots. In the kernel a whole ttm_tt is populated or swapped out, or nothing of it.
 *
 * Where the rule is swapped, a page of tt->swap_storage is a slot, and TTM_TT_FLAG_SWAPPED isn't used.
 *
 * Rule slots: a freed buffer's slots are free at once. In the kernel its ttm_tt has them until it is destroyed, when its jobs are done.
 */
#include "peer.h"
#include "rules.h"

int __real_ttm_tt_populate(struct ttm_device *bdev, struct ttm_tt *tt, struct ttm_operation_ctx *ctx);
int __wrap_ttm_tt_populate(struct ttm_device *bdev, struct ttm_tt *tt, struct ttm_operation_ctx *ctx);

bool has_frames(const struct ttm_tt *tt)
{
	u32 i;

	for (i = 0; tt && tt->pages && i < tt->num_pages; i++)
		if (tt->pages[i])
			return true;
	return false;
}

/* ---- emptying ---- */

static void swap_page_out(struct ttm_tt *tt, u32 i)
{
	struct page *slot;

	if (!tt->swap_storage)
		tt->swap_storage = shmem_file_setup("peer", (loff_t)tt->num_pages << PAGE_SHIFT, 0);
	slot = shmem_read_mapping_page_gfp(tt->swap_storage->f_mapping, i, 0);
	copy_highpage(slot, tt->pages[i]);
	__free_page(tt->pages[i]);
	tt->pages[i] = NULL;
	tt->page_flags &= ~TTM_TT_FLAG_PRIV_POPULATED;
}

bool swap_pages_out(struct ttm_buffer_object *bo)
{
	struct ttm_tt *tt = bo->ttm;
	u32 i;

	for (i = 0; i < tt->num_pages && slots_left > 0; i++) {
		if (!tt->pages[i])
			continue;
		dma_resv_wait_timeout(bo->base.resv, DMA_RESV_USAGE_READ, false, MAX_SCHEDULE_TIMEOUT);
		swap_page_out(tt, i);
	}
	return !has_frames(tt);
}

void give_slots_back(struct ttm_buffer_object *bo)
{
	struct file *slots = bo->ttm ? bo->ttm->swap_storage : NULL;
	u32 i;

	for (i = 0; slots && i < bo->ttm->num_pages; i++)
		drop_slot(slots->f_mapping, i);
}

/* Reserves the first buffer on the lists of the memory type that has frames and is neither pinned nor held; NULL if there is none. */
static struct ttm_buffer_object *reserve_victim(int mem_type)
{
	struct ttm_resource_manager *man = ttm_manager_type(&device, mem_type);
	struct ttm_resource_cursor cursor;
	struct ttm_buffer_object *found = NULL;
	struct ttm_resource *res;

	spin_lock(&device.lru_lock);
	ttm_resource_manager_for_each_res(man, &cursor, res) {
		struct ttm_buffer_object *bo = res->bo;

		if (bo->deleted || bo->pin_count || !has_frames(bo->ttm) || !dma_resv_trylock(bo->base.resv))
			continue;
		found = bo;
		break;
	}
#ifdef PEER_KERNEL_6_12
	ttm_resource_cursor_fini(&cursor);
#endif
	spin_unlock(&device.lru_lock);
	return found;
}

/* Empties a victim as far as slots go, and tells whether there was one and a slot for a page of it. */
static bool swap_victim_out(void)
{
	struct ttm_buffer_object *bo;

	if (slots_left <= 0)
		return false;
	bo = reserve_victim(TTM_PL_SYSTEM);
	if (!bo)
		bo = reserve_victim(TTM_PL_TT);
	if (!bo)
		return false;
	tell_victim(" %s:swap", name_of(bo));
	if (bo->resource->mem_type != TTM_PL_SYSTEM && move_to_system(bo))
		peer_fault("a victim for swap doesn't leave TT");
	swap_pages_out(bo);
	ttm_bo_unreserve(bo);
	return true;
}

/* ---- filling ---- */

static bool fill_page(struct ttm_tt *tt, u32 i)
{
	struct address_space *slots = tt->swap_storage ? tt->swap_storage->f_mapping : NULL;

	while (!(tt->pages[i] = alloc_page(tt->page_flags & TTM_TT_FLAG_ZERO_ALLOC ? __GFP_ZERO : 0)))
		if (!swap_victim_out() && !wait_for_ghost_frames())
			return false;
	if (slots && slots->pages[i]) {
		copy_highpage(tt->pages[i], slots->pages[i]);
		drop_slot(slots, i);
	}
	return true;
}

int __wrap_ttm_tt_populate(struct ttm_device *bdev, struct ttm_tt *tt, struct ttm_operation_ctx *ctx)
{
	u32 i;

	if (!ours(RULE_PARTIAL))
		return __real_ttm_tt_populate(bdev, tt, ctx);
	for (i = 0; i < tt->num_pages; i++)
		if (!tt->pages[i] && !fill_page(tt, i)) {
			note_no_pages();
			return -ENOMEM;
		}
	tt->page_flags |= TTM_TT_FLAG_PRIV_POPULATED;
	return 0;
}
