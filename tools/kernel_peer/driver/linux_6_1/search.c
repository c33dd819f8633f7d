/* Rules short, busy, skip and retry, which stand in the search for pages: before and after what the kernel's search does of a place. */
#include "../peer.h"
#include "../rules.h"

int real_ttm_bo_mem_space(struct ttm_buffer_object *bo, struct ttm_placement *placement, struct ttm_resource **mem,
			  struct ttm_operation_ctx *ctx);
int real_ttm_mem_evict_first(struct ttm_device *bdev, struct ttm_resource_manager *man, const struct ttm_place *place,
			     struct ttm_operation_ctx *ctx, struct ww_acquire_ctx *ticket);

void note_victim(struct ttm_buffer_object *bo)
{
	running->eviction->victim = bo;
	running->eviction->from = bo->resource;
	if (!running->search->outer)
		running->search->is_forced = true;
}

bool could_not_leave(struct ttm_resource *res)
{
	struct eviction *eviction = running ? running->eviction : NULL;

	return eviction && eviction->victim == res->bo && eviction->from == res;
}

int ttm_bo_mem_space(struct ttm_buffer_object *bo, struct ttm_placement *placement, struct ttm_resource **mem,
		     struct ttm_operation_ctx *ctx)
{
	struct search search = { .bo = bo, .is_hop = is_hop(placement), .outer = running ? running->search : NULL };
	int ret;

	if (!running) /* the device's own */
		return real_ttm_bo_mem_space(bo, placement, mem, ctx);
	running->search = &search;
	do
		ret = real_ttm_bo_mem_space(bo, placement, mem, ctx);
	while (ret == -SEARCH_AGAIN);
	running->search = search.outer;
	return ret;
}

/* Does what the kernel's search does for one place, and notes the victim. */
static int evict_one(struct ttm_resource_manager *man, const struct ttm_place *place, struct ttm_operation_ctx *ctx,
		     struct ww_acquire_ctx *ticket, struct eviction *eviction)
{
	struct search *search = running->search;
	int ret;

	search->met_ghost = false;
	eviction->outer = running->eviction;
	running->eviction = eviction;
	/* (without a ticket a held victim isn't waited for) */
	ret = real_ttm_mem_evict_first(&device, man, place, ctx, ours(RULE_BUSY) ? NULL : ticket);
	running->eviction = eviction->outer;
	if (ours(RULE_GHOST) && ret == -EBUSY && wait_for_ghost_in(man, place)) {
		search->met_ghost = true;
		ret = 0;
	}
	return ret;
}

int ttm_mem_evict_first(struct ttm_device *bdev, struct ttm_resource_manager *man, const struct ttm_place *place,
			struct ttm_operation_ctx *ctx, struct ww_acquire_ctx *ticket)
{
	struct eviction eviction = { 0 };
	struct search *search = running->search;
	int ret = -EBUSY;

	(void)bdev;
	if (is_short(man, place, running->search->bo))
		tell_note(" short");
	if (!is_short(man, place, running->search->bo) || !ours(RULE_SHORT))
		ret = evict_one(man, place, ctx, ticket, &eviction);
	if (ret)
		search->is_forced = true;
	else if (ours(RULE_RETRY) && search->met_ghost && !search->is_forced && !search->is_hop && !search->outer)
		return -SEARCH_AGAIN;
	if (ours(RULE_SKIP) && ret && eviction.victim && eviction.victim->resource == eviction.from) {
		running->skipped[running->skips++] = eviction.victim;
		ret = 0;
	}
	return ret;
}
