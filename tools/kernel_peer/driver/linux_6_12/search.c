/*
 * Rules short, ghost, skip, retry and busy of kernel 6.12, which stand around its walk over the lists: what is done before and after it, and with
 * each buffer that it comes upon.
 */
#include "../peer.h"
#include "../rules.h"

s64 __real_ttm_lru_walk_for_evict(struct ttm_lru_walk *walk, struct ttm_device *bdev, struct ttm_resource_manager *man, s64 target);
s64 __wrap_ttm_lru_walk_for_evict(struct ttm_lru_walk *walk, struct ttm_device *bdev, struct ttm_resource_manager *man, s64 target);

extern const struct ttm_lru_walk_ops ttm_swap_ops;

/* TTM's own parameters of a walk for pages (ttm_bo.c) */
struct evict_walk {
	struct ttm_lru_walk walk;
	const struct ttm_place *place;
	struct ttm_buffer_object *evictor;
	struct ttm_resource **res;
	unsigned long evicted;
};
/* the walk at work, with what TTM does of a buffer */
struct walk_at_work {
	const struct ttm_lru_walk_ops *ops;
	struct walk_at_work *outer;
};
static struct walk_at_work *at_work;

void note_victim(struct ttm_buffer_object *bo)
{
	(void)bo;
	if (!running->search->outer)
		running->search->is_forced = true;
}

bool could_not_leave(struct ttm_resource *res)
{
	(void)res;
	return false;
}

/* rule retry: a search that has waited for a ghost begins again, as long as it isn't under pressure */
static bool may_search_again(void)
{
	struct search *search = running->search;

	return ours(RULE_RETRY) && !search->is_forced && !search->is_hop && !search->outer;
}

/* what TTM does of a ghost, but for taking its pages at once */
static s64 process_ghost(struct evict_walk *evict_walk, struct ttm_buffer_object *bo)
{
	struct ttm_resource **res = evict_walk->res;
	s64 ret;

	evict_walk->res = NULL;
	ret = at_work->ops->process_bo(&evict_walk->walk, bo);
	evict_walk->res = res;
	return ret > 0 ? -SEARCH_AGAIN : ret;
}

/* what TTM does of a buffer, and whether that buffer stays where it is */
static s64 process_victim(struct ttm_lru_walk *walk, struct ttm_buffer_object *bo)
{
	struct evict_walk *evict_walk = container_of(walk, struct evict_walk, walk);
	unsigned long evicted = evict_walk->evicted;
	struct eviction eviction = { .victim = bo, .from = bo->resource, .outer = running->eviction };
	s64 ret;

	if (bo->deleted && may_search_again())
		return process_ghost(evict_walk, bo);
	running->eviction = &eviction;
	ret = at_work->ops->process_bo(walk, bo);
	running->eviction = eviction.outer;
	if (ret >= 0 || evict_walk->evicted != evicted || bo->deleted)
		return ret;
	tell_note(" cantleave");
	if (!ours(RULE_SKIP))
		return ret;
	running->skipped[running->skips++] = bo;
	return ttm_resource_alloc(evict_walk->evictor, evict_walk->place, evict_walk->res) ? 0 : 1; /* the place is asked again */
}

static const struct ttm_lru_walk_ops victim_ops = { .process_bo = process_victim };

/* one walk of the kernel's */
static s64 walk_once(struct evict_walk *evict_walk, struct ttm_resource_manager *man, s64 target)
{
	struct walk_at_work here = { .ops = evict_walk->walk.ops, .outer = at_work };
	s64 progress;

	if (ours(RULE_BUSY)) /* without a ticket a held victim isn't waited for */
		evict_walk->walk.ticket = NULL;
	at_work = &here;
	evict_walk->walk.ops = &victim_ops;
	progress = __real_ttm_lru_walk_for_evict(&evict_walk->walk, &device, man, target);
	evict_walk->walk.ops = here.ops;
	at_work = here.outer;
	return progress;
}

/* rule ghost: as long as a ghost has pages in the place, waits for it and asks the place again */
static s64 walk_and_wait(struct evict_walk *evict_walk, struct ttm_resource_manager *man, s64 target)
{
	s64 progress = walk_once(evict_walk, man, target);

	while (!progress && ours(RULE_GHOST) && wait_for_ghost_in(man, evict_walk->place)) {
		if (may_search_again())
			return -SEARCH_AGAIN;
		if (!ttm_resource_alloc(evict_walk->evictor, evict_walk->place, evict_walk->res))
			return target;
		progress = walk_once(evict_walk, man, target);
	}
	return progress;
}

static s64 search_place(struct evict_walk *evict_walk, struct ttm_resource_manager *man, s64 target)
{
	s64 progress;

	if (is_short(man, evict_walk->place, evict_walk->evictor)) {
		tell_note(" short");
		if (ours(RULE_SHORT)) {
			running->search->is_forced = true;
			return 0;
		}
	}
	progress = walk_and_wait(evict_walk, man, target);
	if (!progress)
		running->search->is_forced = true;
	return progress;
}

s64 __wrap_ttm_lru_walk_for_evict(struct ttm_lru_walk *walk, struct ttm_device *bdev, struct ttm_resource_manager *man, s64 target)
{
	struct evict_walk *evict_walk = container_of(walk, struct evict_walk, walk);
	struct search *outer, search = { 0 };
	s64 progress;

	if (!running || walk->ops->process_bo == ttm_swap_ops.process_bo)
		return __real_ttm_lru_walk_for_evict(walk, bdev, man, target);
	outer = running->search;
	if (outer->bo != evict_walk->evictor || (evict_walk->place->flags & TTM_PL_FLAG_TEMPORARY)) {
		search = (struct search){ .bo = evict_walk->evictor, .outer = outer };
		search.is_hop = evict_walk->place->flags & TTM_PL_FLAG_TEMPORARY;
		running->search = &search;
	}
	progress = search_place(evict_walk, man, target);
	running->search = outer;
	return progress;
}
