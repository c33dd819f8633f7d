/* Rules sole, unpin and notouch, and which buffers a walk over the lists passes over for rules ghost and skip. */
#include "peer.h"
#include "rules.h"

void __real_ttm_resource_move_to_lru_tail(struct ttm_resource *res);
void __wrap_ttm_resource_move_to_lru_tail(struct ttm_resource *res);

static struct ttm_lru_bulk_move_pos *range_of(struct ttm_resource *res)
{
	return &res->bo->bulk_move->pos[res->mem_type][res->bo->priority];
}

/*
 * Tells whether no other member of the group stands in the list. In the kernel a target is a member from when it is taken; here a buffer on its
 * way is in no list but the one that it leaves.
 */
static bool is_sole_member(struct ttm_resource *res)
{
	struct ttm_buffer_object *bo = res->bo;
	struct ttm_resource *other, *last;

	if (bo->pin_count || !bo->bulk_move)
		return false;
	last = range_of(res)->last;
	for (other = range_of(res)->first; other; other = other == last ? NULL : next_on_list(other))
		if (other != res && other->bo->resource == other)
			return false;
	return last;
}

/* Moves the group's range to the end of its list: an only member, which is the last in the range, and targets. */
static void move_range_last(struct ttm_resource *res)
{
	struct ttm_resource *at = range_of(res)->first, *last = range_of(res)->last, *next;

	for (; at; at = next) {
		next = at == last ? NULL : next_on_list(at);
		list_move_tail(lru_link(at), &ttm_manager_type(&device, res->mem_type)->lru[res->bo->priority]);
	}
}

void __wrap_ttm_resource_move_to_lru_tail(struct ttm_resource *res)
{
	struct ttm_buffer_object *bo = res->bo;
	bool unpinned = running && running->unpinned == bo;

	if (could_not_leave(res)) {
		tell_note(" cantleave");
		if (ours(RULE_SKIP))
			return;
	}
	__real_ttm_resource_move_to_lru_tail(res);
	if (ours(unpinned ? RULE_UNPIN : RULE_SOLE) && is_sole_member(res))
		move_range_last(res);
}

/*
 * A buffer that has moved is the last in its list. TTM puts a resource on the list when it is taken, before the evictions of a hop; that is seen
 * where the command is then refused and, by rule notouch, doesn't touch the buffer. A group's only member that moves within its memory type
 * stays where it was in the list, but for rule sole.
 */
void note_moved(struct ttm_resource *res)
{
	spin_lock(&device.lru_lock);
	if (ours(RULE_NOTOUCH) || (ours(RULE_SOLE) && is_sole_member(res)))
		ttm_resource_move_to_lru_tail(res);
	spin_unlock(&device.lru_lock);
}

bool is_passed_over(struct ttm_resource *res)
{
	int i;

	if (ours(RULE_GHOST) && res->bo->deleted)
		return true;
	for (i = 0; running && i < running->skips; i++)
		if (running->skipped[i] == res->bo)
			return true;
	return false;
}
