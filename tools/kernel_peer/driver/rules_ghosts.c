/* Rules ghost and freed: ghosts are on no list, and keep no freed buffer. */
#include "peer.h"
#include "rules.h"

static void wait_a_round(void)
{
	if (!take_round())
		peer_fault("a ghost stays, and no other can do anything");
}

bool wait_for_ghost_in(struct ttm_resource_manager *man, const struct ttm_place *place)
{
	struct ttm_buffer_object *bo;

	for (bo = next_ghost(NULL); bo; bo = next_ghost(bo))
		if (bo->resource && ttm_manager_type(&device, bo->resource->mem_type) == man &&
		    ttm_resource_intersects(&device, bo->resource, place, bo->base.size)) {
			wait_a_round();
			return true;
		}
	return false;
}

bool wait_for_ghost_frames(void)
{
	struct ttm_buffer_object *bo;

	if (!ours(RULE_GHOST))
		return false;
	for (bo = next_ghost(NULL); bo; bo = next_ghost(bo))
		if (has_frames(bo->ttm)) {
			wait_a_round();
			return true;
		}
	return false;
}

/* TTM's own ghost object (ttm_bo_util.c): a buffer object, and the buffer that it was made of */
struct transfer {
	struct ttm_buffer_object base;
	struct ttm_buffer_object *bo;
};

void let_ghosts_forget(struct ttm_buffer_object *bo)
{
	static struct ttm_buffer_object nobody = { .kref = { 1 << 30 } };
	struct ttm_buffer_object *ghost;

	for (ghost = next_ghost(NULL); ghost; ghost = next_ghost(ghost)) {
		struct transfer *transfer = container_of(ghost, struct transfer, base);

		if (is_buffer(ghost) || transfer->bo != bo)
			continue;
		transfer->bo = &nobody;
		ttm_bo_put(bo);
	}
}
