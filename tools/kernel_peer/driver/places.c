/* Places and lists of them that each kernel has. */
#include "peer.h"
#include "rules.h"

const struct place_list whole_memory[3] = {
	[TTM_PL_SYSTEM] = { 1, { { .mem_type = TTM_PL_SYSTEM } } },
	[TTM_PL_TT] = { 1, { { .mem_type = TTM_PL_TT } } },
	[TTM_PL_VRAM] = { 1, { { .mem_type = TTM_PL_VRAM } } },
};

bool is_hop(const struct ttm_placement *placement)
{
	return placement->num_placement == 1 && (placement->placement->flags & TTM_PL_FLAG_TEMPORARY);
}

int move_to_system(struct ttm_buffer_object *bo)
{
	struct ttm_operation_ctx ctx = { 0 };
	struct ttm_placement placement;

	set_places(&placement, whole_memory[TTM_PL_SYSTEM].places);
	return ttm_bo_validate(bo, &placement, &ctx);
}
