/* What the rules of the search ask in each kernel. */
#include "peer.h"
#include "rules.h"

void note_no_pages(void)
{
	if (!running->eviction)
		running->wants_pages = true;
}

bool is_short(struct ttm_resource_manager *man, const struct ttm_place *place, struct ttm_buffer_object *bo)
{
	u64 end = place->lpfn && place->lpfn < man->size ? place->lpfn : man->size;

	return end < place->fpfn || end - place->fpfn < PFN_UP(bo->base.size);
}
