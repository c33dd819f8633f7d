/* Rules contig and stay of kernel 6.12: whether a resource suits a list of places. */
#include "../peer.h"
#include "../rules.h"

bool __real_ttm_resource_compatible(struct ttm_resource *res, struct ttm_placement *placement, bool evicting);
bool __wrap_ttm_resource_compatible(struct ttm_resource *res, struct ttm_placement *placement, bool evicting);

static bool is_compatible(struct ttm_resource *res, struct ttm_placement *placement, bool evicting)
{
	if (__real_ttm_resource_compatible(res, placement, evicting))
		return true;
	return ours(RULE_STAY) && __real_ttm_resource_compatible(res, placement, !evicting);
}

bool __wrap_ttm_resource_compatible(struct ttm_resource *res, struct ttm_placement *placement, bool evicting)
{
	struct ttm_place without_contig[2 * MAX_PLACES];
	struct ttm_placement places = { .num_placement = placement->num_placement, .placement = without_contig };
	static struct page_span spans[MAX_SPANS];
	unsigned int i;

	if (!ours(RULE_CONTIG) || spans_of(res, spans) > 1)
		return is_compatible(res, placement, evicting);
	for (i = 0; i < places.num_placement; i++) {
		without_contig[i] = placement->placement[i];
		without_contig[i].flags &= ~TTM_PL_FLAG_CONTIGUOUS;
	}
	return is_compatible(res, &places, evicting);
}
