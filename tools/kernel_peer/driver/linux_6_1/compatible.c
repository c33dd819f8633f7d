/* Rule contig of kernel 6.1: whether a resource suits a place. */
#include "../peer.h"
#include "../rules.h"

bool __real_ttm_resource_compat(struct ttm_resource *res, struct ttm_placement *placement);
bool __wrap_ttm_resource_compat(struct ttm_resource *res, struct ttm_placement *placement);

static void without_contig(struct ttm_place *to, const struct ttm_place *from, unsigned int n)
{
	unsigned int i;

	for (i = 0; i < n; i++) {
		to[i] = from[i];
		to[i].flags &= ~TTM_PL_FLAG_CONTIGUOUS;
	}
}

bool __wrap_ttm_resource_compat(struct ttm_resource *res, struct ttm_placement *placement)
{
	struct ttm_place wanted[MAX_PLACES], busy[MAX_PLACES];
	struct ttm_placement places = *placement;
	static struct page_span spans[MAX_SPANS];

	if (!ours(RULE_CONTIG) || spans_of(res, spans) > 1)
		return __real_ttm_resource_compat(res, placement);
	without_contig(wanted, placement->placement, placement->num_placement);
	without_contig(busy, placement->busy_placement, placement->num_busy_placement);
	places.placement = wanted;
	places.busy_placement = busy;
	return __real_ttm_resource_compat(res, &places);
}
