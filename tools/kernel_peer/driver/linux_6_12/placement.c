/* Places as kernel 6.12 has them: one list with flags, and a validation that looks at pins. */
#include "../peer.h"
#include "../rules.h"

bool driver_moves_pinned; /* (this TTM doesn't) */

void set_places(struct ttm_placement *placement, const struct ttm_place *place)
{
	placement->num_placement = 1;
	placement->placement = place;
}

unsigned long resource_pages(const struct ttm_resource *res) { return PFN_UP(res->size); }

/* the two lists of a script of version 1 as one: the first is desired, the second a fallback */
static unsigned int join_lists(struct ttm_place *joined, const struct place_list *wanted, const struct place_list *busy)
{
	int i;

	for (i = 0; i < wanted->n + busy->n; i++) {
		joined[i] = i < wanted->n ? wanted->places[i] : busy->places[i - wanted->n];
		joined[i].flags |= i < wanted->n ? TTM_PL_FLAG_DESIRED : TTM_PL_FLAG_FALLBACK;
	}
	return wanted->n + busy->n;
}

static int validate_placement(struct peer_buffer *buffer, struct ttm_placement *placement)
{
	struct ttm_operation_ctx ctx = { 0 };
	struct search search = { .bo = &buffer->tbo };
	int ret;

	running->wants_pages = false;
	running->search = &search;
	do {
		search.is_forced = false;
		ret = ttm_bo_validate(&buffer->tbo, placement, &ctx);
	} while (ret == -SEARCH_AGAIN);
	running->search = NULL;
	return ret;
}

const char *validate(struct peer_buffer *buffer, const struct place_list *wanted, const struct place_list *busy)
{
	struct ttm_place joined[2 * MAX_PLACES];
	struct ttm_placement placement = { .num_placement = wanted->n, .placement = wanted->places };
	int ret;

	if (busy && busy != wanted && busy->n) {
		placement.num_placement = join_lists(joined, wanted, busy);
		placement.placement = joined;
	}
	ret = validate_placement(buffer, &placement);
	if (!ret)
		return NULL;
	if (ret == -EINVAL)
		return "Pinned";
	if (ret != -ENOMEM && ret != -ENOSPC)
		tell_note(" error%d", -ret);
	return running->wants_pages ? "NoPages" : "NoSpace";
}

/* (TTM's own call goes over a list and takes whatever comes first) */
int swap_out(struct peer_buffer *buffer)
{
	struct ttm_operation_ctx ctx = { 0 };
	int ret = ttm_bo_wait_ctx(&buffer->tbo, &ctx);

	return ret ? ret : ttm_tt_swapout(&device, buffer->tbo.ttm, GFP_KERNEL);
}
