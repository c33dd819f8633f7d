/* Places as kernel 6.1 has them: two lists, and a validation that doesn't look at pins. */
#include "../peer.h"
#include "../rules.h"

bool driver_moves_pinned;

void set_places(struct ttm_placement *placement, const struct ttm_place *place)
{
	placement->num_placement = placement->num_busy_placement = 1;
	placement->placement = placement->busy_placement = place;
}

unsigned long resource_pages(const struct ttm_resource *res) { return res->num_pages; }

const char *validate(struct peer_buffer *buffer, const struct place_list *wanted, const struct place_list *busy)
{
	struct ttm_operation_ctx ctx = { 0 };
	struct ttm_placement placement = {
		.num_placement = wanted->n, .placement = wanted->places,
		.num_busy_placement = busy->n, .busy_placement = busy->places,
	};
	int ret;

	if (buffer->tbo.pin_count && !driver_moves_pinned && !ttm_resource_compat(buffer->tbo.resource, &placement))
		return "Pinned";
	running->wants_pages = false;
	ret = ttm_bo_validate(&buffer->tbo, &placement, &ctx);
	if (!ret)
		return NULL;
	if (ret != -ENOMEM)
		tell_note(" error%d", -ret);
	return running->wants_pages ? "NoPages" : "NoSpace";
}

/* Swaps a reserved buffer out: TTM takes its reservation by a trylock, but for one that the context names. */
int swap_out(struct peer_buffer *buffer)
{
	struct ttm_operation_ctx ctx = { .resv = buffer->tbo.base.resv, .allow_res_evict = true };
	int ret;

	spin_lock(&device.lru_lock);
	ret = ttm_bo_swapout(&buffer->tbo, &ctx, GFP_KERNEL);
	if (ret == -EBUSY)
		spin_unlock(&device.lru_lock);
	return ret;
}
