/*
 * A driver on the kernel's TTM core in the way of the project: SYSTEM, TT and VRAM; victims go from VRAM to TT and from TT to SYSTEM; moves
 * between SYSTEM and VRAM hop in TT; engine 0 copies page by page.
 */
#include "peer.h"
#include "rules.h"

struct ttm_device device;
struct ttm_lru_bulk_move groups[MAX_GROUPS];
static struct drm_vma_offset_manager vma_manager;
static u8 *vram;

const char *memory_name(int mem_type)
{
	static const char *const names[] = { "sys", "tt", "vram" };

	return names[mem_type];
}

const char *name_of(struct ttm_buffer_object *bo)
{
	int i;

	for (i = 0; i < script.declared; i++)
		if (script.declarations[i].live && &script.declarations[i].live->tbo == bo)
			return script.declarations[i].name;
	return "ghost";
}

/* ---- pages ---- */

int spans_of(struct ttm_resource *res, struct page_span *spans)
{
	if (res->mem_type == TTM_PL_SYSTEM)
		return 0;
	if (res->mem_type == TTM_PL_VRAM && script.buddy)
		return buddy_spans(res, spans);
	spans[0] = (struct page_span){ res->start, res->start + resource_pages(res) };
	return 1;
}

static unsigned long vram_page(struct ttm_resource *res, unsigned long page)
{
	static struct page_span spans[MAX_SPANS];
	int i, n = spans_of(res, spans);

	for (i = 0; i < n; i++) {
		unsigned long length = spans[i].end - spans[i].start;

		if (page < length)
			return spans[i].start + page;
		page -= length;
	}
	peer_fault("a resource has no page %lu", page);
}

u8 *page_bytes(struct ttm_buffer_object *bo, struct ttm_resource *res, unsigned long page)
{
	if (res->mem_type == TTM_PL_VRAM)
		return vram + vram_page(res, page) * PAGE_SIZE;
	BUG_ON(!ttm_tt_is_populated(bo->ttm));
	return bo->ttm->pages[page]->data;
}

static struct ttm_tt *tt_create(struct ttm_buffer_object *bo, uint32_t page_flags)
{
	struct ttm_tt *tt = kzalloc(sizeof(*tt), GFP_KERNEL);

	if (ttm_tt_init(tt, bo, page_flags, ttm_cached, 0)) {
		kfree(tt);
		return NULL;
	}
	return tt;
}

static void tt_destroy(struct ttm_device *bdev, struct ttm_tt *tt)
{
	if (has_frames(tt)) /* (only by rule partial) */
		ttm_pool_free(&bdev->pool, tt);
	ttm_tt_fini(tt);
	kfree(tt);
}

/* ---- moves ---- */

static void evict_flags(struct ttm_buffer_object *bo, struct ttm_placement *placement)
{
	static const struct ttm_place to_tt = { .mem_type = TTM_PL_TT }, to_system = { .mem_type = TTM_PL_SYSTEM };

	tell_victim(" %s:%s", name_of(bo), memory_name(bo->resource->mem_type));
	note_victim(bo);
	set_places(placement, bo->resource->mem_type == TTM_PL_VRAM ? &to_tt : &to_system);
}

static bool needs_hop(struct ttm_resource *from, struct ttm_resource *to)
{
	return (from->mem_type == TTM_PL_SYSTEM && to->mem_type == TTM_PL_VRAM) ||
	       (from->mem_type == TTM_PL_VRAM && to->mem_type == TTM_PL_SYSTEM);
}

static int move_by_job(struct ttm_buffer_object *bo, bool evict, struct ttm_resource *to)
{
	struct job *job = new_job(0);
	struct dma_fence *fence;
	unsigned long i;
	int ret;

	wait_for_fences(job, bo->base.resv, DMA_RESV_USAGE_READ);
	for (i = 0; i < resource_pages(to); i++)
		add_copy(job, page_bytes(bo, to, i), page_bytes(bo, bo->resource, i), PAGE_SIZE);
	fence = emit(job);
	ret = ttm_bo_move_accel_cleanup(bo, fence, evict, true, to);
	dma_fence_put(fence);
	return ret;
}

/* Moves a buffer between resources that need no hop. */
static int carry(struct ttm_buffer_object *bo, bool evict, struct ttm_operation_ctx *ctx, struct ttm_resource *to)
{
	int ret;

	if (!bo->resource || bo->resource->mem_type == TTM_PL_SYSTEM) { /* (in 6.12 a new buffer has no resource) */
		ttm_bo_move_null(bo, to);
		return 0;
	}
	if (bo->resource->mem_type == TTM_PL_TT && to->mem_type != TTM_PL_VRAM) {
		ret = ttm_bo_wait_ctx(bo, ctx);
		if (!ret)
			ttm_bo_move_null(bo, to);
		return ret;
	}
	return move_by_job(bo, evict, to);
}

static int move(struct ttm_buffer_object *bo, bool evict, struct ttm_operation_ctx *ctx, struct ttm_resource *to,
		struct ttm_place *hop)
{
	int ret;

	if (bo->resource && needs_hop(bo->resource, to)) {
		*hop = (struct ttm_place){ .mem_type = TTM_PL_TT, .flags = TTM_PL_FLAG_TEMPORARY };
		return -EMULTIHOP;
	}
	ret = carry(bo, evict, ctx, to);
	if (!ret)
		note_moved(to);
	return ret;
}

static void swap_notify(struct ttm_buffer_object *bo)
{
	if (!running->is_emptying)
		tell_victim(" %s:swap", name_of(bo));
}

/* ---- the device ---- */

static struct ttm_device_funcs funcs = {
	.ttm_tt_create = tt_create, .ttm_tt_destroy = tt_destroy,
	.eviction_valuable = ttm_bo_eviction_valuable, .evict_flags = evict_flags,
	.move = move, .delete_mem_notify = note_deletion, .swap_notify = swap_notify,
};

void make_device(void)
{
	int i;

	vram = malloc((script.vram_pages + 1) * PAGE_SIZE);
	memset(vram, 0xcc, (script.vram_pages + 1) * PAGE_SIZE);
	make_frames(script.frames + 1);		    /* one is the device's own dummy page */
	peer_total_pages = 2UL * script.frames;	    /* TTM takes half of it as its limit */
	slots_left = script.slots;
	for (i = 0; i < MAX_GROUPS; i++)
		ttm_lru_bulk_move_init(&groups[i]);
	if (ttm_device_init(&device, &funcs, NULL, NULL, &vma_manager, false, false) ||
	    ttm_range_man_init(&device, TTM_PL_TT, true, script.tt_pages) ||
	    (script.buddy ? buddy_vram_init(&device, script.vram_pages) :
			    ttm_range_man_init(&device, TTM_PL_VRAM, false, script.vram_pages)))
		peer_fault("no device");
}

static void destroy(struct ttm_buffer_object *bo)
{
	dma_resv_fini(&bo->base._resv);
	peer_free_later(buffer_of(bo));
}

bool is_buffer(struct ttm_buffer_object *bo) { return bo->destroy == destroy; }

struct peer_buffer *make_buffer(struct declaration *declared)
{
	static const struct ttm_place in_system = { .mem_type = TTM_PL_SYSTEM };
	struct ttm_operation_ctx ctx = { 0 };
	struct ttm_placement placement;
	struct peer_buffer *buffer = kzalloc(sizeof(*buffer), GFP_KERNEL);

	buffer->declared = declared;
	buffer->tbo.base.size = declared->pages * PAGE_SIZE;
	buffer->tbo.priority = declared->priority;
	dma_resv_init(&buffer->tbo.base._resv);
	drm_vma_node_reset(&buffer->tbo.base.vma_node);
	set_places(&placement, &in_system);
	if (ttm_bo_init_reserved(&device, &buffer->tbo, ttm_bo_type_device, &placement, declared->alignment, &ctx, NULL, NULL, destroy))
		peer_fault("no buffer %s", declared->name);
	if (declared->group >= 0)
		ttm_bo_set_bulk_move(&buffer->tbo, &groups[declared->group]);
	ttm_bo_unreserve(&buffer->tbo);
	return buffer;
}
