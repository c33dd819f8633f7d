/*
 * VRAM by blocks: a resource manager over the kernel's buddy allocator, as amdgpu's (amdgpu_vram_mgr.c) and i915's (i915_ttm_buddy_manager.c) are.
 * Rule `block` takes the project's blocks in place of the kernel's: of the smallest free block that has one, the lowest, or for top-down the
 * highest; a contiguous request takes one block of the next power of two, cut; an alignment isn't looked at.
 */
#include "blocks.h"
#include "rules.h"

struct buddy_manager {
	struct ttm_resource_manager base;
	struct drm_buddy buddy;
};
struct buddy_resource {
	struct ttm_resource base;
	struct list_head blocks;
	bool is_one_piece; /* asked for as contiguous */
};
static struct buddy_manager *manager_of(struct ttm_resource_manager *man) { return container_of(man, struct buddy_manager, base); }
static struct buddy_resource *resource_of(struct ttm_resource *res) { return container_of(res, struct buddy_resource, base); }

/* ---- the project's choice ---- */

struct candidate { u64 start, whole; }; /* whole: the size of the free block that it is split from, or 0 for none */

/* Takes the block of `size` bytes in the range that a free block has, if it is better than the candidate. */
static void consider_free(struct request *request, u64 from, u64 whole, u64 size, struct candidate *best)
{
	u64 low = max(from, request->start), high = min(from + whole, request->end), start;

	low = round_up(low, size);
	if (low + size > high)
		return;
	start = request->topdown ? round_down(high - size, size) : low;
	if (best->whole && whole > best->whole)
		return;
	if (best->whole == whole && (request->topdown ? start < best->start : start > best->start))
		return;
	*best = (struct candidate){ start, whole };
}

static void consider(struct request *request, struct drm_buddy_block *block, u64 size, struct candidate *best)
{
	u64 whole = drm_buddy_block_size(request->buddy, block);

	if (drm_buddy_block_is_split(block)) {
		consider(request, block->left, size, best);
		consider(request, block->right, size, best);
	} else if (drm_buddy_block_is_free(block) && whole >= size)
		consider_free(request, drm_buddy_block_offset(block), whole, size, best);
}

static struct candidate best_candidate(struct request *request, u64 size)
{
	struct candidate best = { 0 };
	unsigned int i;

	for (i = 0; i < request->buddy->n_roots; i++)
		consider(request, request->buddy->roots[i], size, &best);
	return best;
}

static int take_exactly(struct request *request, u64 start, u64 size)
{
	return drm_buddy_alloc_blocks(request->buddy, start, start + size, size, PAGE_SIZE, request->blocks, DRM_BUDDY_RANGE_ALLOCATION);
}

static int take_projects_blocks(struct request *request, bool contiguous)
{
	u64 left = request->size, size = contiguous ? roundup_pow_of_two(left) : rounddown_pow_of_two(left);
	struct candidate found;

	for (; left; left -= min(left, size)) {
		if (!contiguous && size > left)
			size = rounddown_pow_of_two(left);
		for (found = best_candidate(request, size); !found.whole; found = best_candidate(request, size)) {
			if (contiguous || size == PAGE_SIZE) {
				drm_buddy_free_list(request->buddy, request->blocks);
				return -ENOSPC;
			}
			size /= 2;
		}
		if (take_exactly(request, found.start, min(left, size)))
			peer_fault("drm_buddy refuses a free block");
	}
	return 0;
}

/* ---- the manager ---- */

static bool are_contiguous(struct buddy_resource *res, struct drm_buddy *buddy)
{
	struct drm_buddy_block *block;
	u64 end = U64_MAX;

	list_for_each_entry(block, &res->blocks, link) {
		if (end != U64_MAX && drm_buddy_block_offset(block) != end)
			return false;
		end = drm_buddy_block_offset(block) + drm_buddy_block_size(buddy, block);
	}
	return true;
}

static int buddy_alloc(struct ttm_resource_manager *man, struct ttm_buffer_object *bo, const struct ttm_place *place,
		       struct ttm_resource **made)
{
	struct drm_buddy *buddy = &manager_of(man)->buddy;
	struct buddy_resource *res = kzalloc(sizeof(*res), GFP_KERNEL);
	bool contiguous = place->flags & TTM_PL_FLAG_CONTIGUOUS;
	struct request request = {
		.buddy = buddy, .start = (u64)place->fpfn << PAGE_SHIFT, .end = buddy->size, .size = PAGE_ALIGN(bo->base.size),
		.block_size = (u64)max(bo->page_alignment, 1u) << PAGE_SHIFT, .topdown = place->flags & TTM_PL_FLAG_TOPDOWN, .blocks = &res->blocks,
	};
	int ret;

	INIT_LIST_HEAD(&res->blocks);
	ttm_resource_init(bo, place, &res->base);
	res->is_one_piece = contiguous;
	if (place->lpfn)
		request.end = min(request.end, (u64)place->lpfn << PAGE_SHIFT);
	ret = ours(RULE_BLOCK) ? take_projects_blocks(&request, contiguous) : take_kernels_blocks(&request, contiguous);
	if (ret) {
		ttm_resource_fini(man, &res->base);
		kfree(res);
		return ret;
	}
	if (are_contiguous(res, buddy))
		res->base.placement |= TTM_PL_FLAG_CONTIGUOUS;
	*made = &res->base;
	return 0;
}

static void buddy_free(struct ttm_resource_manager *man, struct ttm_resource *res)
{
	drm_buddy_free_list(&manager_of(man)->buddy, &resource_of(res)->blocks);
	ttm_resource_fini(man, res);
	kfree(resource_of(res));
}

static bool buddy_intersects(struct ttm_resource_manager *man, struct ttm_resource *res, const struct ttm_place *place, size_t size)
{
	struct page_span spans[MAX_SPANS];
	int i, n = buddy_spans(res, spans);

	(void)man;
	(void)size;
	for (i = 0; i < n; i++)
		if (place->fpfn < spans[i].end && (!place->lpfn || place->lpfn > spans[i].start))
			return true;
	return false;
}

static bool buddy_compatible(struct ttm_resource_manager *man, struct ttm_resource *res, const struct ttm_place *place, size_t size)
{
	struct page_span spans[MAX_SPANS];
	int i, n = buddy_spans(res, spans);

	(void)man;
	(void)size;
	for (i = 0; i < n; i++)
		if (spans[i].start < place->fpfn || (place->lpfn && spans[i].end > place->lpfn))
			return false;
	return true;
}

static void buddy_debug(struct ttm_resource_manager *man, struct drm_printer *printer)
{
	(void)man;
	(void)printer;
}

static const struct ttm_resource_manager_func functions = {
	.alloc = buddy_alloc, .free = buddy_free, .intersects = buddy_intersects, .compatible = buddy_compatible, .debug = buddy_debug,
};

int buddy_vram_init(struct ttm_device *bdev, unsigned long pages)
{
	struct buddy_manager *manager = kzalloc(sizeof(*manager), GFP_KERNEL);
	int ret = drm_buddy_init(&manager->buddy, (u64)pages << PAGE_SHIFT, PAGE_SIZE);

	if (ret)
		return ret;
	manager->base.func = &functions;
	ttm_resource_manager_init(&manager->base, bdev, pages);
	ttm_set_driver_manager(bdev, TTM_PL_VRAM, &manager->base);
	ttm_resource_manager_set_used(&manager->base, true);
	return 0;
}

int buddy_spans(struct ttm_resource *base, struct page_span *spans)
{
	struct buddy_resource *res = resource_of(base);
	struct drm_buddy *buddy = &manager_of(ttm_manager_type(&device, TTM_PL_VRAM))->buddy;
	struct drm_buddy_block *block;
	int n = 0;

	list_for_each_entry(block, &res->blocks, link) {
		unsigned long start = drm_buddy_block_offset(block) >> PAGE_SHIFT;
		unsigned long end = start + (drm_buddy_block_size(buddy, block) >> PAGE_SHIFT);

		if (n && res->is_one_piece)
			spans[n - 1].end = end;
		else
			spans[n++] = (struct page_span){ start, end };
	}
	return n;
}
