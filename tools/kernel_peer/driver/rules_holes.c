/* Rule tie: which of the holes of equal length best fit takes. */
#include "peer.h"
#include "rules.h"

int __real_drm_mm_insert_node_in_range(struct drm_mm *mm, struct drm_mm_node *node, u64 size, u64 alignment, unsigned long color,
				       u64 start, u64 end, enum drm_mm_insert_mode mode);
int __wrap_drm_mm_insert_node_in_range(struct drm_mm *mm, struct drm_mm_node *node, u64 size, u64 alignment, unsigned long color,
				       u64 start, u64 end, enum drm_mm_insert_mode mode);

/* Finds the shortest hole that has `node->size` pages in the range, the lowest among equals, and tells whether there is one. */
static bool find_lowest_best(struct drm_mm *mm, struct drm_mm_node *node, u64 alignment, u64 start, u64 end)
{
	struct drm_mm_node *before;
	u64 from, to, best = 0, best_from = 0;

	drm_mm_for_each_hole(before, mm, from, to) {
		u64 at = max(from, start);

		if (alignment > 1)
			at = (at + alignment - 1) / alignment * alignment;
		if (at + node->size > min(to, end))
			continue;
		if (best && (to - from > best || (to - from == best && from > best_from)))
			continue;
		best = to - from;
		best_from = from;
		node->start = at;
	}
	return best;
}

int __wrap_drm_mm_insert_node_in_range(struct drm_mm *mm, struct drm_mm_node *node, u64 size, u64 alignment, unsigned long color,
				       u64 start, u64 end, enum drm_mm_insert_mode mode)
{
	if (!ours(RULE_TIE) || mode != DRM_MM_INSERT_BEST)
		return __real_drm_mm_insert_node_in_range(mm, node, size, alignment, color, start, end, mode);
	node->size = size;
	node->color = color;
	if (!find_lowest_best(mm, node, alignment, start, end))
		return -ENOSPC;
	return drm_mm_reserve_node(mm, node);
}
