/* The headers of TTM, which have other names in later kernels. */
#ifndef TTM_VERSION_H
#define TTM_VERSION_H

#include <linux/dma-resv.h>
#include <drm/drm_mm.h>
#ifdef PEER_KERNEL_6_12
#include <drm/ttm/ttm_bo.h>
#include <drm/ttm/ttm_device.h>
#include <drm/ttm/ttm_tt.h>
#else
#include <drm/ttm/ttm_bo_driver.h>
#endif
#include <drm/ttm/ttm_execbuf_util.h>
#include <drm/ttm/ttm_placement.h>
#include <drm/ttm/ttm_range_manager.h>

/* the resource's link in a list of its manager's */
static inline struct list_head *lru_link(struct ttm_resource *res)
{
#ifdef PEER_KERNEL_6_12
	return &res->lru.link;
#else
	return &res->lru;
#endif
}

/* the resource after it in the list, which isn't the last */
static inline struct ttm_resource *next_on_list(struct ttm_resource *res)
{
#ifdef PEER_KERNEL_6_12
	struct ttm_lru_item *item = &res->lru;

	do
		item = list_next_entry(item, link);
	while (!ttm_lru_item_is_res(item));
	return ttm_lru_item_to_res(item);
#else
	return list_next_entry(res, lru);
#endif
}

#endif
