/* The reaper of kernel 6.12: a work item for each ghost, in the order in which they were queued. */
#include "../peer.h"
#include "../rules.h"

struct ttm_buffer_object *next_ghost(struct ttm_buffer_object *ghost)
{
	struct list_head *items = &device.wq->items;
	struct list_head *next = ghost ? ghost->delayed_delete.entry.next : items->next;

	return next == items ? NULL : list_entry(next, struct ttm_buffer_object, delayed_delete.entry);
}

struct workqueue_struct *alloc_workqueue(const char *name, unsigned int flags, int most)
{
	struct workqueue_struct *queue = malloc(sizeof(*queue));

	(void)name;
	(void)flags;
	(void)most;
	INIT_LIST_HEAD(&queue->items);
	return queue;
}

bool queue_work_node(int node, struct workqueue_struct *queue, struct work_struct *work)
{
	(void)node;
	list_add_tail(&work->entry, &queue->items);
	return true;
}

/* the work would wait for its jobs and for the lock; it runs once it needn't */
static bool is_due(struct ttm_buffer_object *ghost)
{
	return dma_resv_test_signaled(ghost->base.resv, DMA_RESV_USAGE_BOOKKEEP) && !dma_resv_is_locked(ghost->base.resv);
}

void run_reaper(void)
{
	struct ttm_buffer_object *ghost, *next;

	for (ghost = next_ghost(NULL); ghost; ghost = next) {
		next = ours(RULE_REAP) ? NULL : next_ghost(ghost);
		if (!is_due(ghost))
			continue;
		list_del(&ghost->delayed_delete.entry);
		ghost->delayed_delete.func(&ghost->delayed_delete);
	}
}
