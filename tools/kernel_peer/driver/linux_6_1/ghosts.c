/* The reaper of kernel 6.1: one delayed work for the list of all ghosts. */
#include "../peer.h"
#include "../rules.h"

struct ttm_buffer_object *next_ghost(struct ttm_buffer_object *ghost)
{
	struct list_head *next = ghost ? ghost->ddestroy.next : device.ddestroy.next;

	return next == &device.ddestroy ? NULL : list_entry(next, struct ttm_buffer_object, ddestroy);
}

/* Keeps the oldest ghost alone, by rule reap, so the others aren't seen by this run of the work. */
static void keep_oldest_ghost(struct list_head *others)
{
	struct list_head *oldest = device.ddestroy.next;

	list_del(oldest);
	list_splice_init(&device.ddestroy, others);
	list_add(oldest, &device.ddestroy);
}

void run_reaper(void)
{
	struct list_head others;

	if (!device.wq.pending)
		return;
	INIT_LIST_HEAD(&others);
	if (ours(RULE_REAP) && !list_empty(&device.ddestroy))
		keep_oldest_ghost(&others);
	device.wq.pending = false;
	device.wq.work.func(&device.wq.work);
	list_splice_tail(&others, &device.ddestroy);
	if (!list_empty(&device.ddestroy))
		device.wq.pending = true;
}
