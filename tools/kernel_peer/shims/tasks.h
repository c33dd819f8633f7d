/*
 * Stands for linux/sched.h, linux/ktime.h and linux/workqueue.h: a thread that sleeps lets the delayed work and the engines take
 * their turns (schedule_timeout, in driver/turns.c). Work that is queued runs in such turns alone; an irq_work runs at once.
 */
#ifndef PEER_TASKS_H
#define PEER_TASKS_H

struct task_struct;
struct mm_struct;
struct vm_area_struct;
struct vm_fault;
struct device;
struct dentry;
#define HZ 1000
#define MAX_SCHEDULE_TIMEOUT ((long)(~0UL >> 1))
#define current ((struct task_struct *)NULL)
#define TASK_RUNNING 0
#define TASK_INTERRUPTIBLE 1
#define TASK_UNINTERRUPTIBLE 2
#define TASK_NORMAL 3
#define __set_current_state(s) ((void)(s))
#define set_current_state(s) ((void)(s))
#define signal_pending(t) 0
#define wake_up_state(t, s) ((void)(t))
#define jiffies 0UL
#define ktime_get() ((ktime_t)0)
long schedule_timeout(long timeout);

struct work_struct {
	void (*func)(struct work_struct *work);
	struct list_head entry; /* of a queue */
};
#define INIT_WORK(w, f) ((w)->func = (f))
struct delayed_work {
	struct work_struct work;
	bool pending;
};
#define INIT_DELAYED_WORK(d, f) do { (d)->work.func = (f); (d)->pending = false; } while (0)
static inline bool schedule_delayed_work(struct delayed_work *d, unsigned long delay)
{
	bool was = d->pending;

	(void)delay;
	d->pending = true;
	return !was;
}
static inline bool cancel_delayed_work_sync(struct delayed_work *d)
{
	bool was = d->pending;

	d->pending = false;
	return was;
}
struct irq_work { void (*func)(struct irq_work *work); };
#define init_irq_work(w, f) ((w)->func = (f))
#define irq_work_queue(w) ((w)->func(w))

#endif
