/*
 * Stands for linux/ww_mutex.h and kernel/locking/ww_mutex.h in the way of wait-die: a thread that asks for a lock of an older one
 * backs off if it holds another, and waits if not. A thread that waits gives way to the others (peer_wait_for_lock, in driver/threads.c).
 */
#ifndef PEER_WW_MUTEX_H
#define PEER_WW_MUTEX_H

struct ww_class { u64 stamp; };
#define DEFINE_WD_CLASS(x) struct ww_class x
struct ww_acquire_ctx {
	struct ww_class *class;
	u64 stamp;
	unsigned int acquired;
};
struct ww_mutex {
	struct mutex base;
	struct ww_acquire_ctx *ctx;
};

/* Lets other threads go before a lock is asked for. */
void peer_before_lock(void);
/* Gives the turn away, since another thread has the lock. */
void peer_wait_for_lock(void);

static inline void ww_mutex_init(struct ww_mutex *m, struct ww_class *class)
{
	(void)class;
	m->base.held = 0;
	m->ctx = NULL;
}
static inline void ww_mutex_destroy(struct ww_mutex *m) { BUG_ON(m->base.held); }
static inline bool ww_mutex_is_locked(struct ww_mutex *m) { return m->base.held; }
static inline void peer_own(struct ww_mutex *m, struct ww_acquire_ctx *ctx)
{
	m->base.held = 1;
	m->ctx = ctx;
	if (ctx)
		ctx->acquired++;
}
static inline int ww_mutex_trylock(struct ww_mutex *m, struct ww_acquire_ctx *ctx)
{
	if (m->base.held)
		return 0;
	peer_own(m, ctx);
	return 1;
}
static inline int ww_mutex_lock(struct ww_mutex *m, struct ww_acquire_ctx *ctx)
{
	if (ctx && m->ctx == ctx)
		return -EALREADY;
	peer_before_lock();
	while (m->base.held) {
		if (ctx && m->ctx && ctx->acquired && ctx->stamp > m->ctx->stamp)
			return -EDEADLK;
		peer_wait_for_lock();
	}
	peer_own(m, ctx);
	return 0;
}
#define ww_mutex_lock_interruptible ww_mutex_lock
#define ww_mutex_lock_slow ww_mutex_lock
#define ww_mutex_lock_slow_interruptible ww_mutex_lock
static inline void ww_mutex_unlock(struct ww_mutex *m)
{
	BUG_ON(!m->base.held);
	if (m->ctx)
		m->ctx->acquired--;
	m->base.held = 0;
	m->ctx = NULL;
}
static inline void ww_acquire_init(struct ww_acquire_ctx *ctx, struct ww_class *class)
{
	ctx->class = class;
	ctx->stamp = ++class->stamp;
	ctx->acquired = 0;
}
static inline void ww_acquire_done(struct ww_acquire_ctx *ctx) { (void)ctx; }
static inline void ww_acquire_fini(struct ww_acquire_ctx *ctx) { BUG_ON(ctx->acquired); }

#endif
