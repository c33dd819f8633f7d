/*
 * Stands for linux/spinlock.h, linux/mutex.h, linux/rwlock.h and lockdep: a lock is whether it is held. No thread gives way while it holds one
 * of these, so to take one that is held would wait forever: that is a fault, and so is to free one that isn't held.
 */
#ifndef PEER_LOCKS_H
#define PEER_LOCKS_H

typedef struct spinlock { int held; } spinlock_t;
typedef struct { int held; } rwlock_t;
struct mutex { int held; };
#define DEFINE_SPINLOCK(x) spinlock_t x = { 0 }
#define DEFINE_MUTEX(x) struct mutex x = { 0 }

#define peer_lock(l) do { if ((l)->held) peer_fault("deadlock on %s", #l); (l)->held = 1; } while (0)
#define peer_unlock(l) do { if (!(l)->held) peer_fault("%s isn't held", #l); (l)->held = 0; } while (0)
#define spin_lock_init(l) ((void)((l)->held = 0))
#define spin_lock(l) peer_lock(l)
#define spin_unlock(l) peer_unlock(l)
#define spin_lock_irq(l) peer_lock(l)
#define spin_unlock_irq(l) peer_unlock(l)
#define spin_lock_irqsave(l, f) do { (f) = 0; peer_lock(l); } while (0)
#define spin_unlock_irqrestore(l, f) do { (void)(f); peer_unlock(l); } while (0)
#define rwlock_init(l) ((void)((l)->held = 0))
#define read_lock(l) ((void)(l))
#define read_unlock(l) ((void)(l))
#define write_lock(l) ((void)(l))
#define write_unlock(l) ((void)(l))
#define mutex_init(l) ((void)((l)->held = 0))
#define mutex_destroy(l) ((void)(l))
#define mutex_lock(l) peer_lock(l)
#define mutex_unlock(l) peer_unlock(l)
#define lockdep_is_held(l) ((l)->held)
#define lockdep_assert_held(l) BUG_ON(!(l)->held)
#define lockdep_assert_once(c) BUG_ON(!(c))

#endif
