/* Stands for linux/rcupdate.h: what is to be freed is kept until the command is over, so that no walker meets memory that is used again. */
#ifndef PEER_RCU_H
#define PEER_RCU_H

struct rcu_head { void *unused; };
void peer_free_later(void *p);
void peer_free_now(void);

#undef rcu_assign_pointer
#undef rcu_dereference_raw
#define rcu_read_lock() ((void)0)
#define rcu_read_unlock() ((void)0)
#define rcu_dereference(p) (p)
#define rcu_dereference_raw(p) (p)
#define rcu_dereference_check(p, c) ((void)(c), (p))
#define rcu_dereference_protected(p, c) ({ BUG_ON(!(c)); (p); })
#define rcu_access_pointer(p) (p)
#define rcu_pointer_handoff(p) (p)
#define rcu_assign_pointer(p, v) ((p) = (v))
#define RCU_INIT_POINTER(p, v) ((p) = (v))
#define rcu_replace_pointer(p, v, c) ({ typeof(p) was_ = (p); BUG_ON(!(c)); (p) = (v); was_; })
#define kfree_rcu(p, f) peer_free_later(p)

#endif
