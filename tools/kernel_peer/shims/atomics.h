/* Stands for linux/atomic.h and linux/kref.h: one thread runs at a time, so plain numbers do. A count that falls below 0 is a BUG. */
#ifndef PEER_ATOMICS_H
#define PEER_ATOMICS_H

typedef struct { int counter; } atomic_t;
typedef struct { s64 counter; } atomic64_t;
typedef struct { long counter; } atomic_long_t;
#define ATOMIC_INIT(i) { (i) }
#define ATOMIC64_INIT(i) { (i) }

static inline int atomic_read(const atomic_t *v) { return v->counter; }
static inline void atomic_set(atomic_t *v, int i) { v->counter = i; }
static inline void atomic_inc(atomic_t *v) { v->counter++; }
static inline void atomic_dec(atomic_t *v) { v->counter--; }
static inline bool atomic_dec_and_test(atomic_t *v) { return --v->counter == 0; }
static inline long atomic_long_read(const atomic_long_t *v) { return v->counter; }
static inline void atomic_long_add(long i, atomic_long_t *v) { v->counter += i; }
static inline void atomic_long_sub(long i, atomic_long_t *v) { v->counter -= i; }
static inline s64 atomic64_fetch_add(s64 i, atomic64_t *v)
{
	s64 was = v->counter;

	v->counter += i;
	return was;
}
#define atomic_read_acquire atomic_read
#define cmpxchg(p, old, new) ({ typeof(*(p)) was_ = *(p); if (was_ == (old)) *(p) = (new); was_; })

struct kref { int refs; };
static inline void kref_init(struct kref *k) { k->refs = 1; }
static inline unsigned int kref_read(const struct kref *k) { return k->refs; }
static inline void kref_get(struct kref *k)
{
	BUG_ON(k->refs <= 0);
	k->refs++;
}
static inline int kref_get_unless_zero(struct kref *k)
{
	if (!k->refs)
		return 0;
	k->refs++;
	return 1;
}
static inline int kref_put(struct kref *k, void (*release)(struct kref *))
{
	BUG_ON(k->refs <= 0);
	if (--k->refs)
		return 0;
	release(k);
	return 1;
}

#endif
