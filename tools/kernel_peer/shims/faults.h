/* Stands for linux/bug.h and printk: a BUG says where it is and ends the run; a WARN is told and counted. */
#ifndef PEER_FAULTS_H
#define PEER_FAULTS_H

extern unsigned long peer_warnings;
extern bool peer_verbose;

#define peer_fault(...) do { \
	fprintf(stderr, "%s:%d: ", __FILE__, __LINE__); fprintf(stderr, __VA_ARGS__); fputc('\n', stderr); abort(); } while (0)

/* (TTM has one that only an optimising compiler sees through) */
#undef BUILD_BUG_ON
#define BUILD_BUG_ON(c) ((void)0)
#define BUG() peer_fault("BUG")
#undef BUG_ON
#define BUG_ON(c) do { if (unlikely(c)) peer_fault("BUG_ON %s", #c); } while (0)
#undef WARN
#define WARN(c, ...) ({ bool warned_ = !!(c); \
	if (unlikely(warned_)) { \
		peer_warnings++; \
		fprintf(stderr, "%s:%d: WARN ", __FILE__, __LINE__); \
		fprintf(stderr, __VA_ARGS__); \
		fputc('\n', stderr); \
	} \
	warned_; })
#undef WARN_ON
#define WARN_ON(c) WARN(c, "%s", #c)
#define WARN_ON_ONCE(c) WARN_ON(c)
#define WARN_ONCE(c, ...) WARN(c, __VA_ARGS__)

/* linux/printk.h and drm_print.h: shown where the peer is told to be verbose */
#undef pr_err
#define pr_err(...) do { if (peer_verbose) fprintf(stderr, __VA_ARGS__); } while (0)
#define pr_warn pr_err
#define printk pr_err
#define pr_debug(...) do { if (0) fprintf(stderr, __VA_ARGS__); } while (0)
#undef DRM_ERROR
#define DRM_ERROR pr_err
#define drm_info_once(d, ...) pr_debug(__VA_ARGS__)
/* kunit/test-bug.h: a leak that drm_mm finds at its end is a fault */
#undef kunit_fail_current_test
#define kunit_fail_current_test(...) peer_fault(__VA_ARGS__)

#endif
