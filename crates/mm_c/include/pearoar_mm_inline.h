/*
 * What pearoar_mm.h has beside the library's calls, in C: of two calls one, the states as text, and the test of handles. None of it is
 * proved; tools/gate/check_c_library.sh runs it. Include pearoar_mm.h.
 */
#ifndef PEAROAR_MM_INLINE_H
#define PEAROAR_MM_INLINE_H

#include <stdarg.h>
#include <stdio.h>
#include <stdlib.h>

#ifdef PEAROAR_CHECK_HANDLES

/* Tests the handle that begins with `library`, and passes it on. */
static inline void *pearoar_check(void **library, int is_open, const char *call, const char *file, int line)
{
	if ((*library != NULL) == is_open)
		return library;
	fprintf(stderr, "%s:%d: %s: the handle is %s\n", file, line, call, is_open ? "closed" : "open");
	abort();
}

static inline void pearoar_close_ranges(struct pearoar_ranges *ranges)
{
	pearoar_ranges_destroy(ranges);
	ranges->library = NULL;
}

static inline void pearoar_close_blocks(struct pearoar_blocks *blocks)
{
	pearoar_blocks_destroy(blocks);
	blocks->library = NULL;
}

#define PEAROAR_RANGES(h, is_open, call) ((struct pearoar_ranges *)pearoar_check(&(h)->library, is_open, call, __FILE__, __LINE__))
#define PEAROAR_BLOCKS(h, is_open, call) ((struct pearoar_blocks *)pearoar_check(&(h)->library, is_open, call, __FILE__, __LINE__))

/* (a compound literal may stand among the other arguments, with its commas) */
#define pearoar_ranges_create(h, ...) pearoar_ranges_create(PEAROAR_RANGES(h, 0, "pearoar_ranges_create"), __VA_ARGS__)
#define pearoar_ranges_destroy(h) pearoar_close_ranges(PEAROAR_RANGES(h, 1, "pearoar_ranges_destroy"))
#define pearoar_ranges_insert(h, ...) pearoar_ranges_insert(PEAROAR_RANGES(h, 1, "pearoar_ranges_insert"), __VA_ARGS__)
#define pearoar_ranges_reserve(h, ...) pearoar_ranges_reserve(PEAROAR_RANGES(h, 1, "pearoar_ranges_reserve"), __VA_ARGS__)
#define pearoar_ranges_remove(h, ...) pearoar_ranges_remove(PEAROAR_RANGES(h, 1, "pearoar_ranges_remove"), __VA_ARGS__)
#define pearoar_ranges_set_value(h, ...) pearoar_ranges_set_value(PEAROAR_RANGES(h, 1, "pearoar_ranges_set_value"), __VA_ARGS__)
#define pearoar_ranges_value(h, ...) pearoar_ranges_value(PEAROAR_RANGES(h, 1, "pearoar_ranges_value"), __VA_ARGS__)
#define pearoar_ranges_stats(h, ...) pearoar_ranges_stats(PEAROAR_RANGES(h, 1, "pearoar_ranges_stats"), __VA_ARGS__)
#define pearoar_ranges_lengths(h, ...) pearoar_ranges_lengths(PEAROAR_RANGES(h, 1, "pearoar_ranges_lengths"), __VA_ARGS__)
#define pearoar_ranges_next_held(h, ...) pearoar_ranges_next_held(PEAROAR_RANGES(h, 1, "pearoar_ranges_next_held"), __VA_ARGS__)
#define pearoar_ranges_next_hole(h, ...) pearoar_ranges_next_hole(PEAROAR_RANGES(h, 1, "pearoar_ranges_next_hole"), __VA_ARGS__)
#define pearoar_blocks_create(h, ...) pearoar_blocks_create(PEAROAR_BLOCKS(h, 0, "pearoar_blocks_create"), __VA_ARGS__)
#define pearoar_blocks_destroy(h) pearoar_close_blocks(PEAROAR_BLOCKS(h, 1, "pearoar_blocks_destroy"))
#define pearoar_blocks_alloc(h, ...) pearoar_blocks_alloc(PEAROAR_BLOCKS(h, 1, "pearoar_blocks_alloc"), __VA_ARGS__)
#define pearoar_blocks_release(h, ...) pearoar_blocks_release(PEAROAR_BLOCKS(h, 1, "pearoar_blocks_release"), __VA_ARGS__)
#define pearoar_blocks_trim(h, ...) pearoar_blocks_trim(PEAROAR_BLOCKS(h, 1, "pearoar_blocks_trim"), __VA_ARGS__)
#define pearoar_blocks_set_value(h, ...) pearoar_blocks_set_value(PEAROAR_BLOCKS(h, 1, "pearoar_blocks_set_value"), __VA_ARGS__)
#define pearoar_blocks_value(h, ...) pearoar_blocks_value(PEAROAR_BLOCKS(h, 1, "pearoar_blocks_value"), __VA_ARGS__)
#define pearoar_blocks_stats(h, ...) pearoar_blocks_stats(PEAROAR_BLOCKS(h, 1, "pearoar_blocks_stats"), __VA_ARGS__)
#define pearoar_blocks_lengths(h, ...) pearoar_blocks_lengths(PEAROAR_BLOCKS(h, 1, "pearoar_blocks_lengths"), __VA_ARGS__)
#define pearoar_blocks_next_held(h, ...) pearoar_blocks_next_held(PEAROAR_BLOCKS(h, 1, "pearoar_blocks_next_held"), __VA_ARGS__)

#endif

/* The first held span at page `from` or above it, and its value. */
static inline enum pearoar_status pearoar_ranges_next_value(struct pearoar_ranges *ranges, uint32_t from, struct pearoar_span *span, uint64_t *value)
{
	enum pearoar_status status = pearoar_ranges_next_held(ranges, from, span);

	return status == PEAROAR_DONE ? pearoar_ranges_value(ranges, span->start, value) : status;
}

/* The first held block at page `from` or above it, and its value. */
static inline enum pearoar_status pearoar_blocks_next_value(struct pearoar_blocks *blocks, uint32_t from, struct pearoar_span *block, uint64_t *value)
{
	enum pearoar_status status = pearoar_blocks_next_held(blocks, from, block);

	return status == PEAROAR_DONE ? pearoar_blocks_value(blocks, block->start, value) : status;
}

/* Lets a span go, and writes the value that it had. */
static inline enum pearoar_status pearoar_ranges_remove_value(struct pearoar_ranges *ranges, uint32_t start, uint64_t *value)
{
	enum pearoar_status status = pearoar_ranges_value(ranges, start, value);

	return status == PEAROAR_DONE ? pearoar_ranges_remove(ranges, start) : status;
}

/* Gives a block back, and writes the value that it had; where no such block is held, `value` may be written. */
static inline enum pearoar_status pearoar_blocks_release_value(struct pearoar_blocks *blocks, uint32_t start, uint32_t end, uint64_t *value)
{
	enum pearoar_status status = pearoar_blocks_value(blocks, start, value);

	return status == PEAROAR_DONE ? pearoar_blocks_release(blocks, start, end) : status;
}

/* Takes pages as an insert does, and sets the value of the span. Where there is no memory for the value, nothing is taken. */
static inline enum pearoar_status pearoar_ranges_insert_value(struct pearoar_ranges *ranges, const struct pearoar_range_request *request, uint64_t value,
							      struct pearoar_span *span)
{
	enum pearoar_status status = pearoar_ranges_insert(ranges, request, span);

	if (status != PEAROAR_DONE)
		return status;
	status = pearoar_ranges_set_value(ranges, span->start, value);
	if (status != PEAROAR_DONE)
		pearoar_ranges_remove(ranges, span->start);
	return status;
}

/* Text that is written to a buffer as far as it goes, and counted whole. */
struct pearoar_text {
	char *text;
	size_t room, length;
};

static inline void pearoar_put(struct pearoar_text *out, const char *format, ...)
{
	size_t left = out->length < out->room ? out->room - out->length : 0;
	va_list values;
	int written;

	va_start(values, format);
	written = vsnprintf(left ? out->text + out->length : NULL, left, format, values);
	va_end(values);
	if (written > 0)
		out->length += (size_t)written;
}

static inline void pearoar_put_pages(struct pearoar_text *out, const struct pearoar_span *span, const char *state)
{
	pearoar_put(out, "0x%016llx-0x%016llx: %llu: %s\n", (unsigned long long)span->start, (unsigned long long)span->end,
		    (unsigned long long)(span->end - span->start), state);
}

/*
 * Writes the state in the form of drm_mm_print, in pages: each held span and each hole in order of address, and the sums. It writes `room`
 * bytes at most, the last of them 0, and returns how long the whole text is, without its 0, as snprintf does; with `room` 0, `text` may be
 * NULL. It costs a step or a search for each page.
 */
static inline size_t pearoar_ranges_print(struct pearoar_ranges *ranges, char *text, size_t room)
{
	struct pearoar_text out = { text, room, 0 };
	struct pearoar_range_stats stats;
	struct pearoar_span held, hole;
	enum pearoar_status more = pearoar_ranges_next_held(ranges, 0, &held);
	enum pearoar_status open = pearoar_ranges_next_hole(ranges, 0, &hole);

	pearoar_ranges_stats(ranges, &stats);
	while (more == PEAROAR_DONE || open == PEAROAR_DONE) {
		if (open == PEAROAR_DONE && (more != PEAROAR_DONE || hole.start < held.start)) {
			pearoar_put_pages(&out, &hole, "free");
			open = pearoar_ranges_next_hole(ranges, hole.end, &hole);
		} else {
			pearoar_put_pages(&out, &held, "used");
			more = pearoar_ranges_next_held(ranges, held.end, &held);
		}
	}
	pearoar_put(&out, "total: %llu, used %llu free %llu\n", (unsigned long long)stats.free_pages + stats.held_pages,
		    (unsigned long long)stats.held_pages, (unsigned long long)stats.free_pages);
	return out.length;
}

/*
 * Writes the state in the form of drm_buddy_print, with pages of `page_bytes` bytes: the sums, and how many blocks of each order are free,
 * from the largest that the size has room for. `text`, `room` and the length are those of pearoar_ranges_print. The result is 0 where there
 * is no memory to count the blocks.
 */
static inline size_t pearoar_blocks_print(struct pearoar_blocks *blocks, uint64_t page_bytes, char *text, size_t room)
{
	struct pearoar_text out = { text, room, 0 };
	struct pearoar_block_stats stats;
	uint64_t size;
	int order = PEAROAR_ORDERS - 1;

	if (pearoar_blocks_stats(blocks, &stats) != PEAROAR_DONE)
		return 0;
	size = (uint64_t)stats.free_pages + stats.held_pages;
	while (order > 0 && ((uint64_t)1 << order) > size)
		order--;
	pearoar_put(&out, "chunk_size: %lluKiB, total: %lluMiB, free: %lluMiB\n", (unsigned long long)(page_bytes >> 10),
		    (unsigned long long)(size * page_bytes >> 20), (unsigned long long)(stats.free_pages * page_bytes >> 20));
	for (; order >= 0; order--) {
		uint64_t bytes = stats.free_blocks[order] * (page_bytes << order);
		int is_small = bytes < (uint64_t)1 << 20;

		pearoar_put(&out, "order-%d free: %llu%s, pages: %llu\n", order, (unsigned long long)(bytes >> (is_small ? 10 : 20)),
			    is_small ? "KiB" : "MiB", (unsigned long long)stats.free_blocks[order]);
	}
	return out.length;
}

#endif
