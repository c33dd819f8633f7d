/*
 * The range manager (drm_mm) and the buddy manager (drm_buddy) of Pearoar, as a C library. What each call does is proved, in
 * crates/mm_c/src of the repository; docs/C_LIBRARY.md says how to link it, and what differs from the kernel's calls.
 *
 * Sizes and places are in pages, counted from 0; a page is what the caller says it is. A span of pages has `end` as its first page
 * behind it.
 *
 * A `struct pearoar_ranges` or `struct pearoar_blocks` is the caller's, as a `struct drm_mm` is; what it points to is the library's.
 * It begins as PEAROAR_CLOSED, is opened by a create and closed by a destroy. Every other call asks that it be open. It may be moved
 * (its bytes copied), but only one copy may be used from then on. Pointers that are given to a call mustn't be NULL or overlap.
 *
 * One manager isn't for two threads at once: calls on it come one after the other, in an order that a lock or the like gives.
 * Calls on different managers have nothing to do with each other. No call may be made from a signal handler.
 *
 * A program that is built with PEAROAR_CHECK_HANDLES defined tests the handle of each call, and ends by abort() where a create is given
 * one that isn't closed or another call one that is; what was copied isn't seen.
 *
 * Memory is malloc's, realloc's and free's. A call that needs it and doesn't get it returns PEAROAR_NO_MEMORY, and then, as after
 * each status but PEAROAR_DONE, the manager is as it was.
 */
#ifndef PEAROAR_MM_H
#define PEAROAR_MM_H

#include <stddef.h>
#include <stdint.h>

/* The version of this header: 10,000 times the first number, 100 times the second, and the third. */
#define PEAROAR_MM_VERSION 10100

#ifdef __cplusplus
extern "C" {
#endif

/* How a call went. In brackets what the kernel's call returns. */
enum pearoar_status {
	PEAROAR_DONE = 0,
	PEAROAR_NO_ROOM = 1,	/* no free pages meet the request, or pages of it are held, or lie past the size (ENOSPC) */
	PEAROAR_NO_MEMORY = 2,	/* no memory for the manager's own use (ENOMEM) */
	PEAROAR_INVALID = 3,	/* an unknown mode or flag; no pages to allocate or to keep, or more to keep than there are (EINVAL) */
	PEAROAR_NOT_HELD = 4,	/* nothing that is held is named so */
	PEAROAR_TOO_MANY = 5,	/* the blocks are more than the array takes; none is held */
	PEAROAR_NO_MORE = 6	/* nothing more is held, or free, from the page on */
};

/* Which hole an insert takes (DRM_MM_INSERT_BEST, _LOW, _HIGH). */
enum pearoar_mode {
	PEAROAR_BEST = 0,	/* the smallest that fits, of equals the lowest; the pages are its first */
	PEAROAR_LOW = 1,	/* the lowest; the pages are its first */
	PEAROAR_HIGH = 2	/* the highest; the pages are its last */
};

/* How blocks are taken (DRM_BUDDY_TOPDOWN_ALLOCATION, DRM_BUDDY_CONTIGUOUS_ALLOCATION). */
enum pearoar_flags {
	PEAROAR_TOPDOWN = 1,	/* among equals the highest block, in place of the lowest */
	PEAROAR_CONTIGUOUS = 2	/* one block, of the next power of two, of which the request's pages are kept */
};

struct pearoar_span {
	uint32_t start, end;
};

struct pearoar_ranges {
	void *library;
};

struct pearoar_blocks {
	void *library;
};

#define PEAROAR_CLOSED { NULL }

#if defined(__STDC_VERSION__) && __STDC_VERSION__ >= 201112L
_Static_assert(sizeof(enum pearoar_status) == sizeof(uint32_t), "statuses are passed as 32 bits");
#endif

/* Tells the version of the library that is linked, as PEAROAR_MM_VERSION tells the header's. */
uint32_t pearoar_mm_version(void);

/* ---- Ranges: spans of any length, in holes (drm_mm) ---- */

struct pearoar_range_request {
	uint32_t pages;		/* how many; 0 is never found */
	uint32_t align;		/* the span begins at a multiple of it; 0 and 1 mean none */
	uint32_t first, last;	/* it lies from page `first` up to page `last`, without `last`; UINT32_MAX is as good as the size */
	uint32_t mode;		/* an enum pearoar_mode */
};

/*
 * Makes a manager of so many pages, all of them free (drm_mm_init). It takes 24 bytes for each 1,024 pages; 4,096 bytes come with the first
 * span that begins in 1,024 pages, and stay until the manager is destroyed. PEAROAR_NO_MEMORY: it stays closed.
 */
enum pearoar_status pearoar_ranges_create(struct pearoar_ranges *ranges, uint32_t pages);

/* Frees a manager, whether something is held there or not (drm_mm_takedown), and closes it. */
void pearoar_ranges_destroy(struct pearoar_ranges *ranges);

/*
 * Takes pages, and writes them to `span` (drm_mm_insert_node_in_range). PEAROAR_NO_ROOM: the hole that the mode says doesn't exist.
 * PEAROAR_INVALID: the mode is unknown.
 */
enum pearoar_status pearoar_ranges_insert(struct pearoar_ranges *ranges, const struct pearoar_range_request *request, struct pearoar_span *span);

/* Takes the pages from `first` up to `last` (drm_mm_reserve_node). PEAROAR_NO_ROOM: one of them isn't free, or there is none. */
enum pearoar_status pearoar_ranges_reserve(struct pearoar_ranges *ranges, uint32_t first, uint32_t last);

/* Lets the span go that begins at page `start` (drm_mm_remove_node). PEAROAR_NOT_HELD: none does. It takes no memory. */
enum pearoar_status pearoar_ranges_remove(struct pearoar_ranges *ranges, uint32_t start);

/*
 * Sets the caller's own value of the span that begins at page `start`, 64 bits that mean nothing here. It is 0 until it is set, and 0 again
 * once the span was removed. PEAROAR_NOT_HELD: no span begins there. It takes memory for the spans alone whose value was set.
 */
enum pearoar_status pearoar_ranges_set_value(struct pearoar_ranges *ranges, uint32_t start, uint64_t value);

/* Writes the value of the span that begins at page `start` to `value`. PEAROAR_NOT_HELD: no span begins there. It takes no memory. */
enum pearoar_status pearoar_ranges_value(struct pearoar_ranges *ranges, uint32_t start, uint64_t *value);

struct pearoar_range_stats {
	uint32_t free_pages, held_pages;
	uint32_t spans;		/* how many are held */
	uint32_t longest_hole;	/* its pages; 0 where no page is free */
	size_t holes;		/* a hole is free pages side by side, as many as there are */
};

/* Counts what is held and what is free. It takes no memory, and always the same time. */
void pearoar_ranges_stats(struct pearoar_ranges *ranges, struct pearoar_range_stats *stats);

/* How many pages are free, and how many are held. */
void pearoar_ranges_lengths(struct pearoar_ranges *ranges, uint32_t *free_pages, uint32_t *held_pages);

/*
 * The first span that is held and begins at page `from` or above it (drm_mm_for_each_node). PEAROAR_NO_MORE: there is none. A walk
 * begins at 0 and goes on at each span's end. It costs a step a page.
 */
enum pearoar_status pearoar_ranges_next_held(struct pearoar_ranges *ranges, uint32_t from, struct pearoar_span *span);

/*
 * The first free pages at page `from` or above it, up to where a held span begins (drm_mm_for_each_hole). PEAROAR_NO_MORE: none is
 * free from there on. A walk begins at 0 and goes on at each hole's end.
 */
enum pearoar_status pearoar_ranges_next_hole(struct pearoar_ranges *ranges, uint32_t from, struct pearoar_span *hole);

/* ---- Blocks: powers of two at multiples of their size (drm_buddy) ---- */

struct pearoar_block_request {
	uint32_t pages;		/* how many; at least 1 */
	uint32_t first, last;	/* the blocks lie from page `first` up to page `last`, without `last` */
	uint32_t flags;		/* 0, or PEAROAR_TOPDOWN, PEAROAR_CONTIGUOUS or both, added */
};

/*
 * Makes a manager of so many pages, all of them free (drm_buddy_init). It takes two and a quarter bits a page. PEAROAR_NO_MEMORY: it
 * stays closed; so it does from 2^31 pages on.
 */
enum pearoar_status pearoar_blocks_create(struct pearoar_blocks *blocks, uint32_t pages);

/* Frees a manager, whether something is held there or not (drm_buddy_fini), and closes it. */
void pearoar_blocks_destroy(struct pearoar_blocks *blocks);

/*
 * Takes blocks that have the request's pages together, and writes them to the front of `out`, which takes `room` blocks, in the
 * order in which they are chosen: the largest first (drm_buddy_alloc_blocks). pearoar_spans_sort puts them in order of address.
 * `count` gets how many they are. Contiguous, it is one, and `room` of 1 is enough; else `room` of `pages` always is.
 * PEAROAR_NO_ROOM: the free blocks in the range don't have them. PEAROAR_TOO_MANY: `count` is how much room is wanted, and nothing is
 * held. PEAROAR_INVALID: no pages, or an unknown flag.
 */
enum pearoar_status pearoar_blocks_alloc(struct pearoar_blocks *blocks, const struct pearoar_block_request *request, struct pearoar_span *out, size_t room, size_t *count);

/*
 * Gives back the block from `start` up to `end`, as an alloc gave it or a trim left it (drm_buddy_free_block). PEAROAR_NOT_HELD: no
 * such block is held. It takes no memory.
 */
enum pearoar_status pearoar_blocks_release(struct pearoar_blocks *blocks, uint32_t start, uint32_t end);

/*
 * Keeps the first pages of a block, and gives back the others (drm_buddy_block_trim): `start` up to `start` + `keep` is the block then.
 * PEAROAR_NOT_HELD: no such block is held. PEAROAR_INVALID: `keep` is 0, or more than its pages. It takes no memory.
 */
enum pearoar_status pearoar_blocks_trim(struct pearoar_blocks *blocks, uint32_t start, uint32_t end, uint32_t keep);

/*
 * Sets the caller's own value of the block that begins at page `start`, 64 bits that mean nothing here. It is 0 until it is set, and 0 again
 * once the block was released; a trim keeps it. PEAROAR_NOT_HELD: no block begins there. It takes memory for the blocks alone whose value
 * was set.
 */
enum pearoar_status pearoar_blocks_set_value(struct pearoar_blocks *blocks, uint32_t start, uint64_t value);

/* Writes the value of the block that begins at page `start` to `value`. PEAROAR_NOT_HELD: no block begins there. It takes no memory. */
enum pearoar_status pearoar_blocks_value(struct pearoar_blocks *blocks, uint32_t start, uint64_t *value);

#define PEAROAR_ORDERS 31	/* a block of order n has 2^n pages */

struct pearoar_block_stats {
	uint32_t free_pages, held_pages;
	size_t held_blocks;
	size_t free_blocks[PEAROAR_ORDERS];	/* of each order; a free block is as large as it can be */
};

/*
 * Counts what is held and what is free. It takes memory while it runs, and a search for each page. PEAROAR_NO_MEMORY: `stats` isn't written.
 */
enum pearoar_status pearoar_blocks_stats(struct pearoar_blocks *blocks, struct pearoar_block_stats *stats);

/* How many pages are free, and how many are held. */
void pearoar_blocks_lengths(struct pearoar_blocks *blocks, uint32_t *free_pages, uint32_t *held_pages);

/*
 * The first block that is held and begins at page `from` or above it. PEAROAR_NO_MORE: there is none. A walk begins at 0 and goes on
 * at each block's end. It costs a step a page.
 */
enum pearoar_status pearoar_blocks_next_held(struct pearoar_blocks *blocks, uint32_t from, struct pearoar_span *block);

/* ---- Both ---- */

/* Sorts `count` spans or blocks by their `start`, in place. It takes no memory, and has nothing to do with a manager. */
void pearoar_spans_sort(struct pearoar_span *spans, size_t count);

#ifdef __cplusplus
}
#endif

#include "pearoar_mm_inline.h"

#endif
