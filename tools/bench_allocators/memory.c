/*
 * Prints the bytes that a manager of 2^23 pages has asked malloc for and not freed: when it is created, with 1,000 spans or requests of 1 to
 * 16 pages side by side, with 1,000 of 16 pages, one each 8,192 pages, and when these are given back.
 *
 * cc -I crates/mm_c/include tools/bench_allocators/memory.c libpearoar_mm.a -Wl,--wrap=malloc,--wrap=realloc,--wrap=free -o memory
 */
#include "pearoar_mm.h"

#include <stdio.h>
#include <stdlib.h>

enum { PAGES = 1 << 23, REQUESTS = 1000, APART = 8192, MOST_PAGES = 16 };

/* ---- the library's calls of malloc, with the size of each block before it ---- */

struct head {
	size_t size;
	size_t unused;	/* what follows is aligned as malloc aligns it */
};

static size_t asked;

void *__real_realloc(void *block, size_t size);
void __real_free(void *block);
void *__wrap_malloc(size_t size);
void *__wrap_realloc(void *block, size_t size);
void __wrap_free(void *block);

void *__wrap_realloc(void *block, size_t size)
{
	struct head *head = block ? (struct head *)block - 1 : NULL;
	size_t before = head ? head->size : 0;

	head = __real_realloc(head, sizeof(*head) + size);
	if (!head)
		return NULL;
	head->size = size;
	asked += size - before;
	return head + 1;
}

void *__wrap_malloc(size_t size)
{
	return __wrap_realloc(NULL, size);
}

void __wrap_free(void *block)
{
	struct head *head = block ? (struct head *)block - 1 : NULL;

	asked -= head ? head->size : 0;
	__real_free(head);
}

static void tell(const char *what)
{
	printf("%-60s %10zu\n", what, asked);
}

/* Ends the program where a call isn't DONE. */
static void done(enum pearoar_status status)
{
	if (status != PEAROAR_DONE)
		abort();
}

/* 1 to 16, in a fixed order */
static uint32_t some_pages(void)
{
	static uint32_t state = 1;

	state = state * 1664525u + 1013904223u;
	return 1 + (state >> 16) % MOST_PAGES;
}

static void tell_of_ranges(void)
{
	struct pearoar_ranges ranges = PEAROAR_CLOSED;
	struct pearoar_span span;

	done(pearoar_ranges_create(&ranges, PAGES));
	tell("ranges, when they are created");
	for (int i = 0; i < REQUESTS; i++) {
		struct pearoar_range_request request = { some_pages(), 0, 0, PAGES, PEAROAR_BEST };
		done(pearoar_ranges_insert(&ranges, &request, &span));
	}
	tell("ranges, with 1,000 spans side by side");
	pearoar_ranges_destroy(&ranges);

	done(pearoar_ranges_create(&ranges, PAGES));
	for (uint32_t i = 0; i < REQUESTS; i++)
		done(pearoar_ranges_reserve(&ranges, i * APART, i * APART + MOST_PAGES));
	tell("ranges, with 1,000 spans of 16 pages, one each 8,192 pages");
	for (uint32_t i = 0; i < REQUESTS; i++)
		done(pearoar_ranges_remove(&ranges, i * APART));
	tell("the same, when all of them are given back");
	pearoar_ranges_destroy(&ranges);
}

static void tell_of_blocks(void)
{
	struct pearoar_blocks blocks = PEAROAR_CLOSED;
	struct pearoar_span took[MOST_PAGES];
	size_t count;

	done(pearoar_blocks_create(&blocks, PAGES));
	tell("blocks, when they are created");
	for (int i = 0; i < REQUESTS; i++) {
		struct pearoar_block_request request = { some_pages(), 0, PAGES, 0 };
		done(pearoar_blocks_alloc(&blocks, &request, took, MOST_PAGES, &count));
	}
	tell("blocks, with 1,000 requests side by side");
	pearoar_blocks_destroy(&blocks);

	done(pearoar_blocks_create(&blocks, PAGES));
	for (uint32_t i = 0; i < REQUESTS; i++) {
		struct pearoar_block_request request = { MOST_PAGES, i * APART, i * APART + MOST_PAGES, 0 };
		done(pearoar_blocks_alloc(&blocks, &request, took, MOST_PAGES, &count));
	}
	tell("blocks, with 1,000 requests of 16 pages, one each 8,192 pages");
	for (uint32_t i = 0; i < REQUESTS; i++)
		done(pearoar_blocks_release(&blocks, i * APART, i * APART + MOST_PAGES));
	tell("the same, when all of them are given back");
	pearoar_blocks_destroy(&blocks);
}

int main(void)
{
	tell_of_ranges();
	tell_of_blocks();
	if (asked != 0)
		printf("%zu bytes weren't freed\n", asked);
	return asked != 0;
}
