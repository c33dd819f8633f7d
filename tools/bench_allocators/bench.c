/*
 * Makes calls of an allocator at a steady number of live spans: each round gives a random one back and takes another. Two runs that differ
 * in rounds alone tell what a call costs.
 *
 * usage: bench LOAD LIVE ROUNDS     prints a checksum of where spans started, and how many calls found no room
 */
#include "allocators.h"

#include <stdio.h>
#include <stdlib.h>
#include <string.h>

enum { MOST_PAGES = 16, BUDDY_PAGES = 1 << 23 };
#define MIXED UINT32_MAX	/* each request is aligned to 1, 8 or 16 pages */

enum shape {
	SPREAD,	/* spans of 1 to 16 pages, in a space of twice what they take, aligned */
	INNER,	/* the same, and the rounds give back and take in the middle half alone */
	COMB,	/* one free page at each odd place; one page at an even place is asked for */
	BLOCKS,	/* a buddy manager of 2^23 pages, with requests of 1 to 16 pages */
	INNER_BLOCKS,	/* the same, all in the middle half */
};

static const struct load {
	const char *name;
	enum shape shape;
	enum mode mode;
	enum flags flags;
	uint32_t align;	/* or MIXED */
} loads[] = {
	{ "best", SPREAD, BEST, PLAIN, 0 },
	{ "low", SPREAD, LOW, PLAIN, 0 },
	{ "high", SPREAD, HIGH, PLAIN, 0 },
	{ "best-align-8", SPREAD, BEST, PLAIN, 8 },
	{ "best-align-16", SPREAD, BEST, PLAIN, 16 },
	{ "best-align-mixed", SPREAD, BEST, PLAIN, MIXED },
	{ "low-align-mixed", SPREAD, LOW, PLAIN, MIXED },
	{ "high-align-mixed", SPREAD, HIGH, PLAIN, MIXED },
	{ "low-align-8", SPREAD, LOW, PLAIN, 8 },
	{ "high-align-8", SPREAD, HIGH, PLAIN, 8 },
	{ "best-in-range", INNER, BEST, PLAIN, 0 },
	{ "low-in-range", INNER, LOW, PLAIN, 0 },
	{ "high-in-range", INNER, HIGH, PLAIN, 0 },
	{ "frag-align", COMB, BEST, PLAIN, 2 },
	{ "buddy-plain", BLOCKS, BEST, PLAIN, 0 },
	{ "buddy-topdown", BLOCKS, BEST, TOPDOWN, 0 },
	{ "buddy-contiguous", BLOCKS, BEST, CONTIGUOUS, 0 },
	{ "buddy-in-range", INNER_BLOCKS, BEST, PLAIN, 0 },
};

static uint64_t state = 0x9e3779b97f4a7c15u;

/* xorshift64*; a number below n */
static uint32_t below(uint32_t n)
{
	state ^= state >> 12;
	state ^= state << 25;
	state ^= state >> 27;
	return (uint32_t)(((state * 2685821657736338717u >> 32) * n) >> 32);
}

static const struct load *load;
static struct request request;
static bool *is_live;
static uint32_t *places;
static uint64_t checksum;
static uint32_t refused;

static bool is_buddy(void)
{
	return load->shape == BLOCKS || load->shape == INNER_BLOCKS;
}

static void take(uint32_t slot)
{
	uint32_t start = 0;

	is_live[slot] = is_buddy() ? blocks_alloc(slot, &request, &start) : ranges_insert(slot, &request, &start);
	places[slot] = start;
	checksum = checksum * 31 + start + is_live[slot];
	refused += !is_live[slot];
}

static void give(uint32_t slot)
{
	if (is_buddy())
		blocks_release(slot);
	else
		ranges_remove(slot);
}

static void draw_request(void)
{
	static const uint32_t aligns[] = { 1, 8, 16 };

	if (load->shape == COMB)
		return;
	request.pages = 1 + below(MOST_PAGES);
	if (load->align == MIXED)
		request.align = aligns[below(3)];
}

static void fill(uint32_t live)
{
	for (uint32_t slot = 0; slot < live; slot++) {
		draw_request();
		take(slot);
	}
}

/* The slots of which a round takes one are put to the front of `slots`. */
static uint32_t round_slots(uint32_t live, uint32_t *slots)
{
	uint32_t count = 0;

	for (uint32_t slot = 0; slot < live; slot++) {
		bool is_inside = places[slot] >= request.first && places[slot] + MOST_PAGES <= request.last;
		if (load->shape != INNER || is_inside)
			slots[count++] = slot;
	}
	return count;
}

static void make_rounds(uint32_t rounds, const uint32_t *slots, uint32_t count)
{
	while (rounds-- > 0) {
		uint32_t slot = slots[below(count)];
		if (is_live[slot])
			give(slot);
		draw_request();
		take(slot);
	}
}

static void open_manager(uint32_t live)
{
	uint32_t align = load->align == MIXED ? MOST_PAGES : load->align ? load->align : 1;
	uint32_t twice = MOST_PAGES + align; /* what a span takes on the average, with what its alignment leaves */
	uint32_t pages = load->shape == COMB ? 2 * live + MOST_PAGES : live * twice;

	request = (struct request){ .align = load->align, .mode = load->mode, .flags = load->flags };
	if (is_buddy()) {
		pages = BUDDY_PAGES;
		blocks_open(pages, live);
	} else {
		ranges_open(pages, 2 * live + 1);
	}
	request.last = pages;
	if (load->shape == INNER_BLOCKS) {
		request.first = pages / 4;
		request.last = pages / 4 * 3;
	}
}

/* Fills one-page spans from the bottom, and lets the odd ones go: so many holes. The rounds' slot is one behind them. */
static uint32_t make_comb(uint32_t holes, uint32_t *slots)
{
	request.mode = LOW;
	request.align = 0;
	request.pages = 1;
	fill(2 * holes);
	for (uint32_t slot = 1; slot < 2 * holes; slot += 2)
		give(slot);
	request.mode = load->mode;
	request.align = load->align;
	slots[0] = 2 * holes;
	take(slots[0]);
	return 1;
}

int main(int argc, char **argv)
{
	if (argc != 4)
		return 2;
	for (size_t i = 0; i < sizeof(loads) / sizeof(loads[0]); i++)
		if (strcmp(argv[1], loads[i].name) == 0)
			load = &loads[i];
	if (!load)
		return 2;

	uint32_t live = (uint32_t)atol(argv[2]);
	uint32_t *slots = calloc(2 * live + 1, sizeof(*slots));
	uint32_t count;

	is_live = calloc(2 * live + 1, sizeof(*is_live));
	places = calloc(2 * live + 1, sizeof(*places));
	open_manager(live);
	if (load->shape == COMB) {
		count = make_comb(live, slots);
	} else {
		fill(live);
		if (load->shape == INNER) {
			request.first = request.last / 4;
			request.last = request.last / 4 * 3;
		}
		count = round_slots(live, slots);
	}
	make_rounds((uint32_t)atol(argv[3]), slots, count);
	printf("%016llx %u\n", (unsigned long long)checksum, refused);
	return 0;
}
