/* Our range manager and buddy manager, through the C library. */
#include "allocators.h"

#include "pearoar_mm.h"
#include <stdlib.h>

static struct pearoar_ranges ranges = PEAROAR_CLOSED;
static uint32_t *starts;

void ranges_open(uint32_t pages, uint32_t slots)
{
	if (pearoar_ranges_create(&ranges, pages) != PEAROAR_DONE)
		abort();
	starts = calloc(slots, sizeof(*starts));
}

bool ranges_insert(uint32_t slot, const struct request *request, uint32_t *start)
{
	static const uint32_t modes[] = { PEAROAR_BEST, PEAROAR_LOW, PEAROAR_HIGH };
	struct pearoar_range_request asked = { request->pages, request->align, request->first, request->last, modes[request->mode] };
	struct pearoar_span span;

	if (pearoar_ranges_insert(&ranges, &asked, &span) != PEAROAR_DONE)
		return false;
	*start = starts[slot] = span.start;
	return true;
}

void ranges_remove(uint32_t slot)
{
	if (pearoar_ranges_remove(&ranges, starts[slot]) != PEAROAR_DONE)
		abort();
}

enum { MOST_BLOCKS = 16 };

struct taken {
	size_t count;
	struct pearoar_span blocks[MOST_BLOCKS];
};

static struct pearoar_blocks blocks = PEAROAR_CLOSED;
static struct taken *taken;

void blocks_open(uint32_t pages, uint32_t slots)
{
	if (pearoar_blocks_create(&blocks, pages) != PEAROAR_DONE)
		abort();
	taken = calloc(slots, sizeof(*taken));
}

bool blocks_alloc(uint32_t slot, const struct request *request, uint32_t *start)
{
	struct pearoar_block_request asked = { request->pages, request->first, request->last, request->flags };
	struct taken *took = &taken[slot];

	if (pearoar_blocks_alloc(&blocks, &asked, took->blocks, MOST_BLOCKS, &took->count) != PEAROAR_DONE)
		return false;
	*start = took->blocks[0].start;
	return true;
}

void blocks_release(uint32_t slot)
{
	const struct taken *took = &taken[slot];

	for (size_t i = 0; i < took->count; i++)
		if (pearoar_blocks_release(&blocks, took->blocks[i].start, took->blocks[i].end) != PEAROAR_DONE)
			abort();
}
