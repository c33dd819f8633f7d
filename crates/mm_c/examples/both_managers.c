/* Takes and gives back pages of both managers, with values of its own, and prints what they hold. */
#include "pearoar_mm.h"

#include <stdio.h>
#include <stdlib.h>
#include <string.h>

static void expect(enum pearoar_status status, enum pearoar_status wanted, const char *call)
{
	if (status == wanted)
		return;
	fprintf(stderr, "%s: status %d in place of %d\n", call, status, wanted);
	exit(1);
}

static void print_spans(const struct pearoar_span *spans, size_t count)
{
	for (size_t i = 0; i < count; i++)
		printf(" %u-%u", spans[i].start, spans[i].end);
	printf("\n");
}

static void print_ranges(struct pearoar_ranges *ranges)
{
	struct pearoar_span span;
	uint32_t free_pages, held_pages;
	uint64_t value;

	for (uint32_t from = 0; pearoar_ranges_next_value(ranges, from, &span, &value) == PEAROAR_DONE; from = span.end)
		printf("  %u-%u: held, value %llu\n", span.start, span.end, (unsigned long long)value);
	for (uint32_t from = 0; pearoar_ranges_next_hole(ranges, from, &span) == PEAROAR_DONE; from = span.end)
		printf("  %u-%u: free\n", span.start, span.end);
	pearoar_ranges_lengths(ranges, &free_pages, &held_pages);
	printf("  %u free, %u held\n", free_pages, held_pages);
}

static void print_blocks(struct pearoar_blocks *blocks)
{
	struct pearoar_span block;
	uint32_t free_pages, held_pages;

	for (uint32_t from = 0; pearoar_blocks_next_held(blocks, from, &block) == PEAROAR_DONE; from = block.end)
		printf("  %u-%u: held\n", block.start, block.end);
	pearoar_blocks_lengths(blocks, &free_pages, &held_pages);
	printf("  %u free, %u held\n", free_pages, held_pages);
}

static void use_ranges(void)
{
	struct pearoar_ranges ranges = PEAROAR_CLOSED;
	struct pearoar_range_request request = { .pages = 8, .align = 16, .first = 1, .last = 64, .mode = PEAROAR_LOW };
	struct pearoar_range_stats stats;
	struct pearoar_span span;
	uint64_t value;
	char text[512];

	expect(pearoar_ranges_create(&ranges, 64), PEAROAR_DONE, "create");
	expect(pearoar_ranges_reserve(&ranges, 0, 4), PEAROAR_DONE, "reserve");
	expect(pearoar_ranges_reserve(&ranges, 3, 5), PEAROAR_NO_ROOM, "reserve what is held");
	expect(pearoar_ranges_reserve(&ranges, 5, 5), PEAROAR_NO_ROOM, "reserve no page");
	expect(pearoar_ranges_insert(&ranges, &request, &span), PEAROAR_DONE, "insert low");
	printf("8 pages, aligned to 16, low: %u-%u\n", span.start, span.end);
	request.mode = PEAROAR_HIGH;
	request.align = 0;
	expect(pearoar_ranges_insert(&ranges, &request, &span), PEAROAR_DONE, "insert high");
	printf("8 pages, high: %u-%u\n", span.start, span.end);
	request.mode = PEAROAR_BEST;
	expect(pearoar_ranges_insert(&ranges, &request, &span), PEAROAR_DONE, "insert best");
	printf("8 pages, best: %u-%u\n", span.start, span.end);
	request.pages = 33;
	expect(pearoar_ranges_insert(&ranges, &request, &span), PEAROAR_NO_ROOM, "insert too many");
	request.mode = 3;
	expect(pearoar_ranges_insert(&ranges, &request, &span), PEAROAR_INVALID, "insert by an unknown mode");
	expect(pearoar_ranges_set_value(&ranges, 16, 1234567890123), PEAROAR_DONE, "set a value");
	expect(pearoar_ranges_set_value(&ranges, 17, 1), PEAROAR_NOT_HELD, "set a value where no span begins");
	print_ranges(&ranges);
	pearoar_ranges_stats(&ranges, &stats);
	printf("%u spans, %zu holes, the longest of %u pages\n", stats.spans, stats.holes, stats.longest_hole);
	expect(pearoar_ranges_remove_value(&ranges, 16, &value), PEAROAR_DONE, "remove");
	expect(pearoar_ranges_remove(&ranges, 16), PEAROAR_NOT_HELD, "remove what isn't held");
	printf("without 16-24, whose value was %llu:\n", (unsigned long long)value);
	pearoar_ranges_print(&ranges, text, sizeof(text));
	fputs(text, stdout);
	pearoar_ranges_destroy(&ranges);
}

static void use_blocks(void)
{
	struct pearoar_blocks blocks = PEAROAR_CLOSED;
	struct pearoar_block_request request = { .pages = 13, .first = 0, .last = 40, .flags = 0 };
	struct pearoar_span out[4], by_address[4];
	uint64_t value;
	size_t count;
	char text[512];

	expect(pearoar_blocks_create(&blocks, 40), PEAROAR_DONE, "create");
	expect(pearoar_blocks_alloc(&blocks, &request, out, 2, &count), PEAROAR_TOO_MANY, "alloc with little room");
	printf("13 pages are %zu blocks:", count);
	expect(pearoar_blocks_alloc(&blocks, &request, out, 4, &count), PEAROAR_DONE, "alloc");
	print_spans(out, count);
	printf("by address:");
	memcpy(by_address, out, count * sizeof(out[0]));
	pearoar_spans_sort(by_address, count);
	print_spans(by_address, count);
	request.pages = 3;
	request.flags = PEAROAR_TOPDOWN + PEAROAR_CONTIGUOUS;
	request.last = 32;
	expect(pearoar_blocks_alloc(&blocks, &request, &out[3], 1, &count), PEAROAR_DONE, "alloc contiguous");
	printf("3 pages, topdown, contiguous: %u-%u\n", out[3].start, out[3].end);
	expect(pearoar_blocks_trim(&blocks, out[0].start, out[0].end, 5), PEAROAR_DONE, "trim");
	expect(pearoar_blocks_release(&blocks, out[0].start, out[0].end), PEAROAR_NOT_HELD, "release a block that was cut");
	request.pages = 0;
	expect(pearoar_blocks_alloc(&blocks, &request, out, 4, &count), PEAROAR_INVALID, "alloc no pages");
	printf("the first one cut to 5:\n");
	print_blocks(&blocks);
	expect(pearoar_blocks_set_value(&blocks, 32, 32), PEAROAR_DONE, "set a value");
	expect(pearoar_blocks_release_value(&blocks, 4, 5, &value), PEAROAR_DONE, "release");
	printf("4-5 had the value %llu\n", (unsigned long long)value);
	expect(pearoar_blocks_release(&blocks, 0, 4), PEAROAR_DONE, "release");
	expect(pearoar_blocks_release(&blocks, 12, 15), PEAROAR_DONE, "release");
	expect(pearoar_blocks_value(&blocks, 32, &value), PEAROAR_DONE, "ask for a value");
	printf("without the others, 32-37 with the value %llu, in pages of 65536 bytes:\n", (unsigned long long)value);
	pearoar_blocks_print(&blocks, 65536, text, sizeof(text));
	fputs(text, stdout);
	pearoar_blocks_destroy(&blocks);
}

int main(void)
{
	if (pearoar_mm_version() / 100 != PEAROAR_MM_VERSION / 100)
		return 1;
	use_ranges();
	use_blocks();
	return 0;
}
