/*
 * Does a list of operations on a manager and prints the answer to each, a line an operation. tools/gate/kernel_cases.py writes the lists, with
 * the answers that they must have.
 *
 * The first line is `mm PAGES` or `buddy PAGES`. Then come, for an ID below 65,536:
 *
 *   insert ID PAGES ALIGN FIRST LAST best|low|high       the span `F-L`, or `none`
 *   reserve ID START END                                 `ok`, or `none`
 *   remove ID                                            `ok`
 *   alloc ID PAGES FIRST LAST topdown|- contig|-         the blocks `F-L` joined by `,`, or `none`
 *   free ID                                              `ok`
 *   holes                                                all holes of ranges, `-` where there is none
 *   blocks                                               the free pages of blocks as spans, `-` where there is none, then for each order
 *                                                        how many free blocks have it, where any has
 *
 * `bad` answers an ID that is in use where it mustn't be, or isn't where it must. A line that can't be read ends the program with 3.
 *
 * usage: operations < LIST
 */
#include "pearoar_mm.h"

#include <stdbool.h>
#include <stdio.h>
#include <stdlib.h>
#include <string.h>

enum { IDS = 65536 };

static struct holding {
	struct pearoar_span *spans;
	size_t count;
} held[IDS];

static struct pearoar_ranges ranges = PEAROAR_CLOSED;
static struct pearoar_blocks blocks = PEAROAR_CLOSED;
static uint32_t size;

static void fail(const char *what, const char *line)
{
	fprintf(stderr, "operations: %s: %s\n", what, line);
	exit(3);
}

/* Keeps `count` spans for `id`. */
static void keep(unsigned id, const struct pearoar_span *spans, size_t count)
{
	held[id].spans = malloc(count * sizeof(*spans));
	if (!held[id].spans)
		fail("no memory", "keep");
	memcpy(held[id].spans, spans, count * sizeof(*spans));
	held[id].count = count;
}

static void forget(unsigned id)
{
	free(held[id].spans);
	held[id] = (struct holding){ NULL, 0 };
}

static void print_spans(const struct pearoar_span *spans, size_t count)
{
	for (size_t i = 0; i < count; i++)
		printf("%s%u-%u", i ? "," : "", spans[i].start, spans[i].end);
}

/* Says what came of a request: `count` spans that `id` holds from now on, or none where there is no room. */
static void answer(enum pearoar_status status, unsigned id, const struct pearoar_span *spans, size_t count, const char *line)
{
	if (status == PEAROAR_NO_ROOM) {
		puts("none");
		return;
	}
	if (status != PEAROAR_DONE)
		fail("a status that no list may have", line);
	keep(id, spans, count);
	print_spans(spans, count);
	putchar('\n');
}

/* ---- ranges ---- */

static bool mode_of(const char *word, uint32_t *mode)
{
	static const char *const words[] = { "best", "low", "high" };
	static const uint32_t modes[] = { PEAROAR_BEST, PEAROAR_LOW, PEAROAR_HIGH };

	for (size_t i = 0; i < 3; i++) {
		if (!strcmp(word, words[i])) {
			*mode = modes[i];
			return true;
		}
	}
	return false;
}

static void insert(const char *line)
{
	struct pearoar_range_request request;
	struct pearoar_span span;
	unsigned id;
	char word[8];

	if (sscanf(line, "insert %u %u %u %u %u %7s", &id, &request.pages, &request.align, &request.first, &request.last, word) != 6 ||
	    id >= IDS || !mode_of(word, &request.mode))
		fail("a line that can't be read", line);
	if (held[id].count) {
		puts("bad");
		return;
	}
	answer(pearoar_ranges_insert(&ranges, &request, &span), id, &span, 1, line);
}

static void reserve(const char *line)
{
	struct pearoar_span span;
	unsigned id;

	if (sscanf(line, "reserve %u %u %u", &id, &span.start, &span.end) != 3 || id >= IDS)
		fail("a line that can't be read", line);
	if (held[id].count) {
		puts("bad");
		return;
	}
	switch (pearoar_ranges_reserve(&ranges, span.start, span.end)) {
	case PEAROAR_DONE:
		keep(id, &span, 1);
		puts("ok");
		break;
	case PEAROAR_NO_ROOM:
		puts("none");
		break;
	default:
		fail("a status that no list may have", line);
	}
}

static void show_holes(void)
{
	struct pearoar_span hole;
	uint32_t from = 0;

	for (; pearoar_ranges_next_hole(&ranges, from, &hole) == PEAROAR_DONE; from = hole.end)
		printf("%s%u-%u", from ? "," : "", hole.start, hole.end);
	puts(from ? "" : "-");
}

/* ---- blocks ---- */

static void alloc(const char *line)
{
	struct pearoar_block_request request = { 0, 0, 0, 0 };
	struct pearoar_span *out;
	char topdown[16], contig[16];
	enum pearoar_status status;
	unsigned id;
	size_t room, count = 0;

	if (sscanf(line, "alloc %u %u %u %u %15s %15s", &id, &request.pages, &request.first, &request.last, topdown, contig) != 6 || id >= IDS)
		fail("a line that can't be read", line);
	if (held[id].count) {
		puts("bad");
		return;
	}
	request.flags = (strcmp(topdown, "-") ? PEAROAR_TOPDOWN : 0) + (strcmp(contig, "-") ? PEAROAR_CONTIGUOUS : 0);
	room = request.pages < size ? request.pages : size;
	out = malloc(sizeof(*out) * room);
	if (!out)
		fail("no memory", line);
	status = pearoar_blocks_alloc(&blocks, &request, out, room, &count);
	answer(status, id, out, count, line);
	free(out);
}

/* Prints the free pages of blocks as spans, and how many free blocks each order has. */
static void show_free_blocks(void)
{
	struct pearoar_block_stats stats;
	struct pearoar_span block;
	uint32_t from = 0;
	bool any = false;

	while (from < size) {
		uint32_t end = size;

		if (pearoar_blocks_next_held(&blocks, from, &block) == PEAROAR_DONE)
			end = block.start;
		else
			block.end = size;
		if (from < end) {
			printf("%s%u-%u", any ? "," : "", from, end);
			any = true;
		}
		from = block.end;
	}
	if (!any)
		putchar('-');
	if (pearoar_blocks_stats(&blocks, &stats) != PEAROAR_DONE)
		fail("no memory", "blocks");
	for (unsigned order = 0; order < PEAROAR_ORDERS; order++) {
		if (stats.free_blocks[order])
			printf(" %u:%zu", order, stats.free_blocks[order]);
	}
	putchar('\n');
}

/* ---- both ---- */

/* Gives back all that `id` holds, as a kernel's free of a list does. */
static void give_back(const char *line, const char *format, bool are_blocks)
{
	unsigned id;

	if (sscanf(line, format, &id) != 1 || id >= IDS)
		fail("a line that can't be read", line);
	if (!held[id].count) {
		puts("bad");
		return;
	}
	for (size_t i = 0; i < held[id].count; i++) {
		struct pearoar_span span = held[id].spans[i];
		enum pearoar_status status = are_blocks ? pearoar_blocks_release(&blocks, span.start, span.end)
							: pearoar_ranges_remove(&ranges, span.start);

		if (status != PEAROAR_DONE)
			fail("what is held isn't", line);
	}
	forget(id);
	puts("ok");
}

static bool begins(const char *line, const char *word)
{
	return !strncmp(line, word, strlen(word));
}

static void do_ranges(const char *line)
{
	if (begins(line, "insert "))
		insert(line);
	else if (begins(line, "reserve "))
		reserve(line);
	else if (begins(line, "remove "))
		give_back(line, "remove %u", false);
	else if (!strcmp(line, "holes\n"))
		show_holes();
	else
		fail("a line that can't be read", line);
}

static void do_blocks(const char *line)
{
	if (begins(line, "alloc "))
		alloc(line);
	else if (begins(line, "free "))
		give_back(line, "free %u", true);
	else if (!strcmp(line, "blocks\n"))
		show_free_blocks();
	else
		fail("a line that can't be read", line);
}

int main(void)
{
	static char line[256];
	bool are_blocks;

	if (!fgets(line, sizeof(line), stdin) || (sscanf(line, "mm %u", &size) != 1 && sscanf(line, "buddy %u", &size) != 1))
		fail("a first line that can't be read", line);
	are_blocks = line[0] == 'b';
	if ((are_blocks ? pearoar_blocks_create(&blocks, size) : pearoar_ranges_create(&ranges, size)) != PEAROAR_DONE)
		fail("no manager of that size", line);
	while (fgets(line, sizeof(line), stdin)) {
		if (are_blocks)
			do_blocks(line);
		else
			do_ranges(line);
	}
	if (are_blocks)
		pearoar_blocks_destroy(&blocks);
	else
		pearoar_ranges_destroy(&ranges);
	for (unsigned id = 0; id < IDS; id++)
		forget(id);
	return 0;
}
