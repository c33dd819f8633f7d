/*
 * What is told of each command, a line each of: R the thread and its result; V the victims in order, with the memory type that they left; X what
 * else was seen; P where each live buffer stands; D the last job done of each engine; G how many ghosts there are. At the end J tells the
 * probes' pieces, A the accounts, and W how often the kernel warned.
 */
#include "peer.h"

static void print_places(int number)
{
	static struct page_span spans[MAX_SPANS];
	int i, k, n;

	printf("P %d", number);
	for (i = 0; i < script.declared; i++) {
		struct declaration *declared = &script.declarations[i];

		if (!declared->live)
			continue;
		printf(" %s=%s:", declared->name, memory_name(declared->live->tbo.resource->mem_type));
		n = spans_of(declared->live->tbo.resource, spans);
		for (k = 0; k < n; k++)
			printf("%s%lu-%lu", k ? "," : "", spans[k].start, spans[k].end);
		if (!n)
			printf("-");
	}
	printf("\n");
}

void report_command(int number)
{
	int i;

	printf("R %d t%d %s\n", number, running->number, running->answer);
	if (running->victims)
		printf("V %d%s\n", number, running->victims);
	if (running->notes)
		printf("X %d%s\n", number, running->notes);
	print_places(number);
	printf("D %d", number);
	for (i = 0; i < script.engines; i++)
		printf(" %llu", last_done(i));
	printf("\nG %d %d\n", number, ghosts_of_device());
}

void report_end(void)
{
	print_probes();
	printf("A 0 vram %llu tt %llu frames %d\n", (u64)ttm_resource_manager_usage(ttm_manager_type(&device, TTM_PL_VRAM)) >> PAGE_SHIFT,
	       (u64)ttm_resource_manager_usage(ttm_manager_type(&device, TTM_PL_TT)) >> PAGE_SHIFT, frames_used - 1);
	if (ghosts_of_device())
		peer_fault("ghosts are left");
	if (peer_warnings)
		printf("W 0 %lu\n", peer_warnings);
}
