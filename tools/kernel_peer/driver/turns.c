/* The turns of the reaper (TTM's delayed work) and of the engines, between those of the threads. */
#include "peer.h"
#include "rules.h"

bool jobs_lag;
static bool is_reaping;
static int reaped;

void note_deletion(struct ttm_buffer_object *bo)
{
	if (is_reaping)
		reaped++;
	else if (running && bo->deleted) {
		if (running->search)
			running->search->met_ghost = true;
		tell_note(" ghost");
	}
}

int ghosts_of_device(void)
{
	struct ttm_buffer_object *ghost;
	int n = 0;

	/* (in 6.12 the work of a ghost that a search has met is still to come) */
	for (ghost = next_ghost(NULL); ghost; ghost = next_ghost(ghost))
		n += ghost->resource != NULL;
	return n;
}

/* Gives the reaper a turn, and tells whether a ghost was destroyed. */
static bool reaper_turn(void)
{
	int before = reaped;

	is_reaping = true;
	run_reaper();
	is_reaping = false;
	return reaped != before;
}

bool take_round(void)
{
	struct thread *was = running;
	bool did;
	int i;

	running = NULL;
	did = reaper_turn();
	for (i = 0; i < script.engines; i++)
		did |= engine_turn(i);
	running = was;
	return did;
}

void drain(long rounds)
{
	while (rounds != 0 && take_round())
		if (rounds > 0)
			rounds--;
}

long schedule_timeout(long timeout)
{
	if (!take_round())
		peer_fault("a thread waits, and no other can do anything");
	return timeout;
}
