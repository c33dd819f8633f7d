/*
 * The script's threads. One runs at a time; it gives way where it is about to ask for a reservation, before the body of its command, and after
 * it. The caller's order says which one goes next; after its end they take turns one after the other.
 */
#include <stdarg.h>
#include <ucontext.h>

#include "peer.h"

enum { STACK_SIZE = 1 << 20, MAX_COMMANDS = 4096 * MAX_THREADS };

struct course {
	struct thread thread;
	ucontext_t context;
	char *stack;
	bool is_over, waits; /* waits: its last turn found a lock held */
};

struct thread *running;
static ucontext_t scheduler;
static struct course courses[MAX_THREADS];
static int answered;			       /* commands of all threads */
static long drain_after[MAX_COMMANDS + 1]; /* rounds after that many answers */

void tell(char **text, size_t *size, const char *format, ...)
{
	va_list list, again;
	int length;

	va_start(list, format);
	va_copy(again, list);
	length = vsnprintf(NULL, 0, format, list);
	*text = realloc(*text, *size + length + 1);
	vsnprintf(*text + *size, length + 1, format, again);
	*size += length;
	va_end(again);
	va_end(list);
}

static struct course *course_of(struct thread *thread) { return container_of(thread, struct course, thread); }

void give_way(void)
{
	struct course *course;

	if (!running || script.threads == 1)
		return;
	course = course_of(running);
	swapcontext(&course->context, &scheduler);
	running = &course->thread;
}

void lock_at_once(struct dma_resv *resv, struct ww_acquire_ctx *ticket)
{
	running->has_turn = true;
	dma_resv_lock(resv, ticket);
}

void peer_before_lock(void)
{
	if (running && running->has_turn)
		running->has_turn = false;
	else
		give_way();
}

void peer_wait_for_lock(void)
{
	if (!running)
		peer_fault("engines and reaper wait for no lock");
	course_of(running)->waits = true;
	give_way();
}

static void clear_command(struct thread *thread)
{
	free(thread->victims);
	free(thread->notes);
	free(thread->answer);
	*thread = (struct thread){ .number = thread->number };
}

static void end_command(struct thread *thread)
{
	report_command(++answered);
	clear_command(thread);
	peer_free_now();
	drain(drain_after[answered]);
}

static void run_commands(int at)
{
	struct course *course = &courses[at];
	struct command_list *list = &script.commands[at];
	char *words[MAX_WORDS];
	int i;

	for (i = 0; i < list->n; i++) {
		if (i)
			give_way();
		do_command(words, split_words(list->lines[i], words, MAX_WORDS));
		end_command(&course->thread);
	}
	course->is_over = true;
}

static void begin_thread(int at)
{
	struct course *course = &courses[at];

	course->thread.number = at + 1;
	course->stack = malloc(STACK_SIZE);
	getcontext(&course->context);
	course->context.uc_stack.ss_sp = course->stack;
	course->context.uc_stack.ss_size = STACK_SIZE;
	course->context.uc_link = &scheduler;
	makecontext(&course->context, (void (*)(void))run_commands, 1, at);
}

/* Gives the thread a turn, and tells whether it got on. */
static bool take_turn(struct course *course)
{
	if (course->is_over)
		return false;
	course->waits = false;
	running = &course->thread;
	swapcontext(&scheduler, &course->context);
	running = NULL;
	return !course->waits;
}

static void read_drains(const char *drains)
{
	char *copy = strdup(drains), *rest, *word;

	for (word = strtok_r(copy, ",", &rest); word; word = strtok_r(NULL, ",", &rest)) {
		char *colon = strchr(word, ':');
		int after = atoi(word);

		if (after > 0 && after <= MAX_COMMANDS)
			drain_after[after] = colon ? atol(colon + 1) : UNTIL_REST;
	}
	free(copy);
}

static bool any_left(void)
{
	int i;

	for (i = 0; i < script.threads; i++)
		if (!courses[i].is_over)
			return true;
	return false;
}

void run_threads(const char *order, const char *drains)
{
	int i, idle = 0;

	read_drains(drains);
	for (i = 0; i < script.threads; i++)
		begin_thread(i);
	for (; *order; order++)
		take_turn(&courses[(*order - '1') % script.threads]);
	for (i = 0; any_left(); i = (i + 1) % script.threads) {
		idle = take_turn(&courses[i]) ? 0 : idle + 1;
		if (idle > script.threads)
			peer_fault("each thread waits for a lock");
	}
}
