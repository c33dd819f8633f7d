/*
 * Runs a script from standard input on the kernel's TTM, and tells what came of each command.
 *
 *   kernel_peer --rules
 *   kernel_peer [--lagging] [--order THREADS] [--drains K,K:N..] [--swap RULE,RULE..].. [--moves-pinned] [--verbose] < SCRIPT
 *
 * --lagging: engines and reaper take turns only while a thread waits, and after the commands named by --drains (N rounds after answer K, or
 * until nothing can be done); without it a job runs when it is emitted. --order: which thread takes each turn, a digit each. --swap: the
 * project's rules that stand in for the kernel's, and `none` for none; --rules names them. Of several --swap each makes a run of its own, and a
 * line `S` with its rules stands before what it tells. --moves-pinned: the driver doesn't look at pins before a move.
 */
#include <sys/wait.h>
#include <unistd.h>

#include "peer.h"
#include "rules.h"

enum { MAX_RUNS = 64 };

struct words {
	const char *order, *drains;
	const char *rules[MAX_RUNS]; /* of each run */
	int runs;
	bool only_names_rules;
};

static void read_words(struct words *words, int argc, char **argv)
{
	int i;

	for (i = 1; i < argc; i++) {
		if (!strcmp(argv[i], "--lagging"))
			jobs_lag = true;
		else if (!strcmp(argv[i], "--moves-pinned"))
			driver_moves_pinned = true;
		else if (!strcmp(argv[i], "--rules"))
			words->only_names_rules = true;
		else if (!strcmp(argv[i], "--verbose"))
			peer_verbose = true;
		else if (!strcmp(argv[i], "--order") && i + 1 < argc)
			words->order = argv[++i];
		else if (!strcmp(argv[i], "--drains") && i + 1 < argc)
			words->drains = argv[++i];
		else if (!strcmp(argv[i], "--swap") && i + 1 < argc && words->runs < MAX_RUNS)
			words->rules[words->runs++] = argv[++i];
		else
			give_up("unknown word", argv[i]);
	}
}

static void run(const struct words *words, const char *rules)
{
	swap_rules(rules);
	make_engines();
	make_device();
	run_threads(words->order, words->drains);
	drain(UNTIL_REST);
	report_end();
}

/* Runs in a process of its own, since the kernel's files have variables that nothing sets back, and answers whether it failed. */
static int run_apart(const struct words *words, const char *rules)
{
	int status;

	printf("S 0 %s\n", rules);
	fflush(stdout);
	if (!fork()) {
		run(words, rules);
		exit(0);
	}
	wait(&status);
	return !WIFEXITED(status) || WEXITSTATUS(status);
}

int main(int argc, char **argv)
{
	struct words words = { .order = "", .drains = "" };
	int i;

	read_words(&words, argc, argv);
	if (words.only_names_rules) {
		print_rules();
		return 0;
	}
	read_script(stdin);
	if (words.runs < 2) {
		run(&words, words.runs ? words.rules[0] : "none");
		return 0;
	}
	for (i = 0; i < words.runs; i++)
		if (run_apart(&words, words.rules[i]))
			return 1;
	return 0;
}
