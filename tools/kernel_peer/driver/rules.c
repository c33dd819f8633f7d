/* Which of the rules are swapped. */
#include "peer.h"
#include "rules.h"

static const char *const rule_names[RULES] = {
	[RULE_TIE] = "tie", [RULE_SOLE] = "sole", [RULE_UNPIN] = "unpin", [RULE_CONTIG] = "contig",
	[RULE_SHORT] = "short", [RULE_GHOST] = "ghost", [RULE_RETRY] = "retry", [RULE_SKIP] = "skip",
	[RULE_FREED] = "freed", [RULE_REAP] = "reap", [RULE_NOTOUCH] = "notouch",
	[RULE_BUSY] = "busy", [RULE_ORDER] = "order", [RULE_PARTIAL] = "partial", [RULE_SLOTS] = "slots",
#ifndef PEER_WITHOUT_BLOCKS
	[RULE_BLOCK] = "block",
#endif
#ifdef PEER_KERNEL_6_12
	[RULE_STAY] = "stay",
#endif
};
static bool is_ours[RULES];

bool ours(enum rule rule) { return is_ours[rule]; }

void swap_rules(const char *words)
{
	char *copy = strdup(words), *rest, *word;
	int i;

	for (word = strtok_r(copy, ",", &rest); word; word = strtok_r(NULL, ",", &rest)) {
		bool all = !strcmp(word, "all"), known = all || !strcmp(word, "none");

		for (i = 0; i < RULES; i++)
			if (rule_names[i] && (all || !strcmp(word, rule_names[i])))
				is_ours[i] = known = true;
		if (!known)
			give_up("no rule", word);
	}
	free(copy);
}

void print_rules(void)
{
	int i;

	for (i = 0; i < RULES; i++)
		if (rule_names[i])
			puts(rule_names[i]);
}
