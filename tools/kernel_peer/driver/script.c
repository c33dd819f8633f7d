/* Reads a script of docs/SPECIFICATION.md. The program is asked first whether it is one, so only what the peer can't do is refused here. */
#include "peer.h"

struct script script;

void give_up(const char *why, const char *what)
{
	fprintf(stderr, "%s: %s\n", why, what);
	exit(3);
}

int split_words(char *line, char **words, int max)
{
	int n = 0;
	char *rest, *word;

	for (word = strtok_r(line, " \n", &rest); word; word = strtok_r(NULL, " \n", &rest)) {
		if (n == max)
			give_up("too many words", words[0]);
		words[n++] = word;
	}
	return n;
}

struct declaration *declaration_of(const char *name)
{
	int i;

	for (i = 0; i < script.declared; i++)
		if (!strcmp(script.declarations[i].name, name))
			return &script.declarations[i];
	give_up("no buffer", name);
}

static int memory_type(const char *word)
{
	switch (word[0]) {
	case 's':
		return TTM_PL_SYSTEM;
	case 't':
		return TTM_PL_TT;
	default:
		return TTM_PL_VRAM;
	}
}

static void read_places(char *word, struct place_list *list)
{
	char *rest, *text, *range;

	for (text = strtok_r(word, ",", &rest); text; text = strtok_r(NULL, ",", &rest)) {
		struct ttm_place *place = &list->places[list->n++];

		place->mem_type = memory_type(text);
		if (strstr(text, "+top"))
			place->flags |= TTM_PL_FLAG_TOPDOWN;
		if (strstr(text, "+contig"))
			place->flags |= TTM_PL_FLAG_CONTIGUOUS;
#ifdef TTM_PL_FLAG_DESIRED
		if (strstr(text, "+desired"))
			place->flags |= TTM_PL_FLAG_DESIRED;
		if (strstr(text, "+fallback"))
			place->flags |= TTM_PL_FLAG_FALLBACK;
#endif
		range = strchr(text, '@');
		if (range)
			sscanf(range + 1, "%u-%u", &place->fpfn, &place->lpfn);
	}
}

/* Reads buffer NAME PAGES prio P group G align A want LIST busy LIST, or in version 2 .. place LIST */
static void read_declaration(char **words)
{
	struct declaration *declared = &script.declarations[script.declared++];

	strncpy(declared->name, words[1], sizeof(declared->name) - 1);
	declared->pages = atoi(words[2]);
	declared->priority = atoi(words[4]);
	declared->group = words[6][0] == '-' ? -1 : atoi(words[6]);
	declared->alignment = atoi(words[8]);
	read_places(words[10], &declared->wanted);
	if (script.version == 1)
		read_places(words[12], &declared->busy);
}

static void read_head(char **words)
{
	if (!strcmp(words[0], "ttm")) {
		script.version = atoi(words[1]);
		if (script.version > LAST_VERSION)
			give_up("this kernel's places have no flags: version", words[1]);
	} else if (!strcmp(words[0], "vram")) {
		script.buddy = !strcmp(words[1], "buddy");
		script.vram_pages = atoi(words[2]);
	} else if (!strcmp(words[0], "tt"))
		script.tt_pages = atoi(words[1]);
	else if (!strcmp(words[0], "frames"))
		script.frames = atoi(words[1]);
	else if (!strcmp(words[0], "swap"))
		script.slots = atoi(words[1]);
	else if (!strcmp(words[0], "engines"))
		script.engines = atoi(words[1]) + 1;
	else if (!strcmp(words[0], "buffer"))
		read_declaration(words);
	else
		give_up("no such line", words[0]);
}

static void add_command(struct command_list *list, const char *line)
{
	list->lines = realloc(list->lines, (list->n + 1) * sizeof(*list->lines));
	list->lines[list->n++] = strdup(line);
}

void read_script(FILE *from)
{
	char *line = NULL, *words[16];
	size_t size = 0;

	while (getline(&line, &size, from) > 0 && strcmp(line, "end\n")) {
		if (!strcmp(line, "thread\n"))
			script.threads++;
		else if (!strncmp(line, "schedule ", 9))
			continue; /* the order is the caller's */
		else if (script.threads)
			add_command(&script.commands[script.threads - 1], line);
		else {
			split_words(line, words, 16);
			read_head(words);
		}
	}
	free(line);
}
