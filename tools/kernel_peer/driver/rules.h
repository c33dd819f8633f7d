/* The project's rules that can stand in for the kernel's, one by one. README.md says what each of them is. */
#ifndef RULES_H
#define RULES_H

enum rule {
	RULE_TIE, RULE_SOLE, RULE_UNPIN, RULE_CONTIG, RULE_SHORT, RULE_GHOST, RULE_RETRY, RULE_SKIP, RULE_FREED, RULE_REAP, RULE_NOTOUCH,
	RULE_BLOCK, RULE_BUSY, RULE_ORDER, RULE_PARTIAL, RULE_SLOTS, RULE_STAY,
	RULES
};

/* a search begins again at its first place */
enum { SEARCH_AGAIN = 1234 };

/* Tells whether the project's rule stands in for the kernel's. */
bool ours(enum rule rule);
/* Swaps the rules of the words, which commas join; `all` for all, and `none` for none. */
void swap_rules(const char *words);
void print_rules(void);

/* Notes that the search at work has this victim (linux_VERSION/search.c). */
void note_victim(struct ttm_buffer_object *bo);
/* Tells whether the resource is that of the victim at work, which so stayed where it was. */
bool could_not_leave(struct ttm_resource *res);
/* Notes that no frame or slot was free, if it was for the command's own buffer (searches.c). */
void note_no_pages(void);
/* Tells whether the place has fewer pages than the buffer. */
bool is_short(struct ttm_resource_manager *man, const struct ttm_place *place, struct ttm_buffer_object *bo);
/* Notes that a buffer has moved to the resource (rules_lists.c). */
void note_moved(struct ttm_resource *res);
/* Tells whether a walk over the lists leaves the resource out (rules_lists.c). */
bool is_passed_over(struct ttm_resource *res);

/* Lets the others take a turn, by rule ghost, if a ghost has frames, and tells whether one has (rules_ghosts.c). */
bool wait_for_ghost_frames(void);
/* Lets the others take a turn if a ghost has a page in the place's reach, and tells whether one has. */
bool wait_for_ghost_in(struct ttm_resource_manager *man, const struct ttm_place *place);
/* Has the ghosts of a buffer not keep it alive, by rule freed. */
void let_ghosts_forget(struct ttm_buffer_object *bo);

/* Tells whether any page has a frame; gives to swap what a reserved buffer in SYSTEM can, and tells whether it was all (rules_pages.c). */
bool has_frames(const struct ttm_tt *tt);
bool swap_pages_out(struct ttm_buffer_object *bo);
/* Gives back the slots of a buffer that is being freed, by rule slots. */
void give_slots_back(struct ttm_buffer_object *bo);
/* Moves a reserved buffer from TT to SYSTEM, when it is idle; 0 or an error (places.c). */
int move_to_system(struct ttm_buffer_object *bo);

/* Tells whether the buffer object is one of the script, and not a ghost that TTM made (device.c). */
bool is_buffer(struct ttm_buffer_object *bo);
/* Gives a slot of a shmem file back (stores.c). */
void drop_slot(struct address_space *space, unsigned long i);

/* Answers the ghost made after a ghost, or the oldest for NULL; NULL at the end (linux_VERSION/ghosts.c). */
struct ttm_buffer_object *next_ghost(struct ttm_buffer_object *ghost);
/* Destroys the ghosts that are idle, as the kernel's work does (linux_VERSION/ghosts.c). */
void run_reaper(void);

/* Tells whether the list is that of a hop (places.c). */
bool is_hop(const struct ttm_placement *placement);
/* what other kernels have otherwise (linux_VERSION/placement.c) */
void set_places(struct ttm_placement *placement, const struct ttm_place *place);
unsigned long resource_pages(const struct ttm_resource *res);

#endif
