/* What the parts of the peer share: the script, its buffers and threads, and what is told of a command. */
#ifndef PEER_H
#define PEER_H

#include "ttm_version.h"

enum { MAX_BUFFERS = 256, MAX_PLACES = 8, MAX_THREADS = 16, MAX_GROUPS = 16, MAX_ENGINES = 9, MAX_WORDS = 1024, MAX_SPANS = 4096 };

/* ---- the script (script.c) ---- */

/* which scripts can be run: those whose places the kernel has */
#ifdef TTM_PL_FLAG_DESIRED
enum { LAST_VERSION = 2 };
#else
enum { LAST_VERSION = 1 };
#endif

struct place_list {
	int n;
	struct ttm_place places[MAX_PLACES];
};
struct declaration {
	char name[16];
	int pages, priority, alignment;
	int group; /* -1 for none */
	struct place_list wanted, busy; /* of a script of version 2 `wanted` alone, with flags */
	struct peer_buffer *live; /* NULL while the buffer is dead */
};
struct command_list {
	char **lines;
	int n;
};
struct script {
	int version;
	bool buddy; /* VRAM is managed by blocks */
	int vram_pages, tt_pages, frames, slots;
	int engines; /* 1 to MAX_ENGINES: the move engine and those of the script */
	int declared, threads;
	struct declaration declarations[MAX_BUFFERS];
	struct command_list commands[MAX_THREADS];
};
extern struct script script;
void read_script(FILE *from);
struct declaration *declaration_of(const char *name);
/* Cuts the line at its spaces, and answers the number of words. */
int split_words(char *line, char **words, int max);
/* Prints why the peer can't go on, and ends it with status 3. */
void give_up(const char *why, const char *what) __attribute__((noreturn));

/* ---- buffers and the device (device.c) ---- */

struct peer_buffer {
	struct ttm_buffer_object tbo;
	struct declaration *declared;
};
extern struct ttm_device device;
extern struct ttm_lru_bulk_move groups[MAX_GROUPS];
static inline struct peer_buffer *buffer_of(struct ttm_buffer_object *bo) { return container_of(bo, struct peer_buffer, tbo); }
void make_device(void);
struct peer_buffer *make_buffer(struct declaration *declared);
const char *name_of(struct ttm_buffer_object *bo);
const char *memory_name(int mem_type);
/* Answers where the bytes of a page are, in VRAM or in a frame. */
u8 *page_bytes(struct ttm_buffer_object *bo, struct ttm_resource *res, unsigned long page);
/* Brings a reserved buffer to one of the places, and answers NULL or the refusal (placement.c). */
const char *validate(struct peer_buffer *buffer, const struct place_list *wanted, const struct place_list *busy);
/* Gives a reserved buffer's frames in SYSTEM to slots; an error if it can't (placement.c). */
int swap_out(struct peer_buffer *buffer);
extern const struct place_list whole_memory[3];
extern bool driver_moves_pinned;

/* ---- VRAM by blocks (buddy_vram.c) ---- */

struct page_span { unsigned long start, end; };
int buddy_vram_init(struct ttm_device *bdev, unsigned long pages);
int buddy_spans(struct ttm_resource *res, struct page_span *spans);
/* Writes the spans of a resource, by whichever manager, and answers their number. */
int spans_of(struct ttm_resource *res, struct page_span *spans);

/* ---- frames and slots (stores.c) ---- */

extern long frame_limit, slots_left;
extern int frames_used;
void make_frames(int n);

/* ---- engines (engines.c) ---- */

struct job;
struct job *new_job(int context);
void add_fill(struct job *job, u8 *to, int length, u8 byte);
void add_copy(struct job *job, u8 *to, u8 *from, int length);
void add_xor(struct job *job, u8 *to, u8 *from, int length);
void add_probe(struct job *job, u8 *from, int length);
/* Has the job wait for the unfinished fences of a reservation up to a usage. */
void wait_for_fences(struct job *job, struct dma_resv *resv, enum dma_resv_usage usage);
/* Gives the job to its engine; the caller gets a reference to its fence. */
struct dma_fence *emit(struct job *job);
void make_engines(void);
bool engine_turn(int context);
u64 last_done(int context);
void print_probes(void);

/* ---- turns of engines and reaper (turns.c) ---- */

extern bool jobs_lag; /* engines take turns only while a thread waits, or in a drain */
/* Gives the reaper and each engine a turn, and tells whether any of them did something. */
bool take_round(void);
void drain(long rounds);
enum { UNTIL_REST = -1 };
void note_deletion(struct ttm_buffer_object *bo);
int ghosts_of_device(void);

/* ---- threads (threads.c) ---- */

/* a search for pages: of a command's buffer, or of a victim on its way */
struct search {
	struct ttm_buffer_object *bo;
	bool is_hop;
	bool is_forced; /* a victim was caught, or a place was dry */
	bool met_ghost;
	struct search *outer;
};
/* the eviction that a search has begun */
struct eviction {
	struct ttm_buffer_object *victim;
	struct ttm_resource *from;
	struct eviction *outer;
};
struct thread {
	int number;
	struct search *search;
	struct eviction *eviction;
	struct ttm_buffer_object *skipped[MAX_BUFFERS]; /* victims that couldn't leave in this command */
	int skips;
	struct ttm_buffer_object *unpinned; /* by this command */
	bool wants_pages; /* frames or slots were short for the command's own buffer */
	bool is_emptying; /* the swapout is the command's own */
	bool has_turn; /* for the lock that comes next */
	char *victims, *notes, *answer;
	size_t victims_size, notes_size, answer_size;
};
extern struct thread *running; /* NULL while engines and reaper take their turns */
void run_threads(const char *order, const char *drains);
/* Lets other threads go before the thread's next turn. */
void give_way(void);
/* Takes a reservation, for which the thread has its turn already. */
void lock_at_once(struct dma_resv *resv, struct ww_acquire_ctx *ticket);
void tell(char **text, size_t *size, const char *format, ...) __attribute__((format(printf, 3, 4)));
#define tell_victim(...) tell(&running->victims, &running->victims_size, __VA_ARGS__)
#define tell_note(...) tell(&running->notes, &running->notes_size, __VA_ARGS__)
#define answer(...) tell(&running->answer, &running->answer_size, __VA_ARGS__)

/* ---- commands (commands.c, submit.c) ---- */

void do_command(char **words, int n);
const char *do_submit(char **words, int n);
/* Gives each page of the buffer a frame, unless it is in VRAM, and answers NULL or the refusal. */
const char *populate(struct peer_buffer *buffer);
void let_go(struct ttm_buffer_object *bo, bool refused);

/* ---- what is told after each command (report.c) ---- */

void report_command(int number);
void report_end(void);

#endif
