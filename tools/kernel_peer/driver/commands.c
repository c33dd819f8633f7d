/* The commands of a script but `submit`, each as a driver makes it of TTM's calls. Each takes a ticket, but for `new` and `touch`. */
#include "peer.h"
#include "rules.h"

/* Does a command with its reserved buffer, and answers NULL or the refusal. */
typedef const char *action(struct peer_buffer *buffer, char **words);

void let_go(struct ttm_buffer_object *bo, bool refused)
{
	if (refused && ours(RULE_NOTOUCH))
		dma_resv_unlock(bo->base.resv);
	else
		ttm_bo_unreserve(bo);
}

const char *populate(struct peer_buffer *buffer)
{
	struct ttm_operation_ctx ctx = { 0 };

	if (buffer->tbo.resource->mem_type == TTM_PL_VRAM)
		return NULL;
	return ttm_tt_populate(&device, buffer->tbo.ttm, &ctx) ? "NoPages" : NULL;
}

/* ---- what commands do with a reserved buffer ---- */

static const char *do_pin(struct peer_buffer *buffer, char **words)
{
	(void)words;
	if (buffer->tbo.pin_count == 255)
		return "PinMax";
	ttm_bo_pin(&buffer->tbo);
	return NULL;
}

static const char *do_unpin(struct peer_buffer *buffer, char **words)
{
	(void)words;
	if (!buffer->tbo.pin_count)
		return "NotPinned";
	ttm_bo_unpin(&buffer->tbo);
	running->unpinned = &buffer->tbo;
	return NULL;
}

static const char *do_free(struct peer_buffer *buffer, char **words)
{
	(void)words;
	if (buffer->tbo.pin_count)
		return "Pinned";
	ttm_bo_set_bulk_move(&buffer->tbo, NULL);
	buffer->declared->live = NULL;
	return NULL;
}

static void answer_place(struct peer_buffer *buffer)
{
	struct page_span spans[MAX_SPANS];
	int i, n = spans_of(buffer->tbo.resource, spans);

	answer("find %s ", memory_name(buffer->tbo.resource->mem_type));
	for (i = 0; i < n; i++)
		answer("%s%lu-%lu", i ? "," : "", spans[i].start, spans[i].end);
	if (!n)
		answer("-");
}

static const char *do_find(struct peer_buffer *buffer, char **words)
{
	const char *refusal = validate(buffer, &buffer->declared->wanted, &buffer->declared->busy);

	(void)words;
	if (!refusal)
		answer_place(buffer);
	return refusal;
}

static const char *do_move(struct peer_buffer *buffer, char **words)
{
	int memory = !strcmp(words[2], "sys") ? TTM_PL_SYSTEM : !strcmp(words[2], "tt") ? TTM_PL_TT : TTM_PL_VRAM;

	return validate(buffer, &whole_memory[memory], &whole_memory[memory]);
}

static u8 *byte_at(struct peer_buffer *buffer, long offset)
{
	return page_bytes(&buffer->tbo, buffer->tbo.resource, offset / PAGE_SIZE) + offset % PAGE_SIZE;
}

static const char *do_write(struct peer_buffer *buffer, char **words)
{
	long i, offset = atol(words[2]), length = strlen(words[3]) / 2;
	unsigned int byte;

	if (populate(buffer))
		return "NoPages";
	dma_resv_wait_timeout(buffer->tbo.base.resv, DMA_RESV_USAGE_READ, false, MAX_SCHEDULE_TIMEOUT);
	for (i = 0; i < length; i++) {
		sscanf(words[3] + 2 * i, "%2x", &byte);
		*byte_at(buffer, offset + i) = byte;
	}
	return NULL;
}

static const char *do_read(struct peer_buffer *buffer, char **words)
{
	long i, offset = atol(words[2]), length = atol(words[3]);

	if (populate(buffer))
		return "NoPages";
	dma_resv_wait_timeout(buffer->tbo.base.resv, DMA_RESV_USAGE_WRITE, false, MAX_SCHEDULE_TIMEOUT);
	answer("read ");
	for (i = 0; i < length; i++)
		answer("%02x", *byte_at(buffer, offset + i));
	return NULL;
}

static const char *do_swapout(struct peer_buffer *buffer, char **words)
{
	const char *refusal;
	int ret;

	(void)words;
	if (buffer->tbo.pin_count)
		return "Pinned";
	refusal = validate(buffer, &whole_memory[TTM_PL_SYSTEM], &whole_memory[TTM_PL_SYSTEM]);
	if (refusal || !has_frames(buffer->tbo.ttm))
		return refusal;
	if (ours(RULE_PARTIAL))
		return swap_pages_out(&buffer->tbo) ? NULL : "NoSwap";
	running->is_emptying = true;
	ret = swap_out(buffer);
	running->is_emptying = false;
	return ret < 0 ? "NoSwap" : NULL;
}

/* ---- commands ---- */

static const char *with_buffer(struct declaration *declared, action *act, char **words)
{
	struct peer_buffer *buffer;
	struct ww_acquire_ctx ticket;
	const char *refusal = "NoBuffer";

	ww_acquire_init(&ticket, &reservation_ww_class);
	give_way();
	buffer = declared->live;
	if (!buffer)
		return refusal;
	ttm_bo_get(&buffer->tbo);
	lock_at_once(buffer->tbo.base.resv, &ticket);
	if (declared->live == buffer) {
		give_way();
		refusal = act(buffer, words);
	}
	if (act == do_free && !refusal) {
		if (ours(RULE_SLOTS))
			give_slots_back(&buffer->tbo);
		dma_resv_unlock(buffer->tbo.base.resv);
		if (ours(RULE_FREED))
			let_ghosts_forget(&buffer->tbo);
		ttm_bo_put(&buffer->tbo);
	} else
		let_go(&buffer->tbo, refusal);
	ww_acquire_fini(&ticket);
	ttm_bo_put(&buffer->tbo);
	return refusal;
}

static const char *do_new(struct declaration *declared)
{
	if (declared->live)
		return "Exists";
	declared->live = make_buffer(declared);
	return NULL;
}

/* Moves a group in bulk, for which the members' reservations must be held: by others, or by the command. */
static const char *do_touch(int group)
{
	struct ttm_buffer_object *held[MAX_BUFFERS];
	int i, n = 0;

	for (i = 0; i < script.declared; i++) {
		struct declaration *declared = &script.declarations[i];

		if (declared->group == group && declared->live && dma_resv_trylock(declared->live->tbo.base.resv))
			held[n++] = &declared->live->tbo;
	}
	spin_lock(&device.lru_lock);
	ttm_lru_bulk_move_tail(&groups[group]);
	spin_unlock(&device.lru_lock);
	while (n)
		dma_resv_unlock(held[--n]->base.resv);
	return NULL;
}

static const struct { const char *word; action *act; } actions[] = {
	{ "free", do_free }, { "pin", do_pin }, { "unpin", do_unpin }, { "find", do_find }, { "move", do_move },
	{ "write", do_write }, { "read", do_read }, { "swapout", do_swapout },
};

static const char *run_command(char **words, int n)
{
	size_t i;

	if (!strcmp(words[0], "new"))
		return do_new(declaration_of(words[1]));
	if (!strcmp(words[0], "touch"))
		return do_touch(atoi(words[1]));
	if (!strcmp(words[0], "submit"))
		return do_submit(words, n);
	for (i = 0; i < ARRAY_SIZE(actions); i++)
		if (!strcmp(words[0], actions[i].word))
			return with_buffer(declaration_of(words[1]), actions[i].act, words);
	give_up("no such command", words[0]);
}

void do_command(char **words, int n)
{
	const char *refusal = run_command(words, n);

	if (refusal)
		answer("refused %s", refusal);
	else if (!running->answer_size)
		answer("ok");
}
