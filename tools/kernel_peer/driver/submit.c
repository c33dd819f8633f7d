/* `submit`: reserves its buffers by ttm_execbuf_util, validates them in order, and emits a job with their addresses of now. */
#include "peer.h"
#include "rules.h"

enum { MAX_NAMED = 16, MAX_OPS = 64 };

enum op_kind { OP_FILL, OP_COPY, OP_XOR, OP_PROBE };
struct op {
	enum op_kind kind;
	struct declaration *to, *from; /* of a probe, `to` is what it shows; `from` is of copies and xors */
	long to_offset, from_offset, length;
	u8 byte;
};
struct submission {
	int engine, n_ops, n;
	struct op ops[MAX_OPS];
	struct peer_buffer *buffers[MAX_NAMED]; /* in order of first mention */
	bool is_written[MAX_NAMED];
	struct ttm_validate_buffer entries[MAX_NAMED];
	struct list_head list;
	struct ww_acquire_ctx ticket;
};

/* Reads the operation at the words, and answers how many words it has. */
static int read_op(struct op *op, char **words)
{
	static const char *const names[] = { [OP_FILL] = "fill", [OP_COPY] = "copy", [OP_XOR] = "xor", [OP_PROBE] = "probe" };

	for (op->kind = OP_FILL; strcmp(words[0], names[op->kind]); op->kind++)
		if (op->kind == OP_PROBE)
			give_up("no such operation", words[0]);
	op->to = declaration_of(words[1]);
	op->to_offset = atol(words[2]);
	if (op->kind == OP_COPY || op->kind == OP_XOR) {
		op->from = declaration_of(words[3]);
		op->from_offset = atol(words[4]);
		op->length = atol(words[5]);
		return 6;
	}
	op->length = atol(words[3]);
	if (op->kind == OP_PROBE)
		return 4;
	op->byte = strtoul(words[4], NULL, 16);
	return 5;
}

/* Adds a named buffer, and tells whether it is live. */
static bool add_buffer(struct submission *s, struct declaration *declared, bool is_written)
{
	int i;

	if (!declared->live)
		return false;
	for (i = 0; i < s->n && s->buffers[i] != declared->live; i++)
		;
	if (i == s->n) {
		s->buffers[s->n++] = declared->live;
		s->is_written[i] = false;
	}
	s->is_written[i] |= is_written;
	return true;
}

/* Reads a job, and tells whether all its buffers are live. */
static bool read_submission(struct submission *s, char **words, int n)
{
	int at;

	s->engine = atoi(words[1]);
	for (at = 2; at < n; at++) { /* (past the `;`) */
		struct op *op = &s->ops[s->n_ops++];

		at += read_op(op, words + at);
		if (!add_buffer(s, op->to, op->kind != OP_PROBE) || (op->from && !add_buffer(s, op->from, false)))
			return false;
	}
	return true;
}

/* Answers which buffer is reserved next: `first`, which was held by another, unless it is -1, and else by their order; -1 at the end. */
static int next_missing(struct submission *s, const bool *held, int first)
{
	int i;

	if (first >= 0 && !held[first])
		return first;
	for (i = 0; i < s->n; i++)
		if (!held[i])
			return i;
	return -1;
}

/* Makes room for the job's fence in each buffer. */
static void reserve_fences(struct submission *s)
{
	int i;

	for (i = 0; i < s->n; i++)
		if (dma_resv_reserve_fences(s->buffers[i]->tbo.base.resv, 1))
			peer_fault("no fences");
}

/* Reserves by rule order: after a back-off the others are reserved, fenced and touched in their order, and not as the list has them then. */
static void reserve_in_order(struct submission *s)
{
	bool held[MAX_NAMED] = { false };
	int at, i, first = -1;

	ww_acquire_init(&s->ticket, &reservation_ww_class);
	while ((at = next_missing(s, held, first)) >= 0) {
		held[at] = !dma_resv_lock(s->buffers[at]->tbo.base.resv, &s->ticket);
		if (held[at])
			continue;
		for (i = 0; i < s->n; i++) {
			if (held[i])
				dma_resv_unlock(s->buffers[i]->tbo.base.resv);
			held[i] = false;
		}
		first = at;
	}
	reserve_fences(s);
}

static void reserve(struct submission *s)
{
	int i;

	INIT_LIST_HEAD(&s->list);
	for (i = 0; i < s->n; i++) {
		s->entries[i].bo = &s->buffers[i]->tbo;
		s->entries[i].num_shared = s->is_written[i] ? 0 : 1;
		list_add_tail(&s->entries[i].head, &s->list);
	}
	if (ours(RULE_ORDER))
		reserve_in_order(s);
	else if (ttm_eu_reserve_buffers(&s->ticket, &s->list, false, NULL))
		peer_fault("no reservations");
}

static const char *validate_all(struct submission *s)
{
	const char *refusal = NULL;
	int i;

	for (i = 0; i < s->n && !refusal; i++) {
		struct declaration *declared = s->buffers[i]->declared;

		refusal = validate(s->buffers[i], &declared->wanted, &declared->busy);
		if (!refusal)
			refusal = populate(s->buffers[i]);
	}
	return refusal;
}

static void back_off(struct submission *s)
{
	int i;

	if (!ours(RULE_NOTOUCH)) {
		ttm_eu_backoff_reservation(&s->ticket, &s->list);
		return;
	}
	for (i = 0; i < s->n; i++)
		dma_resv_unlock(s->buffers[i]->tbo.base.resv);
	ww_acquire_fini(&s->ticket);
}

static u8 *bytes_at(struct declaration *declared, long offset)
{
	struct ttm_buffer_object *bo = &declared->live->tbo;

	return page_bytes(bo, bo->resource, offset / PAGE_SIZE) + offset % PAGE_SIZE;
}

/* Answers how many bytes of an operation, from `done` on, lie in one page of each of its buffers. */
static long piece_of(const struct op *op, long done)
{
	long piece = min(op->length - done, (long)PAGE_SIZE - (op->to_offset + done) % (long)PAGE_SIZE);

	return op->from ? min(piece, (long)PAGE_SIZE - (op->from_offset + done) % (long)PAGE_SIZE) : piece;
}

static void add_op(struct job *job, const struct op *op)
{
	long done, piece;

	for (done = 0; done < op->length; done += piece) {
		u8 *to = bytes_at(op->to, op->to_offset + done);
		u8 *from = op->from ? bytes_at(op->from, op->from_offset + done) : NULL;

		piece = piece_of(op, done);
		if (op->kind == OP_FILL)
			add_fill(job, to, piece, op->byte);
		else if (op->kind == OP_COPY)
			add_copy(job, to, from, piece);
		else if (op->kind == OP_XOR)
			add_xor(job, to, from, piece);
		else
			add_probe(job, to, piece);
	}
}

static struct dma_fence *emit_submission(struct submission *s)
{
	struct job *job = new_job(s->engine);
	int i;

	for (i = 0; i < s->n; i++)
		wait_for_fences(job, s->buffers[i]->tbo.base.resv, dma_resv_usage_rw(s->is_written[i]));
	for (i = 0; i < s->n_ops; i++)
		add_op(job, &s->ops[i]);
	return emit(job);
}

const char *do_submit(char **words, int n)
{
	struct submission s = { 0 };
	struct dma_fence *fence;
	const char *refusal;

	if (!read_submission(&s, words, n))
		return "NoBuffer";
	reserve(&s);
	give_way();
	refusal = validate_all(&s);
	if (refusal) {
		back_off(&s);
		return refusal;
	}
	reserve_fences(&s); /* (a move may have taken the room that was there) */
	fence = emit_submission(&s);
	ttm_eu_fence_buffer_objects(&s.ticket, &s.list, fence);
	dma_fence_put(fence);
	return NULL;
}
