/* Engines: each runs its jobs in order, a packet a turn, and a job's fence is signalled in a turn of its own. */
#include "peer.h"

enum packet_kind { FILL, COPY, XOR, PROBE };
struct packet {
	enum packet_kind kind;
	u8 *to, *from;
	int length; /* bytes, within one page */
	u8 byte;
};
struct job {
	struct dma_fence base;
	spinlock_t lock;
	struct list_head ring;
	int context;
	struct packet *packets;
	int n, next;
	struct dma_fence **waits;
	int n_waits;
};

static struct list_head rings[MAX_ENGINES];
static u64 emitted[MAX_ENGINES], done[MAX_ENGINES];
static u64 first_context;
static FILE *probes;
static char *probe_text;
static size_t probe_size;

static const char *fence_name(struct dma_fence *fence)
{
	(void)fence;
	return "peer";
}
static const struct dma_fence_ops job_ops = {
	.use_64bit_seqno = true, .get_driver_name = fence_name, .get_timeline_name = fence_name,
};

void make_engines(void)
{
	int i;

	for (i = 0; i < MAX_ENGINES; i++)
		INIT_LIST_HEAD(&rings[i]);
	first_context = dma_fence_context_alloc(MAX_ENGINES);
	probes = open_memstream(&probe_text, &probe_size);
}

struct job *new_job(int context)
{
	struct job *job = calloc(1, sizeof(*job));

	job->context = context;
	return job;
}

static void add_packet(struct job *job, struct packet packet)
{
	if (!(job->n & (job->n - 1)))
		job->packets = realloc(job->packets, (job->n ? 2 * job->n : 1) * sizeof(packet));
	job->packets[job->n++] = packet;
}

void add_fill(struct job *job, u8 *to, int length, u8 byte)
{
	add_packet(job, (struct packet){ .kind = FILL, .to = to, .length = length, .byte = byte });
}

void add_copy(struct job *job, u8 *to, u8 *from, int length)
{
	add_packet(job, (struct packet){ .kind = COPY, .to = to, .from = from, .length = length });
}

void add_xor(struct job *job, u8 *to, u8 *from, int length)
{
	add_packet(job, (struct packet){ .kind = XOR, .to = to, .from = from, .length = length });
}

void add_probe(struct job *job, u8 *from, int length)
{
	add_packet(job, (struct packet){ .kind = PROBE, .from = from, .length = length });
}

void wait_for_fences(struct job *job, struct dma_resv *resv, enum dma_resv_usage usage)
{
	struct dma_resv_iter cursor;
	struct dma_fence *fence;

	dma_resv_for_each_fence(&cursor, resv, usage, fence) {
		if (dma_fence_is_signaled(fence))
			continue;
		job->waits = realloc(job->waits, (job->n_waits + 1) * sizeof(*job->waits));
		job->waits[job->n_waits++] = dma_fence_get(fence);
	}
}

struct dma_fence *emit(struct job *job)
{
	dma_fence_init(&job->base, &job_ops, &job->lock, first_context + job->context, ++emitted[job->context]);
	dma_fence_get(&job->base);
	list_add_tail(&job->ring, &rings[job->context]);
	if (!jobs_lag)
		drain(UNTIL_REST);
	return &job->base;
}

static void run_packet(struct job *job, struct packet *packet)
{
	int i;

	switch (packet->kind) {
	case FILL:
		memset(packet->to, packet->byte, packet->length);
		break;
	case COPY:
		memcpy(packet->to, packet->from, packet->length);
		break;
	case XOR:
		for (i = 0; i < packet->length; i++)
			packet->to[i] ^= packet->from[i];
		break;
	case PROBE:
		fprintf(probes, "J 0 e%d %llu ", job->context, (u64)job->base.seqno);
		for (i = 0; i < packet->length; i++)
			fprintf(probes, "%02x", packet->from[i]);
		fputc('\n', probes);
		break;
	}
}

static bool is_ready(struct job *job)
{
	int i;

	for (i = 0; i < job->n_waits; i++)
		if (!dma_fence_is_signaled(job->waits[i]))
			return false;
	return true;
}

static void finish(struct job *job)
{
	int i;

	list_del(&job->ring);
	done[job->context] = job->base.seqno;
	for (i = 0; i < job->n_waits; i++)
		dma_fence_put(job->waits[i]);
	free(job->waits);
	free(job->packets);
	dma_fence_signal(&job->base);
	dma_fence_put(&job->base); /* the ring's */
}

bool engine_turn(int context)
{
	struct job *job;

	if (list_empty(&rings[context]))
		return false;
	job = list_first_entry(&rings[context], struct job, ring);
	if (job->next == job->n)
		finish(job);
	else if (is_ready(job))
		run_packet(job, &job->packets[job->next++]);
	else
		return false;
	return true;
}

u64 last_done(int context) { return done[context]; }

void print_probes(void)
{
	fclose(probes);
	fputs(probe_text, stdout);
}
