/* Stands for ttm_pool.c, the page allocator, shmem, RCU's callbacks and the nodes of the address space. */
#include "peer.h"
#include "rules.h"

unsigned long peer_warnings;
bool peer_verbose;
unsigned long peer_total_pages;
const struct dma_fence_ops dma_fence_chain_ops; /* there are no chains */

/* ---- RCU ---- */

static void **later;
static size_t later_n, later_max;

void peer_free_later(void *p)
{
	if (later_n == later_max) {
		later_max = later_max * 2 + 64;
		later = realloc(later, later_max * sizeof(*later));
	}
	later[later_n++] = p;
}

void peer_free_now(void)
{
	while (later_n)
		free(later[--later_n]);
}

/* ---- frames: the lowest free one, poisoned when it is given back ---- */

static struct page *frames;
static bool *frame_is_held;
long frame_limit;
int frames_used;

void make_frames(int n)
{
	frames = calloc(n, sizeof(*frames));
	frame_is_held = calloc(n, sizeof(*frame_is_held));
	frame_limit = n;
}

struct page *alloc_page(gfp_t flags)
{
	int i = 0;

	while (i < frame_limit && frame_is_held[i])
		i++;
	if (i == frame_limit)
		return NULL;
	frame_is_held[i] = true;
	frames_used++;
	if (!frames[i].data)
		frames[i].data = malloc(PAGE_SIZE);
	frames[i].frame = i;
	memset(frames[i].data, flags & __GFP_ZERO ? 0 : 0xa5, PAGE_SIZE);
	return &frames[i];
}

void __free_page(struct page *p)
{
	BUG_ON(!frame_is_held[p->frame]);
	frame_is_held[p->frame] = false;
	frames_used--;
	memset(p->data, 0xdd, PAGE_SIZE);
}

/* ---- the pool: pages one by one, all or none, zeroed where the flag says so ---- */

int ttm_pool_alloc(struct ttm_pool *pool, struct ttm_tt *tt, struct ttm_operation_ctx *ctx)
{
	u32 i;

	(void)ctx;
	for (i = 0; i < tt->num_pages; i++) {
		WARN_ON(tt->pages[i]);
		do {
			tt->pages[i] = alloc_page(tt->page_flags & TTM_TT_FLAG_ZERO_ALLOC ? __GFP_ZERO : 0);
		} while (!tt->pages[i] && wait_for_ghost_frames());
		if (!tt->pages[i]) {
			ttm_pool_free(pool, tt);
			note_no_pages();
			return -ENOMEM;
		}
	}
	return 0;
}

void ttm_pool_free(struct ttm_pool *pool, struct ttm_tt *tt)
{
	u32 i;

	(void)pool;
	for (i = 0; i < tt->num_pages; i++) {
		if (tt->pages[i])
			__free_page(tt->pages[i]);
		tt->pages[i] = NULL;
	}
}

#ifdef PEER_KERNEL_6_12
void ttm_pool_init(struct ttm_pool *pool, struct device *dev, int nid, bool use_dma_alloc, bool use_dma32)
#else
void ttm_pool_init(struct ttm_pool *pool, struct device *dev, bool use_dma_alloc, bool use_dma32)
#endif
{
#ifdef PEER_KERNEL_6_12
	pool->nid = nid;
#endif
	pool->dev = dev;
	pool->use_dma_alloc = use_dma_alloc;
	pool->use_dma32 = use_dma32;
}

void ttm_pool_fini(struct ttm_pool *pool) { (void)pool; }

int ttm_pool_mgr_init(unsigned long num_pages)
{
	(void)num_pages;
	return 0;
}

void ttm_pool_mgr_fini(void) { }

/* ---- shmem: a file is a list of pages, and each takes a slot while the file is there ---- */

long slots_left;

struct file *shmem_file_setup(const char *name, loff_t size, unsigned long flags)
{
	struct file *file = calloc(1, sizeof(*file));
	struct address_space *space = calloc(1, sizeof(*space));

	(void)name;
	(void)flags;
	space->n = size >> PAGE_SHIFT;
	space->pages = calloc(space->n, sizeof(*space->pages));
	file->f_mapping = space;
	return file;
}

struct page *shmem_read_mapping_page_gfp(struct address_space *space, pgoff_t i, gfp_t flags)
{
	(void)flags;
	if (!space->pages[i]) {
		if (slots_left <= 0) {
			note_no_pages();
			return ERR_PTR(-ENOMEM);
		}
		slots_left--;
		space->pages[i] = calloc(1, sizeof(struct page));
		space->pages[i]->data = calloc(1, PAGE_SIZE);
	}
	return space->pages[i];
}

void drop_slot(struct address_space *space, unsigned long i)
{
	if (!space->pages[i])
		return;
	slots_left++;
	free(space->pages[i]->data);
	free(space->pages[i]);
	space->pages[i] = NULL;
}

void fput(struct file *file)
{
	unsigned long i;

	for (i = 0; i < file->f_mapping->n; i++)
		drop_slot(file->f_mapping, i);
	free(file->f_mapping->pages);
	free(file->f_mapping);
	free(file);
}

/* ---- the rest ---- */

void drm_memcpy_from_wc(struct iosys_map *to, const struct iosys_map *from, unsigned long length)
{
	memcpy(to->vaddr, from->vaddr, length);
}

int drm_vma_offset_add(struct drm_vma_offset_manager *manager, struct drm_vma_offset_node *node, unsigned long pages)
{
	(void)manager;
	(void)node;
	(void)pages;
	return 0;
}

void drm_vma_offset_remove(struct drm_vma_offset_manager *manager, struct drm_vma_offset_node *node)
{
	(void)manager;
	(void)node;
}
