/*
 * Stands for linux/mm.h, linux/highmem.h, linux/io.h, linux/shmem_fs.h and linux/scatterlist.h: a page is 4,096 bytes with its frame's number.
 * Frames, the pool and shmem files are in driver/stores.c. What no script asks for (mappings, I/O memory) is a fault.
 */
#ifndef PEER_PAGES_H
#define PEER_PAGES_H

struct page {
	u8 *data;
	int frame;
};
struct page *alloc_page(gfp_t flags);
void __free_page(struct page *p);
static inline void *kmap(struct page *p) { return p->data; }
static inline void kunmap(struct page *p) { (void)p; }
static inline void *page_address(struct page *p) { return p->data; }
static inline void *kmap_local_page_prot(struct page *p, pgprot_t prot)
{
	(void)prot;
	return p->data;
}
static inline void kunmap_local(void *p) { (void)p; }
static inline void copy_highpage(struct page *to, struct page *from) { memcpy(to->data, from->data, PAGE_SIZE); }
static inline void set_page_dirty(struct page *p) { (void)p; }
static inline void mark_page_accessed(struct page *p) { (void)p; }
static inline void put_page(struct page *p) { (void)p; }

#define PAGE_KERNEL ((pgprot_t){ 0 })
static inline pgprot_t pgprot_writecombine(pgprot_t p) { return p; }
static inline pgprot_t pgprot_noncached(pgprot_t p) { return p; }
static inline pgprot_t pgprot_decrypted(pgprot_t p) { return p; }
static struct { int x86; } boot_cpu_data __maybe_unused = { 6 };

static inline void *peer_unmodelled(const char *what) { peer_fault("%s isn't modelled", what); }
#define vmap(p, n, f, pr) peer_unmodelled("vmap")
#define vunmap(p) ((void)(p))
#define ioremap(o, s) peer_unmodelled("ioremap")
#define ioremap_wc(o, s) peer_unmodelled("ioremap_wc")
#define ioremap_cache(o, s) peer_unmodelled("ioremap_cache")
#define iounmap(p) ((void)(p))
#define memremap(o, s, f) peer_unmodelled("memremap")
#define memunmap(p) ((void)(p))
#define MEMREMAP_WB 1
#define MEMREMAP_WT 2
#define MEMREMAP_WC 4
#define memset_io(d, v, n) memset((void *)(d), v, n)
#define memcpy_toio(d, s, n) memcpy((void *)(d), s, n)
#define memcpy_fromio(d, s, n) memcpy(d, (const void *)(s), n)
struct io_mapping { int unused; };
#define io_mapping_map_local_wc(m, o) peer_unmodelled("io_mapping_map_local_wc")
#define io_mapping_unmap_local(p) ((void)(p))

/* linux/scatterlist.h: buffers here have none */
struct scatterlist {
	dma_addr_t address;
	unsigned int length;
};
struct sg_table { struct scatterlist *sgl; };
#define sg_next(s) ((s) + 1)
#define sg_dma_len(s) ((s)->length)
#define sg_dma_address(s) ((s)->address)

/* the shmem file of a swapped ttm_tt: a list of pages of its own, each of which takes a slot */
struct address_space {
	unsigned long n;
	struct page **pages;
};
struct file { struct address_space *f_mapping; };
struct file *shmem_file_setup(const char *name, loff_t size, unsigned long flags);
struct page *shmem_read_mapping_page_gfp(struct address_space *space, pgoff_t i, gfp_t flags);
void fput(struct file *file);
#define mapping_gfp_mask(space) ((void)(space), GFP_KERNEL)
#define unmap_mapping_range(space, start, length, even_cows) ((void)(space))

/* linux/mm.h: TTM lets half of what the machine has be pages of buffers */
struct sysinfo {
	unsigned long totalram, totalhigh;
	unsigned int mem_unit;
};
extern unsigned long peer_total_pages;
static inline void si_meminfo(struct sysinfo *info)
{
	*info = (struct sysinfo){ .totalram = peer_total_pages, .mem_unit = PAGE_SIZE };
}
#define CC_ATTR_GUEST_MEM_ENCRYPT 0
#define cc_platform_has(attribute) false

#endif
