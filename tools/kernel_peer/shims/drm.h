/* Stands for drm_print.h, debugfs.h, seq_file.h and trace/events/dma_fence.h: nothing is printed or traced. */
#ifndef PEER_DRM_H
#define PEER_DRM_H

struct seq_file;
struct drm_device;
#define seq_printf(s, ...) ((void)(s))
#define debugfs_create_dir(name, parent) ((void)(parent), (struct dentry *)NULL)
#define debugfs_remove(d) ((void)(d))
#define debugfs_create_atomic_t(n, m, p, v) ((void)(v))
#define drm_debug_printer(name) ((struct drm_printer){ 0 })
#define drm_seq_file_printer(m) ((struct drm_printer){ 0 })
#define trace_dma_fence_init(f) ((void)(f))
#define trace_dma_fence_emit(f) ((void)(f))
#define trace_dma_fence_destroy(f) ((void)(f))
#define trace_dma_fence_enable_signal(f) ((void)(f))
#define trace_dma_fence_signaled(f) ((void)(f))
#define trace_dma_fence_wait_start(f) ((void)(f))
#define trace_dma_fence_wait_end(f) ((void)(f))
struct dma_fence;
struct iosys_map;
void drm_memcpy_from_wc(struct iosys_map *to, const struct iosys_map *from, unsigned long length);

#endif
