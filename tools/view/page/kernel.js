"use strict";
// The function of the kernel whose work an entry is, by the names and files of Linux 6.1. A function that 6.12 has in its place follows it.

const KERNEL = {
  ticket: "ww_acquire_init(), in ttm_eu_reserve_buffers() (ttm_execbuf_util.c)",
  reserve: "ttm_bo_reserve() (ttm_bo_driver.h)",
  backoff: "ttm_eu_backoff_reservation_reverse() after -EDEADLK (ttm_execbuf_util.c)",
  new: "ttm_bo_init_reserved() (ttm_bo.c)",
  free: "ttm_bo_release() (ttm_bo.c)",
  take: "ttm_resource_alloc() (ttm_resource.c), ttm_bo_add_move_fence() (ttm_bo.c)",
  untake: "ttm_resource_free() (ttm_resource.c)",
  populate: "ttm_tt_populate() (ttm_tt.c)",
  swapin: "ttm_tt_swapin() (ttm_tt.c)",
  depopulate: "ttm_tt_unpopulate() (ttm_tt.c)",
  bind: "the driver's move(), which ends in ttm_bo_move_null() (ttm_bo_driver.h)",
  unbind: "the driver's move(), which begins with ttm_bo_wait_ctx() (ttm_bo_api.h)",
  move: "ttm_bo_move_accel_cleanup(): ttm_bo_move_to_ghost() (ttm_bo_util.c)",
  moveNow: "ttm_bo_move_accel_cleanup(): ttm_bo_move_pipeline_evict() (ttm_bo_util.c)",
  catch: "ttm_mem_evict_first() (ttm_bo.c; 6.12: ttm_bo_evict_alloc())",
  catchSwap: "ttm_device_swapout() (ttm_device.c)",
  loose: "ttm_bo_unreserve() (ttm_bo_driver.h)",
  looseSwap: "the end of ttm_bo_swapout(), which doesn't touch it (ttm_bo.c)",
  skip: "ttm_mem_evict_first() after an error of ttm_bo_evict() (ttm_bo.c; 6.12: ttm_bo_evict_alloc())",
  dry: "ttm_bo_mem_force_space(): -ENOSPC of ttm_resource_alloc(), and no victim (ttm_bo.c; 6.12: ttm_bo_alloc_resource())",
  swapout: "ttm_tt_swapout() (ttm_tt.c)",
  nopages: "-ENOMEM of ttm_tt_populate() (ttm_tt.c)",
  arm: "drm_sched_job_arm() (sched_main.c), dma_resv_add_fence() (dma-resv.c)",
  packet: "no function, the card's ring runs it",
  done: "dma_fence_signal() (dma-fence.c)",
  reap: "ttm_bo_delayed_delete() (ttm_bo.c)",
  bulk: "ttm_lru_bulk_move_tail() (ttm_resource.c)",
  result: "ttm_bo_unreserve() (ttm_bo_driver.h)",
  resultSubmit: "ttm_eu_fence_buffer_objects() (ttm_execbuf_util.c)",
  resultAlone: "no function, the ioctl returns",
  refused: "an error of the ioctl; ttm_eu_backoff_reservation() on its way out (ttm_execbuf_util.c)",
};

/** Returns the function of the kernel for an entry, by the state before it. */
function kernelOf(state, kind, words, course) {
  if (kind === "move" && words[3] === "now") return KERNEL.moveNow;
  if (kind === "catch" && words[1] === "swap") return KERNEL.catchSwap;
  if (kind === "loose" && course.caught[course.caught.length - 1].why === "swap") return KERNEL.looseSwap;
  if (kind === "result" && course.held.length === 0) return KERNEL.resultAlone;
  if (kind === "result" && state.commandOf(course).verb === "submit") return KERNEL.resultSubmit;
  return KERNEL[kind];
}

/** Returns an entry in words, by the state before it. */
function explain(state, line) {
  const [actor, kind, ...words] = line.split(" ");
  const course = actor[0] === "t" ? state.courses[actor.slice(1) - 1] : null;
  return { sentence: SENTENCES[kind](state, words, course, Number(actor.slice(1))), kernel: kernelOf(state, kind, words, course) };
}

/** Returns the names of the buffers that an entry is about, by the state before it. */
function buffersOf(state, line) {
  const [actor, kind, ...words] = line.split(" ");
  if (actor[0] !== "t" || ["ticket", "bulk"].includes(kind)) return [];
  if (!["arm", "result", "refused"].includes(kind)) return [words[0]];
  return state.commandOf(state.courses[actor.slice(1) - 1]).buffers.map((index) => nameOf(state, index));
}
