"""What is compiled of each version of the kernel, and which of its functions the peer stands before."""

from __future__ import annotations

from dataclasses import dataclass, replace
from pathlib import Path

TTM = "drivers/gpu/drm/ttm"


@dataclass(frozen=True)
class Kernel:
    """A version: its files, as they are compiled and included, and its functions that rules.h stands in for."""

    name: str
    sources: tuple[str, ...]
    # its own headers; every other one that these or the sources include is empty
    headers: tuple[str, ...]
    # functions called from another file, which the linker leads to __wrap_NAME
    wrapped: tuple[str, ...]
    # functions called within the file: the peer's stands in for it, and it can be called as real_NAME
    replaced: tuple[tuple[str, str], ...]
    # the folder of the driver's files that are this version's own
    driver: str
    defines: tuple[str, ...] = ()


COMMON_HEADERS = (
    *(f"include/linux/{name}.h" for name in ("list", "rbtree", "rbtree_augmented", "rbtree_types", "interval_tree_generic")),
    *(f"include/linux/{name}.h" for name in ("container_of", "poison", "dma-resv", "dma-fence", "dma-fence-array", "iosys-map")),
    *(f"include/drm/{name}.h" for name in ("drm_mm", "drm_buddy", "drm_vma_manager", "drm_gem")),
)
BELOW_TTM = (
    "drivers/dma-buf/dma-resv.c",
    "drivers/dma-buf/dma-fence.c",
    "drivers/dma-buf/dma-fence-array.c",
    "drivers/gpu/drm/drm_mm.c",
    "drivers/gpu/drm/drm_buddy.c",
    "lib/rbtree.c",
)

KERNEL_6_1 = Kernel(
    name="6.1",
    sources=(
        *(f"{TTM}/ttm_{name}.c" for name in ("bo", "bo_util", "resource", "tt", "device", "range_manager", "sys_manager")),
        *(f"{TTM}/ttm_{name}.c" for name in ("execbuf_util", "module")),
        *BELOW_TTM,
    ),
    headers=COMMON_HEADERS,
    wrapped=(
        "drm_mm_insert_node_in_range",
        "ttm_resource_move_to_lru_tail",
        "ttm_resource_manager_first",
        "ttm_resource_manager_next",
        "ttm_resource_compat",
        "ttm_tt_populate",
    ),
    replaced=(("ttm_bo", "ttm_mem_evict_first"), ("ttm_bo", "ttm_bo_mem_space")),
    driver="linux_6_1",
)


KERNEL_6_12 = Kernel(
    name="6.12",
    sources=(
        *(f"{TTM}/ttm_{name}.c" for name in ("bo", "bo_util", "resource", "tt", "device", "range_manager", "sys_manager")),
        *(f"{TTM}/ttm_{name}.c" for name in ("execbuf_util", "module")),
        *(name.replace("drm/drm_buddy.c", "buddy.c") for name in BELOW_TTM),
    ),
    headers=tuple(name.replace("drm/drm_buddy.h", "linux/gpu_buddy.h") for name in COMMON_HEADERS),
    wrapped=(
        "drm_mm_insert_node_in_range",
        "ttm_resource_move_to_lru_tail",
        "ttm_resource_manager_first",
        "ttm_resource_manager_next",
        "ttm_resource_compatible",
        "ttm_lru_walk_for_evict",
        "ttm_tt_populate",
    ),
    replaced=(),
    driver="linux_6_12",
    defines=("PEER_KERNEL_6_12",),
)

GPU_BUDDY = "drivers/gpu/buddy.c"


def without_blocks(kernel: Kernel) -> Kernel:
    """The version for a source of which `GPU_BUDDY` wasn't unpacked."""
    return replace(kernel, sources=tuple(name for name in kernel.sources if name != GPU_BUDDY), defines=(*kernel.defines, "PEER_WITHOUT_BLOCKS"))


def kernel_of(source: Path) -> Kernel:
    """The version of an unpacked source, told by its header of placements."""
    placement = source / "include/drm/ttm/ttm_placement.h"
    if not placement.exists():
        raise SystemExit(f"{source} has no include/drm/ttm: unpack a kernel's source there")
    if "busy_placement" in placement.read_text():
        return KERNEL_6_1
    if "ttm_lru_walk_for_evict" in (source / "include/drm/ttm/ttm_bo.h").read_text():
        return KERNEL_6_12 if (source / GPU_BUDDY).exists() else without_blocks(KERNEL_6_12)
    raise SystemExit(f"{source} is neither like 6.1 nor like 6.12, so this peer doesn't know its TTM")
