#!/usr/bin/env python3
"""Prints what a call of drm_mm and drm_buddy costs in instructions, the kernel's beside ours.

usage: measure.py LIBRARY KERNEL.. [--loads WORD] [--live N,N,..] [--rounds N] [--jobs N]

LIBRARY is libpearoar_mm.a (README.md says how to make it), KERNEL a kernel's source, unpacked or the .tar.xz of the package linux-source-*.
Of several kernels each gets a column, and ratios are to the first that has the load. --loads takes the loads whose names have WORD in
them. A run makes N rounds (1000), and another twice as many; what these take more, under valgrind, is shared among their 2 N calls.
"""

import argparse
import os
import re
import subprocess
import sys
import tempfile
from concurrent.futures import ThreadPoolExecutor
from pathlib import Path

HERE = Path(__file__).resolve().parent
TOP = HERE.parent.parent
CC = os.environ.get("CC", "gcc")

# What is built of a kernel, unchanged; a kernel has one of the buddies.
SOURCES = ["drivers/gpu/drm/drm_mm.c", "lib/rbtree.c"]
BUDDIES = ["drivers/gpu/buddy.c", "drivers/gpu/drm/drm_buddy.c"]
LATER_BUDDY = "include/linux/gpu_buddy.h"
HEADERS = [
    *(f"include/linux/{name}.h" for name in ("rbtree", "rbtree_types", "rbtree_augmented", "interval_tree_generic")),
    *(f"include/linux/{name}.h" for name in ("list", "container_of", "poison")),
    "include/drm/drm_mm.h",
    "include/drm/drm_buddy.h",
    LATER_BUDDY,
]
# Headers in whose place shims/kernel.h stands.
EMPTY_HEADERS = """linux/export linux/seq_file linux/slab linux/stacktrace linux/bug linux/limits linux/mm_types linux/spinlock linux/types
    linux/kmemleak linux/module linux/sizes linux/bitops linux/sched linux/compiler linux/rcupdate linux/stddef linux/build_bug linux/const
    linux/err asm/barrier drm/drm_print kunit/test-bug""".split()

LOADS = {
    "best": "best",
    "low": "low",
    "high": "high",
    "best-align-8": "best, aligned to 8 pages",
    "best-align-16": "best, aligned to 16 pages",
    "best-align-mixed": "best, aligned to 1, 8 or 16 pages",
    "low-align-mixed": "low, aligned to 1, 8 or 16 pages",
    "high-align-mixed": "high, aligned to 1, 8 or 16 pages",
    "best-in-range": "best, in the middle half",
    "low-in-range": "low, in the middle half",
    "high-in-range": "high, in the middle half",
    "frag-align": "best, no hole is aligned",
    "buddy-plain": "buddy",
    "buddy-topdown": "buddy, topdown",
    "buddy-contiguous": "buddy, contiguous",
    "buddy-in-range": "buddy, in the middle half",
}


NO_SUCH_CALL = 3  # a run's exit status, as in allocators.h


def run(*words):
    ran = subprocess.run([str(word) for word in words], capture_output=True, text=True)
    if ran.returncode != 0:
        sys.exit(f"{ran.stderr}measure.py: {words[0]} failed")
    return ran


def unpacked(source, room):
    """The folder of a kernel's source, of which a .tar.xz gives only what is wanted."""
    if source.is_dir():
        return source
    patterns = [f"*/{file}" for file in (*SOURCES, *BUDDIES, *HEADERS, "Makefile")]
    # (it fails for those that this kernel doesn't have)
    subprocess.run(["tar", "xf", source, "-C", room, "--wildcards", "--no-wildcards-match-slash", *patterns], stderr=subprocess.DEVNULL, check=False)
    (top,) = (path for path in room.iterdir() if path.is_dir())
    return top


def version_of(source):
    lines = (source / "Makefile").read_text().splitlines()[:10]
    named = dict(re.match(r"(\w+) = ?(.*)", line).groups() for line in lines if re.match(r"\w+ =", line))
    return f"{named['VERSION']}.{named['PATCHLEVEL']}.{named['SUBLEVEL']}"


def build_kernel(source, room):
    include = room / "include"
    for name in EMPTY_HEADERS:
        header = include / f"{name}.h"
        header.parent.mkdir(parents=True, exist_ok=True)
        header.write_text('#include "kernel.h"\n')
    for name in HEADERS:
        if (source / name).exists():
            header = room / name
            header.unlink(missing_ok=True)
            header.symlink_to((source / name).resolve())
    files = [source / name for name in (*SOURCES, *BUDDIES) if (source / name).exists()]
    if (source / LATER_BUDDY).exists():
        files = [file for file in files if file.name != "drm_buddy.c"]  # it only prints
    flags = ["-DGPU_BUDDY"] if (source / LATER_BUDDY).exists() else []
    flags += ["-std=gnu11", "-O2", "-fno-strict-aliasing", "-w", "-include", "kernel.h", "-I", HERE, "-I", HERE / "shims", "-I", include]
    made = []
    for file in [*files, HERE / "kernel.c"]:
        made.append(room / f"{file.stem}.o")
        run(CC, *flags, "-c", file, "-o", made[-1])
    return link(room, made)


def build_ours(library, room):
    made = room / "pearoar.o"
    run(CC, "-std=gnu11", "-O2", "-I", HERE, "-I", TOP / "crates/mm_c/include", "-c", HERE / "pearoar.c", "-o", made)
    return link(room, [made, library])


def link(room, made):
    run(CC, "-std=gnu11", "-O2", "-Wall", "-Wextra", "-c", HERE / "bench.c", "-o", room / "bench.o")
    run(CC, room / "bench.o", *made, "-o", room / "bench")
    return room / "bench"


def instructions(program, load, live, rounds):
    """What a run takes, and what it printed; nothing where the kernel has no such call."""
    words = ["valgrind", "--tool=cachegrind", "--cache-sim=no", "--cachegrind-out-file=/dev/null", program, load, live, rounds]
    ran = subprocess.run([str(word) for word in words], capture_output=True, text=True)
    if ran.returncode == NO_SUCH_CALL:
        return None
    if ran.returncode != 0:
        sys.exit(f"{ran.stderr}measure.py: {load} at {live} failed")
    (refs,) = re.findall(r"I\s+refs:\s+([\d,]+)", ran.stderr)
    return int(refs.replace(",", "")), ran.stdout.split()


def cost(program, load, live, rounds):
    """Instructions a call, the checksum of the starts, and how many found no room."""
    once, twice = (instructions(program, load, live, times) for times in (rounds, 2 * rounds))
    if once is None or twice is None:
        return None
    return (twice[0] - once[0]) / (2 * rounds), twice[1][0], int(twice[1][1])


def row(load, live, costs):
    kernels, ours = costs[:-1], costs[-1]
    base = next((kernel for kernel in kernels if kernel), None)
    cells = [LOADS[load], f"{live:,}", *(f"{it[0]:,.0f}" if it else "-" for it in costs)]
    cells.append(f"{ours[0] / base[0]:.2f}" if ours and base else "-")
    cells.append("yes" if ours and base and ours[1] == base[1] else "no")
    cells.append("/".join(str(it[2]) if it else "-" for it in costs))
    return "| " + " | ".join(cells) + " |"


def main():
    parser = argparse.ArgumentParser(description=__doc__, formatter_class=argparse.RawDescriptionHelpFormatter)
    parser.add_argument("library", type=Path)
    parser.add_argument("kernels", type=Path, nargs="+", metavar="kernel")
    parser.add_argument("--loads", default="")
    parser.add_argument("--live", default="100,1000,10000")
    parser.add_argument("--rounds", type=int, default=1000)
    parser.add_argument("--jobs", type=int, default=1)
    given = parser.parse_args()
    lives = [int(live) for live in given.live.split(",")]
    with tempfile.TemporaryDirectory() as folder:
        names, programs = [], []
        for number, kernel in enumerate(given.kernels):
            room = Path(folder) / f"kernel{number}"
            (room / "source").mkdir(parents=True)
            source = unpacked(kernel, room / "source")
            names.append(f"kernel {version_of(source)}")
            programs.append(build_kernel(source, room))
        room = Path(folder) / "ours"
        room.mkdir()
        programs.append(build_ours(given.library.resolve(), room))
        print("| load | live | " + " | ".join(names) + " | ours | ratio | same starts | no room |")
        print("|---|---:|" + "---:|" * (len(programs) + 1) + "---|---|")
        with ThreadPoolExecutor(given.jobs) as pool:
            for load in (load for load in LOADS if given.loads in load):
                for live in lives if load != "frag-align" else [live for live in lives if live <= 1000]:
                    costs = list(pool.map(lambda program: cost(program, load, live, given.rounds), programs))
                    print(row(load, live, costs), flush=True)


if __name__ == "__main__":
    sys.exit(main())
