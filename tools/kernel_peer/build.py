#!/usr/bin/env python3
"""Builds the peer: the kernel's TTM core in user space, with a small driver on it that runs scripts.

usage: build.py [--kernel DIR] [--out DIR] [--sanitize]

DIR of --kernel is a kernel's unpacked source ($KERNEL_DIR); its files are compiled as they are. The program is OUT/kernel_peer, and OUT is
$KERNEL_PEER_OUT or build/ beside this file. --sanitize builds with AddressSanitizer.
"""

from __future__ import annotations

import argparse
import os
import re
import shutil
import subprocess
import sys
from concurrent.futures import ThreadPoolExecutor
from pathlib import Path

from kernels import Kernel, kernel_of

HERE = Path(__file__).resolve().parent
CC = os.environ.get("CC", "gcc")
KERNEL_FLAGS = ["-std=gnu11", "-O1", "-g", "-fno-strict-aliasing", "-fno-strict-overflow", "-fno-delete-null-pointer-checks", "-D_GNU_SOURCE"]
INCLUDE = re.compile(r"^\s*#\s*include\s*<([^>]+)>", re.MULTILINE)


def run(*words: object) -> str:
    ran = subprocess.run([str(word) for word in words], capture_output=True, text=True, check=False)
    sys.stderr.write(ran.stderr)
    if ran.returncode:
        sys.exit(f"build.py: {words[0]} failed")
    return ran.stdout


def own_headers(source: Path, kernel: Kernel) -> dict[str, Path]:
    """The kernel's own headers by the names that files include them by."""
    files = [source / name for name in kernel.headers] + sorted((source / "include/drm/ttm").glob("*.h"))
    return {str(file.relative_to(source / "include")): file for file in files if file.exists()}


def included(files: list[Path]) -> set[str]:
    return {name for file in files for name in INCLUDE.findall(file.read_text())}


def make_headers(source: Path, kernel: Kernel, include: Path) -> None:
    """Links the kernel's own headers, and makes an empty one of each other that is included."""
    shutil.rmtree(include, ignore_errors=True)
    own = own_headers(source, kernel)
    for name, file in own.items():
        (include / name).parent.mkdir(parents=True, exist_ok=True)
        (include / name).symlink_to(file.resolve())
    for name in included([source / name for name in kernel.sources] + list(own.values())) - own.keys():
        (include / name).parent.mkdir(parents=True, exist_ok=True)
        (include / name).touch()


def make_replaceable(made: Path, function: str) -> None:
    """Lets another object's function of the name stand in, and names the file's own real_NAME."""
    (line,) = [line.split() for line in run("nm", made).splitlines() if line.endswith(f" T {function}")]
    run("objcopy", f"--add-symbol=real_{function}=.text:0x{line[0]},global,function", f"--weaken-symbol={function}", made)


def compile_kernel(source: Path, kernel: Kernel, name: str, flags: list[str], out: Path) -> Path:
    made = out / f"{Path(name).stem}.o"
    replaced = [function for file, function in kernel.replaced if file == made.stem]
    # not optimised where a call within the file must stay a call
    run(CC, *flags, "-w", *(["-O0"] if replaced else []), "-c", source / name, "-o", made)
    for function in replaced:
        make_replaceable(made, function)
    return made


def compile_driver(file: Path, flags: list[str], out: Path) -> Path:
    made = out / f"peer_{file.stem}.o"
    flags = ["-isystem" if flag == "-I" else flag for flag in flags]  # warnings of the peer's own lines alone
    run(CC, *flags, "-Wall", "-Wextra", "-c", file, "-o", made)
    return made


def build(source: Path, out: Path, sanitize: bool) -> Path:
    kernel = kernel_of(source)
    extra = ["-fsanitize=address", "-fno-omit-frame-pointer"] if sanitize else []
    (out / "objects").mkdir(parents=True, exist_ok=True)
    make_headers(source, kernel, out / "include")
    defines = [f"-D{name}" for name in kernel.defines]
    flags = [*KERNEL_FLAGS, *extra, *defines, "-I", out / "include", "-include", HERE / "shims/peer_kernel.h"]
    with ThreadPoolExecutor(2) as pool:
        made = [pool.submit(compile_kernel, source, kernel, name, flags, out / "objects") for name in kernel.sources]
        files = sorted((HERE / "driver").glob("*.c")) + sorted((HERE / "driver" / kernel.driver).glob("*.c"))
        made += [pool.submit(compile_driver, file, flags, out / "objects") for file in files]
        objects = [one.result() for one in made]
    program = out / "kernel_peer"
    run(CC, *extra, *(f"-Wl,--wrap={name}" for name in kernel.wrapped), *objects, "-o", program)
    return program


def main() -> None:
    parser = argparse.ArgumentParser(description=__doc__, formatter_class=argparse.RawDescriptionHelpFormatter)
    parser.add_argument("--kernel", type=Path, default=os.environ.get("KERNEL_DIR"))
    parser.add_argument("--out", type=Path, default=os.environ.get("KERNEL_PEER_OUT", HERE / "build"))
    parser.add_argument("--sanitize", action="store_true")
    words = parser.parse_args()
    if words.kernel is None:
        sys.exit("build.py: no kernel's source (--kernel or KERNEL_DIR)")
    print(build(words.kernel, words.out, words.sanitize))


if __name__ == "__main__":
    main()
