#!/usr/bin/env python3
"""The kernel's identifiers that documents and comments name, against a stored list of those of kernels 6.1 and 6.12 (tools/gate/kernel_names.txt). Used
by check_docs.py; takes a second.

usage: tools/gate/docs_kernel.py                     names that aren't in the list, and rows that nothing names
       tools/gate/docs_kernel.py --write OLD NEW     writes the list from the unpacked source trees of both kernels: of each name the file and the
                                                line where it is defined, or first occurs, in each; - where it is in none
"""
from __future__ import annotations

import pathlib
import re
import sys
from typing import Dict, Iterable, Iterator, List, Set, Tuple

TOP = pathlib.Path(__file__).resolve().parent.parent.parent
LIST = TOP / "tools" / "gate" / "kernel_names.txt"
NAME = re.compile(r"(?<![\w/.:-])(?:ttm|drm|dma|ww|amdgpu|nouveau|radeon|TTM|DRM)_[A-Za-z0-9_]*[A-Za-z0-9](?![\w/]|\.[a-z]|::|-\w)")
PLACES = ("drivers/gpu/drm/ttm/*.c", "drivers/gpu/drm/ttm/tests/*", "include/drm/ttm/*.h", "drivers/gpu/drm/drm_mm.c",
          "drivers/gpu/drm/drm_buddy.c", "drivers/gpu/buddy.c", "drivers/gpu/drm/drm_exec.c", "drivers/gpu/drm/drm_gpuvm.c",
          "drivers/gpu/drm/scheduler/*.c", "drivers/dma-buf/dma-*.c", "drivers/gpu/drm/drm_print.c",
          "include/drm/*.h", "include/linux/*buddy.h", "include/linux/dma-*.h", "include/linux/ww_mutex.h",
          "kernel/locking/*mutex*", "drivers/gpu/drm/amd/amdgpu/amdgpu_*_mgr.c", "drivers/gpu/drm/amd/amdgpu/amdgpu_ttm.c",
          "drivers/gpu/drm/tests/*", "drivers/gpu/tests/*")


def names_of(text: str) -> Iterator[Tuple[int, str]]:
    """Returns the line and the name of each of the kernel's identifiers in a text; links' targets and blocks of code aren't looked at."""
    text = re.sub(r"^```.*?^```", lambda found: re.sub(r"[^\n]", " ", found[0]), text, flags=re.M | re.S)
    text = re.sub(r"\]\([^)\n]*\)", "]", text)
    for number, line in enumerate(text.splitlines(), 1):
        for name in NAME.findall(line):
            yield number, name


def comments_of(path: pathlib.Path) -> str:
    """Returns a source's comments, on their lines."""
    mark = "//" if path.suffix == ".rt" else "--"
    return "\n".join(line.split(mark, 1)[1] if mark in line else "" for line in path.read_text().splitlines())


def texts(documents: Iterable[pathlib.Path]) -> Iterator[Tuple[pathlib.Path, str]]:
    """Returns the documents and the comments of the sources below crates/."""
    for document in documents:
        yield document, document.read_text()
    for folder, suffix in (("src", "rt"), ("specs", "antt")):
        for path in sorted((TOP / "crates").glob(f"*/{folder}/**/*.{suffix}")):
            yield path, comments_of(path)


def stored(path: pathlib.Path = LIST) -> Set[str]:
    """Returns the names of the list."""
    return {line.split()[0] for line in path.read_text().splitlines() if line and not line.startswith("#")}


def faults_of_kernel(document: str, text: str, known: Set[str], ours: Set[str]) -> Iterator[str]:
    """Tells each name that is neither in the list nor one of ours."""
    for number, name in names_of(text):
        if name not in known and name not in ours:
            yield f"{document}:{number}: the kernel's {name} isn't in tools/gate/kernel_names.txt (tools/gate/docs_kernel.py)"


def ours_of() -> Set[str]:
    """Returns what this repository calls like the kernel: crates, modules, functions, and the files of its tools."""
    found = {path.name for path in (TOP / "crates").iterdir()}
    for path in (TOP / "crates").glob("*/src/**/*.rt"):
        found.add(path.stem)
        found.update(re.findall(r"\bfn ([A-Za-z0-9_]+)", path.read_text()))
    return found


def lines_of(tree: pathlib.Path, names: Set[str]) -> Dict[str, str]:
    """Returns for each name FILE:LINE in a kernel's tree: where it is defined, or else where it first occurs."""
    first: Dict[str, str] = {}
    defined: Dict[str, str] = {}
    for pattern in PLACES:
        for path in sorted(tree.glob(pattern)):
            if not path.is_file():
                continue
            for number, line in enumerate(path.read_text(errors="replace").splitlines(), 1):
                for name in names.intersection(re.findall(r"[A-Za-z_][A-Za-z0-9_]*", line)):
                    place = f"{path.relative_to(tree)}:{number}"
                    first.setdefault(name, place)
                    head = re.match(rf"(?:(?:struct|enum) {name} \{{|#\s*define {name}\b|[a-z].*\b\*?{name}\((?!.*;))", line)
                    if head or re.match(rf"\*?{name}\((?!.*;)", line):
                        defined.setdefault(name, place)
    return {**first, **defined}


def write(old: pathlib.Path, new: pathlib.Path, names: Set[str]) -> List[str]:
    """Writes the list; returns the names that are in neither tree."""
    places = [lines_of(tree, names) for tree in (old, new)]
    rows, missing = [], []
    for name in sorted(names):
        found = [place.get(name, "-") for place in places]
        if found == ["-", "-"]:
            missing.append(name)
        else:
            rows.append(f"{name} {found[0]} {found[1]}")
    head = "# Identifiers of the kernel that documents and comments name: in 6.1.192, in 6.12.117. Written by tools/gate/docs_kernel.py.\n"
    LIST.write_text(head + "\n".join(rows) + "\n")
    return missing


def main() -> None:
    documents = [TOP / "README.md", *sorted((TOP / "docs").glob("*.md")), *sorted((TOP / "crates").glob("*/*.md")), TOP / "examples" / "README.md"]
    ours = ours_of()
    named: Dict[str, str] = {}
    for path, text in texts(documents):
        for number, name in names_of(text):
            named.setdefault(name, f"{path.relative_to(TOP)}:{number}")
    names = set(named) - ours
    if len(sys.argv) == 4 and sys.argv[1] == "--write":
        for name in write(pathlib.Path(sys.argv[2]), pathlib.Path(sys.argv[3]), names):
            print(f"{named[name]}: {name} is in neither kernel")
        return
    known = stored()
    for name in sorted(names - known):
        print(f"{named[name]}: {name} isn't in the list")
    for name in sorted(known - names):
        print(f"{LIST.name}: nothing names {name}")
    sys.exit(1 if names != known else 0)


if __name__ == "__main__":
    main()
