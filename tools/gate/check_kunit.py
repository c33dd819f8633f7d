#!/usr/bin/env python3
"""Checks docs/KUNIT.md against a kernel's source tree: each KUnit case of TTM stands there exactly once. Takes a second.

usage: tools/gate/check_kunit.py        KERNEL_DIR in the environment is the unpacked source tree of kernel 6.12; without it the cases
                                   aren't looked at, and a line says so

Whether a tree is given or not, each script of examples/kernel must stand on the page, and the counts of cases that the page tells must be
those of its rows. Each fault is a line; the exit status is 1 if there is one.
"""
import collections
import os
import pathlib
import re
import sys
from typing import Iterator, List, Optional

TOP = pathlib.Path(__file__).resolve().parent.parent.parent
PAGE = TOP / "docs" / "KUNIT.md"
SCRIPTS = TOP / "examples" / "kernel"
TESTS = pathlib.Path("drivers") / "gpu" / "drm" / "ttm" / "tests"


def cases_of_source(text: str) -> List[str]:
    """The names of the cases that a file of tests registers, in order."""
    return re.findall(r"\bKUNIT_CASE(?:_PARAM)?\(\s*(\w+)", text)


def cases_of_tree(kernel: pathlib.Path) -> List[str]:
    """The names of all cases of TTM in a kernel's source tree."""
    names: List[str] = []
    for path in sorted((kernel / TESTS).glob("*_test.c")):
        names += cases_of_source(path.read_text())
    return names


def rows_of_page(text: str) -> List[List[str]]:
    """The rows of the page that begin with a case, each as its cells: the case, what it checks, its script or none, a remark."""
    return [[cell.strip() for cell in line.strip("| ").split(" | ")] for line in text.splitlines() if line.startswith("| `ttm_")]


def faults_of_cases(rows: List[List[str]], cases: List[str]) -> Iterator[str]:
    """Tells each case that doesn't stand on the page exactly once, and each row whose case the tree doesn't have."""
    told = collections.Counter(row[0].strip("`") for row in rows)
    for case in cases:
        if told[case] != 1:
            yield f"{case} has {told[case]} rows"
    for case in sorted(set(told) - set(cases)):
        yield f"{case} is no case of the source tree"


def faults_of_page(text: str, rows: List[List[str]], scripts: List[str]) -> Iterator[str]:
    """Tells each script without a row, each row of other cells, and whether the page's counts are those of its rows."""
    for row in rows:
        if len(row) != 4 or not (row[2] == "none" or re.fullmatch(r"\[(\w+)\]\(\.\./examples/kernel/\1\.ttm\)", row[2])):
            yield f"{row[0]}: its row isn't a case, what it checks, a script or none, and a remark"
    for script in scripts:
        if f"[{script}]" not in text:
            yield f"examples/kernel/{script}.ttm has no row"
    without = sum(row[2:3] == ["none"] for row in rows)
    counts = f"Of the {len(rows)} cases, {len(rows) - without} have a script and {without} have none."
    if counts not in text:
        yield f"it doesn't say: {counts}"


def main() -> int:
    """Prints the faults of the page, or that there are none."""
    text = PAGE.read_text()
    rows = rows_of_page(text)
    faults = list(faults_of_page(text, rows, sorted(path.stem for path in SCRIPTS.glob("*.ttm"))))
    kernel: Optional[str] = os.environ.get("KERNEL_DIR")
    cases: List[str] = []
    if kernel:
        cases = cases_of_tree(pathlib.Path(kernel))
        faults += faults_of_cases(rows, cases) if cases else [f"no case of TTM in {kernel}"]
    for fault in faults:
        print(f"docs/KUNIT.md: {fault}")
    compared = f"each of {len(cases)} cases stands there once" if kernel else "KERNEL_DIR isn't set, so cases aren't compared"
    print(f"docs/KUNIT.md: {len(rows)} rows, {len(faults)} faults; {compared if not faults else 'see above'}")
    return 1 if faults else 0


if __name__ == "__main__":
    sys.exit(main())
