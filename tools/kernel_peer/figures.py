#!/usr/bin/env python3
"""Compares many random scripts of all families, and prints the tables of what came of them.

usage: figures.py run DIR [--first N] [--share PERCENT] [--jobs N]
       figures.py table DIR

`run` compares some hundred scripts of each family, from number N on (60001), each with eager and with lagging engines, in N processes (2), and
writes a file of each hundred into DIR; a hundred that is there isn't compared again. With --share it takes that part of each family. `table`
prints the tables of the files in DIR. The exit status is 1 where a run isn't explained.
"""

from __future__ import annotations

import argparse
import json
import os
import subprocess
import sys
from collections import Counter
from concurrent.futures import ThreadPoolExecutor
from pathlib import Path

from families import FAMILIES
from kernel_side import has_blocks, has_flags, known_rules

HERE = Path(__file__).resolve().parent
SCRIPTS = {
    "plain": 900,
    "tight": 900,
    "pins": 900,
    "ranges": 900,
    "groups": 800,
    "places": 800,
    "held": 600,
    "mixed": 1800,
    "long": 200,
    "swap": 700,
    "buddy": 900,
    "two": 600,
    "everything": 200,
}
FLAG_SCRIPTS = 100  # of each family, where the kernel has lists with flags
MODES = ("eager", "lagging")
COLUMNS = {
    "scripts": "scripts",
    "equal as it is": "equal as it is",
    "equal with the marked": "equal with the four",
    "equal with all": "equal with all",
    "commands": "commands",
    "before": "before the first difference",
    "victims": "victims",
    "refused": "refused",
}
HUNDRED = 100


def scripts_of_kernel() -> dict[str, int]:
    """How many scripts of which families: of version 2 where the kernel has lists with flags."""
    if not has_flags():
        return SCRIPTS
    return {name: FLAG_SCRIPTS for name, family in FAMILIES.items() if family.flags and (has_blocks() or not family.buddy)}


def compare_some(family: str, first: int, count: int, room: Path) -> None:
    """Writes what came of the scripts, once it is all there."""
    file = room / f"{family}-{first}.txt"
    if file.exists():
        return
    words = [sys.executable, str(HERE / "compare.py"), "random", family, str(first), str(count)]
    ran = subprocess.run(words, capture_output=True, text=True, check=False)
    partial = file.with_suffix(".partial")
    partial.write_text(ran.stdout + ran.stderr)
    os.replace(partial, file)


def run_all(room: Path, first: int, share: int, jobs: int) -> None:
    room.mkdir(parents=True, exist_ok=True)
    chunks = []
    for family, scripts in scripts_of_kernel().items():
        count = max(1, scripts * share // 100)
        chunks += [(at, family, min(HUNDRED, count - at)) for at in range(0, count, HUNDRED)]
    with ThreadPoolExecutor(jobs) as pool:
        for at, family, count in sorted(chunks):  # the first hundred of each family first
            pool.submit(compare_some, family, first + at, count, room)


def read_counts(room: Path) -> tuple[dict[tuple[str, str], Counter[str]], list[str]]:
    """The sums by family and mode, and the lines that tell of runs that aren't explained."""
    sums: dict[tuple[str, str], Counter[str]] = {}
    others: list[str] = []
    for file in sorted(room.glob("*.txt")):
        for line in file.read_text().splitlines():
            if not line.startswith("{"):
                others.append(line)
                continue
            counts = json.loads(line)
            key = counts.pop("family"), counts.pop("mode")
            sums.setdefault(key, Counter()).update(counts)
    return sums, others


def row(name: str, mode: str, counts: Counter[str]) -> str:
    return f"| {name} | {mode} | " + " | ".join(f"{counts[column]:,}" for column in COLUMNS) + " |"


def print_tables(room: Path) -> bool:
    sums, others = read_counts(room)
    print("| family | engines | " + " | ".join(COLUMNS.values()) + " |\n|---|---|" + "---:|" * len(COLUMNS))
    for family in scripts_of_kernel():
        for mode in MODES:
            if (family, mode) in sums:
                print(row(family, mode, sums[family, mode]))
    totals = {mode: sum((counts for key, counts in sums.items() if key[1] == mode), Counter()) for mode in MODES}
    for mode in MODES:
        print(row("sum", mode, totals[mode]))
    print("\n| rule | " + " | ".join(MODES) + " |\n|---|---:|---:|")
    for rule in known_rules():
        print(f"| `{rule}` | " + " | ".join(f"{totals[mode]['needs ' + rule]:,}" for mode in MODES) + " |")
    shown = sum(counts["shown"] for counts in sums.values())
    print(f"\n{shown:,} reads and probes of both sides; {len(others)} lines of runs that aren't explained")
    print("\n".join(others))
    return not others


def main() -> int:
    parser = argparse.ArgumentParser(description=__doc__, formatter_class=argparse.RawDescriptionHelpFormatter)
    parser.add_argument("what", choices=("run", "table"))
    parser.add_argument("room", type=Path)
    parser.add_argument("--first", type=int, default=60001)
    parser.add_argument("--share", type=int, default=100)
    parser.add_argument("--jobs", type=int, default=2)
    words = parser.parse_args()
    if words.what == "run":
        run_all(words.room, words.first, words.share, words.jobs)
    return 0 if print_tables(words.room) else 1


if __name__ == "__main__":
    sys.exit(main())
