#!/usr/bin/env python3
"""Proves and builds a program of this repository, and tells on standard error how far that is: a line for each crate that comes to work.

usage: tools/build/build_progress.py PROGRAM LOG      LOG takes what rt says; the status is that of rt, or 0

rt makes the crates below the program in the order of crates.txt's lists, each once those that it names are made, and each in its folder
out/rlib, with a file `stamp` once it is whole. So the last folder that has changed since the start is that of the crate at work, and all
before it are done.
"""
from __future__ import annotations

import pathlib
import subprocess
import sys
import time

TOP = pathlib.Path(__file__).resolve().parent.parent.parent
SECONDS = 0.5


def order_of(program: str) -> list[str]:
    """Returns the crates of the repository below a program in the order in which rt makes them, and then the program."""
    deps = {}
    for line in (TOP / "crates.txt").read_text().splitlines():
        name, colon, names = line.partition(":")
        if colon and not line.startswith("#"):
            deps[name.split()[0]] = names.split()
    order: list[str] = []

    def visit(name: str) -> None:
        if name in deps and name not in order:
            for dep in deps[name]:
                visit(dep)
            order.append(name)

    visit(program)
    return order


def changed_at(path: pathlib.Path) -> float:
    try:
        return path.stat().st_ctime
    except OSError:
        return 0.0


def at_work(order: list[str], begun: float, last: int) -> int:
    """Returns the place in `order` of the crate at work, which is never before `last`, the one found last."""
    for place in range(len(order) - 2, last - 1, -1):
        rlib = TOP / "crates" / order[place] / "out" / "rlib"
        if changed_at(rlib / "stamp") >= begun:
            return place + 1
        if changed_at(rlib) >= begun:
            return place
    return last


def tell(text: str) -> None:
    print(f"ttm: {text}", file=sys.stderr, flush=True)


def follow(made: subprocess.Popen, order: list[str]) -> int:
    """Tells how far a build is until it ends, and returns its status."""
    begun, at, told = time.time(), 0, -1
    while True:
        at = at_work(order, begun, at)
        if at != told:
            minutes = int(time.time() - begun) // 60
            tell(f"{at} of {len(order)} crates done, {order[at]} at work, {len(order) - at - 1} left, {minutes} min")
            told = at
        try:
            return made.wait(SECONDS)
        except subprocess.TimeoutExpired:
            pass


def main(program: str, log: str) -> int:
    order = order_of(program)
    with open(log, "wb") as out:
        words = ["rt", "run", "--", "--help"]
        made = subprocess.Popen(words, cwd=TOP / "crates" / program, stdin=subprocess.DEVNULL, stdout=out, stderr=subprocess.STDOUT)
        try:
            return follow(made, order)
        except KeyboardInterrupt:  # rt is told too, since it is of the same group of processes
            made.wait()
            return 130


if __name__ == "__main__":
    if len(sys.argv) != 3:
        sys.exit(__doc__)
    sys.exit(main(sys.argv[1], sys.argv[2]))
