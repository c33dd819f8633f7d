#!/usr/bin/env python3
"""Counts the ways down in crates.txt: by crate, the most first, and their sum.

usage: tools/measure/count_ways.py

A way begins at the crate, goes on to a name of its list as often as it likes, and ends anywhere. rt walks each of them anew.
"""
import functools
import pathlib

TOP = pathlib.Path(__file__).resolve().parent.parent.parent
LINES = (line.split("#")[0].split(":", 1) for line in (TOP / "crates.txt").read_text().splitlines())
BELOW = {line[0].split()[0]: line[1].split() for line in LINES if len(line) == 2}


@functools.cache
def ways(crate):
    return 1 + sum(map(ways, BELOW.get(crate, [])))


if __name__ == "__main__":
    for crate in sorted(BELOW, key=ways, reverse=True):
        print(f"{ways(crate):9} {crate}")
    print(f"{sum(map(ways, BELOW)):9} in all, down {len(BELOW)} crates")
