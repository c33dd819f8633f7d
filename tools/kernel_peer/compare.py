#!/usr/bin/env python3
"""Compares the project's program with the kernel's TTM.

usage: compare.py random FAMILY FIRST COUNT       that many random scripts, each with eager and with lagging engines: a table
       compare.py one FAMILY NUMBER eager|lagging  one of them in full, and where the two sides part
       compare.py files FILE..                    scripts of one's own, without their schedules

The peer is $KERNEL_PEER_OUT/kernel_peer (build.py makes it), the program $TTM_PROGRAM. The exit status is 1 where a run isn't explained.
"""

from __future__ import annotations

import sys
from pathlib import Path

from comparison import compare, describe
from families import FAMILIES
from orders import Order
from scripts import Script
from tally import Tally
from trials import make_order, make_trial

MODES = ("eager", "lagging")


def compare_random(family: str, first: int, count: int) -> bool:
    tally = Tally(family)
    for number in range(first, first + count):
        trial = make_trial(family, number)
        for mode in MODES:
            tally.add(number, mode, compare(trial.script, make_order(family, number, trial, mode == "lagging")))
    print(tally.text())
    return tally.is_explained


def compare_one(family: str, number: int, mode: str) -> bool:
    trial = make_trial(family, number)
    order = make_order(family, number, trial, mode == "lagging")
    comparison = compare(trial.script, order)
    print(f"{trial.script.text()}{order}\n{describe(trial.script, comparison)}")
    return comparison.rules is not None


def compare_files(files: list[str]) -> bool:
    explained = True
    for file in files:
        script = Script.parse(Path(file).read_text())
        for mode in MODES:
            comparison = compare(script, Order(mode == "lagging"))
            explained = explained and comparison.rules is not None
            print(f"{Path(file).name} {mode}: {describe(script, comparison)}")
    return explained


def main(words: list[str]) -> int:
    if len(words) == 4 and words[0] == "random" and words[1] in FAMILIES:
        return 0 if compare_random(words[1], int(words[2]), int(words[3])) else 1
    if len(words) == 4 and words[0] == "one" and words[1] in FAMILIES and words[3] in MODES:
        return 0 if compare_one(words[1], int(words[2]), words[3]) else 1
    if len(words) > 1 and words[0] == "files":
        return 0 if compare_files(words[1:]) else 1
    print(__doc__, file=sys.stderr)
    return 2


if __name__ == "__main__":
    sys.exit(main(sys.argv[1:]))
