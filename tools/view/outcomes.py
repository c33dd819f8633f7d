"""`outcomes N`: what a script may lead to, as `ttm sim` of its interleavings number 1 to N shows it.

It answers what the author of a driver asks: can this submit fail, and when? Each outcome is told with how many interleavings led to it, and
with the first of them, which `shuffle` writes.
"""

from __future__ import annotations

import concurrent.futures
import os
from collections import Counter
from typing import Dict, Iterable, Iterator, List, Set

from .errors import ViewError
from .observed import Fact, Observed, observe
from .program import program_path, simulate
from .report import read_report
from .script import Script
from .shuffle import number_and_script, shuffled

MOST_RUNS = 1_000_000
AT_A_TIME = 64
MOST_ROWS = 8  # of one subject
WIDEST = 60  # characters of an outcome
WIDEST_SUBJECT = 110


class Tally:
    """How many interleavings led to each fact, and the first that did. Subjects stand in the order in which they came."""

    def __init__(self) -> None:
        self.subjects: Dict[str, Counter] = {}
        self.first: Dict[Fact, int] = {}

    def add(self, facts: Iterable[Fact], seed: int) -> None:
        """Adds the facts of interleaving `seed`."""
        for fact in facts:
            self.subjects.setdefault(fact.subject, Counter())[fact.what] += 1
            self.first.setdefault(fact, seed)

    def rows(self, subject: str) -> Iterator[str]:
        """Yields a line for each outcome of a subject, the most frequent first."""
        counts = self.subjects[subject].most_common()
        for what, count in counts[:MOST_ROWS]:
            yield f"    {shortened(what, WIDEST):<{WIDEST}} {count:>7}   shuffle {self.first[Fact(subject, what)]}"
        if len(counts) > MOST_ROWS:
            rest = sum(count for _, count in counts[MOST_ROWS:])
            yield f"    {f'{len(counts) - MOST_ROWS} others':<{WIDEST}} {rest:>7}"


def shortened(text: str, widest: int) -> str:
    """Returns a text cut to a number of characters."""
    return text if len(text) <= widest else text[: widest - 3] + "..."


class Outcomes:
    """What the interleavings that were run so far led to."""

    def __init__(self) -> None:
        self.runs = 0
        self.journals: Set[int] = set()
        self.answers, self.victims, self.places = Tally(), Tally(), Tally()

    def add(self, seen: Observed, seed: int) -> None:
        """Adds what interleaving `seed` led to."""
        self.runs += 1
        self.journals.add(seen.journal)
        self.answers.add(seen.answers, seed)
        self.victims.add(seen.victims, seed)
        self.places.add(seen.places, seed)

    def refused(self, subject: str) -> int:
        """Returns how many interleavings refuse a command."""
        return sum(count for what, count in self.answers.subjects[subject].items() if what.startswith("refused "))

    def varies(self, tally: Tally, subject: str) -> bool:
        """Tells whether a subject had another outcome in some interleaving than in others."""
        return max(tally.subjects[subject].values()) < self.runs


def section(title: str, tally: Tally, subjects: List[str]) -> Iterator[str]:
    """Yields the lines of a part of the text, none where it has no subjects."""
    if subjects:
        yield from ("", title)
    for subject in subjects:
        yield f"  {shortened(subject, WIDEST_SUBJECT)}"
        yield from tally.rows(subject)


def lines_of(found: Outcomes) -> Iterator[str]:
    """Yields the lines of the text."""
    answers, places, runs = found.answers, found.places, found.runs
    commands = list(answers.subjects)
    sometimes = [one for one in commands if 0 < found.refused(one) < runs]
    always = [one for one in commands if found.refused(one) == runs]
    others = [one for one in commands if not found.refused(one) and found.varies(answers, one)]
    moved = [one for one in places.subjects if found.varies(places, one)]
    yield f"{runs} interleavings, {len(found.journals)} different journals"
    yield f"{len(commands)} commands: {len(sometimes)} refused in some interleavings, {len(always)} in all; {len(others)} others with answers that differ"
    yield f"{len(places.subjects)} buffers: {len(found.victims.subjects)} caught as victims, {len(moved)} with last places that differ"
    yield from section("refused in some interleavings", answers, sometimes)
    yield from section("refused in all interleavings", answers, always)
    yield from section("never refused, with answers that differ", answers, others)
    yield from section("victims, and how many interleavings catch them", found.victims, list(found.victims.subjects))
    yield from section("last places that differ", places, moved)
    yield from ("", "interleaving number N is that of ./ttm shuffle N")


def observed(script: Script, seed: int) -> Observed:
    """Returns what `sim` of an interleaving leads to."""
    text = shuffled(script, seed)
    output = simulate(text)
    if output is None:
        raise ViewError(f"the program that TTM_PROGRAM names ({program_path() or 'none'}) can't be run, or took too long; ./ttm outcomes sets it")
    return observe(read_report(text.encode() + output))


def outcomes_of(script: Script, count: int) -> Outcomes:
    """Runs interleavings 1 to `count`, as many at a time as there are processors."""
    found = Outcomes()
    with concurrent.futures.ThreadPoolExecutor(os.cpu_count()) as pool:
        for start in range(1, count + 1, AT_A_TIME):
            seeds = range(start, min(start + AT_A_TIME, count + 1))
            for seed, seen in zip(seeds, pool.map(lambda seed: observed(script, seed), seeds)):
                found.add(seen, seed)
    return found


def main(args: List[str]) -> int:
    """Writes what the interleavings of a script, in a file or on standard input, lead to."""
    count, script = number_and_script(args, "how many interleavings are run", 1, MOST_RUNS)
    print("\n".join(lines_of(outcomes_of(script, count))))
    return 0
