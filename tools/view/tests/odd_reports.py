"""Reports that can be followed, and that no program writes: examples with an entry left out, doubled, moved or changed."""

from __future__ import annotations

import random
from typing import List

from ..entry_reader import read_entries
from ..errors import ViewError
from ..replay import Replay
from ..report import Report
from .samples import examples


def odd_journal(draw: random.Random, lines: List[str]) -> List[str]:
    """Returns the lines of a journal with an entry left out, doubled, moved or changed, and numbered again."""
    entries = [line.split(" ", 1)[1] for line in lines]
    at, other = draw.randrange(len(entries)), draw.randrange(len(entries))
    kind = draw.randrange(4)
    if kind == 0:
        del entries[at]
    elif kind == 1:
        entries.insert(other, entries[at])
    elif kind == 2:
        entries[at], entries[other] = entries[other], entries[at]
    else:
        words, donor = entries[at].split(" "), entries[other].split(" ")
        words[-1] = donor[-1]
        entries[at] = " ".join(words)
    return [f"{number} {entry}" for number, entry in enumerate(entries, 1)]


def odd_reports(count: int) -> List[Report]:
    """Returns those among `count` changed examples that can be followed."""
    draw, found = random.Random(11), []
    originals = [report for _, report in examples() if report.lines]
    for index in range(count):
        report = originals[index % len(originals)]
        lines = odd_journal(draw, report.lines)
        entries, wrong = read_entries(report.script, lines)
        odd = report._replace(lines=lines, entries=entries, name=f"odd {index}, {report.name}")
        try:
            Replay(odd).run()
        except ViewError:
            continue
        if not wrong:
            found.append(odd)
    return found
