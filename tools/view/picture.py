"""The word `picture`: draws a report as an SVG."""

from __future__ import annotations

import gc
import os
import sys
from typing import List, NamedTuple, Optional, Sequence, Tuple

from . import report as reports
from .describe import of_columns, of_past
from .detail import Detail, unit_of
from .errors import ViewError
from .record import Recorder
from .replay import Replay
from .report import Report
from .scale import Scale
from .summed import Summed
from .sums import run_to, summed_up
from .svg import cut

USAGE = """usage: ./ttm picture [--from A] [--to B] [FILE | SCRIPT REPORT] > FILE.svg

Draws a script followed by its report (standard input, a file, or two files): pages down, entries across, engines, the reaper and threads.
--from and --to leave out the entries before A and after B. Long runs are summed by column."""
MOST_ENTRIES = 1200
MOST_SHAPES = 5000
MOST_BYTES = 1_900_000


class Wish(NamedTuple):
    """What the words ask for: files, and the first and the last entry where they are said."""

    paths: List[str]
    first: Optional[int]
    last: Optional[int]


def read_words(args: List[str]) -> Wish:
    """Reads the words that follow `picture`; raises ViewError."""
    paths: List[str] = []
    limits = {"--from": None, "--to": None}
    words = iter(args)
    for word in words:
        if word in limits:
            value = next(words, "")
            if not value.isdecimal() or len(value) > 12 or int(value) < 1:
                raise ViewError(f"{word} needs the number of an entry, from 1 on")
            limits[word] = int(value)
        elif word.startswith("-") and word != "-":
            raise ViewError(f"`{cut(word, 24)}` isn't known; {USAGE.splitlines()[0]}")
        else:
            paths.append(word)
    if len(paths) > 2:
        raise ViewError(f"there are too many files; {USAGE.splitlines()[0]}")
    return Wish(paths, limits["--from"], limits["--to"])


def range_of(wish: Wish, entries: int) -> Tuple[int, int]:
    """Returns the first and the last entry that are drawn; of an empty journal 1 and 0."""
    wanted = entries if wish.last is None else wish.last
    first, last = wish.first or 1, min(wanted, entries)
    if first > max(last, 1):
        raise ViewError(f"there are no entries from {first} to {wanted}: the journal has {entries}")
    return first, last


def title_of(report: Report) -> str:
    """Returns the name of the script, as its file has it."""
    if report.name == "standard input":
        return "Report"
    name = os.path.basename(report.name)
    return cut(name[:-4] if name.endswith(".ttm") else name, 60)


def entries_note(report: Report, first: int, last: int) -> str:
    """Says which entries are drawn."""
    count = len(report.entries)
    if (first, last) == (1, count):
        return f"{count:,} {'entry' if count == 1 else 'entries'} from left to right."
    return f"Entries {first:,} to {last:,} of {count:,}, from left to right."


def picture(report: Report, wish: Wish, fault: Sequence[str] = ()) -> str:
    """Returns the picture of a report: by entry where that isn't too much, else by column. `fault` says why the rest isn't drawn, where it isn't."""
    first, last = range_of(wish, len(report.entries))
    when = "in the end" if last == len(report.entries) else f"after entry {last:,}"
    if last - first < MOST_ENTRIES:
        svg = detailed(report, first, last, when, fault)
        if svg and len(svg) <= MOST_BYTES:
            return svg
    columns = summed_up(report, first, last)
    each = -(-columns.entries // columns.count)
    notes = [entries_note(report, first, last), f"{columns.count} columns of up to {each:,} entries; shares are averages over a column.", *fault]
    return Summed(report.script, columns, title_of(report), notes).svg(of_columns(report.script, columns, " ".join(notes), when), when)


def detailed(report: Report, first: int, last: int, when: str, fault: Sequence[str] = ()) -> str:
    """Returns the picture of a report by entry, or nothing where it would have too many shapes."""
    recorder = Recorder(report.script, first, last)
    past = recorder.finish(run_to(Replay(report, recorder), last))
    if past.shapes() > MOST_SHAPES:
        return ""
    scale = Scale(first, last, unit_of(last - first + 1))
    notes = [entries_note(report, first, last), *fault]
    return Detail(report.script, past, scale, title_of(report), notes).svg(of_past(report.script, past, " ".join(notes), when), when)


def main(args: List[str]) -> int:
    """Draws what the words ask for on standard output."""
    if "--help" in args:
        print(USAGE)
        return 0
    gc.disable()
    wish = read_words(args)
    svg, status = followed(reports.load(wish.paths), wish)
    sys.stdout.write(svg)
    return status


def followed(report: Report, wish: Wish) -> Tuple[str, int]:
    """Returns the picture of a report and status 0, or of the entries before the first that can't be followed and status 1."""
    try:
        return picture(report, wish), 0
    except ViewError as error:
        entry = error.line - report.first_line + 1
        if entry < 1 or (wish.first or 1) > max(entry - 1, 1):
            raise
        print(error.shown("picture"), file=sys.stderr)
        return picture(report, wish._replace(last=entry - 1), [f"The rest can't be followed: {error.text}."]), 1
