"""`schedule`: the script of a report, with the schedule lines that make `ttm sim` write that report again.

All parts of a report but its first two lines follow from its journal and the script, and the journal from the script and the order of
actors: entry number i is what the i-th of them does next. So the turns of a report are its actors, one for each entry, whether threads,
`sim` or a `schedule` made that order. The part `spaces` is the one part that is the same in every order.
"""

from __future__ import annotations

import sys
from typing import List

from .report import Report, load
from .turns import with_turns


def turns_of(report: Report) -> List[str]:
    """Returns the actor of each entry."""
    return [str(entry.actor) for entry in report.entries]


def note_of(report: Report) -> str:
    """Returns what the user should know about the script that is written, or nothing."""
    if report.unfinished is None:
        return ""
    return f"the report is of a run that was cut off: `sim --turns {len(report.entries)}` makes its journal, and `sim` goes on after it"


def main(args: List[str]) -> int:
    """Writes the script of the report in the files `args`, or on standard input."""
    report = load(args)
    text = with_turns(report.script, turns_of(report))
    if note_of(report):
        print(f"schedule: {note_of(report)}", file=sys.stderr)
    sys.stdout.write(text)
    return 0
