"""The word `stats`: what a report adds up to, as tables or as JSON."""

from __future__ import annotations

import gc
import json
import sys
from typing import List

from . import report as reports
from .errors import ViewError
from .report import Report
from .replay import Replay
from .stats_rows import Rows, rows_of
from .stats_text import text_of
from .svg import cut
from .totals import Totals

USAGE = """usage: ./ttm stats [json] [FILE | SCRIPT REPORT]

Adds up a script followed by its report (standard input, a file, or two files): entries, memory, moves, evictions, ghosts, buffers, engines,
threads, refusals and waits. With `json` one object, as tools/view/STATS.md says."""


def summary(report: Report) -> Rows:
    """Returns what a report adds up to."""
    totals = Totals(report.script)
    totals.replay = Replay(report, totals)
    state = totals.replay.run()
    totals.finish(state)
    return rows_of(report, totals, state)


def main(args: List[str]) -> int:
    """Prints what the words ask for."""
    if "--help" in args:
        print(USAGE)
        return 0
    is_json = args[:1] == ["json"]
    paths = args[1:] if is_json else args
    wrong = next((word for word in paths if word.startswith("-") and word != "-"), None)
    if wrong is not None or len(paths) > 2:
        raise ViewError(f"{f'`{cut(wrong, 24)}` is not known' if wrong else 'there are too many files'}; {USAGE.splitlines()[0]}")
    gc.disable()
    rows = summary(reports.load(paths))
    if is_json:
        json.dump(rows, sys.stdout, indent=1)
        sys.stdout.write("\n")
    else:
        sys.stdout.write(text_of(rows))
    return 0
