"""Sums up a long run by column while it is replayed: shares of pages, what actors do and wait, and how often things happen."""

from __future__ import annotations

from collections import Counter
from typing import Dict, List, Optional, Tuple

from .columns import Columns, Level
from .entries import Backoff, Entry, Refused, SwapIn, SwapOut
from .observers import Moved, Observer, Wait
from .record import last_done
from .replay import Replay
from .report import Report
from .script import Script
from .state import AREAS, BufferState, Course, Ghost, Holder, Job, State, Victim

KINDS = ("live", "target", "ghost")
EVENTS = ("evictions", "moves", "swapped pages", "backoffs", "refusals")
COUNTED: Tuple[Tuple[str, type], ...] = (("backoffs", Backoff), ("refusals", Refused), ("swapped pages", SwapIn), ("swapped pages", SwapOut))


class Sums(Observer):
    """Keeps the sums of the entries from `first` to `last`. `replay` must be set before it is told of anything."""

    replay: Replay

    def __init__(self, script: Script, first: int, last: int) -> None:
        self.columns = columns = Columns(first, last)
        self.held: Dict[str, Dict[str, Level]] = {area: {kind: columns.level(area, kind) for kind in KINDS} for area in AREAS}
        engines = range(script.engines + 1)
        self.busy = [columns.level(f"e{engine}", "busy") for engine in engines]
        self.waits = [columns.level(f"e{engine}", "wait") for engine in engines]
        self.free_from = [0 for _engine in engines]
        self.ghosts_end = 0

    def pages(self, area: str, first: int, last: int, before: Optional[Holder], after: Optional[Holder]) -> None:
        levels = self.held[area]
        if before is not None:
            levels[before[0]].change(self.replay.number, first - last)
        if after is not None:
            levels[after[0]].change(self.replay.number, last - first)

    def begun(self, job: Job) -> None:
        self._waits(job, self.replay.number)
        self.busy[job.engine].change(self.replay.number, 1)

    def _waits(self, job: Job, until: int) -> None:
        """Notes how long a job waits for others at the head of its engine."""
        head = max(job.emitted, self.free_from[job.engine])
        self.waits[job.engine].lasts(head + 1, min(last_done(job.waits, until)[0], until) + 1)

    def done(self, job: Job) -> None:
        self.free_from[job.engine] = self.replay.number
        self.busy[job.engine].change(self.replay.number + 1, -1)

    def ghost_reaped(self, ghost: Ghost) -> None:
        self._ghost(ghost, self.replay.number)

    def _ghost(self, ghost: Ghost, until: int) -> None:
        """Notes how long the reaper waits for the jobs of a ghost, once it is the first one."""
        head = max(ghost.made, self.ghosts_end)
        self.ghosts_end = until
        self.columns.level("r", "wait").lasts(head + 1, min(last_done(ghost.jobs, until)[0], until) + 1)

    def moved(self, move: Moved) -> None:
        self.columns.happens("moves", self.replay.number)

    def caught(self, course: Course, victim: Victim, buffer: BufferState) -> None:
        if victim.why != "swap":
            self.columns.happens("evictions", self.replay.number)

    def waited(self, wait: Wait) -> None:
        until = self.columns.last if wait.until is None else wait.until
        self.columns.level(f"t{wait.thread}", "wait").lasts(wait.since + 1, until + 1)

    def finish(self, state: State, entries: List[Entry]) -> Columns:
        """Ends what the last entry leaves open, counts entries, and returns the sums."""
        heads = set()
        for job in state.jobs.values():
            if not job.begun and job.engine not in heads:
                self._waits(job, self.columns.last)
            heads.add(job.engine)
        for ghost in state.ghosts.values():
            self._ghost(ghost, self.columns.last)
        for column, (first, end) in enumerate(self.columns.spans()):
            self._count(column, entries[first - 1 : end - 1])
        return self.columns

    def _count(self, column: int, entries: List[Entry]) -> None:
        """Counts the entries of a column, by actor and by what they say."""
        for actor, count in Counter(entry[0] for entry in entries).items():
            self.columns.counted(str(actor))[column] += count
        kinds = Counter(map(type, entries))
        for name, kind in COUNTED:
            self.columns.counted(name)[column] += kinds[kind]


def summed_up(report: Report, first: int, last: int) -> Columns:
    """Returns the sums of the entries from `first` to `last` of a report."""
    sums = Sums(report.script, first, last)
    sums.replay = Replay(report, sums)
    return sums.finish(run_to(sums.replay, last), report.entries)


def run_to(replay: Replay, last: int) -> State:
    """Follows a journal up to an entry, and returns the state after it."""
    if last == len(replay.report.entries):
        return replay.run()
    for _entry in replay.steps() if last else ():
        if replay.number == last:
            break
    replay.waits.end()
    return replay.state
