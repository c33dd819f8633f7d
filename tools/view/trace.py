"""`trace`: a report in the trace event format of Chrome, which Perfetto's page and chrome://tracing open.

Entry number i takes the microsecond from i on. Each thread, each engine and the reaper has a track: commands and jobs, with their entries
inside, and waits. An arrow leads from the entry that ends a wait to the wait. Four counters have the free pages, frames and slots.
"""

from __future__ import annotations

import json
import sys
from typing import Dict, Iterable, List, Optional, Set

from .entries import Entry
from .errors import ViewError
from .observers import Moved, Observer, Wait
from .replay import Replay
from .report import Report, load
from .script import Actor, Command
from .state import AREAS, Course, Ghost, Holder, Job
from .wait_text import wait_text

FIRST_ENGINE = 101  # the number of the track of engine 0; threads have their own numbers
REAPER = 201
COUNTERS = {"vram": "free pages of VRAM", "tt": "free pages of TT", "frames": "free frames", "swap": "free slots"}


def track_of(actor: Actor) -> int:
    """Returns the number of the track of an actor."""
    return {"t": 0, "e": FIRST_ENGINE, "r": REAPER}[actor.kind] + actor.number


def title_of(actor: Actor) -> str:
    """Returns the title of the track of an actor."""
    if actor.kind == "t":
        return f"thread {actor.number}"
    if actor.kind == "r":
        return "reaper"
    return f"engine {actor.number}" if actor.number else "engine 0 (moves)"


def jobs_text(jobs: Iterable[Job]) -> str:
    """Names jobs."""
    return ", ".join(f"job {job.number} of e{job.engine}" for job in jobs)


class Trace(Observer):
    """Collects the events of a replay, each as text."""

    def __init__(self, report: Report) -> None:
        self.report = report
        self.script = report.script
        self.events: List[str] = []
        self.replay = Replay(report, self)
        self.state = self.replay.state
        self.lines = report.lines
        self.changed: Set[str] = set()
        self.counters = {area: f'{{"pid":1,"ph":"C","tid":0,"name":"{title}","ts":' for area, title in COUNTERS.items()}
        self.open: Dict[int, int] = {}
        self.arrows = 0
        self.idle_since = [0] * (self.script.engines + 1)
        self.reaped = 0
        self.moves: Dict[Job, str] = {}
        self.tracks = {actor: track_of(actor) for actor in self.script.actors()}
        self.heads = {actor: f'{{"pid":1,"ph":"X","dur":1,"tid":{track},"ts":' for actor, track in self.tracks.items()}

    def add(self, phase: str, track: int, at: int, rest: str) -> None:
        """Adds an event of a track; `rest` is JSON too. No name but the report's has a byte that must be escaped: readers refuse those."""
        self.events.append(f'{{"pid":1,"ph":"{phase}","tid":{track},"ts":{at}{rest}}}')

    def begin(self, track: int, at: int, name: str) -> None:
        """Begins a slice of a track."""
        self.open[track] = self.open.get(track, 0) + 1
        self.add("B", track, at, f',"name":"{name}"')

    def end(self, track: int, at: int, answer: str = "") -> None:
        """Ends the slice of a track that began last."""
        self.open[track] -= 1
        self.add("E", track, at, f',"args":{{"answer":"{answer}"}}' if answer else "")

    def wait(self, track: int, since: int, until: int, name: str) -> None:
        """Adds a wait from the end of entry `since` to that of entry `until`."""
        self.add("X", track, since + 1, f',"dur":{until - since},"cat":"wait","name":"{name}"')

    def wait_of(self, track: int, since: int, until: int, name: str) -> None:
        """Adds a wait with an arrow from the entry `until`, which ends it."""
        self.wait(track, since, until, name)
        self.arrows += 1
        arrow = f',"id":{self.arrows},"cat":"wait","name":"waited for"'
        self.add("s", self.tracks[self.report.entries[until - 1].actor], until, arrow)
        self.add("f", track, until, f'{arrow},"bp":"e"')

    def entry(self, number: int, entry: Entry) -> None:
        text = self.lines[number - 1].split(" ", 2)[2]
        self.events.append(f'{self.heads[entry[0]]}{number},"name":"{text}"}}')
        if self.changed:
            for area in self.changed:
                self.count(area, number)
            self.changed.clear()

    def pages(self, area: str, first: int, last: int, before: Optional[Holder], after: Optional[Holder]) -> None:
        if before is None or after is None:
            self.changed.add(area)

    def count(self, area: str, at: int) -> None:
        """Adds what an area has free now."""
        self.events.append(f'{self.counters[area]}{at},"args":{{"free":{self.state.areas[area].free}}}}}')

    def command_begun(self, course: Course, command: Command) -> None:
        self.begin(course.thread, course.first_entry, f"{command.number}  {command.text}")

    def command_ended(self, course: Course, command: Command, answer: Entry) -> None:
        number = self.replay.number
        self.end(course.thread, number + 1, self.report.text(number))

    def waited(self, wait: Wait) -> None:
        name = f"waits for {wait_text(self.script, wait.need)}"
        if wait.until is None:
            self.wait(wait.thread, wait.since, len(self.report.entries), name)
        elif wait.until > wait.since:
            self.wait_of(wait.thread, wait.since, wait.until, name)

    def moved(self, move: Moved) -> None:
        self.moves[move.job] = f"{self.script.buffer_name(move.buffer)} from {move.before} to {move.after}"

    def begun(self, job: Job) -> None:
        track, head = FIRST_ENGINE + job.engine, max(job.emitted, self.idle_since[job.engine])
        last = max((other.done for other in job.waits), default=0)
        if last > head:
            self.wait_of(track, head, last, f"job {job.number} waits for {jobs_text(other for other in job.waits if other.done > head)}")
        self.begin(track, job.begun, f"job {job.number}: {self.moves.pop(job, '') or f't{job.thread} {job.command}'}")

    def done(self, job: Job) -> None:
        self.idle_since[job.engine] = job.done
        self.end(FIRST_ENGINE + job.engine, job.done + 1)

    def ghost_reaped(self, ghost: Ghost) -> None:
        head, last = max(ghost.made, self.reaped), max((job.done for job in ghost.jobs), default=0)
        if last > head:
            self.wait_of(REAPER, head, last, f"ghost {ghost.number} waits for {jobs_text(ghost.jobs)}")
        self.reaped = ghost.reaped

    def close(self) -> None:
        """Ends the slices that are still open."""
        for track, count in self.open.items():
            for _ in range(count):
                self.end(track, self.replay.number + 1)

    def fail(self, error: ViewError) -> None:
        """Marks the entry that can't be followed."""
        self.add("i", 0, error.line - self.report.first_line + 1, f',"s":"g","name":{json.dumps(error.text)}')


def names_of(trace: Trace) -> List[str]:
    """Returns the events that name the tracks and put them in order."""
    events = [{"ph": "M", "pid": 1, "name": "process_name", "args": {"name": f"ttm: {trace.report.name}"}}]
    for order, (actor, track) in enumerate(trace.tracks.items()):
        events.append({"ph": "M", "pid": 1, "tid": track, "name": "thread_name", "args": {"name": title_of(actor)}})
        events.append({"ph": "M", "pid": 1, "tid": track, "name": "thread_sort_index", "args": {"sort_index": order}})
    return [json.dumps(event) for event in events]


def main(args: List[str]) -> int:
    """Writes the trace of the report in the files `args`, or on standard input. What can't be followed ends it, with status 1."""
    trace = Trace(load(args))
    for area in AREAS:
        trace.count(area, 0)
    status = 0
    try:
        trace.replay.run()
    except ViewError as error:
        trace.fail(error)
        print(error.shown("trace"), file=sys.stderr)
        status = 1
    trace.close()
    sys.stdout.write('{"displayTimeUnit":"ns","traceEvents":[\n')
    sys.stdout.write(",\n".join(names_of(trace) + trace.events))
    sys.stdout.write("\n]}\n")
    return status
