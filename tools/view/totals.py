"""Counts what a run adds up to while it is replayed."""

from __future__ import annotations

from dataclasses import dataclass, field
from typing import Dict, List, Optional, Tuple

from .entries import Dry, Entry, Loose, NoPages, Refused, Skip, Ticket
from .needs import Needs
from .observers import Moved, Observer, Wait
from .record import last_done
from .replay import Replay
from .script import Command, Script
from .state import AREAS, BufferState, Course, Ghost, Holder, Job, State, Victim

WHYS = ("vram", "tt", "swap")
WAYS = (("vram", "vram"), ("vram", "tt"), ("tt", "vram"))


@dataclass
class OfBuffer:
    """What happened to a buffer, whichever of its lives it had: `evicted` and `skipped` count by what it was caught for."""

    moves: int = 0
    pages: int = 0
    evicted: Dict[str, int] = field(default_factory=lambda: dict.fromkeys(WHYS, 0))
    skipped: Dict[str, int] = field(default_factory=lambda: dict.fromkeys(WHYS, 0))


@dataclass
class OfActor:
    """What an engine, a thread or the reaper did: `busy` and `waited` are entries, `kinds` counts waits by what they were for."""

    done: int = 0
    busy: int = 0
    waits: int = 0
    waited: int = 0
    backoffs: int = 0
    refusals: int = 0
    kinds: Dict[str, int] = field(default_factory=lambda: {"job": 0, "holder": 0, "ghost": 0})


@dataclass(frozen=True)
class Refusal:
    """A refused command, its entry, and what it found: each Dry and NoPages of the command, and what else tells the cause."""

    entry: int
    command: Command
    reason: str
    found: Tuple[Tuple[int, Entry], ...]
    buffer: str
    pins: int


class Totals(Observer):
    """Counts everything. `replay` must be set before it is told of anything."""

    replay: Replay

    def __init__(self, script: Script) -> None:
        self.script = script
        self.least_free = {area: script.size(area) for area in AREAS}
        self.ways = {way: [0, 0] for way in WAYS}
        self.buffers = [OfBuffer() for _buffer in script.buffers]
        self.engines = [OfActor() for _engine in range(script.engines + 1)]
        self.threads = [OfActor() for _thread in script.threads]
        self.reaper = OfActor()
        self.ghosts: List[int] = []
        self.waits: List[Wait] = []
        self.refusals: List[Refusal] = []
        self.stamps: Dict[int, int] = {}
        self.why: Dict[int, str] = {}
        self.found: Dict[int, List[Tuple[int, Entry]]] = {}
        self.free_from = [0 for _engine in self.engines]
        self.ghosts_end = 0

    def pages(self, area: str, first: int, last: int, before: Optional[Holder], after: Optional[Holder]) -> None:
        if before is None and self.replay.state.areas[area].free < self.least_free[area]:
            self.least_free[area] = self.replay.state.areas[area].free

    def begun(self, job: Job) -> None:
        self._job_waits(job, self.replay.number)

    def _job_waits(self, job: Job, until: int) -> None:
        """Counts how long a job waited for others at the head of its engine."""
        head = max(job.emitted, self.free_from[job.engine])
        _count_wait(self.engines[job.engine], min(last_done(job.waits, until)[0], until) - head)

    def done(self, job: Job) -> None:
        self._job_ends(job, self.replay.number)
        self.engines[job.engine].done += 1

    def _job_ends(self, job: Job, until: int) -> None:
        """Counts how long a job ran."""
        self.free_from[job.engine] = until
        self.engines[job.engine].busy += until - job.begun + 1

    def ghost_reaped(self, ghost: Ghost) -> None:
        self.reaper.done += 1
        self._ghost_ends(ghost, self.replay.number)

    def _ghost_ends(self, ghost: Ghost, until: int) -> None:
        """Counts how long a ghost was there, and the reaper waited for its jobs once it was the first."""
        self.ghosts.append(until - ghost.made)
        head = max(ghost.made, self.ghosts_end)
        self.ghosts_end = until
        _count_wait(self.reaper, min(last_done(ghost.jobs, until)[0], until) - head)

    def moved(self, move: Moved) -> None:
        pages = self.script.buffers[move.buffer].pages
        way = self.ways[move.before, move.after]
        way[0] += 1
        way[1] += pages
        self.buffers[move.buffer].moves += 1
        self.buffers[move.buffer].pages += pages

    def caught(self, course: Course, victim: Victim, buffer: BufferState) -> None:
        self.why[victim.buffer] = victim.why

    def waited(self, wait: Wait) -> None:
        if self.until(wait) > wait.since:
            thread = self.threads[wait.thread - 1]
            _count_wait(thread, self.until(wait) - wait.since)
            thread.kinds[wait.need.kind] += 1
            self.waits.append(wait)

    def until(self, wait: Wait) -> int:
        """Returns the entry with which a wait ends, or the last one."""
        return self.replay.number if wait.until is None else wait.until

    def command_ended(self, course: Course, command: Command, answer: Entry) -> None:
        thread = self.threads[course.thread - 1]
        thread.done += 1
        thread.backoffs += course.backoffs
        found = self.found.pop(course.thread, [])
        if type(answer) is Refused:
            thread.refusals += 1
            buffer = self._refused_buffer(command, answer.reason)
            pins = buffer.pins if buffer else 0
            name = buffer.declared.name if buffer else ""
            self.refusals.append(Refusal(self.replay.number, command, answer.reason, tuple(found), name, pins))

    def _refused_buffer(self, command: Command, reason: str) -> Optional[BufferState]:
        """Returns the buffer for which a command is refused, where the command and the state tell it."""
        named = [self.replay.state.buffers[index] for index in command.buffers]
        if reason == "NoBuffer":
            named = [buffer for buffer in named if not buffer.is_live]
        elif reason == "Pinned" and len(named) > 1:
            places = Places(self.replay.state)
            named = [buffer for buffer in named if buffer.pins and places.is_misplaced(buffer, command)]
        elif reason in ("NoSpace", "NoPages"):
            return None
        return named[0] if named else None

    def entry(self, number: int, entry: Entry) -> None:
        kind = type(entry)
        if kind is Dry or kind is NoPages:
            self.found.setdefault(entry[0].number, []).append((number, entry))
        elif kind is Loose or kind is Skip:
            of = self.buffers[entry[1]]
            counts = of.evicted if kind is Loose else of.skipped
            counts[self.why.pop(entry[1])] += 1
        elif kind is Ticket:
            self.stamps[entry[1]] = entry[0].number

    def finish(self, state: State) -> None:
        """Counts what the last entry leaves open."""
        heads = set()
        for job in state.jobs.values():
            if job.begun:
                self._job_ends(job, self.replay.number)
            elif job.engine not in heads:
                self._job_waits(job, self.replay.number)
            heads.add(job.engine)
        for ghost in state.ghosts.values():
            self._ghost_ends(ghost, self.replay.number)
        for course in state.courses:
            self.threads[course.thread - 1].backoffs += course.backoffs


class Places(Needs):
    """Answers where buffers stand."""

    def is_misplaced(self, buffer: BufferState, command: Command) -> bool:
        """Tells whether a buffer doesn't stand where a command wants it."""
        return not self._in_place(buffer, command)


def _count_wait(actor: OfActor, entries: int) -> None:
    """Counts a wait of so many entries, where there are some."""
    if entries > 0:
        actor.waits += 1
        actor.waited += entries
