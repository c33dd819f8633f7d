"""What a run leaves to be drawn: who held which pages, and which moves, jobs, ghosts, commands and waits there were, from entry to entry.

Entries count from 1. What begins with entry `start` and ends with entry `end` is there after each entry from `start` to `end - 1`; an
`end` one past the last entry says that it is there to the end.
"""

from __future__ import annotations

from dataclasses import dataclass, field
from typing import Dict, List, NamedTuple, Tuple

from .state import Holder


class Stretch(NamedTuple):
    """Pages of an area, from `first` up to `last`, that a holder has from one entry to another, the one before those shown at the earliest."""

    area: str
    first: int
    last: int
    holder: Holder
    start: int
    end: int


class Way(NamedTuple):
    """A move of a buffer by a job of engine 0: its old and new place, the entry of the move, and that of the job's end."""

    buffer: int
    source: str
    source_page: int
    target: str
    target_page: int
    pages: int
    job: int
    start: int
    end: int


class Work(NamedTuple):
    """A job: armed or emitted by thread `thread` with entry `start`, at the head of its engine from `head` on, free to run from `ready`
    on, run from `begun` on, done with `end`. `reason` says what it waited for until it was ready."""

    engine: int
    number: int
    thread: int
    start: int
    head: int
    ready: int
    begun: int
    end: int
    reason: str


class Doing(NamedTuple):
    """A command of a thread, from its first entry to its answer; `answer` is the refusal's name, or empty."""

    thread: int
    number: int
    text: str
    start: int
    end: int
    answer: str


class Pause(NamedTuple):
    """An actor has no legal entry after each entry from `start` to `end - 1`; `labels` say what it waits for in a few words, or fewer."""

    actor: str
    start: int
    end: int
    reason: str
    labels: Tuple[str, ...]


class Sign(NamedTuple):
    """What is marked at an entry of a thread: `kind` is backoff or refused."""

    thread: int
    kind: str
    entry: int
    text: str


@dataclass
class Past:
    """All of it, for the entries that are drawn. `cut_ways` counts the moves that begin before them or end after them."""

    stretches: List[Stretch] = field(default_factory=list)
    ways: List[Way] = field(default_factory=list)
    works: List[Work] = field(default_factory=list)
    doings: List[Doing] = field(default_factory=list)
    pauses: List[Pause] = field(default_factory=list)
    signs: List[Sign] = field(default_factory=list)
    entries: Dict[str, List[int]] = field(default_factory=dict)
    ends: Dict[str, Tuple[int, int, int, int]] = field(default_factory=dict)
    cut_ways: int = 0

    def shapes(self) -> int:
        """Returns about how many shapes it takes to draw all of it."""
        lists = (self.stretches, self.ways, self.works, self.doings, self.pauses, self.signs)
        return sum(map(len, lists)) + sum(map(len, self.entries.values()))
