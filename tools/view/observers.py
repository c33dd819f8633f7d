"""What a replay tells those who look on."""

from __future__ import annotations

from typing import NamedTuple, Optional

from .entries import Entry, Spans
from .needs import Need
from .script import Command
from .state import BufferState, Course, Ghost, Holder, Job, Victim


class Wait(NamedTuple):
    """A stretch of entries in which a thread had no legal entry.

    It begins after entry `since` and ends with entry `until`, which made what the thread needed; None where the journal ends before.
    """

    thread: int
    command: int
    since: int
    until: Optional[int]
    need: Need


class Moved(NamedTuple):
    """A move of a buffer from one place to another. `ghost` is None where its old pages were free at once."""

    entry: int
    buffer: int
    before: str
    after: str
    old: Spans
    new: Spans
    job: Job
    ghost: Optional[Ghost]
    is_victim: bool


class Observer:
    """Is told of what a replay changes, in order; `Replay.number` is the entry at work. Each method that a class doesn't define costs nothing."""

    def pages(self, area: str, first: int, last: int, before: Optional[Holder], after: Optional[Holder]) -> None:
        """The pages from `first` up to `last` of an area pass from a holder to another; None is free."""

    def emitted(self, job: Job) -> None:
        """A job is emitted."""

    def begun(self, job: Job) -> None:
        """The first packet of a job has run."""

    def done(self, job: Job) -> None:
        """A job is done."""

    def ghost_made(self, ghost: Ghost) -> None:
        """A ghost is left."""

    def ghost_reaped(self, ghost: Ghost) -> None:
        """A ghost is reaped."""

    def command_begun(self, course: Course, command: Command) -> None:
        """The first entry of a command comes."""

    def command_ended(self, course: Course, command: Command, answer: Entry) -> None:
        """A command is answered by a Result or Refused entry; the course is still that of the command."""

    def moved(self, move: Moved) -> None:
        """A buffer is moved by a job."""

    def caught(self, course: Course, victim: Victim, buffer: BufferState) -> None:
        """A victim is caught."""

    def waited(self, wait: Wait) -> None:
        """A wait has ended, or the journal has."""

    def entry(self, number: int, entry: Entry) -> None:
        """An entry is followed; the state is the one after it."""


EVENTS = (
    "pages", "emitted", "begun", "done", "ghost_made", "ghost_reaped", "command_begun", "command_ended", "moved", "caught", "waited", "entry",
)  # fmt: skip
