"""Finds where threads wait: the stretches of entries in which a thread has no legal entry."""

from __future__ import annotations

from typing import Callable, Dict, List, Optional, Tuple

from .entries import (
    Backoff, Catch, Depopulate, Done, Free, Loose, Move, Populate, Reap, Refused, Reserve, Result, Skip, SwapIn, SwapOut, Take, Unbind, Untake,
)  # fmt: skip
from .needs import LOCK, Need, Needs, Seek
from .observers import Wait
from .state import Course, State

# What lets buffers go, and what reserves them; what frees places or ghosts, and what takes them.
RELEASES = frozenset((Result, Refused, Backoff, Loose, Skip, Free))
RESERVES = frozenset((Reserve, Catch))
FREES = frozenset((Untake, Unbind, Move, Depopulate, SwapOut, Reap)) | RELEASES
FRAMES = frozenset((Populate, SwapIn))
TAKES = frozenset((Take, Move, Free, SwapOut, Result)) | RESERVES


class Waits:
    """Follows who waits. A thread is looked at once another actor comes in between its entries, and again where others change what it needs."""

    def __init__(self, state: State, tell: List[Callable[[Wait], None]]) -> None:
        self.state = state
        self.needs = Needs(state)
        self.frames = state.areas["frames"]
        self.tell = tell
        self.open: Dict[int, Tuple[int, Need]] = {}
        self.lockers: Dict[int, Course] = {}
        self.seekers: Dict[int, Tuple[Course, Seek]] = {}

    def look_at(self, course: Course, number: int) -> None:
        """Looks at what a thread needs after entry `number`."""
        need, interest = self.needs.of(course)
        if interest == LOCK:
            self.lockers[course.thread] = course
        elif callable(interest):
            self.seekers[course.thread] = course, interest
        self._note(course, need, number)

    def _note(self, course: Course, need: Optional[Need], number: int) -> None:
        """Notes what a thread needs after entry `number`, None for nothing."""
        old = self.open.get(course.thread)
        if old is not None and old[1] != need:
            self.close(course, number)
            old = None
        if need is not None and old is None:
            self.open[course.thread] = (number, need)

    def close(self, course: Course, until: Optional[int]) -> None:
        """Ends the wait of a thread."""
        since, need = self.open.pop(course.thread)
        wait = Wait(course.thread, course.answered + 1, since, until, need)
        for told in self.tell:
            told(wait)

    def goes_on(self, course: Course, number: int) -> None:
        """A thread makes entry `number`, so that it waits no longer."""
        thread = course.thread
        if thread in self.open:
            self.close(course, number - 1)
        self.lockers.pop(thread, None)
        self.seekers.pop(thread, None)

    def after(self, kind: type, number: int) -> None:
        """Looks again at the threads of which an entry of this kind may change what they need.

        One that waits is looked at where something is let go or freed, and one that doesn't where something is reserved or taken.
        """
        opened = self.open
        if self.lockers and (kind in RELEASES or kind in RESERVES):
            for course in [course for thread, course in self.lockers.items() if (kind in RELEASES) == (thread in opened)]:
                self.look_at(course, number)
        if self.seekers:
            frees = kind in FREES
            takes = bool(self.state.ghosts) and (kind in TAKES or (kind in FRAMES and not self.frames.free))
            if frees or takes:
                for course, seek in [one for thread, one in self.seekers.items() if (frees if thread in opened else takes)]:
                    self._note(course, seek(), number)
        if opened and kind is Done:
            for thread in [thread for thread, (_since, need) in opened.items() if need.job is not None and need.job.done]:
                self.look_at(self.state.courses[thread - 1], number)

    def end(self) -> None:
        """Ends all waits: the journal is over."""
        for thread in list(self.open):
            self.close(self.state.courses[thread - 1], None)
