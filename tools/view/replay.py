"""Follows a journal entry by entry, keeps the state, and tells observers what changes: section 5 of docs/SPECIFICATION.md."""

from __future__ import annotations

from typing import Callable, Dict, Iterator, List, Optional

from .apply_moves import ApplyMoves
from .entries import Entry
from .observers import EVENTS, Observer
from .report import Report
from .state import Course, State
from .waits import Waits


class Replay:
    """A journal being followed. `state` is the state after entry number `number`, which is 0 at the start.

    Either `run` follows all of it, or `steps` gives back each entry once it is followed.
    """

    def __init__(self, report: Report, *observers: Observer) -> None:
        self.report = report
        self.state = State(report.script)
        self.number = 0
        told: Dict[str, List[Callable[..., None]]] = {
            event: [getattr(one, event) for one in observers if getattr(type(one), event) is not getattr(Observer, event)] for event in EVENTS
        }
        self.told_entry = told["entry"]
        self.waits = Waits(self.state, told["waited"])
        self.apply = ApplyMoves(self.state, told)

    def run(self) -> State:
        """Follows the whole journal, and returns the last state; raises ViewError where an entry can't be."""
        for _ in self.steps():
            pass
        return self.state

    def steps(self) -> Iterator[Entry]:
        """Follows the journal, and gives each entry once the state is the one after it; raises ViewError."""
        apply, waits, told = self.apply, self.waits, self.told_entry
        handlers, courses = apply.handlers, self.state.courses
        last: Optional[Course] = None
        number = 0
        try:
            for number, entry in enumerate(self.report.entries, 1):
                letter, index = entry[0]
                course = courses[index - 1] if letter == "t" else None
                self.number = apply.number = number
                if course is not last:
                    if last is not None:
                        waits.look_at(last, number - 1)
                    if course is not None:
                        waits.goes_on(course, number)
                    last = course
                if course is not None:
                    course.last_entry = number
                    if not course.first_entry:
                        apply.begin(course, number)
                kind = type(entry)
                handlers[kind](course, entry)
                if waits.lockers or waits.seekers or waits.open:
                    waits.after(kind, number)
                for tell in told:
                    tell(number, entry)
                yield entry
        except (KeyError, IndexError, ValueError, TypeError, AttributeError) as error:
            raise self.report.error(number, f"`{self.report.text(number)}` can't be what happens here: {_why(error)}") from None
        if last is not None:
            waits.look_at(last, number)
        waits.end()


def _why(error: Exception) -> str:
    """Says what was wrong with an entry."""
    text = str(error)
    return text if isinstance(error, ValueError) and text else "it names what isn't there"
