"""Says why a report isn't right: what stands at the entry that `check` rejected, and what was expected there."""

from __future__ import annotations

from typing import Iterator, List, NamedTuple, Optional, Tuple

from .entry_reader import read_entries
from .errors import ViewError
from .limits import REPORT_BYTES
from .program import journal_of, simulate
from .replay import Replay
from .report import Report
from .rules import VERDICT_RULES
from .script import Actor, Script
from .script_reader import read_script, split_input
from .turns import with_turns
from .wait_text import wait_text


class Said(NamedTuple):
    """What is told: a line of the input (0 for none), one cause, what stands there, and what was expected."""

    line: int
    cause: str
    shown: str
    expected: str


class Rejected:
    """A script with a report that `check` rejected at an entry by a rule."""

    def __init__(self, data: bytes, entry: int, rule: int) -> None:
        script_part, self.report_part = split_input(data)
        self.script: Script = read_script(script_part)
        self.first = script_part.count(b"\n") + 1
        self.lines = self.report_part.decode("latin-1").split("\n")
        if not self.lines[-1]:
            self.lines.pop()
        self.entry, self.rule = entry, rule

    def said(self) -> Said:
        """Returns what is told."""
        tellers = {1: self._head, 2: self._no_entry, 3: self._not_next, 4: self._shows, 5: self._incomplete, 6: self._rest}
        return tellers[self.rule]()

    def _line(self, index: int) -> str:
        """Returns a line of the report from 0 on, or nothing after its end."""
        return self.lines[index] if index < len(self.lines) else ""

    def _at(self, index: int, cause: str, expected: str) -> Said:
        """Returns what is told of a line of the report, counted from 0."""
        return Said(self.first + index, cause, self._line(index), expected)

    def _head(self) -> Said:
        """Rule 1: what stands before the journal."""
        if len(self.report_part) > REPORT_BYTES:
            return Said(0, f"the report has {len(self.report_part)} bytes", "", f"at most {REPORT_BYTES}")
        first = f"report {self.script.version}"
        if not self.lines:
            return self._at(0, "no report follows the script", f"`{first}`, as this script has version {self.script.version}")
        if self.lines[0] != first:
            return self._at(0, "this isn't the first line of a report of this script", f"`{first}`")
        return self._at(1, "this isn't the second line of a report", "`journal N`, N the number of entries")

    def _actors(self, count: int) -> List[str]:
        """Returns the actors of the first entries."""
        return [line.split(" ")[1] for line in self.lines[2 : 2 + count]]

    def _expected(self, turns: List[str], count: int) -> Optional[str]:
        """Returns entry `count` of a run with these turns first, without its number; None where there is none or it isn't known."""
        try:
            output = simulate(with_turns(self.script, turns), count)
        except ViewError:
            return None
        journal = journal_of(output or b"")
        return journal[count - 1].split(" ", 1)[1] if len(journal) >= count else None

    def _no_entry(self) -> Said:
        """Rule 2: a line that is missing, or is no entry."""
        index = self.entry + 1
        if index >= len(self.lines):
            return self._at(index, f"the report ends before entry {self.entry}", f"{self._line(1).split(' ')[-1]} entries, as its second line says")
        entries, wrong = read_entries(self.script, self.lines[2 : index + 1])
        cause = wrong if len(entries) < self.entry else "this isn't how an entry is written"
        return self._at(index, cause, f"`{self.entry} ACTOR ENTRY`, as section 7 of docs/SPECIFICATION.md has them")

    def _not_next(self) -> Said:
        """Rule 3: an entry that its actor doesn't make next."""
        index = self.entry + 1
        actor = self._line(index).split(" ")[1]
        expected = self._expected(self._actors(self.entry), self.entry)
        if expected is not None:
            return self._at(index, f"this isn't what {actor} does next", f"`{self.entry} {expected}`")
        return self._at(index, f"{actor} can't do anything here", self._why_not(actor))

    def _why_not(self, word: str) -> str:
        """Says why an actor has no entry after those above."""
        lines = self.lines[2 : self.entry + 1]
        entries, _ = read_entries(self.script, lines)
        replay = Replay(Report(self.script, entries, lines, self.first + 2, [], [], [], [], None, ""))
        replay.run()
        actor = next(one for one in self.script.actors() if str(one) == word)
        return f"an entry of another actor, since {_blocked(replay, actor)}"

    def _shows(self) -> Said:
        """Rule 4: an entry that shows something else."""
        index = self.entry + 1
        expected = self._expected(self._actors(self.entry), self.entry)
        return self._at(index, "the entry may come here, but not with what it shows", f"`{self.entry} {expected}`" if expected else VERDICT_RULES[4])

    def _incomplete(self) -> Said:
        """Rule 5: a journal that ends too early."""
        expected = self._expected(self._actors(self.entry - 1), self.entry)
        cause = f"the journal ends after entry {self.entry - 1}, and not all is done"
        return self._at(self.entry + 1, cause, f"an entry such as `{self.entry} {expected}`" if expected else VERDICT_RULES[5])

    def _rest(self) -> Said:
        """Rule 6: what follows the journal."""
        start = self.entry + 1
        try:
            output = simulate(with_turns(self.script, self._actors(self.entry - 1)))
        except ViewError:
            output = None
        if output is None:
            return self._at(start, "what follows the journal isn't what it comes to", VERDICT_RULES[6])
        for index, (given, right) in enumerate(_pairs(self.lines[start:], output.decode("latin-1").split("\n")[start:-1]), start):
            if given != right:
                cause = "the report ends here" if given is None else "this isn't what the journal comes to"
                return self._at(index, cause, "the end of the report" if right is None else f"`{right}`")
        return self._at(len(self.lines) - 1, "the last line lacks its line feed", "a line feed at the end of each line")


def _pairs(left: List[str], right: List[str]) -> Iterator[Tuple[Optional[str], Optional[str]]]:
    """Pairs the lines of two texts, None after the end of one."""
    for index in range(max(len(left), len(right))):
        yield (left[index] if index < len(left) else None, right[index] if index < len(right) else None)


def _blocked(replay: Replay, actor: Actor) -> str:
    """Says why an actor has no entry in the state of a replay."""
    state = replay.state
    if actor.kind == "t":
        course = state.courses[actor.number - 1]
        if course.command() is None:
            return f"each command of {actor} is answered"
        need, _ = replay.waits.needs.of(course)
        return f"{actor} waits for {wait_text(state.script, need)}" if need is not None else f"{actor} can't go on"
    if actor.kind == "r":
        return "no ghost can be reaped: there is none, or its jobs aren't done"
    job = next((job for job in state.jobs.values() if job.engine == actor.number), None)
    if job is None:
        return f"{actor} has no job"
    waits = [str(other) for other in job.waits if not other.done]
    return f"{job} waits for {', '.join(waits)}" if waits else f"{actor} can't go on"
