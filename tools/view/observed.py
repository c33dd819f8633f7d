"""What one interleaving of a script led to, as far as another may lead elsewhere: answers, victims, last places."""

from __future__ import annotations

from dataclasses import dataclass
from typing import Dict, List, NamedTuple

from .entries import Catch, Refused, Result, Spans
from .replay import Replay
from .report import Report
from .script import SYSTEM, Command
from .state import BufferState

CATCH_WORDS = {"vram": "out of vram", "tt": "out of tt", "swap": "to swap"}


class Fact(NamedTuple):
    """What was seen (`what`) of a command or buffer (`subject`)."""

    subject: str
    what: str


@dataclass(frozen=True)
class Observed:
    """The facts of one report, in the order of the script, and its journal."""

    answers: List[Fact]
    victims: List[Fact]
    places: List[Fact]
    journal: int


def command_label(command: Command) -> str:
    """Returns a command with its thread and number."""
    return f"t{command.thread} {command.number}  {command.text}"


def answers_of(report: Report) -> List[Fact]:
    """Returns the answer of each command that has one."""
    facts: List[Fact] = []
    for answer in sorted(report.results):
        command = report.script.command(answer.thread, answer.command)
        assert command is not None
        facts.append(Fact(command_label(command), answer.text))
    return facts


def victims_of(report: Report) -> List[Fact]:
    """Returns each buffer that was caught, with what for and by which command, once each."""
    script, answered = report.script, [0] * (len(report.script.threads) + 1)
    found: Dict[Fact, None] = {}
    for entry in report.entries:
        if isinstance(entry, (Result, Refused)):
            answered[entry.actor.number] += 1
        elif isinstance(entry, Catch):
            command = script.command(entry.actor.number, answered[entry.actor.number] + 1)
            who = command_label(command) if command else str(entry.actor)
            found[Fact(script.buffer_name(entry.buffer), f"{CATCH_WORDS[entry.why]} for {who}")] = None
    return sorted(found, key=lambda fact: script.names[fact.subject])


def spans_text(spans: Spans) -> str:
    """Returns spans as reports have them."""
    return ",".join(f"{span.first}-{span.last}" for span in spans) or "-"


def place_of(buffer: BufferState) -> str:
    """Returns where a buffer stands, with its pages there or how many of them have been swapped out."""
    if not buffer.is_live:
        return "freed, or never made"
    if buffer.memory != SYSTEM:
        return f"{buffer.memory} {spans_text(buffer.spans)}"
    return f"sys, {buffer.slot_count} of {buffer.declared.pages} pages in swap" if buffer.slot_count else "sys"


def observe(report: Report) -> Observed:
    """Returns what a report shows; raises ViewError where its journal can't be followed."""
    state = Replay(report).run()
    places = [Fact(buffer.declared.name, place_of(buffer)) for buffer in state.buffers]
    return Observed(answers_of(report), victims_of(report), places, hash("\n".join(report.lines)))
