"""Puts turns of actors into a script, as its `schedule` lines.

`ttm sim` gives these turns in their order, and goes on by its own schedule after the last one. A turn counts even where its actor has no
entry then.
"""

from __future__ import annotations

from typing import Iterator, List, Sequence

from .errors import ViewError
from .limits import SCHEDULE_ACTORS, SCRIPT_BYTES
from .script import Script

WORD = "schedule"


def schedule_lines(turns: Sequence[str]) -> Iterator[str]:
    """Yields the schedule lines of `turns`, each of 64 actors but the last."""
    for start in range(0, len(turns), SCHEDULE_ACTORS):
        yield " ".join([WORD, *turns[start : start + SCHEDULE_ACTORS]])


def lines_without_turns(script: Script) -> List[str]:
    """Returns the plain lines of `script` above its end, without its schedule lines."""
    return [line for line in script.lines[:-1] if not line.startswith(WORD + " ")]


def room_for_turns(script: Script) -> int:
    """Returns the bytes that `script` has left for schedule lines, in place of those that it has."""
    return SCRIPT_BYTES - sum(len(line) + 1 for line in [*lines_without_turns(script), "end"])


def fitting_turns(turns: Sequence[str], room: int) -> int:
    """Returns how many of `turns`, from the first on, have schedule lines of at most `room` bytes together."""
    for index, turn in enumerate(turns):
        room -= len(turn) + 1 + (0 if index % SCHEDULE_ACTORS else len(WORD) + 1)
        if room < 0:
            return index
    return len(turns)


def with_turns(script: Script, turns: Sequence[str]) -> str:
    """Returns the text of `script` with `turns` in place of those that it has; raises ViewError where a script can't have them all."""
    fitting = fitting_turns(turns, room_for_turns(script))
    if fitting < len(turns):
        raise ViewError(f"{len(turns):,} turns don't fit: a script has at most {SCRIPT_BYTES:,} bytes, and this one has room for {fitting:,}")
    return "\n".join([*lines_without_turns(script), *schedule_lines(turns), "end", ""])
