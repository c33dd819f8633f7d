"""Says in words what a picture shows, for those who hear it read."""

from __future__ import annotations

from typing import List, Sequence, Tuple

from .columns import Columns
from .draw_pages import NAMES, counted, ends_of
from .past import Past
from .script import Script
from .state import AREAS
from .sums import EVENTS, KINDS

MOST = 8


def listed(texts: Sequence[str], what: str) -> str:
    """Returns a sentence with how many there are and what the first ones are."""
    if not texts:
        return f"No {what}."
    more = f"; and {len(texts) - MOST} more" if len(texts) > MOST else ""
    return f"{counted(len(texts), what)}: {'; '.join(texts[:MOST])}{more}."


def memory(script: Script, ends: Sequence[Tuple[str, Tuple[int, int, int, int]]], when: str) -> str:
    """Returns a sentence on each area that has pages."""
    parts = [f"{NAMES[area][0]} has {counted(script.size(area), NAMES[area][1])}, {when} {', '.join(ends_of(end))}." for area, end in ends]
    return " ".join(parts)


def of_past(script: Script, past: Past, note: str, when: str) -> str:
    """Describes a picture by entry."""
    ends = [(area, past.ends[area]) for area in AREAS if script.size(area)]
    moves = [
        f"{script.buffer_name(way.buffer)} from {NAMES[way.source][0]} to {NAMES[way.target][0]} by job {way.job}, entries {way.start} to {way.end}"
        for way in past.ways
    ]
    waits = [f"{one.actor} for {one.reason}, entries {one.start + 1} to {one.end}" for one in past.pauses if one.actor != "r"]
    refusals = [f"t{one.thread} {one.number} {one.answer} at entry {one.end}" for one in past.doings if one.answer]
    backoffs = [f"t{sign.thread} at entry {sign.entry}" for sign in past.signs if sign.kind == "backoff"]
    sentences: List[str] = [note, memory(script, ends, when), listed(moves, "move"), listed(waits, "real wait"), listed(backoffs, "backoff")]
    return " ".join([*sentences, listed(refusals, "refusal")])


def of_columns(script: Script, columns: Columns, note: str, when: str) -> str:
    """Describes a picture by column."""
    ends: List[Tuple[str, Tuple[int, int, int, int]]] = []
    for area in AREAS:
        if script.size(area):
            live, target, ghost = (columns.level(area, kind).end() for kind in KINDS)
            ends.append((area, (script.size(area) - live - target - ghost, live, target, ghost)))
    counts = ", ".join(f"{sum(columns.counted(kind)):,} {kind}" for kind in EVENTS)
    return f"{note} {memory(script, ends, when)} {counts}."
