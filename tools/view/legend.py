"""Draws titles, and what colours and marks mean."""

from __future__ import annotations

from typing import Callable, Iterable, List, Sequence, Tuple

from .script import Script
from .svg import Drawing, cut, width_of

ROW = 17.0
LEFT = 12.0
SAMPLE = 20.0
GAP = 16.0

Sample = Callable[[Drawing, float, float], None]


def box(kind: str) -> Sample:
    """Returns a sample that is a box of a class."""
    return lambda drawing, x, y: drawing.rect(kind, x, y, 15, 10)


def _move(drawing: Drawing, x: float, y: float) -> None:
    drawing.path("move", f"M{x:.1f} {y + 9:.1f}L{x + 10:.1f} {y + 3.4:.1f}")
    drawing.polygon("tip", [(x + 16, y), (x + 11.6, y + 6.2), (x + 8.4, y + 0.6)])


def _ready(drawing: Drawing, x: float, y: float) -> None:
    drawing.path("ready", f"M{x:.1f} {y + 5:.1f}h15")


def _backoff(drawing: Drawing, x: float, y: float) -> None:
    drawing.polygon("backoff", [(x + 3, y + 1), (x + 12, y + 1), (x + 7.5, y + 10)])


def _refused(drawing: Drawing, x: float, y: float) -> None:
    drawing.path("refused", f"M{x + 3:.1f} {y + 1:.1f}l8 8m0 -8l-8 8")


SAMPLES = {
    "move": (_move, "a move, from its entry to the end of its copy"),
    "busy": (box("busy"), "a job that runs"),
    "ready": (_ready, "it may run, and others come first"),
    "wait": (box("wait"), "waits: it has no entry yet"),
    "acts": (box("busy"), "the engine runs a job, or the actor makes entries"),
    "waits": (box("waits"), "waits: it has no entry yet"),
    "command": (box("command"), "command"),
    "entry": (box("entry"), "entry"),
    "backoff": (_backoff, "backoff"),
    "refused": (_refused, "refused"),
    "fold": (box("fold"), "pages never held here"),
    "free": (box("free"), "free"),
    "live": (box("live"), "live: held by buffers"),
    "target": (box("target"), "target: held for a buffer that is still elsewhere"),
    "ghost": (box("ghost"), "ghost: left behind, still used by a job"),
}


def put_titles(drawing: Drawing, title: str, notes: Sequence[str], width: float) -> float:
    """Draws a title and notes below it, each on lines of its own, and returns where they end."""
    drawing.text("title", LEFT, 20, title)
    y = 24.0
    for note in notes:
        for line in wrapped(note, width - 2 * LEFT):
            y += 13
            drawing.text("note", LEFT, y, line)
    return y


def wrapped(text: str, width: float) -> List[str]:
    """Returns a text in lines that are at most so wide, as far as its words are."""
    lines = [""]
    for word in text.split(" "):
        if lines[-1] and width_of(f"{lines[-1]} {word}") > width:
            lines.append(word)
        else:
            lines[-1] = f"{lines[-1]} {word}".lstrip()
    return lines


def rows_of(items: Iterable[Tuple[Sample, str]], width: float) -> List[List[Tuple[Sample, str]]]:
    """Returns the items in rows that are at most so wide."""
    rows: List[List[Tuple[Sample, str]]] = [[]]
    x = LEFT
    for sample, text in items:
        needed = SAMPLE + width_of(text) + GAP
        if rows[-1] and x + needed > width:
            rows.append([])
            x = LEFT
        rows[-1].append((sample, text))
        x += needed
    return [row for row in rows if row]


def buffer_items(script: Script, buffers: Iterable[int]) -> List[Tuple[Sample, str]]:
    """Returns the items of buffers."""
    return [(box(f"l{index}"), cut(script.buffer_name(index), 12)) for index in sorted(buffers)]


def mark_items(kinds: Iterable[str]) -> List[Tuple[Sample, str]]:
    """Returns the items of marks."""
    return [SAMPLES[kind] for kind in kinds]


def draw(drawing: Drawing, top: float, width: float, groups: Iterable[List[Tuple[Sample, str]]]) -> float:
    """Draws groups of items, each from a new row on, and returns where they end."""
    y = top
    for items in groups:
        for row in rows_of(items, width):
            x = LEFT
            for sample, text in row:
                sample(drawing, x, y)
                drawing.text("", x + SAMPLE, y + 8.6, text)
                x += SAMPLE + width_of(text) + GAP
            y += ROW
    return y
