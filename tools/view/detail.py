"""Draws a run, or a part of one, entry by entry."""

from __future__ import annotations

from typing import List, Sequence, Set

from . import legend, style
from .draw_lanes import Lanes, kinds_in
from .draw_pages import MARGIN, Pages, counted, draw_moves
from .past import Past
from .scale import RIGHT, Scale
from .script import Script
from .svg import Drawing, document

WIDE = 900.0
WIDEST_COLUMN = 18.0
LOW_COLUMN = 6.0
WIDEST = 2400.0
LEAST_WIDTH = 700.0
# A move for each so many units of width, and at least so many moves, are drawn.
MOVE_WIDTH = 60.0
LEAST_MOVES = 12


def unit_of(entries: int) -> float:
    """Returns how wide the column of an entry is."""
    count = max(entries, 1)
    return min(WIDEST_COLUMN, max(WIDE / count, min(LOW_COLUMN, WIDEST / count)))


def buffers_in(past: Past) -> Set[int]:
    """Returns the buffers that hold pages."""
    return {one.holder.number for one in past.stretches if one.holder.kind != "ghost"}


class Detail:
    """The picture of the past of some entries, under a title and notes."""

    def __init__(self, script: Script, past: Past, scale: Scale, title: str, notes: Sequence[str]) -> None:
        self.script = script
        self.past = past
        self.scale = scale
        self.title = title
        self.notes = notes
        self.drawing = Drawing()
        self.width = max(scale.right + RIGHT, LEAST_WIDTH)

    def svg(self, description: str, when: str) -> str:
        """Returns the picture; `when` says when the counts at the right are taken."""
        drawing = self.drawing
        ways = self.past.ways if len(self.past.ways) <= max(LEAST_MOVES, self.scale.width / MOVE_WIDTH) else []
        top = legend.put_titles(drawing, self.title, self._notes(len(self.past.ways) - len(ways)), self.width) + 22
        pages = Pages(self.script, self.past, self.scale, top)
        lines = [pages.line_of(way) for way in ways]
        drawing.text("small", self.scale.right + 8, top - 5, when)
        pages.draw(drawing, lines)
        draw_moves(drawing, self.script, ways, lines)
        lanes = Lanes(drawing, self.script, self.past, self.scale, pages.bottom)
        lanes.draw()
        self._axis(top, lanes.bottom)
        bottom = self._legend(lanes.bottom + 26, bool(ways), any(rows.folded for rows in pages.rows.values()))
        buffers = buffers_in(self.past)
        body, classes = drawing.body(), style.classes(buffers)
        return document(self.width, bottom + 8, self.title, description, classes, style.patterns(buffers), body)

    def _notes(self, left_out: int) -> List[str]:
        """Returns the notes below the title."""
        cut = self.past.cut_ways
        notes = list(self.notes)
        if left_out:
            notes.append(f"{counted(left_out, 'move')}: not drawn, since they would cover the pages.")
        if cut:
            notes.append(f"{counted(cut, 'move')} not drawn, since the entry or the copy's end isn't among these entries.")
        return notes

    def _axis(self, top: float, bottom: float) -> None:
        """Draws a faint line at round numbers of entries, and these numbers."""
        paths: List[str] = []
        for entry in self.scale.marks(45):
            x = self.scale.x(entry) + self.scale.unit / 2
            paths.append(f"M{x:.1f} {top:.0f}V{bottom:.0f}")
            self.drawing.text("small mid", x, bottom + 10, f"{entry:,}")
        if paths:
            self.drawing.shapes.append(f'<path class="axis" d="{"".join(paths)}"/>\n')
        self.drawing.text("small", MARGIN, bottom + 10, "entry")

    def _legend(self, top: float, has_moves: bool, has_folded: bool) -> float:
        """Draws what colours and marks mean, and returns where that ends."""
        holders = {one.holder.kind for one in self.past.stretches}
        states = [kind for kind in ("target", "ghost") if kind in holders] + ["free"] + ["fold"] * has_folded + ["move"] * has_moves
        marks = ["command", "entry"] + ["busy"] * bool(self.past.works) + kinds_in(self.past)
        groups = [legend.buffer_items(self.script, buffers_in(self.past)), legend.mark_items(states), legend.mark_items(marks)]
        return legend.draw(self.drawing, top, self.width, groups)
