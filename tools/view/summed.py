"""Draws a long run by column: shares of pages, shares of the time of engines and threads, and counts."""

from __future__ import annotations

from typing import Dict, List, Sequence, Tuple

from . import legend, style
from .columns import Columns
from .draw_pages import MARGIN, put_margins
from .scale import LEFT, RIGHT, Scale
from .script import Script
from .state import AREAS
from .sums import EVENTS, KINDS
from .svg import Drawing, document

WIDE = 900.0
AREA_HEIGHT = 72.0
LANE_HEIGHT = 26.0
APART = 12.0
END_GAP = 6.0
END_WIDTH = 12.0

Series = Tuple[str, Sequence[float]]


def band(scale: "Across", bottom: float, height: float, low: Sequence[float], high: Sequence[float]) -> str:
    """Returns the path between two rows of shares, from 0 to 1, one for each column."""
    return f"M{scale.x(0):.1f} {bottom - height * high[0]:.1f}" + _edge(scale, bottom, height, high) + _edge(scale, bottom, height, low, True) + "z"


def _edge(scale: "Across", bottom: float, height: float, shares: Sequence[float], is_back: bool = False) -> str:
    """Returns the steps along shares, from left to right or back."""
    parts: List[str] = []
    order = range(len(shares) - 1, -1, -1) if is_back else range(len(shares))
    before = None
    for at in order:
        y = f"{bottom - height * shares[at]:.1f}"
        if y != before:
            parts.append(f"H{scale.x(at + 1 if is_back else at):.1f}V{y}")
            before = y
    parts.append(f"H{scale.x(0 if is_back else len(shares)):.1f}")
    return "".join(parts)


class Across:
    """Where columns stand across."""

    def __init__(self, count: int) -> None:
        self.count = count
        self.unit = WIDE / count

    def x(self, column: float) -> float:
        """Returns the left end of a column."""
        return LEFT + column * self.unit


class Summed:
    """The picture of sums, under a title and notes."""

    def __init__(self, script: Script, columns: Columns, title: str, notes: Sequence[str]) -> None:
        self.script = script
        self.columns = columns
        self.title = title
        self.notes = notes
        self.across = Across(columns.count)
        self.drawing = Drawing()
        self.right = LEFT + WIDE
        self.width = self.right + END_GAP + END_WIDTH + RIGHT
        self.top = self.y = 0.0

    def svg(self, description: str, when: str) -> str:
        """Returns the picture; `when` says when the counts at the right are taken."""
        drawing = self.drawing
        self.top = self.y = legend.put_titles(drawing, self.title, self.notes, self.width) + 30
        drawing.text("small", self.right + END_GAP + END_WIDTH + 8, self.top - 5, when)
        for area in AREAS:
            if self.script.size(area):
                self._area(area)
        self._heading("Engines (e0 does the moves) and the reaper: share of entries")
        for engine in range(self.script.engines + 1):
            self._lane(f"e{engine}", f"e{engine}", "busy", self.columns.level(f"e{engine}", "busy").averages())
        self._lane("reaper", "r", "entry", self._entry_shares("r"))
        self._heading("Threads: share of entries")
        for thread in self.script.threads:
            self._lane(f"t{thread.number}", f"t{thread.number}", "entry", self._entry_shares(f"t{thread.number}"))
        self._heading("How often, by column")
        for kind in EVENTS:
            self._counts(kind)
        self._axis()
        bottom = self._legend()
        return document(self.width, bottom + 8, self.title, description, style.classes([]), style.patterns([]), drawing.body())

    def _heading(self, text: str) -> None:
        """Draws a line above lanes."""
        self.drawing.text("head", LEFT, self.y + 13, text)
        self.y += 19

    def _titles(self, texts: Sequence[str], top: float, height: float) -> None:
        """Puts what is shown when the pointer rests on a column."""
        for column, (text, (first, end)) in enumerate(zip(texts, self.columns.spans())):
            if text:
                title = f"entries {first:,} to {end - 1:,}: {text}"
                self.drawing.rect("pointed", self.across.x(column), top, self.across.unit, height, title)

    def _area(self, area: str) -> None:
        """Draws the shares of the pages of an area, and to the right of them who holds it in the end."""
        size = self.script.size(area)
        drawing, top, bottom = self.drawing, self.y, self.y + AREA_HEIGHT
        ends = [self.columns.level(area, kind).end() for kind in KINDS]
        live, target, ghost = ends
        put_margins(drawing, area, size, top, self.right + END_GAP + END_WIDTH, (size - sum(ends), live, target, ghost))
        drawing.open(area)
        drawing.rect("free", LEFT, top, WIDE, AREA_HEIGHT)
        drawing.rect("free", self.right + END_GAP, top, END_WIDTH, AREA_HEIGHT)
        shares = {kind: [value / size for value in self.columns.level(area, kind).averages()] for kind in KINDS}
        low, low_end = [0.0] * self.columns.count, bottom
        for kind, end in zip(KINDS, ends):
            high = [one + other for one, other in zip(low, shares[kind])]
            if any(shares[kind]):
                drawing.path(kind, band(self.across, bottom, AREA_HEIGHT, low, high))
            if end:
                low_end -= AREA_HEIGHT * end / size
                drawing.rect(kind, self.right + END_GAP, low_end, END_WIDTH, AREA_HEIGHT * end / size, f"{kind} {end:,}")
            low = high
        self._titles([_shares_text(shares, column) for column in range(self.columns.count)], top, AREA_HEIGHT)
        drawing.close()
        self.y = bottom + APART

    def _entry_shares(self, actor: str) -> List[float]:
        """Returns the share of each column's entries that an actor makes."""
        return [count / max(end - first, 1) for count, (first, end) in zip(self.columns.counted(actor), self.columns.spans())]

    def _lane(self, label: str, actor: str, kind: str, acts: Sequence[float]) -> None:
        """Draws which share of each column an actor acts, and above it waits."""
        drawing, top, height = self.drawing, self.y, LANE_HEIGHT - 4
        bottom = top + height
        waits = self.columns.level(actor, "wait").averages()
        both = [min(one + other, 1.0) for one, other in zip(acts, waits)]
        drawing.open(actor)
        drawing.rect("free", LEFT, top, WIDE, height)
        drawing.path(kind, band(self.across, bottom, height, [0.0] * len(acts), acts))
        if any(waits):
            drawing.path("waits", band(self.across, bottom, height, acts, both))
        word = "busy" if kind == "busy" else "entries"
        self._titles([f"{word} {one:.0%}, waits {other:.0%}" if one or other else "" for one, other in zip(acts, waits)], top, height)
        drawing.close()
        drawing.text("small end", LEFT - 5, top + height / 2 + 3, label)
        total = sum(acts) / len(acts), sum(waits) / len(waits)
        drawing.text("small", self.right + 8, top + 9, f"{word} {total[0]:.1%}")
        drawing.text("small", self.right + 8, top + 19, f"waits {total[1]:.1%}")
        self.y += LANE_HEIGHT

    def _counts(self, kind: str) -> None:
        """Draws how often something happens in each column."""
        drawing, top, height = self.drawing, self.y, LANE_HEIGHT - 4
        counts = self.columns.counted(kind)
        most = max(max(counts), 1)
        drawing.open(kind.replace(" ", "-"))
        drawing.rect("free", LEFT, top, WIDE, height)
        drawing.path("count", band(self.across, top + height, height, [0.0] * len(counts), [count / most for count in counts]))
        self._titles([f"{kind} {count:,}" if count else "" for count in counts], top, height)
        drawing.close()
        drawing.text("small end", LEFT - 5, top + height / 2 + 3, kind)
        drawing.text("small", self.right + 8, top + 9, f"all {sum(counts):,}")
        drawing.text("small", self.right + 8, top + 19, f"most {max(counts):,}")
        self.y += LANE_HEIGHT

    def _axis(self) -> None:
        """Draws a faint line at round numbers of entries, and these numbers."""
        scale = Scale(self.columns.first, self.columns.last, WIDE / self.columns.entries)
        paths: List[str] = []
        for entry in scale.marks(70):
            x = scale.x(entry)
            paths.append(f"M{x:.1f} {self.top:.0f}V{self.y:.0f}")
            self.drawing.text("small mid", x, self.y + 9, f"{entry:,}")
        if paths:
            self.drawing.shapes.append(f'<path class="axis" d="{"".join(paths)}"/>\n')
        self.drawing.text("small", MARGIN, self.y + 9, "entry")

    def _legend(self) -> float:
        """Draws what colours mean, and returns where that ends."""
        states = [kind for kind in KINDS if any(any(self.columns.level(area, kind).averages()) for area in AREAS)] + ["free"]
        groups = [legend.mark_items(states), legend.mark_items(["acts", "waits"])]
        return legend.draw(self.drawing, self.y + 24, self.right + RIGHT, groups)


def _shares_text(shares: Dict[str, List[float]], column: int) -> str:
    """Returns the shares of a column in words."""
    values = [(kind, shares[kind][column]) for kind in KINDS]
    free = 1 - sum(value for _kind, value in values)
    return ", ".join(f"{kind} {value:.1%}" for kind, value in [*values, ("free", max(free, 0.0))])
