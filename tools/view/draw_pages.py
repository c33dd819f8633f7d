"""Draws pages down and entries across, a box for what each holder has, and a line for each move."""

from __future__ import annotations

from typing import Dict, List, NamedTuple, Optional, Sequence, Tuple

from . import colours
from .past import Past, Stretch, Way
from .scale import LEFT, Rows, Scale, rows_of
from .script import Script
from .state import AREAS, Holder
from .svg import Drawing, Point, cut, width_of

NAMES = {"vram": ("VRAM", "page"), "tt": ("TT", "page"), "frames": ("Frames", "frame"), "swap": ("Swap", "slot")}
DENSE = 10.0
MARGIN = 12.0
APART = 10.0
LEAST_HEIGHT = 25.0


class Box(NamedTuple):
    """A rectangle."""

    x: float
    y: float
    width: float
    height: float


Line = Tuple[Point, Point]


def counted(number: int, what: str) -> str:
    """Returns a number of things, in the plural where it isn't one."""
    return f"{number:,} {what}" if number == 1 else f"{number:,} {what}s"


def ends_of(ends: Tuple[int, int, int, int]) -> Tuple[str, str]:
    """Returns who holds an area in the end, in two lines."""
    free, live, target, ghost = ends
    return f"free {free:,}, live {live:,}", f"target {target:,}, ghost {ghost:,}"


def put_margins(drawing: Drawing, area: str, size: int, y: float, right: float, ends: Tuple[int, int, int, int]) -> None:
    """Writes at the left what an area is, and at the right who holds it in the end."""
    name, unit = NAMES[area]
    drawing.text("head", MARGIN, y + 11, name)
    drawing.text("small", MARGIN, y + 22, counted(size, unit))
    for line, text in enumerate(ends_of(ends)):
        drawing.text("small", right + 8, y + 10 + 11 * line, text)


def name_of(script: Script, holder: Holder) -> str:
    """Returns the label of a holder."""
    return f"g{holder.number}" if holder.kind == "ghost" else cut(script.buffer_name(holder.number), 12)


def whose(script: Script, holder: Holder) -> str:
    """Returns a holder in words."""
    if holder.kind == "ghost":
        return f"ghost {holder.number}"
    return ("target of " if holder.kind == "target" else "") + cut(script.buffer_name(holder.number), 12)


def kind_of(holder: Holder) -> str:
    """Returns the class of a holder's boxes."""
    return {"live": f"l{holder.number}", "target": f"t{holder.number}", "ghost": "ghost"}[holder.kind]


def label_kind(holder: Holder) -> str:
    """Returns the class of a holder's label."""
    if holder.kind != "live" or colours.round_of(holder.number):
        return "name halo"
    return "name light" if colours.letters_on(colours.of_buffer(holder.number)) == colours.PAPER else "name"


def grouped(stretches: Sequence[Stretch]) -> List[Stretch]:
    """Returns one stretch for those that one holder has side by side to one entry: it begins where the last of them does."""
    groups: List[Stretch] = []
    for one in sorted(stretches, key=lambda one: (one.holder, one.end, one.first)):
        last = groups[-1] if groups else None
        if last and (last.holder, last.end, last.last) == (one.holder, one.end, one.first):
            groups[-1] = last._replace(last=one.last, start=max(last.start, one.start))
        else:
            groups.append(one)
    return groups


def crosses(line: Line, box: Box) -> bool:
    """Tells whether a line from left to right passes through a box."""
    (x, y), (end, there) = line
    left, right = max(x, box.x), min(end, box.x + box.width)
    if left > right:
        return False
    slope = (there - y) / (end - x) if end > x else 0.0
    ends = sorted((y + slope * (left - x), y + slope * (right - x))) if end > x else sorted((y, there))
    return ends[0] < box.y + box.height and box.y < ends[1]


def label_place(box: Box, width: float, lines: Sequence[Line]) -> Optional[float]:
    """Returns the middle of a label inside of a box, where no line passes through it."""
    if box.height < 9 or box.width < width + 4:
        return None
    half = width / 2 + 2
    middle = box.y + box.height / 2
    for share in (0.5, 0.25, 0.75, 0.0, 1.0, 0.12, 0.88):
        x = box.x + half + share * (box.width - 2 * half)
        if not any(crosses(line, Box(x - half, middle - 5, 2 * half, 10)) for line in lines):
            return x
    return None


class Pages:
    """The areas of a picture from a place down: `rows` tells where their pages stand."""

    def __init__(self, script: Script, past: Past, scale: Scale, top: float) -> None:
        self.script = script
        self.past = past
        self.scale = scale
        self.rows: Dict[str, Rows] = {}
        self.bottom = top
        for area in AREAS:
            if script.size(area):
                held = [(one.first, one.last) for one in past.stretches if one.area == area]
                self.rows[area] = rows_of(script.size(area), self.bottom, held)
                self.bottom = max(self.rows[area].bottom, self.bottom + LEAST_HEIGHT) + APART

    def line_of(self, way: Way) -> Line:
        """Returns the line of a move, from the middle of the old pages to that of the new ones, over the time of its job."""
        old, new = self.rows[way.source], self.rows[way.target]
        y = (old.y(way.source_page) + old.y(way.source_page + way.pages)) / 2
        there = (new.y(way.target_page) + new.y(way.target_page + way.pages)) / 2
        return (self.scale.x(way.start), y), (self.scale.x(way.end + 1), there)

    def draw(self, drawing: Drawing, lines: Sequence[Line]) -> None:
        """Draws all areas; labels stand beside the `lines` that are to be drawn above the boxes."""
        for area, rows in self.rows.items():
            put_margins(drawing, area, rows.size, rows.top, self.scale.right, self.past.ends[area])
            drawing.open(area, "dense" if rows.row < DENSE else "")
            drawing.rect("free", LEFT, rows.top, self.scale.width, rows.bottom - rows.top)
            for first, last in rows.folded:
                title = f"{NAMES[area][0]} {first}-{last}: never held here"
                drawing.rect("fold", LEFT, rows.y(first), self.scale.width, rows.y(last) - rows.y(first), title)
            self._stretches(drawing, area, rows, lines)
            drawing.close()
            self._numbers(drawing, rows)

    def _stretches(self, drawing: Drawing, area: str, rows: Rows, lines: Sequence[Line]) -> None:
        """Draws what is held of an area."""
        held = [one for one in self.past.stretches if one.area == area]
        for one in held:
            start = f"from entry {one.start}" if one.start >= self.scale.first else f"from before entry {self.scale.first}"
            title = f"{whose(self.script, one.holder)}: {NAMES[area][0]} {one.first}-{one.last}, {start} to {one.end}"
            drawing.rect(kind_of(one.holder), *self._box(rows, one), title)
        whole = set(held)
        for one in grouped(held):
            text = name_of(self.script, one.holder)
            if one not in whole and rows.row >= DENSE:
                one = one._replace(first=(one.first + one.last - 1) // 2, last=(one.first + one.last - 1) // 2 + 1)
            box = self._box(rows, one)
            x = label_place(box, width_of(text, 9.5), lines)
            if x is not None:
                drawing.text(label_kind(one.holder), x, box.y + box.height / 2 + 3.4, text)

    def _box(self, rows: Rows, one: Stretch) -> Box:
        """Returns where a stretch is drawn."""
        x, y = self.scale.x(one.start), rows.y(one.first)
        return Box(x, y, self.scale.x(one.end) - x, rows.y(one.last) - y)

    def _numbers(self, drawing: Drawing, rows: Rows) -> None:
        """Draws the numbers of pages at the left."""
        lowest = rows.top - 9
        for page in rows.marks(10):
            y = rows.y(page)
            if y >= lowest + 9:
                drawing.text("small end", LEFT - 5, y + min(rows.row, 18) / 2 + 3, str(page))
                lowest = y


def draw_moves(drawing: Drawing, script: Script, ways: Sequence[Way], lines: Sequence[Line]) -> None:
    """Draws a line for each move, with a head that points where it goes."""
    for way, ((x, y), (end, there)) in zip(ways, lines):
        length = max(((end - x) ** 2 + (there - y) ** 2) ** 0.5, 0.1)
        right, down = (end - x) / length, (there - y) / length
        back, side = (end - 7 * right, there - 7 * down), (3.2 * down, -3.2 * right)
        path = f"M{x:.1f} {y:.1f}L{back[0]:.1f} {back[1]:.1f}"
        old, new = NAMES[way.source][0], NAMES[way.target][0]
        title = f"{cut(script.buffer_name(way.buffer), 12)}: {counted(way.pages, 'page')} from {old} to {new} by job {way.job} of e0"
        drawing.path("back", path)
        drawing.path("move", path, f"{title}, from entry {way.start} to {way.end}")
        corners = [(end, there), (back[0] + side[0], back[1] + side[1]), (back[0] - side[0], back[1] - side[1])]
        drawing.polygon("tip", corners)
