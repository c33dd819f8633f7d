"""Where entries stand across a picture, and pages down."""

from __future__ import annotations

from bisect import bisect_right
from dataclasses import dataclass, field
from typing import Iterable, List, Sequence, Tuple

LEFT = 92
RIGHT = 118
# Steps between marked entries: one, two or five times a power of ten.
STEPS = [factor * 10**power for power in range(8) for factor in (1, 2, 5)]


@dataclass(frozen=True)
class Scale:
    """The entries from `first` to `last`, each `unit` wide. What is there after an entry is drawn from the left of its column on."""

    first: int
    last: int
    unit: float

    @property
    def entries(self) -> int:
        """Returns how many entries are shown."""
        return max(self.last - self.first + 1, 0)

    @property
    def width(self) -> float:
        """Returns how wide all columns are."""
        return max(self.entries, 1) * self.unit

    @property
    def right(self) -> float:
        """Returns where the last column ends."""
        return LEFT + self.width

    def x(self, entry: float) -> float:
        """Returns the left end of an entry's column, or the nearest place that is shown."""
        return LEFT + min(max(entry - self.first, 0), max(self.entries, 1)) * self.unit

    def marks(self, apart: float) -> List[int]:
        """Returns round numbers of entries that are at least so far apart."""
        step = next((step for step in STEPS if step * self.unit >= apart), STEPS[-1])
        return list(range(-(-max(self.first, 1) // step) * step, self.last + 1, step))


@dataclass
class Rows:
    """The pages of an area, from `top` down. Pages that are never held stand together in a low row where they would take more."""

    size: int
    top: float
    pages: List[int] = field(default_factory=list)
    places: List[float] = field(default_factory=list)
    folded: List[Tuple[int, int]] = field(default_factory=list)
    row: float = 0

    @property
    def bottom(self) -> float:
        """Returns where the last page ends."""
        return self.places[-1]

    def y(self, page: int) -> float:
        """Returns where a page begins; that of the size is where the last one ends."""
        at = min(max(bisect_right(self.pages, page) - 1, 0), len(self.pages) - 2)
        first, last = self.pages[at], self.pages[at + 1]
        share = (min(page, last) - first) / (last - first)
        return self.places[at] + share * (self.places[at + 1] - self.places[at])


    def marks(self, apart: float) -> List[int]:
        """Returns pages to be numbered, from the top down: those where folded ones begin and end, and round ones at least so far apart."""
        step = next((step for step in STEPS if step * self.row >= apart), STEPS[-1])
        ends = {page for span in self.folded for page in span if page < self.size}
        inside = {page for first, last in self.folded for page in range(-(-first // step) * step, last, step)}
        return sorted(ends | (set(range(0, self.size, step)) - inside))


HIGHEST_ROW = 17.0
HIGH = 260.0
FOLDED = 9.0


def joined(spans: Iterable[Tuple[int, int]]) -> List[Tuple[int, int]]:
    """Returns spans of pages in rising order, those that touch or meet as one."""
    all_joined: List[Tuple[int, int]] = []
    for first, last in sorted(spans):
        if all_joined and first <= all_joined[-1][1]:
            all_joined[-1] = all_joined[-1][0], max(last, all_joined[-1][1])
        else:
            all_joined.append((first, last))
    return all_joined


def gaps(spans: Sequence[Tuple[int, int]], size: int) -> List[Tuple[int, int]]:
    """Returns the pages between joined spans."""
    ends = [0] + [last for _first, last in spans]
    starts = [first for first, _last in spans] + [size]
    return [(first, last) for first, last in zip(ends, starts) if first < last]


def rows_of(size: int, top: float, held: Iterable[Tuple[int, int]]) -> Rows:
    """Returns the rows of an area of at least one page, of which these pages are held at some time."""
    spans = joined(held)
    pages = sum(last - first for first, last in spans)
    row = min(HIGHEST_ROW, HIGH / max(pages, 1))
    row = float(int(row)) if row >= 2 else row
    free = gaps(spans, size)
    rows = Rows(size, top, [0], [top], [one for one in free if (one[1] - one[0]) * row > 2.5 * FOLDED], row)
    folded = set(rows.folded)
    for first, last in sorted(spans + free):
        rows.pages.append(last)
        rows.places.append(rows.places[-1] + (FOLDED if (first, last) in folded else (last - first) * row))
    return rows
