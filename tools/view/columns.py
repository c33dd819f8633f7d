"""Sums of a long run by column: averages of what lasts, and counts of what happens."""

from __future__ import annotations

from typing import Dict, List, Tuple

MOST = 300


class Columns:
    """The entries from `first` to `last` in at most MOST columns, all of them as long as each other to an entry."""

    def __init__(self, first: int, last: int, most: int = MOST) -> None:
        self.first = first
        self.last = last
        self.entries = max(last - first + 1, 1)
        self.count = min(self.entries, most)
        self.levels: Dict[Tuple[str, str], Level] = {}
        self.counts: Dict[str, List[int]] = {}

    def column(self, entry: int) -> int:
        """Returns the column of an entry that is shown."""
        return (entry - self.first) * self.count // self.entries

    def ends(self, column: int) -> Tuple[int, int]:
        """Returns the first entry of a column, and that of the next."""
        first, end = (self.first - (-at * self.entries // self.count) for at in (column, column + 1))
        return first, end

    def spans(self) -> List[Tuple[int, int]]:
        """Returns the ends of all columns."""
        return [self.ends(column) for column in range(self.count)]

    def level(self, of: str, kind: str) -> "Level":
        """Returns an amount, which is 0 at first."""
        if (of, kind) not in self.levels:
            self.levels[of, kind] = Level(self)
        return self.levels[of, kind]

    def counted(self, kind: str) -> List[int]:
        """Returns how often something happens in each column; the list may be added to."""
        return self.counts.setdefault(kind, [0] * self.count)

    def happens(self, kind: str, entry: int) -> None:
        """Counts what happens at an entry."""
        if self.first <= entry <= self.last:
            self.counted(kind)[self.column(entry)] += 1


class Level:
    """An amount that changes with entries."""

    def __init__(self, columns: Columns) -> None:
        self.columns = columns
        self.start = 0
        self.changes = [0] * columns.count
        self.moments = [0] * columns.count

    def change(self, entry: int, by: int) -> None:
        """Changes the amount from an entry on; what changed before the first entry that is shown is there from the start."""
        columns = self.columns
        if entry < columns.first:
            self.start += by
        elif entry <= columns.last:
            column = (entry - columns.first) * columns.count // columns.entries
            self.changes[column] += by
            self.moments[column] += by * entry

    def lasts(self, start: int, end: int) -> None:
        """Adds one from entry `start` to entry `end`, without it."""
        if end > start:
            self.change(start, 1)
            self.change(end, -1)

    def end(self) -> int:
        """Returns the amount after the last entry."""
        return self.start + sum(self.changes)

    def averages(self) -> List[float]:
        """Returns the average of the amount in each column, over the entries of the column."""
        found: List[float] = []
        amount = self.start
        for by, moment, (start, end) in zip(self.changes, self.moments, self.columns.spans()):
            found.append(amount + (by * end - moment) / max(end - start, 1))
            amount += by
        return found
