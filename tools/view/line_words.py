"""A line of a script cut into words, with what is wrong in it: each fault has its rule, its column and one cause."""

from __future__ import annotations

from itertools import accumulate
from typing import Dict, List, NamedTuple, Optional

from .limits import OFFSET

DIGITS = frozenset("0123456789")
HEX = frozenset("0123456789abcdef")
NAME = frozenset("abcdefghijklmnopqrstuvwxyz0123456789")


class Fault(NamedTuple):
    """What is wrong in a line: `column` counts from 1, `width` is how many characters it covers; `right` says what would be right."""

    rule: int
    column: int
    width: int
    cause: str
    right: str


class BrokenLine(Exception):
    """Ends the reading of a line whose words can't be read on."""

    def __init__(self, fault: Fault) -> None:
        super().__init__(fault.cause)
        self.fault = fault


def is_plain(word: str) -> bool:
    """Tells whether a word is a plain decimal: no sign, and no leading zero but for `0`."""
    return bool(word) and DIGITS.issuperset(word) and (word[0] != "0" or word == "0")


class Words:
    """The words of a line, and of the faults found in it so far the one that counts: of the least rule, and of these the leftmost."""

    def __init__(self, text: str, names: Dict[str, int]) -> None:
        self.text = text
        self.words = text.split(" ")
        self.names = names
        self.least: Optional[Fault] = None
        self.columns: Optional[List[int]] = None

    def column(self, index: int) -> int:
        """Returns the column of a word, from 1; of a missing one, that of the line's end."""
        if self.columns is None:
            self.columns = list(accumulate((len(word) + 1 for word in self.words), initial=1))
        return min(self.columns[index], len(self.text) + 1)

    def fault(self, rule: int, index: int, cause: str, right: str, start: int = 0, width: Optional[int] = None) -> None:
        """Notes what is wrong in a word, from its character `start` on, unless a fault that counts more is known."""
        if self.least is not None and self.least.rule < rule:
            return
        column = self.column(index) + start
        if self.least is not None and (self.least.rule, self.least.column) <= (rule, column):
            return
        if width is None:
            width = len(self.words[index]) - start if index < len(self.words) else 1
        self.least = Fault(rule, column, max(width, 1), cause, right)

    def stop(self, index: int, cause: str, right: str, rule: int = 4) -> BrokenLine:
        """Returns what ends the reading of the line at this word."""
        self.fault(rule, index, cause, right)
        assert self.least is not None
        return BrokenLine(self.least)

    def check(self) -> None:
        """Stops where the line has a fault."""
        if self.least is not None:
            raise BrokenLine(self.least)

    def number(self, index: int, low: int, high: int, what: str) -> Optional[int]:
        """Reads a number from `low` to `high`."""
        word = self.words[index]
        if not is_plain(word):
            self.fault(5, index, not_plain(what, word), f"a number from {low} to {high}")
            return None
        if len(word) > 12 or not low <= int(word) <= high:
            self.fault(5, index, f"{what} {short(word)} is out of range", f"a number from {low} to {high}")
            return None
        return int(word)

    def offset(self, index: int, what: str) -> Optional[int]:
        """Reads an offset or a length in bytes."""
        return self.number(index, 0, OFFSET, what)

    def name(self, index: int) -> Optional[int]:
        """Reads the name of a declared buffer."""
        word = self.words[index]
        if word in self.names:
            return self.names[word]
        if is_name(word):
            declared = ", ".join(list(self.names)[:12]) or "none"
            right = f"a buffer that a line above declares: {declared}{', ..' if len(self.names) > 12 else ''}"
            self.fault(6, index, f"no buffer has the name {word}", right)
        else:
            self.fault(6, index, f"`{short(word)}` can't be a name", NAME_RIGHT)
        return None

    def byte(self, index: int) -> int:
        """Reads one byte."""
        word = self.words[index]
        if len(word) == 2 and HEX.issuperset(word):
            return int(word, 16)
        self.fault(9, index, f"`{short(word)}` isn't one byte", "a byte as two lower-case hexadecimal digits, as 0f")
        return 0


NAME_RIGHT = "a lower-case letter, then at most seven lower-case letters or digits"


def is_name(word: str) -> bool:
    """Tells whether a word may be a buffer's name."""
    return 1 <= len(word) <= 8 and "a" <= word[0] <= "z" and NAME.issuperset(word)


def not_plain(what: str, word: str) -> str:
    """Says why a word isn't a plain number."""
    if DIGITS.issuperset(word):
        return f"{what} {short(word)} has a leading zero"
    return f"{what} `{short(word)}` isn't a plain number"


def short(word: str) -> str:
    """Returns a word, cut where it is long."""
    return word if len(word) <= 24 else word[:21] + ".."
