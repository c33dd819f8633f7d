"""Shows a place in a file as compilers do: `FILE:LINE:COLUMN: text`, the line, and a caret below what is meant."""

from __future__ import annotations

from typing import List

WIDTH = 100


def marked(text: str, column: int, width: int) -> List[str]:
    """Returns a line, cut where it is long, and a line with carets below `width` characters from `column` on."""
    text = "".join(char if " " <= char <= "~" else "?" for char in text)
    start = 0 if column <= WIDTH else column - WIDTH // 2
    cut = text[start : start + WIDTH]
    left = ".. " if start else ""
    right = " .." if start + WIDTH < len(text) else ""
    at = column - 1 - start
    count = max(1, min(width, WIDTH - at, max(len(text) - column + 1, 1)))
    return [f"    {left}{cut}{right}", " " * (4 + len(left) + at) + "^" * count]


def place(name: str, line: int, column: int = 0) -> str:
    """Returns `FILE:LINE:COLUMN`, or less where there is no line (0) or column (0)."""
    return ":".join([name, *(str(number) for number in (line, column) if number)])
