"""Comments in scripts: which lines and ends of lines are left out of what the program reads."""

from __future__ import annotations

from typing import List, NamedTuple


class Plain(NamedTuple):
    """A script without comments.

    `lines[i]` is the number of the line of the file that the plain line number `i + 1` comes from.
    """

    data: bytes
    lines: List[int]

    def file_line(self, line: int) -> int:
        """Returns the line of the file for a line of the plain script; one past the last plain line is one past the file's last."""
        if line <= 0:
            return 0
        if line <= len(self.lines):
            return self.lines[line - 1]
        return (self.lines[-1] if self.lines else 0) + line - len(self.lines)


def has_comments(data: bytes) -> bool:
    """Tells whether a script has comments; no word of a plain script has a `#`."""
    return b"#" in data


def without_comment(line: bytes) -> bytes:
    """Returns a line of a script, with or without its line feed, without the comment at its end."""
    at = line.find(b" #")
    if at < 0:
        return line
    return line[:at].rstrip(b" ") + (b"\n" if line.endswith(b"\n") else b"")


def plain(data: bytes) -> Plain:
    """Returns a script without its comments: lines that begin with `#` go, and so does what stands from ` #` on.

    Everything else stays as it is, also what is wrong, so that the program says of it what it would say without comments.
    """
    lines = _split(data)
    kept: List[bytes] = []
    numbers: List[int] = []
    for number, line in enumerate(lines, 1):
        if line.lstrip(b" ").startswith(b"#"):
            continue
        kept.append(without_comment(line))
        numbers.append(number)
    return Plain(b"".join(kept), numbers)


def _split(data: bytes) -> List[bytes]:
    """Cuts bytes after each line feed, and nowhere else."""
    pieces = [piece + b"\n" for piece in data.split(b"\n")]
    pieces[-1] = pieces[-1][:-1]
    return pieces if pieces[-1] else pieces[:-1]
