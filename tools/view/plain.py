"""The word `plain`: a script with comments in, the plain script out."""

from __future__ import annotations

import sys
from typing import List

from .comments import plain
from .source import read_bytes


def main(args: List[str]) -> int:
    """Writes the script of a file, or of standard input, without its comments."""
    sys.stdout.buffer.write(plain(read_bytes(args[0] if args else "-")).data)
    return 0
