"""`shuffle N`: a script with drawn interleaving number N as its schedule lines, so that `ttm sim` shows contention.

The same number gives the same lines. Where the lines end before the script does, or don't fit into it, `sim` goes on by its own schedule.
"""

from __future__ import annotations

import sys
from typing import List, Tuple

from .draws import drawn_turns
from .errors import ViewError
from .script import Script
from .script_reader import read_script
from .source import read_bytes
from .turns import with_turns

MOST = 2**64 - 1


def shuffled(script: Script, seed: int) -> str:
    """Returns the text of `script` with interleaving number `seed`."""
    return with_turns(script, drawn_turns(script, seed))


def number_and_script(args: List[str], what: str, least: int, most: int) -> Tuple[int, Script]:
    """Reads the words `N` or `N FILE`; raises ViewError. `what` says in an error what the number is."""
    if len(args) not in (1, 2) or not args[0].isdecimal() or len(args[0]) > 20 or not least <= int(args[0]) <= most:
        raise ViewError(f"the words are N or N FILE, where N is {what}, {least} to {most}")
    return int(args[0]), read_script(read_bytes(args[1] if len(args) == 2 else "-"))


def main(args: List[str]) -> int:
    """Writes the script of a file, or of standard input, with an interleaving."""
    seed, script = number_and_script(args, "the number of an interleaving", 0, MOST)
    sys.stdout.write(shuffled(script, seed))
    return 0
