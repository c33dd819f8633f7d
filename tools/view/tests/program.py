"""The program `ttm` for tests: the one that TTM_PROGRAM names. Tests that need it are skipped where there is none."""

from __future__ import annotations

import os
import subprocess
import unittest
from pathlib import Path
from typing import Callable, List, Optional, Tuple, TypeVar

from view.comments import plain

PROGRAM = os.environ.get("TTM_PROGRAM", "")
EXAMPLES = Path(__file__).resolve().parents[3] / "examples"
Test = TypeVar("Test", bound=Callable[..., None])


def needs_program(test: Test) -> Test:
    """Skips a test, or a class of them, where there is no program."""
    return unittest.skipUnless(PROGRAM, "TTM_PROGRAM names no program")(test)


def run(words: List[str], data: bytes) -> Tuple[int, bytes]:
    """Returns the status of the program for an input without its comments, and what it writes."""
    done = subprocess.run([PROGRAM, *words], input=plain(data).data, stdout=subprocess.PIPE, check=False)
    return done.returncode, done.stdout


def refusal(data: bytes) -> Optional[Tuple[int, int]]:
    """Returns line and rule of the answer `bad script`, or None where the program takes the script."""
    status, output = run(["sim", "--turns", "0"], data)
    if status != 3:
        return None
    words = output.decode().split()
    return int(words[3].rstrip(",")), int(words[5])


def examples() -> List[Path]:
    """Returns the scripts of the examples."""
    return sorted(EXAMPLES.glob("*.ttm"))
