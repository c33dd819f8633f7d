"""Runs the program `ttm`, which the variable TTM_PROGRAM of the environment names."""

from __future__ import annotations

import os
import subprocess
from typing import List, Optional

from .errors import ViewError

SECONDS = 60  # of one run


def program_path() -> Optional[str]:
    """Returns the path of the program, or None where none is named."""
    return os.environ.get("TTM_PROGRAM") or None


def journal_of(output: bytes) -> List[str]:
    """Returns the lines of the journal that a run has written."""
    lines = output.decode("latin-1").split("\n")
    starts = [at for at, line in enumerate(lines[:3]) if line.startswith("journal ")]
    if not starts:
        return []
    count = int(lines[starts[0]].split(" ")[1])
    return lines[starts[0] + 1 : starts[0] + 1 + count]


def simulate(script: str, turns: Optional[int] = None) -> Optional[bytes]:
    """Returns what `sim` writes for a script, in at most `turns` turns; None where it can't be run."""
    program = program_path()
    words = ["sim", *(["--turns", str(turns)] if turns is not None else [])]
    try:
        done = subprocess.run([program or "", *words], input=script.encode("latin-1"), stdout=subprocess.PIPE, timeout=SECONDS, check=False)
    except (OSError, subprocess.TimeoutExpired):
        return None
    if done.returncode not in (0, 7):
        raise ViewError(f"`sim` ended with status {done.returncode}")
    return done.stdout
