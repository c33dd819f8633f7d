"""Runs a program on a text. Thousands of short runs are made, so input and output are files that are used again, and no pipes."""

from __future__ import annotations

import os
import tempfile
from collections.abc import Sequence
from dataclasses import dataclass
from functools import lru_cache


@dataclass(frozen=True)
class Ran:
    status: int  # the exit status, or less than 0 for a signal
    output: str
    errors: str


@lru_cache(maxsize=None)
def files_of(process: int) -> tuple[int, int, int]:
    """Three nameless files of this process."""
    descriptors = []
    for _ in range(3):
        descriptor, name = tempfile.mkstemp()
        os.unlink(name)
        descriptors.append(descriptor)
    return descriptors[0], descriptors[1], descriptors[2]


@lru_cache(maxsize=None)
def environment() -> dict[str, str]:
    return dict(os.environ)


def whole_text(descriptor: int) -> str:
    return os.pread(descriptor, os.fstat(descriptor).st_size, 0).decode()


def run_program(words: Sequence[str], text: str) -> Ran:
    files = files_of(os.getpid())
    for descriptor in files:
        os.ftruncate(descriptor, 0)
        os.lseek(descriptor, 0, os.SEEK_SET)
    os.pwrite(files[0], text.encode(), 0)
    actions = [(os.POSIX_SPAWN_DUP2, descriptor, number) for number, descriptor in enumerate(files)]
    process = os.posix_spawnp(words[0], list(words), environment(), file_actions=actions)
    _, status = os.waitpid(process, 0)
    return Ran(-os.WTERMSIG(status) if os.WIFSIGNALED(status) else os.WEXITSTATUS(status), whole_text(files[1]), whole_text(files[2]))
