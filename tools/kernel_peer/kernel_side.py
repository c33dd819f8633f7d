"""Runs the peer on a script, and reads what it tells."""

from __future__ import annotations

import os
from collections.abc import Iterable, Iterator, Sequence
from functools import lru_cache
from pathlib import Path

from observed import Answer, Observed
from orders import Order
from processes import run_program
from scripts import Script


class PeerFault(Exception):
    """The peer ended in a fault: what it said."""


def peer_program() -> Path:
    return Path(os.environ.get("KERNEL_PEER_OUT", Path(__file__).resolve().parent / "build")) / "kernel_peer"


@lru_cache(maxsize=None)
def known_rules() -> tuple[str, ...]:
    """The rules that can be swapped, which depend on the kernel."""
    return tuple(run_program([str(peer_program()), "--rules"], "").output.split())


def has_flags() -> bool:
    """Whether the kernel's places have flags, so that scripts of version 2 can be run."""
    return "stay" in known_rules()


def has_blocks() -> bool:
    """Whether the kernel's source has its buddy allocator, so that VRAM by blocks can be run."""
    return "block" in known_rules()


def peer_words(order: Order, runs: Iterable[Sequence[str]]) -> list[str]:
    words = [str(peer_program())]
    if order.lagging:
        words.append("--lagging")
    if order.threads:
        words += ["--order", order.threads]
    if order.drains:
        words += ["--drains", ",".join(str(k) if n is None else f"{k}:{n}" for k, n in order.drains)]
    for rules in runs:
        words += ["--swap", ",".join(rules) or "none"]
    return words


def read_answers(lines: list[list[str]]) -> Observed:
    seen = Observed()
    for words in lines:
        kind, rest = words[0], words[2:]
        if kind == "R":
            seen.answers.append(Answer(int(rest[0][1:]), " ".join(rest[1:]), (), "", "", 0))
        elif kind == "V":
            seen.answers[-1].victims = tuple(rest)
        elif kind == "P":
            seen.answers[-1].places = " ".join(rest)
        elif kind == "D":
            seen.answers[-1].done = " ".join(rest)
        elif kind == "G":
            seen.answers[-1].ghosts = int(rest[0])
        elif kind == "X":
            seen.answers[-1].notes = " ".join(rest)
        elif kind == "J":
            job = rest[0], int(rest[1])
            seen.probes[job] = seen.probes.get(job, "") + rest[2]
        elif kind == "A":
            seen.accounts = " ".join(rest)
        elif kind == "W":
            seen.warnings = int(rest[0])
    return seen


def run_each(script: Script, order: Order, runs: Sequence[Sequence[str]]) -> Iterator[Observed]:
    """A run with each of the lists of rules swapped."""
    ran = run_program(peer_words(order, runs), script.text())
    if ran.status:
        raise PeerFault(f"status {ran.status}: {ran.errors[-600:]}")
    told: list[list[str]] = [] if len(runs) > 1 else [[]]
    for line in ran.output.splitlines():
        if line.startswith("S "):
            told.append([])
        else:
            told[-1].append(line)
    return (read_answers([line.split(" ") for line in lines]) for lines in told)


def run_kernel(script: Script, order: Order, rules: Sequence[str] = ()) -> Observed:
    (seen,) = run_each(script, order, (rules,))
    return seen
