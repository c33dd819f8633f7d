"""The 26 kinds of entries of a journal, and how their lines are read: section 7 of docs/SPECIFICATION.md.

Each entry is a tuple whose first part is its actor. Buffers are indexes into `Script.buffers`.
"""

from __future__ import annotations

from typing import Dict, NamedTuple, Optional, Tuple, Union

from .script import Actor, Span

Spans = Tuple[Span, ...]


class Ticket(NamedTuple):
    actor: Actor
    stamp: int


class Reserve(NamedTuple):
    actor: Actor
    buffer: int


class Backoff(NamedTuple):
    actor: Actor
    buffer: int
    stamp: int


class New(NamedTuple):
    actor: Actor
    buffer: int


class Free(NamedTuple):
    """`ghost` is 0 where none is left."""

    actor: Actor
    buffer: int
    ghost: int


class Take(NamedTuple):
    actor: Actor
    buffer: int
    memory: str
    spans: Spans


class Untake(NamedTuple):
    actor: Actor
    buffer: int
    memory: str


class Populate(NamedTuple):
    actor: Actor
    buffer: int
    page: int
    frame: int


class SwapIn(NamedTuple):
    actor: Actor
    buffer: int
    page: int
    slot: int
    frame: int


class Depopulate(NamedTuple):
    actor: Actor
    buffer: int


class Bind(NamedTuple):
    actor: Actor
    buffer: int


class Unbind(NamedTuple):
    actor: Actor
    buffer: int


class Move(NamedTuple):
    """`ghost` is None for a move that says `now`."""

    actor: Actor
    buffer: int
    memory: str
    job: int
    ghost: Optional[int]


class Catch(NamedTuple):
    actor: Actor
    buffer: int
    why: str


class Loose(NamedTuple):
    actor: Actor
    buffer: int


class Skip(NamedTuple):
    actor: Actor
    buffer: int


class Cause(NamedTuple):
    """Why a buffer can't leave a place: `pinned`, `reserved` (by `stamp`), `outside` or `skipped`."""

    buffer: int
    why: str
    stamp: int


class Dry(NamedTuple):
    """`place` counts the forced places from 0; `is_short` says that the place isn't long enough, and has no causes."""

    actor: Actor
    buffer: int
    place: int
    is_short: bool
    causes: Tuple[Cause, ...]


class SwapOut(NamedTuple):
    actor: Actor
    buffer: int
    page: int
    slot: int


class NoPages(NamedTuple):
    actor: Actor
    buffer: int


class Arm(NamedTuple):
    actor: Actor
    engine: int
    job: int


class Packet(NamedTuple):
    """`data` are the bytes of a probe in hexadecimal, else empty."""

    actor: Actor
    job: int
    packet: int
    data: str


class Done(NamedTuple):
    actor: Actor
    job: int


class Reap(NamedTuple):
    actor: Actor
    ghost: int


class Bulk(NamedTuple):
    actor: Actor
    group: int


class Result(NamedTuple):
    """`kind` is `ok`, `read` (with `data`) or `find` (with `memory` and `spans`)."""

    actor: Actor
    kind: str
    data: str = ""
    memory: str = ""
    spans: Spans = ()


class Refused(NamedTuple):
    actor: Actor
    reason: str


Entry = Union[
    Ticket, Reserve, Backoff, New, Free, Take, Untake, Populate, SwapIn, Depopulate, Bind, Unbind, Move, Catch, Loose, Skip, Dry, SwapOut,
    NoPages, Arm, Packet, Done, Reap, Bulk, Result, Refused,
]  # fmt: skip
REASONS = ("NoBuffer", "Exists", "Pinned", "NotPinned", "PinMax", "NoSpace", "NoPages", "NoSwap")
VERBS: Dict[type, str] = {
    kind: kind.__name__.lower()
    for kind in (
        Ticket, Reserve, Backoff, New, Free, Take, Untake, Populate, SwapIn, Depopulate, Bind, Unbind, Move, Catch, Loose, Skip, Dry,
        SwapOut, NoPages, Arm, Packet, Done, Reap, Bulk, Result, Refused,
    )
}  # fmt: skip


ALPHABET = b"0123456789abcdefghijklmnopqrstuvwxyzABCDEFGHIJKLMNOPQRSTUVWXYZ ,:-\n"


def first_odd_byte(data: bytes) -> int:
    """Returns where the first byte stands that no report has, or a sign before a digit; -1 where each number can be read by `int`."""
    odd = data.translate(None, ALPHABET)
    places = [data.index(odd[:1])] if odd else []
    places += [at for at in (data.find(b" -%d" % digit) for digit in range(10)) if at >= 0]
    return min(places) if places else -1


def number(word: str) -> int:
    """Reads a plain number of at most 20 digits; raises ValueError."""
    if not word.isdecimal() or len(word) > 20:
        raise ValueError(f"`{word[:24]}` isn't a number")
    return int(word)


def read_spans(word: str) -> Spans:
    """Reads spans `F-L` joined by commas, or `-`, of bytes without a `first_odd_byte`; raises ValueError."""
    if word == "-":
        return ()
    spans = []
    for part in word.split(","):
        first, last = part.split("-")
        span = Span(int(first), int(last))
        if span.first >= span.last:
            raise ValueError(f"the span {part} has no pages")
        spans.append(span)
    return tuple(spans)
