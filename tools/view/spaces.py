"""Address spaces of threads: what `vmap` and `vunmap` lines make of them, and jobs with addresses as jobs by name."""

from __future__ import annotations

from bisect import bisect_left
from typing import List, NamedTuple, Optional, Tuple

from .limits import PAGE_BYTES
from .script import Operation


class Mapping(NamedTuple):
    """The pages from `first` up to `last` of a space are those of `buffer` from `offset` on."""

    first: int
    last: int
    buffer: int
    offset: int


class Address(NamedTuple):
    """An operation of a `vsubmit`: byte addresses, and `source` for a copy or xor."""

    verb: str
    address: int
    length: int
    byte: int = 0
    source: Optional[int] = None


class Piece(NamedTuple):
    """A part of a range of addresses: bytes of a buffer."""

    buffer: int
    offset: int
    length: int


class Space:
    """An address space: its mappings in rising order, never merged."""

    def __init__(self) -> None:
        self.mappings: List[Mapping] = []
        self._runs: Optional[List[Tuple[int, int]]] = None

    def _met(self, first: int, last: int) -> Tuple[int, int]:
        """Returns which mappings, from the one place in the list up to the other, meet the pages from `first` up to `last`."""
        start = bisect_left(self.mappings, (first,))
        if start and self.mappings[start - 1].last > first:
            start -= 1
        return start, bisect_left(self.mappings, (last,))

    def unmap(self, first: int, pages: int) -> None:
        """Makes the pages nothing."""
        self._replace(first, first + pages, [])

    def map(self, first: int, pages: int, buffer: int, offset: int) -> None:
        """Makes the pages those of a buffer from its page `offset` on."""
        self._replace(first, first + pages, [Mapping(first, first + pages, buffer, offset)])

    def _replace(self, first: int, last: int, new: List[Mapping]) -> None:
        """Puts `new` in place of what meets the pages, of which the parts outside of them stay."""
        start, end = self._met(first, last)
        before: List[Mapping] = []
        after: List[Mapping] = []
        for one in self.mappings[start:end]:
            if one.first < first:
                before.append(one._replace(last=first))
            if one.last > last:
                after.append(Mapping(last, one.last, one.buffer, one.offset + last - one.first))
        self.mappings[start:end] = before + new + after
        self._runs = None

    def runs(self) -> List[Tuple[int, int]]:
        """Returns the maximal ranges of mapped pages, in rising order."""
        if self._runs is None:
            runs: List[Tuple[int, int]] = []
            for one in self.mappings:
                if runs and runs[-1][1] == one.first:
                    runs[-1] = (runs[-1][0], one.last)
                else:
                    runs.append((one.first, one.last))
            self._runs = runs
        return self._runs

    def unmapped(self, address: int, length: int) -> Optional[int]:
        """Returns the first page of a range of bytes that isn't mapped, or None where each is."""
        first, last = address // PAGE_BYTES, (address + length - 1) // PAGE_BYTES
        runs = self.runs()
        at = bisect_left(runs, (first + 1,)) - 1
        if at < 0 or runs[at][1] <= first:
            return first
        return runs[at][1] if runs[at][1] <= last else None

    def met(self, address: int, length: int) -> List[Mapping]:
        """Returns the mappings that a range of bytes meets, in rising order."""
        start, end = self._met(address // PAGE_BYTES, (address + length - 1) // PAGE_BYTES + 1)
        return self.mappings[start:end]

    def pieces(self, address: int, length: int) -> Optional[List[Piece]]:
        """Returns the parts of a range in order, cut at the borders of mappings; None where a page isn't mapped."""
        parts: List[Piece] = []
        at, end = address, address + length
        for one in self.met(address, length):
            if one.first * PAGE_BYTES > at:
                return None
            stop = min(end, one.last * PAGE_BYTES)
            parts.append(Piece(one.buffer, at - (one.first - one.offset) * PAGE_BYTES, stop - at))
            at = stop
        return parts if at == end else None


def by_name(space: Space, op: Address) -> Optional[List[Operation]]:
    """Returns an operation with addresses as operations on buffers; None where a page isn't mapped."""
    pieces = space.pieces(op.address, op.length)
    if pieces is None:
        return None
    if op.source is None:
        return [Operation(op.verb, part.buffer, part.offset, part.length, op.byte) for part in pieces]
    sources = space.pieces(op.source, op.length)
    if sources is None:
        return None
    return [
        Operation(op.verb, to.buffer, to.offset, to.length, 0, source.buffer, source.offset) for to, source in _paired(pieces, sources)
    ]


def _paired(left: List[Piece], right: List[Piece]) -> List[Tuple[Piece, Piece]]:
    """Cuts two lists of pieces of one length at the borders of both, and pairs them."""
    pairs: List[Tuple[Piece, Piece]] = []
    i = j = used_left = used_right = 0
    while i < len(left) and j < len(right):
        length = min(left[i].length - used_left, right[j].length - used_right)
        pairs.append((_part(left[i], used_left, length), _part(right[j], used_right, length)))
        used_left, used_right = used_left + length, used_right + length
        if used_left == left[i].length:
            i, used_left = i + 1, 0
        if used_right == right[j].length:
            j, used_right = j + 1, 0
    return pairs


def _part(piece: Piece, start: int, length: int) -> Piece:
    """Returns `length` bytes of a piece, from its byte `start` on."""
    return Piece(piece.buffer, piece.offset + start, length)
