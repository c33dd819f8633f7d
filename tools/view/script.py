"""Scripts of both versions as typed values; `script_reader.read_script` makes them. Docs: section 2 of docs/SPECIFICATION.md."""

from __future__ import annotations

from dataclasses import dataclass, field
from typing import Dict, List, NamedTuple, Optional, Tuple

from .limits import PAGE_BYTES

SYSTEM = "sys"
TT = "tt"
VRAM = "vram"
MEMORY_TYPES = (SYSTEM, TT, VRAM)


class Span(NamedTuple):
    """The pages from `first` up to `last`, without `last`."""

    first: int
    last: int


class Actor(NamedTuple):
    """An actor: `kind` is `t` for a thread, `e` for an engine, `r` for the reaper, whose `number` is 0."""

    kind: str
    number: int

    def __str__(self) -> str:
        return "r" if self.kind == "r" else f"{self.kind}{self.number}"


class Place(NamedTuple):
    """A place of a buffer's list: `first` and `last` as written, where `last` 0 is the manager's size."""

    memory: str
    first: int = 0
    last: int = 0
    top: bool = False
    contig: bool = False
    desired: bool = False
    fallback: bool = False

    def reach(self, size: int) -> Span:
        """Returns the pages that the place allows in a manager of `size` pages, an empty span where there are none."""
        last = size if self.last == 0 or self.last > size else self.last
        return Span(min(self.first, last), last)


class Buffer(NamedTuple):
    """A buffer line. `index` counts from 0, `line` is the line of the file; `places` holds the lists of version 1 as flagged places."""

    index: int
    name: str
    pages: int
    priority: int
    group: Optional[int]
    align: int
    places: Tuple[Place, ...]
    line: int
    text: str

    @property
    def byte_size(self) -> int:
        """Returns the size in bytes."""
        return self.pages * PAGE_BYTES


class Operation(NamedTuple):
    """An operation of a job by name; `source` is the buffer that a copy or xor reads, and the probed one of a probe is `buffer`."""

    verb: str
    buffer: int
    offset: int
    length: int
    byte: int = 0
    source: Optional[int] = None
    source_offset: int = 0

    @property
    def writes(self) -> bool:
        """Tells whether the operation writes `buffer`."""
        return self.verb != "probe"

    def packets(self) -> int:
        """Returns how many packets it is cut into: at each page border of its buffers."""
        cuts = _borders(self.offset, self.length)
        if self.source is not None and (self.offset - self.source_offset) % PAGE_BYTES:
            cuts += _borders(self.source_offset, self.length)
        return cuts + 1


def _borders(offset: int, length: int) -> int:
    """Returns how many page borders lie inside of a range of at least one byte."""
    return (offset + length - 1) // PAGE_BYTES - offset // PAGE_BYTES


class Command(NamedTuple):
    """A command, or how it is written in version 2: `verb` is the core's (`read`, `write`, `submit`), `word` the file's (`peek` ..).

    `number` is the one that the report shows: marks don't count. `buffers` are the named ones in order of first mention.
    """

    thread: int
    number: int
    verb: str
    word: str
    line: int
    text: str
    buffers: Tuple[int, ...] = ()
    offset: int = 0
    length: int = 0
    data: str = ""
    memory: str = ""
    group: int = 0
    engine: int = 0
    operations: Tuple[Operation, ...] = ()


class Mark(NamedTuple):
    """A line `map`, `unmap`, `vmap` or `vunmap`; `after` is the number of the thread's commands above it."""

    thread: int
    after: int
    verb: str
    line: int
    text: str
    buffer: Optional[int] = None
    first: int = 0
    pages: int = 0
    offset: int = 0


@dataclass
class Thread:
    """A thread: `number` counts from 1, `line` is that of its word `thread`."""

    number: int
    line: int
    commands: List[Command] = field(default_factory=list)
    marks: List[Mark] = field(default_factory=list)


class Schedule(NamedTuple):
    """A `schedule` line."""

    line: int
    actors: Tuple[Actor, ...]


@dataclass
class Script:
    """A script. `lines` are its plain lines without line feeds, and `file_lines` the line of the file of each."""

    version: int = 1
    manager: str = "range"
    vram: int = 0
    tt: int = 0
    frames: int = 0
    swap: int = 0
    engines: int = 0
    buffers: List[Buffer] = field(default_factory=list)
    threads: List[Thread] = field(default_factory=list)
    schedule: List[Schedule] = field(default_factory=list)
    names: Dict[str, int] = field(default_factory=dict)
    lines: List[str] = field(default_factory=list)
    file_lines: List[int] = field(default_factory=list)

    def size(self, area: str) -> int:
        """Returns the pages of `vram` or `tt`, the number of `frames`, or the slots of `swap`."""
        return {"vram": self.vram, "tt": self.tt, "frames": self.frames, "swap": self.swap}[area]

    def buffer_name(self, index: int) -> str:
        """Returns the name of a buffer."""
        return self.buffers[index].name

    def command(self, thread: int, number: int) -> Optional[Command]:
        """Returns a command by thread and number, both from 1, where there is one."""
        if 1 <= thread <= len(self.threads) and 1 <= number <= len(self.threads[thread - 1].commands):
            return self.threads[thread - 1].commands[number - 1]
        return None

    def actors(self) -> List[Actor]:
        """Returns all actors: threads, engines from 0 on, the reaper."""
        threads = [Actor("t", thread.number) for thread in self.threads]
        return threads + [Actor("e", number) for number in range(self.engines + 1)] + [Actor("r", 0)]

    def has_mark(self, verb: str) -> bool:
        """Tells whether a thread has a line of this word among its marks."""
        return any(mark.verb == verb for thread in self.threads for mark in thread.marks)
