"""The state that a journal leads to: section 3 of docs/SPECIFICATION.md."""

from __future__ import annotations

from typing import Dict, List, NamedTuple, Optional, Set, Tuple

from .entries import Spans
from .script import MEMORY_TYPES, TT, VRAM, Buffer, Command, Script

KERNEL, WRITE, READ = "KERNEL", "WRITE", "READ"
AREAS = ("vram", "tt", "frames", "swap")


class Holder(NamedTuple):
    """What holds a page: `kind` is `live` or `target` with a buffer's index, or `ghost` with a ghost's number."""

    kind: str
    number: int


class Area:
    """The pages of VRAM or TT, the frames, or the slots: `owner[i]` holds page i, None where it is free.

    `mask` has a bit for each free page; it is kept for VRAM and TT alone, where searches ask for it.
    """

    __slots__ = ("name", "size", "owner", "free", "mask")

    def __init__(self, name: str, size: int) -> None:
        self.name = name
        self.size = size
        self.owner: List[Optional[Holder]] = [None] * size
        self.free = size
        self.mask = (1 << size) - 1


class Job:
    """A job, from the entry that emits it (`emitted`) to its Done (`done`); entry numbers, 0 where there is none yet.

    `waits` are jobs that weren't done when it was emitted, for each buffer and engine the last; `buffers` those that it is a fence of;
    `command` is the thread's at work.
    """

    __slots__ = ("engine", "number", "thread", "command", "buffers", "waits", "packets", "ran", "emitted", "begun", "done", "is_move")

    def __init__(self, engine: int, number: int, thread: int, command: int, packets: int, emitted: int) -> None:
        self.engine = engine
        self.number = number
        self.thread = thread
        self.command = command
        self.packets = packets
        self.emitted = emitted
        self.buffers: List[int] = []
        self.waits: List[Job] = []
        self.ran = 0
        self.begun = 0
        self.done = 0
        self.is_move = engine == 0

    def __str__(self) -> str:
        return f"job {self.number} of e{self.engine}"


class Ghost:
    """What a moved or freed buffer left behind, from entry `made` to entry `reaped` (0 where it isn't yet)."""

    __slots__ = ("number", "buffer", "vram", "tt", "frames", "jobs", "made", "reaped", "holder")

    def __init__(self, number: int, buffer: int, made: int) -> None:
        self.number = number
        self.buffer = buffer
        self.vram: Spans = ()
        self.tt: Spans = ()
        self.frames: List[int] = []
        self.jobs: List[Job] = []
        self.made = made
        self.reaped = 0
        self.holder = Holder("ghost", number)


class BufferState:
    """A buffer as it stands. `frames` and `slots` are its page table: of each page the frame or the slot, or None in both.

    `fences` are its unfinished jobs, each with its usage, `last_fences` the last one of each engine, by whether it only reads. `holder` is the
    stamp that reserves it, or 0.
    """

    __slots__ = (
        "declared", "index", "is_live", "memory", "spans", "frames", "slots", "frame_count", "slot_count", "targets", "pins", "holder",
        "fences", "last_fences", "as_live", "as_target",
    )  # fmt: skip

    def __init__(self, declared: Buffer) -> None:
        self.declared = declared
        self.index = declared.index
        self.as_live = Holder("live", declared.index)
        self.as_target = Holder("target", declared.index)
        self.frames: List[Optional[int]] = []
        self.slots: List[Optional[int]] = []
        self.clear(False)

    def clear(self, is_live: bool) -> None:
        """Makes the buffer a new one, or a dead one."""
        self.is_live = is_live
        self.memory = "sys"
        self.spans: Spans = ()
        count = self.declared.pages if is_live else 0
        self.frames, self.slots = [None] * count, [None] * count
        self.frame_count = self.slot_count = self.pins = self.holder = 0
        self.targets: Dict[str, Spans] = {}
        self.fences: Dict[Job, str] = {}
        self.last_fences: Dict[Tuple[int, bool], Job] = {}

    def add_fence(self, job: Job, usage: str) -> None:
        """Adds a job to the fences."""
        self.fences[job] = usage
        key = job.engine, usage == READ
        if key not in self.last_fences or self.last_fences[key].number < job.number:
            self.last_fences[key] = job

    def unfinished(self, with_readers: bool) -> List[Job]:
        """Returns the last unfinished job of each engine that uses the buffer; without readers those that only read it don't count.

        An engine does its jobs in order, so all are done where these are.
        """
        return [job for (_engine, is_reader), job in self.last_fences.items() if not job.done and (with_readers or not is_reader)]

    def is_filled(self) -> bool:
        """Tells whether each page has a frame."""
        return self.frame_count == self.declared.pages


class Victim:
    """A caught buffer, why (`vram`, `tt`, `swap`), and how its own search failed (empty where it hasn't)."""

    __slots__ = ("buffer", "why", "fail")

    def __init__(self, buffer: int, why: str) -> None:
        self.buffer = buffer
        self.why = why
        self.fail = ""


class Course:
    """Where a thread is. `first_entry` is the first entry of the command at work (0 before it), `last_entry` the thread's last one."""

    __slots__ = (
        "thread", "commands", "answered", "stamp", "held", "first", "made", "forced", "dry", "fail", "caught", "skips", "first_entry",
        "last_entry", "backoffs",
    )  # fmt: skip

    def __init__(self, thread: int, commands: List[Command]) -> None:
        self.thread = thread
        self.commands = commands
        self.answered = 0
        self.last_entry = 0
        self.begin()

    def begin(self) -> None:
        """Begins the next command."""
        self.stamp = self.dry = self.first_entry = self.backoffs = 0
        self.held: List[int] = []
        self.first: Optional[int] = None
        self.made = self.forced = False
        self.fail = ""
        self.caught: List[Victim] = []
        self.skips: Set[int] = set()

    def command(self) -> Optional[Command]:
        """Returns the command at work, or None where each is answered."""
        return self.commands[self.answered] if self.answered < len(self.commands) else None


class State:
    """The whole state. `jobs` are the unfinished ones by engine and number, `ghosts` those not reaped, both in the order of making."""

    def __init__(self, script: Script) -> None:
        self.script = script
        self.areas = {name: Area(name, script.size(name)) for name in AREAS}
        self.buffers = [BufferState(buffer) for buffer in script.buffers]
        self.lists: Dict[Tuple[str, int], List[int]] = {(memory, priority): [] for memory in MEMORY_TYPES for priority in range(4)}
        self.jobs: Dict[Tuple[int, int], Job] = {}
        self.ghosts: Dict[int, Ghost] = {}
        self.move_fence: Optional[Job] = None
        self.last_stamp = 0
        self.last_ghost = 0
        self.last_job = [0] * (script.engines + 1)
        self.courses = [Course(thread.number, thread.commands) for thread in script.threads]
        self.stamps: Dict[int, int] = {}

    def account(self, name: str) -> Tuple[int, int, int, int, int]:
        """Returns size, free, live, target and ghost of an area, as the report's accounts have them."""
        area = self.areas[name]
        kinds = [holder.kind for holder in area.owner if holder is not None]
        return area.size, area.size - len(kinds), kinds.count("live"), kinds.count("target"), kinds.count("ghost")

    def spans_area(self, memory: str) -> Optional[Area]:
        """Returns the area in which buffers of a memory type have spans; None for SYSTEM."""
        return self.areas[memory] if memory in (VRAM, TT) else None

    def take_off(self, buffer: BufferState) -> None:
        """Takes a buffer off its list, where it is on it."""
        members = self.lists[buffer.memory, buffer.declared.priority]
        if buffer.index in members:
            members.remove(buffer.index)

    def put_on(self, buffer: BufferState) -> None:
        """Places a live buffer without pins on its list: after the last member of its group, or at the end."""
        if not buffer.is_live or buffer.pins:
            return
        members = self.lists[buffer.memory, buffer.declared.priority]
        group = buffer.declared.group
        if group is not None:
            for at in range(len(members) - 1, -1, -1):
                if self.buffers[members[at]].declared.group == group:
                    members.insert(at + 1, buffer.index)
                    return
        members.append(buffer.index)

    def touch(self, buffer: BufferState) -> None:
        """Takes a buffer off its list and places it; a pinned one is left alone."""
        if buffer.is_live and not buffer.pins:
            self.take_off(buffer)
            self.put_on(buffer)
