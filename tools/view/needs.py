"""What a thread needs before its next entry is legal: section 4 of docs/SPECIFICATION.md, as far as a thread may have to wait."""

from __future__ import annotations

from functools import partial
from typing import Callable, Dict, List, NamedTuple, Optional, Set, Tuple, Union

from .limits import PRIORITIES
from .script import SYSTEM, TT, VRAM, Command, Place, Span
from .state import BufferState, Course, Job, State, Victim

LOCK = "lock"


class Need(NamedTuple):
    """What must happen first: a `job` done, the `holder` of a buffer (a stamp) let go, or a `ghost` reaped. `buffer` is what it is about."""

    kind: str
    buffer: int
    job: Optional[Job] = None
    stamp: int = 0
    ghost: int = 0


Seek = Callable[[], Optional[Need]]
Interest = Union[None, str, Seek]


class Needs:
    """Answers what threads need in a state.

    The second part of an answer tells what may change it before the thread's next entry: `lock` for who holds the buffers that the command
    names; None for nothing but the end of a job; else what is free and what ghosts hold, and it is a function that answers again.
    """

    def __init__(self, state: State) -> None:
        self.state = state
        self.whole_tt = [Place(TT)]
        self.aligned: Dict[Tuple[int, int], int] = {}

    def of(self, course: Course) -> Tuple[Optional[Need], Interest]:
        """Returns what a thread needs, or None where it has a legal entry or no command."""
        command = course.command()
        if command is None or course.made or not command.buffers or command.verb == "new" or not course.stamp:
            return None, None
        if len(course.held) < len(command.buffers):
            return self._lock(course, command), LOCK
        if course.caught:
            return self._victim(course.caught[-1])
        if course.fail:
            return None, None
        return self._work(course, command)

    def _lock(self, course: Course, command: Command) -> Optional[Need]:
        """Rule 5: the first named buffer that isn't held."""
        order = command.buffers if course.first is None else (course.first,) + command.buffers
        for index in order:
            if index not in course.held:
                buffer = self.state.buffers[index]
                if not buffer.is_live or not buffer.holder or (buffer.holder < course.stamp and course.held):
                    return None
                return Need("holder", index, stamp=buffer.holder)
        return None

    def _victim(self, victim: Victim) -> Tuple[Optional[Need], Interest]:
        """Rule 6: the last caught victim."""
        buffer = self.state.buffers[victim.buffer]
        if SYSTEM in buffer.targets:
            return self._idle(buffer), None
        if victim.why == "swap":
            can_swap = buffer.frame_count and self.state.areas["swap"].free
            return (self._idle(buffer) if can_swap else None), None
        if victim.why == "tt" or buffer.memory != VRAM or victim.fail:
            return None, None
        if not buffer.targets:
            return self._search(buffer, [], self.whole_tt, 0, set())
        return self._fill(buffer)

    def _work(self, course: Course, command: Command) -> Tuple[Optional[Need], Interest]:
        """Rules 7, 9 and 10: the first named buffer that isn't in place or isn't filled, else the command itself."""
        for index in command.buffers:
            buffer = self.state.buffers[index]
            if not self._in_place(buffer, command):
                if buffer.pins:
                    return None, None
                if not buffer.targets:
                    first, forced = self._lists(buffer, command)
                    if course.forced:
                        first = []
                    return self._search(buffer, first, forced, course.dry, course.skips)
                return self._carry(buffer, course)
            if command.verb in ("submit", "read", "write") and buffer.memory == SYSTEM and not buffer.is_filled():
                return self._fill(buffer)
        return self._act(command), None

    def _act(self, command: Command) -> Optional[Need]:
        """Rule 10: what the command's own entry waits for."""
        buffer = self.state.buffers[command.buffers[0]]
        if command.verb == "write" or (command.verb == "swapout" and buffer.frame_count and self.state.areas["swap"].free):
            return self._idle(buffer)
        if command.verb == "read":
            return self._fence(buffer, buffer.unfinished(False))
        return None

    def _idle(self, buffer: BufferState) -> Optional[Need]:
        """The need for all jobs of a buffer."""
        return self._fence(buffer, buffer.unfinished(True)) if buffer.fences else None

    def _fence(self, buffer: BufferState, jobs: List[Job]) -> Optional[Need]:
        """The need for the job of the greatest number in the least context."""
        if not jobs:
            return None
        job = min(jobs, key=lambda one: (one.engine, -one.number))
        return Need("job", buffer.index, job)

    def _in_place(self, buffer: BufferState, command: Command) -> bool:
        """Tells whether a buffer has no target and stands where the command wants it."""
        if buffer.targets:
            return False
        if command.verb in ("find", "submit"):
            return any(self._accepts(place, buffer) for place in buffer.declared.places)
        if command.verb == "move":
            return buffer.memory == command.memory
        return command.verb != "swapout" or buffer.memory == SYSTEM

    def _accepts(self, place: Place, buffer: BufferState) -> bool:
        """Tells whether a buffer stands in a place."""
        if place.memory != buffer.memory:
            return False
        if place.memory == SYSTEM:
            return True
        reach = place.reach(self.state.areas[place.memory].size)
        inside = all(reach.first <= span.first and span.last <= reach.last for span in buffer.spans)
        return inside and (not place.contig or len(buffer.spans) <= 1)

    def _lists(self, buffer: BufferState, command: Command) -> Tuple[List[Place], List[Place]]:
        """Returns the first and the forced places in which a command searches for a buffer."""
        if command.verb in ("find", "submit"):
            places = buffer.declared.places
            return [place for place in places if not place.fallback], [place for place in places if not place.desired]
        whole = [Place(command.memory if command.verb == "move" else SYSTEM)]
        return whole, whole

    def _carry(self, buffer: BufferState, course: Course) -> Tuple[Optional[Need], Interest]:
        """Carries a named buffer towards its targets."""
        targets = buffer.targets
        if buffer.memory == TT:
            return (self._idle(buffer) if SYSTEM in targets or TT in targets else None), None
        if TT in targets:
            return self._fill(buffer)
        if buffer.memory == VRAM and VRAM in targets:
            return None, None
        return self._search(buffer, [], self.whole_tt, course.dry, course.skips)

    def _fill(self, buffer: BufferState) -> Tuple[Optional[Need], Interest]:
        """The next page without a frame needs a free one, or a swap victim, or a ghost that holds one."""
        if buffer.is_filled():
            return None, None
        seek = partial(self._seek_frame, buffer)
        return seek(), seek

    def _seek_frame(self, buffer: BufferState) -> Optional[Need]:
        """The need for a ghost where no frame is free, and no buffer can give one to swap."""
        state = self.state
        if state.areas["frames"].free or (state.areas["swap"].free and self._has_swap_victim()):
            return None
        for ghost in state.ghosts.values():
            if ghost.frames:
                return Need("ghost", buffer.index, ghost=ghost.number)
        return None

    def _has_swap_victim(self) -> bool:
        """Tells whether a buffer in SYSTEM or TT without pins and holder has a frame."""
        return any(one.frame_count and one.memory != VRAM and not one.pins and not one.holder for one in self.state.buffers)

    def _search(self, buffer: BufferState, first: List[Place], forced: List[Place], dry: int, skips: Set[int]) -> Tuple[Optional[Need], Interest]:
        """The first places have a choice, or the forced place at work has one, a victim or a ghost."""
        if dry >= len(forced) or forced[dry].memory == SYSTEM:
            return None, None
        place = forced[dry]
        reach = place.reach(self.state.areas[place.memory].size)
        if reach.last - reach.first < buffer.declared.pages:
            return None, None
        seek = partial(self._seek_place, buffer, [place, *(one for one in first if one is not place)], reach, skips)
        return seek(), seek

    def _seek_place(self, buffer: BufferState, places: List[Place], reach: Span, skips: Set[int]) -> Optional[Need]:
        """The need for a ghost where no place has a choice, and the first of them, which has this reach, no victim."""
        memory = places[0].memory
        ghost = self._ghost_in(memory, reach) if self.state.ghosts else None
        if ghost is None:
            return None
        for place in places:
            if self._has_choice(buffer, place):
                return None
        return None if self._has_victim(memory, reach, skips) else Need("ghost", buffer.index, ghost=ghost)

    def _ghost_in(self, memory: str, reach: Span) -> Optional[int]:
        """Returns the number of the first ghost that holds a page of a reach."""
        for ghost in self.state.ghosts.values():
            spans = ghost.vram if memory == VRAM else ghost.tt
            if spans and _meets(spans, reach):
                return ghost.number
        return None

    def _has_victim(self, memory: str, reach: Span, skips: Set[int]) -> bool:
        """Tells whether a buffer is evictable for a place: those on a list are live and have no pins."""
        buffers, lists = self.state.buffers, self.state.lists
        for priority in range(PRIORITIES):
            for index in lists[memory, priority]:
                one = buffers[index]
                if not one.holder and index not in skips and _meets(one.spans, reach):
                    return True
        return False

    def _has_choice(self, buffer: BufferState, place: Place) -> bool:
        """Tells whether a place has room for a buffer as it stands."""
        if place.memory == SYSTEM:
            return True
        area = self.state.areas[place.memory]
        pages = buffer.declared.pages
        if area.free < pages:
            return False
        reach = place.reach(area.size)
        if reach.last - reach.first < pages:
            return False
        free = (area.mask & ((1 << reach.last) - 1)) >> reach.first
        if place.memory == VRAM and self.state.script.manager == "buddy":
            if not place.contig:
                return bin(free).count("1") >= pages
            pages = align = 1 << (pages - 1).bit_length()
        else:
            align = buffer.declared.align
        starts = _runs(free, pages)
        return bool(starts if align == 1 else (starts << reach.first) & self._aligned(area.size, align))

    def _aligned(self, size: int, align: int) -> int:
        """Returns a bit for each page of an area that is a multiple of the alignment."""
        key = (size, align)
        if key not in self.aligned:
            self.aligned[key] = sum(1 << page for page in range(0, size, align))
        return self.aligned[key]


def _runs(free: int, pages: int) -> int:
    """Returns a bit for each page from which on `pages` pages are free."""
    have = 1
    while have < pages and free:
        step = min(have, pages - have)
        free &= free >> step
        have += step
    return free


def _meets(spans: Tuple[Span, ...], reach: Span) -> bool:
    """Tells whether spans have a page in a reach."""
    first, last = reach
    for span in spans:
        if span[0] < last and first < span[1]:
            return True
    return False
