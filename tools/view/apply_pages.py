"""What entries change: who holds pages, frames and slots."""

from __future__ import annotations

from typing import Any, Callable, Dict, List, Optional

from .entries import Bind, Depopulate, Populate, Spans, SwapIn, SwapOut, Take, Unbind, Untake
from .script import SYSTEM, TT, VRAM, Span
from .state import KERNEL, BufferState, Course, Holder, State

Told = Dict[str, List[Callable[..., None]]]


class ApplyPages:
    """Changes a state by the entries on targets and page tables. `handlers` has a method for each kind of entry; `number` is the entry's."""

    def __init__(self, state: State, told: Told) -> None:
        self.state = state
        self.told = told
        self.number = 0
        self.told_pages = told["pages"]
        self.frames = state.areas["frames"]
        self.slots = state.areas["swap"]
        self.handlers: Dict[type, Callable[[Any, Any], None]] = {
            Take: self.take, Untake: self.untake, Populate: self.populate, SwapIn: self.swap_in, SwapOut: self.swap_out,
            Depopulate: self.depopulate, Bind: self.bind, Unbind: self.unbind,
        }  # fmt: skip

    def pass_span(self, area_name: str, span: Span, before: Optional[Holder], after: Optional[Holder]) -> None:
        """Gives pages of an area from one holder to another; None is free."""
        area = self.state.areas[area_name]
        owner = area.owner
        first, last = span
        count = last - first
        if last > area.size:
            raise ValueError(f"{area_name} has {area.size} pages")
        if owner[first:last].count(before) != count:
            raise ValueError(f"pages {first}-{last} of {area_name} aren't {_named(before)}")
        owner[first:last] = [after] * count
        if before is None or after is None:
            bits = ((1 << count) - 1) << first
            if before is None:
                area.free -= count
                area.mask &= ~bits
            else:
                area.free += count
                area.mask |= bits
        for tell in self.told_pages:
            tell(area_name, first, last, before, after)

    def pass_spans(self, area_name: str, spans: Spans, before: Optional[Holder], after: Optional[Holder]) -> None:
        """Gives the pages of spans from one holder to another."""
        for span in spans:
            self.pass_span(area_name, span, before, after)

    def pass_one(self, area_name: str, page: int, before: Optional[Holder], after: Optional[Holder]) -> None:
        """Gives a frame or a slot from one holder to another; None is free."""
        area = self.frames if area_name == "frames" else self.slots
        if page >= area.size:
            raise ValueError(f"there are {area.size} {'frames' if area is self.frames else 'slots'}")
        if area.owner[page] is not before:
            raise ValueError(f"{'frame' if area is self.frames else 'slot'} {page} isn't {_named(before)}")
        area.owner[page] = after
        if before is None:
            area.free -= 1
        elif after is None:
            area.free += 1
        for tell in self.told_pages:
            tell(area_name, page, page + 1, before, after)

    def live(self, index: int) -> BufferState:
        """Returns a live buffer."""
        buffer = self.state.buffers[index]
        if not buffer.is_live:
            raise ValueError(f"{buffer.declared.name} isn't live")
        return buffer

    def relist(self, buffer: BufferState, memory: str) -> None:
        """Puts a buffer into another memory type, and on its list there."""
        self.state.take_off(buffer)
        buffer.memory = memory
        self.state.put_on(buffer)

    def take(self, course: Course, entry: Take) -> None:
        buffer = self.live(entry.buffer)
        if entry.memory in buffer.targets:
            raise ValueError(f"there is a target in {entry.memory} already")
        if entry.memory != SYSTEM:
            if sum([last - first for first, last in entry.spans]) != buffer.declared.pages:
                raise ValueError("the spans haven't the buffer's pages")
            self.pass_spans(entry.memory, entry.spans, None, buffer.as_target)
        buffer.targets[entry.memory] = entry.spans
        fence = self.state.move_fence
        if entry.memory == VRAM and fence is not None and not fence.done:
            buffer.add_fence(fence, KERNEL)
            fence.buffers.append(buffer.index)
        if not any(victim.buffer == entry.buffer for victim in course.caught):
            course.forced, course.dry = False, 0

    def untake(self, course: Course, entry: Untake) -> None:
        buffer = self.live(entry.buffer)
        spans = buffer.targets.pop(entry.memory)
        if entry.memory != SYSTEM:
            self.pass_spans(entry.memory, spans, buffer.as_target, None)

    def _page(self, buffer: BufferState, page: int, slot: Optional[int]) -> None:
        """Requires that a page of a buffer has no frame, and this slot or none."""
        if page >= len(buffer.frames):
            raise ValueError(f"{buffer.declared.name} has {len(buffer.frames)} pages")
        if buffer.frames[page] is not None:
            raise ValueError(f"page {page} of {buffer.declared.name} has a frame")
        if buffer.slots[page] != slot:
            raise ValueError(f"page {page} of {buffer.declared.name} isn't in {'no slot' if slot is None else 'that slot'}")

    def populate(self, course: Course, entry: Populate) -> None:
        buffer = self.live(entry.buffer)
        self._page(buffer, entry.page, None)
        self.pass_one("frames", entry.frame, None, buffer.as_live)
        buffer.frames[entry.page] = entry.frame
        buffer.frame_count += 1

    def swap_in(self, course: Course, entry: SwapIn) -> None:
        buffer = self.live(entry.buffer)
        self._page(buffer, entry.page, entry.slot)
        self.pass_one("frames", entry.frame, None, buffer.as_live)
        self.pass_one("swap", entry.slot, buffer.as_live, None)
        buffer.frames[entry.page], buffer.slots[entry.page] = entry.frame, None
        buffer.frame_count += 1
        buffer.slot_count -= 1

    def swap_out(self, course: Course, entry: SwapOut) -> None:
        buffer = self.live(entry.buffer)
        if entry.page >= len(buffer.frames):
            raise ValueError(f"{buffer.declared.name} has {len(buffer.frames)} pages")
        frame = buffer.frames[entry.page]
        if frame is None:
            raise ValueError(f"page {entry.page} of {buffer.declared.name} has no frame")
        self.pass_one("swap", entry.slot, None, buffer.as_live)
        self.pass_one("frames", frame, buffer.as_live, None)
        buffer.frames[entry.page], buffer.slots[entry.page] = None, entry.slot
        buffer.frame_count -= 1
        buffer.slot_count += 1

    def depopulate(self, course: Course, entry: Depopulate) -> None:
        self.drop_frames(self.live(entry.buffer), None)

    def drop_frames(self, buffer: BufferState, after: Optional[Holder]) -> List[int]:
        """Gives all frames of a buffer to a ghost, or frees them; returns them."""
        frames = [frame for frame in buffer.frames if frame is not None]
        for frame in frames:
            self.pass_one("frames", frame, buffer.as_live, after)
        buffer.frames = [None] * len(buffer.frames)
        buffer.frame_count = 0
        return frames

    def bind(self, course: Course, entry: Bind) -> None:
        buffer = self.live(entry.buffer)
        if buffer.memory != SYSTEM or TT not in buffer.targets:
            raise ValueError(f"{buffer.declared.name} isn't in sys with a target in tt")
        buffer.spans = buffer.targets.pop(TT)
        self.pass_spans("tt", buffer.spans, buffer.as_target, buffer.as_live)
        self.relist(buffer, TT)

    def unbind(self, course: Course, entry: Unbind) -> None:
        buffer = self.live(entry.buffer)
        if buffer.memory != TT:
            raise ValueError(f"{buffer.declared.name} isn't in tt")
        self.pass_spans("tt", buffer.spans, buffer.as_live, None)
        buffer.spans = ()
        buffer.targets.pop(SYSTEM, None)
        self.relist(buffer, SYSTEM)


def _named(holder: Optional[Holder]) -> str:
    """Names a holder in an error."""
    return "free" if holder is None else "a ghost's" if holder.kind == "ghost" else f"that buffer's as its {holder.kind} pages"
