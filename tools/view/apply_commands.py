"""What entries change: tickets, reservations, victims, answers, and the lists."""

from __future__ import annotations

from typing import Union

from .apply_pages import ApplyPages, Told
from .entries import Backoff, Bulk, Catch, Dry, Loose, New, NoPages, Refused, Reserve, Result, Skip, Ticket
from .limits import PINS
from .script import SYSTEM, TT
from .state import Course, State, Victim


class ApplyCommands(ApplyPages):
    """Adds the entries on commands and victims."""

    def __init__(self, state: State, told: Told) -> None:
        super().__init__(state, told)
        self.handlers.update({
            Ticket: self.ticket, Reserve: self.reserve, Backoff: self.backoff, New: self.new, Catch: self.catch, Loose: self.loose,
            Skip: self.skip, Dry: self.dry, NoPages: self.no_pages, Bulk: self.bulk, Result: self.result, Refused: self.refused,
        })  # fmt: skip

    def begin(self, course: Course, number: int) -> None:
        """Begins a command with entry `number`."""
        command = course.command()
        if command is None:
            raise ValueError(f"thread {course.thread} has no command left")
        course.first_entry = number
        for tell in self.told["command_begun"]:
            tell(course, command)

    def ticket(self, course: Course, entry: Ticket) -> None:
        course.stamp = self.state.last_stamp = entry.stamp
        self.state.stamps[entry.stamp] = course.thread

    def reserve(self, course: Course, entry: Reserve) -> None:
        buffer = self.live(entry.buffer)
        if buffer.holder:
            raise ValueError(f"{buffer.declared.name} is reserved")
        if not course.stamp:
            raise ValueError("the thread has no ticket")
        buffer.holder = course.stamp
        course.held.append(entry.buffer)

    def backoff(self, course: Course, entry: Backoff) -> None:
        self.release(course)
        course.held = []
        course.first = entry.buffer
        course.backoffs += 1

    def release(self, course: Course) -> None:
        """Lets go of all buffers that the thread holds."""
        for index in course.held:
            self.state.buffers[index].holder = 0

    def new(self, course: Course, entry: New) -> None:
        buffer = self.state.buffers[entry.buffer]
        if buffer.is_live:
            raise ValueError(f"{buffer.declared.name} is live")
        buffer.clear(True)
        self.state.put_on(buffer)
        course.made = True

    def catch(self, course: Course, entry: Catch) -> None:
        buffer = self.live(entry.buffer)
        if buffer.holder or not course.stamp:
            raise ValueError(f"{buffer.declared.name} can't be caught")
        buffer.holder = course.stamp
        victim = Victim(entry.buffer, entry.why)
        if buffer.memory == TT:
            buffer.targets[SYSTEM] = ()
        if entry.why != "swap" and not course.caught:
            course.forced = True
        course.caught.append(victim)
        for tell in self.told["caught"]:
            tell(course, victim, buffer)

    def _let_go(self, course: Course, index: int) -> None:
        """Lets go of a caught victim."""
        kept = [victim for victim in course.caught if victim.buffer != index]
        if len(kept) == len(course.caught):
            raise ValueError("that buffer isn't caught")
        course.caught = kept
        self.state.buffers[index].holder = 0

    def loose(self, course: Course, entry: Loose) -> None:
        self._let_go(course, entry.buffer)
        self.state.touch(self.state.buffers[entry.buffer])

    def skip(self, course: Course, entry: Skip) -> None:
        self._let_go(course, entry.buffer)
        course.skips.add(entry.buffer)

    def dry(self, course: Course, entry: Dry) -> None:
        for victim in course.caught:
            if victim.buffer == entry.buffer:
                victim.fail = "NoSpace"
                return
        course.forced, course.dry = True, entry.place + 1
        command = course.command()
        if command is None or command.verb in ("move", "swapout"):
            places = 1
        else:
            places = sum(not place.desired for place in self.state.buffers[entry.buffer].declared.places)
        if entry.place + 1 >= places or self._is_hop(course, entry.buffer):
            course.fail = "NoSpace"

    def _is_hop(self, course: Course, index: int) -> bool:
        """Tells whether the search at work is that of TT, for a buffer on its way between SYSTEM and VRAM."""
        return bool(self.state.buffers[index].targets)

    def no_pages(self, course: Course, entry: NoPages) -> None:
        for victim in course.caught:
            if victim.buffer == entry.buffer:
                victim.fail = "NoPages"
                return
        course.fail = "NoPages"

    def bulk(self, course: Course, entry: Bulk) -> None:
        buffers = self.state.buffers
        for members in self.state.lists.values():
            members.sort(key=lambda index: buffers[index].declared.group == entry.group)
        course.made = True

    def result(self, course: Course, entry: Result) -> None:
        command = course.command()
        assert command is not None
        self.release(course)
        if command.verb in ("pin", "unpin"):
            self._pin(course, command.buffers[0], 1 if command.verb == "pin" else -1)
        held = set(course.held)
        for index in command.buffers:
            if index in held:
                self.state.touch(self.state.buffers[index])
        self._answered(course, entry)

    def _pin(self, course: Course, index: int, step: int) -> None:
        """Pins a buffer, which takes it off its list, or takes a pin away."""
        buffer = self.live(index)
        if not 0 <= buffer.pins + step <= PINS:
            raise ValueError(f"{buffer.declared.name} has {buffer.pins} pins")
        if not buffer.pins:
            self.state.take_off(buffer)
        buffer.pins += step

    def refused(self, course: Course, entry: Refused) -> None:
        self.release(course)
        for victim in course.caught:
            self.state.buffers[victim.buffer].holder = 0
        self._answered(course, entry)

    def _answered(self, course: Course, entry: Union[Result, Refused]) -> None:
        """Ends a command."""
        for tell in self.told["command_ended"]:
            tell(course, course.command(), entry)
        self.state.stamps.pop(course.stamp, None)
        course.answered += 1
        course.begin()
