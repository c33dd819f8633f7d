"""In which order threads, engines and the reaper go, on both sides."""

from __future__ import annotations

from collections.abc import Callable, Generator
from dataclasses import dataclass
from functools import partial
from typing import Optional

from scripts import Script, named_buffers

ENDS_COMMAND = ("result", "refused")
LOCK_STEPS = ("ticket", "reserve", "backoff")


@dataclass(frozen=True)
class Order:
    """Which thread takes each turn, and whether jobs lag.

    A thread's turn is a step of its lock (a ticket, a reservation, a back-off) or the rest of its command. In a round the reaper and each
    engine, least number first, take one turn each. Where jobs lag there are rounds only while a thread waits for a job or a ghost, and in
    drains; else all that can be done is done after each entry of a thread.
    """

    lagging: bool
    threads: str = ""  # a digit a turn; after its end the threads take turns one after the other
    drains: tuple[tuple[int, Optional[int]], ...] = ()  # rounds after an answer (from 1); None until nothing can be done


EAGER = Order(lagging=False)

# gives the actor of each turn; is told the words of the entry that it made, or None
Turns = Generator[str, Optional[list[str]], None]


class ThreadState:
    """How far a thread is, from its entries."""

    def __init__(self, number: int, commands: tuple[str, ...]) -> None:
        self.actor = f"t{number}"
        self.commands = commands
        self.answered = self.held = 0
        self.has_ticket = False

    @property
    def is_over(self) -> bool:
        return self.answered == len(self.commands)

    @property
    def is_locking(self) -> bool:
        """Whether the command at work wants another reservation."""
        command = self.commands[self.answered]
        return not command.startswith("new ") and self.held < len(named_buffers(command))

    @property
    def lock_steps_left(self) -> int:
        """How many turns are likely to be steps of the command's lock, the one at work among them."""
        if self.is_over:
            return 0
        command = self.commands[self.answered]
        if command.split()[0] in ("new", "touch"):
            return 0
        return len(named_buffers(command)) - self.held + (not self.has_ticket)

    def note(self, entry: list[str]) -> None:
        self.has_ticket = entry[0] in LOCK_STEPS or (self.has_ticket and entry[0] not in ENDS_COMMAND)
        if entry[0] == "reserve":
            self.held += 1
        elif entry[0] == "backoff":
            self.held = 0
        elif entry[0] in ENDS_COMMAND:
            self.held = 0
            self.answered += 1


class TurnTaker:
    """The turns of an order, told what each turn made."""

    def __init__(self, script: Script, order: Order) -> None:
        self.order = order
        self.threads = [ThreadState(number, commands) for number, commands in enumerate(script.threads, 1)]
        self.others = ["r"] + [f"e{number}" for number in range(script.engines)]
        self.drains = dict(order.drains)
        self.answered = 0
        self.upcoming: Callable[[], list[str]] = list  # the actors that are likely to take the next turns

    def thread_at(self, turn: int) -> ThreadState:
        """Which thread takes the turn: as the order says, and after its end one after the other."""
        threads, count = self.order.threads, len(self.threads)
        number = int(threads[turn]) - 1 if turn < len(threads) else turn - len(threads)
        return self.threads[number % count]

    def turns(self) -> Turns:
        turn = 0
        while not all(thread.is_over for thread in self.threads):
            thread = self.thread_at(turn)
            turn += 1
            if not thread.is_over:
                yield from self.turn_of(thread, turn)
        yield from self.rounds(None)

    def turn_of(self, thread: ThreadState, turn: int) -> Turns:
        """One turn: a step of the lock, or the rest of the command."""
        while True:
            self.upcoming = partial(self.guess, thread, turn)
            entry = yield thread.actor
            if entry is None:
                if thread.is_locking:
                    return  # another holds the buffer
                yield from self.rounds(1)
                continue
            thread.note(entry)
            if not self.order.lagging:
                yield from self.rounds(None)
            if entry[0] in ENDS_COMMAND:
                self.answered += 1
                if self.answered in self.drains:
                    yield from self.rounds(self.drains[self.answered])
            if entry[0] in ENDS_COMMAND + LOCK_STEPS:
                return

    def rounds(self, most: int | None) -> Turns:
        """So many rounds, or until nothing can be done."""
        if self.order.lagging:
            self.upcoming = partial(self.guess_rounds, most, self.upcoming)
        taken = 0
        while most is None or taken < most:
            taken += 1
            did = False
            for actor in self.others:
                if (yield actor) is not None:
                    did = True
            if not did:
                return

    def guess(self, thread: ThreadState, turn: int) -> list[str]:
        """The actors that are likely to follow this turn of the thread: steps of locks as the order has them, up to the rest of a command."""
        steps: list[str] = []
        left = {state.actor: state.lock_steps_left for state in self.threads}
        while left[thread.actor] and turn < len(self.order.threads):
            steps += self.between
            left[thread.actor] -= 1
            thread = self.thread_at(turn)
            steps.append(thread.actor)
            turn += 1
        return steps + self.guess_rest(thread)

    def guess_rounds(self, most: int | None, after: Callable[[], list[str]]) -> list[str]:
        """The rounds, and then the actors that were likely before."""
        return self.others * (most or 40) + after()

    def guess_rest(self, thread: ThreadState) -> list[str]:
        """The thread goes on, and waits now and then."""
        if self.order.lagging:
            return [thread.actor] * 64 + (self.others + [thread.actor] * 24) * 40
        return (self.between + [thread.actor]) * 50

    @property
    def between(self) -> list[str]:
        """The actors that go between two entries of threads."""
        return [] if self.order.lagging else self.others * 9
