"""A random script with its order, of a family and a number."""

from __future__ import annotations

import random
from dataclasses import dataclass, field

from drawing import Drawing, draw_command, draw_first, draw_head, draw_length, draw_sizes
from families import FAMILIES
from orders import Order
from scripts import Script, named_buffers

HOLDERS = (2, 3, 4)


@dataclass(frozen=True)
class Trial:
    """A script, and which thread takes each of its turns."""

    script: Script
    threads: str = ""


@dataclass
class Holders:
    """Threads that hold a buffer each for some time: each begins an `unpin`, which is refused when it goes on."""

    holds: dict[int, int] = field(default_factory=dict)
    commands: dict[int, list[str]] = field(default_factory=lambda: {thread: [] for thread in HOLDERS})

    def act(self, d: Drawing) -> str:
        """A holder takes a buffer, or lets its own go: the turns."""
        thread = d.rng.choice(HOLDERS)
        if self.holds.pop(thread, None) is not None:
            return str(thread)
        choices = [x for x in d.alive if not d.pins.get(x) and x not in self.holds.values()]
        if len(choices) < 3:
            return ""
        self.holds[thread] = d.rng.choice(choices)
        self.commands[thread].append(f"unpin b{self.holds[thread]}")
        return 2 * str(thread)  # a ticket and the reservation


def turns_of(command: str) -> int:
    """How many turns a command takes that nobody is in the way of."""
    return 1 if command.split()[0] in ("new", "touch") else len(named_buffers(command)) + 2


def draw_alone(d: Drawing) -> Trial:
    head = draw_head(d)
    commands = draw_first(d, d.usable)
    commands += [draw_command(d) for _ in range(draw_length(d))]
    commands += [f"read b{x} 0 16" for x in sorted(d.alive)]
    return Trial(Script(head, (tuple(commands),)))


def draw_held(d: Drawing) -> Trial:
    """Thread 1 names no buffer that another one holds."""
    head, holders, turns = draw_head(d), Holders(), []
    d.is_careful = True
    commands = draw_first(d, d.usable)
    turns += ["1" * turns_of(command) for command in commands]
    for _ in range(draw_length(d)):
        if d.chance(0.3):
            turns.append(holders.act(d))
        d.usable = [x for x in range(len(d.pages)) if x not in holders.holds.values()]
        commands.append(draw_command(d))
        turns.append("1" * turns_of(commands[-1]))
    turns += [str(thread) for thread in holders.holds]
    commands += [f"read b{x} 0 16" for x in sorted(d.alive)]
    others = [tuple(holders.commands[thread]) for thread in HOLDERS]
    return Trial(Script(head, (tuple(commands), *others)), "".join(turns))


def draw_two(d: Drawing) -> Trial:
    """Each thread has a third of the buffers, and the last third is common and lasts."""
    head, count = draw_head(d), len(d.pages)
    own = [[x for x in range(count) if x % 3 == third] for third in range(3)]
    d.is_careful, d.lasting = True, set(own[2])
    common = [f"new b{x}" for x in own[2]]
    d.alive.update(own[2])
    threads = [common + draw_first(d, own[0]), draw_first(d, own[1])]
    for _ in range(draw_length(d)):
        thread = d.rng.randrange(2)
        d.usable = own[thread] + own[2] * 4
        threads[thread].append(draw_command(d))
    for thread in range(2):
        threads[thread] += [f"read b{x} 0 16" for x in own[thread] if x in d.alive]
    turns = "1" * len(common) + draw_turns(d, sum(turns_of(command) for commands in threads for command in commands))
    return Trial(Script(head, tuple(tuple(commands) for commands in threads)), turns)


def draw_turns(d: Drawing, count: int) -> str:
    """So many turns of two threads, now one and now the other."""
    often = d.rng.choice([0.1, 0.3, 0.6])
    thread, turns = 1, []
    for _ in range(count):
        if d.chance(often):
            thread = 3 - thread
        turns.append(str(thread))
    return "".join(turns)


def make_trial(name: str, number: int) -> Trial:
    """The family's script of the number."""
    family = FAMILIES[name]
    d = Drawing(family, random.Random(f"{name}/{number}"))
    draw_sizes(d)
    if family.holders:
        return draw_held(d)
    return draw_two(d) if family.rival else draw_alone(d)


def draw_drains(rng: random.Random, commands: int) -> tuple[tuple[int, int | None], ...]:
    """After which answers engines and reaper get on: some rounds, or until they come to rest."""
    if rng.random() < 0.5:
        return ()
    often = rng.choice([0.02, 0.06, 0.15])
    answers = [number for number in range(1, commands + 1) if rng.random() < often]
    if rng.random() < 0.5:
        return tuple((number, rng.choice([1, 2, 3, 5, 9])) for number in answers)
    return tuple((number, None) for number in answers)


def make_order(name: str, number: int, trial: Trial, lagging: bool) -> Order:
    """The order of the family's script of the number."""
    commands = sum(len(commands) for commands in trial.script.threads)
    drains = draw_drains(random.Random(f"{name}/{number}/order"), commands)
    return Order(lagging, trial.threads, drains if lagging else ())
