#!/usr/bin/env python3
"""Finds a small script of a rule: the two sides differ on it, and agree where the rule alone is swapped.

usage: shrink.py RULE FAMILY FIRST COUNT eager|lagging

Of that many random scripts the first four that need RULE alone are made smaller, without drains; the shortest is printed. If none needs it
alone, the first four that need it beside other rules are: they differ where all others are swapped, and agree where all are.
"""

from __future__ import annotations

import sys
from collections.abc import Callable, Iterator, Sequence

from families import FAMILIES
from kernel_side import PeerFault, known_rules, run_each
from observed import first_difference
from orders import Order
from project_side import ProgramFault, run_project
from scripts import Script, named_buffers
from trials import make_trial

Holds = Callable[[Script], bool]
Needs = Callable[[Script, str, Order], bool]


def differs_until(script: Script, order: Order, without: Sequence[str], swapped: Sequence[str]) -> bool:
    """Whether the two sides differ where the first rules are swapped, and agree where the second are."""
    try:
        project = run_project(script, order)
        one, other = run_each(script, order, (without, swapped))
    except (PeerFault, ProgramFault):
        return False
    return first_difference(project, one) is not None and first_difference(project, other) is None


def needs_alone(script: Script, rule: str, order: Order) -> bool:
    return differs_until(script, order, (), (rule,))


def needs_beside_others(script: Script, rule: str, order: Order) -> bool:
    return differs_until(script, order, [other for other in known_rules() if other != rule], known_rules())


def without_commands(script: Script) -> Iterator[Script]:
    """The script without some neighbouring commands of a thread, many of them first."""
    for size in (16, 8, 4, 2, 1):
        for number, commands in enumerate(script.threads):
            for at in range(len(commands) - size, -1, -1):
                fewer = commands[:at] + commands[at + size :]
                yield Script(script.head, (*script.threads[:number], fewer, *script.threads[number + 1 :]))


def without_buffers(script: Script) -> Iterator[Script]:
    used = {name for commands in script.threads for command in commands for name in named_buffers(command)}
    for line in script.head:
        if line.startswith("buffer ") and line.split()[1] not in used:
            yield Script(tuple(other for other in script.head if other != line), script.threads)


def smaller_numbers(line: str) -> Iterator[str]:
    """A line of the head with a smaller size, or a buffer's words as they are most often."""
    words = line.split()
    if words[0] in ("vram", "tt") and int(words[-1]) > 1:
        for value in (int(words[-1]) // 2, int(words[-1]) - 1):
            yield " ".join([*words[:-1], str(value)])
    if words[0] != "buffer":
        return
    plainer = [(2, str(max(1, int(words[2]) - 1))), (2, "1"), (4, "1"), (6, "-"), (8, "1")]
    plainer += [(at, memory) for at in (10, 12) for memory in ("vram", "tt")]
    for at, value in plainer:
        if words[at] != value and len(value) <= len(words[at]):
            yield " ".join([*words[:at], value, *words[at + 1 :]])


def with_smaller_head(script: Script) -> Iterator[Script]:
    for at, line in enumerate(script.head):
        for smaller in smaller_numbers(line):
            yield Script((*script.head[:at], smaller, *script.head[at + 1 :]), script.threads)


def with_shorter_jobs(script: Script) -> Iterator[Script]:
    for number, commands in enumerate(script.threads):
        for at, command in enumerate(commands):
            if not command.startswith("submit ") or " ; " not in command:
                continue
            start, ops = command.split(" ", 2)[:2], command.split(" ", 2)[2].split(" ; ")
            for op in range(len(ops)):
                shorter = " ".join([*start, " ; ".join(ops[:op] + ops[op + 1 :])])
                fewer = (*commands[:at], shorter, *commands[at + 1 :])
                yield Script(script.head, (*script.threads[:number], fewer, *script.threads[number + 1 :]))


def shrink(script: Script, holds: Holds) -> Script:
    """Takes the first smaller script for which it still holds, until there is none."""
    steps = (without_commands, without_buffers, with_shorter_jobs, with_smaller_head)
    again = True
    while again:
        again = False
        for step in steps:
            found = next((smaller for smaller in step(script) if smaller != script and holds(smaller)), None)
            while found is not None:
                again, script = True, found
                found = next((smaller for smaller in step(script) if smaller != script and holds(smaller)), None)
    return script


def smallest(rule: str, family: str, numbers: range, lagging: bool, needs: Needs) -> Script | None:
    order, found = Order(lagging), []
    for number in numbers:
        script = make_trial(family, number).script
        if needs(script, rule, order):
            found.append(shrink(script, lambda smaller: needs(smaller, rule, order)))
        if len(found) == 4:
            break
    return min(found, key=lambda script: len(script.text()), default=None)


def main(words: list[str]) -> int:
    if len(words) != 5 or words[0] not in known_rules() or words[1] not in FAMILIES or words[4] not in ("eager", "lagging"):
        print(__doc__, file=sys.stderr)
        return 2
    numbers, lagging = range(int(words[2]), int(words[2]) + int(words[3])), words[4] == "lagging"
    script = smallest(words[0], words[1], numbers, lagging, needs_alone) or smallest(words[0], words[1], numbers, lagging, needs_beside_others)
    if script is None:
        print("none")
        return 1
    print(script.text(), end="")
    return 0


if __name__ == "__main__":
    sys.exit(main(sys.argv[1:]))
