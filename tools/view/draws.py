"""Draws interleavings of a script's actors, each by a number.

Threads that run evenly seldom meet. So turns are drawn in phases of some turns each, in which each actor has a weight of its own: some are
fast for a while, and others fall behind. A turn of an actor that has no entry then is lost, so there are more turns than entries.
"""

from __future__ import annotations

import bisect
import itertools
import random
from typing import List, Sequence

from .limits import PAGE_BYTES
from .script import Actor, Command, Script
from .turns import fitting_turns, room_for_turns

WEIGHTS = (1, 4, 16, 64)
SHORTEST_PHASE = 4  # turns
LONGEST_PHASE = 64  # turns
LEAST_TURNS = 64
ENTRIES_OF_COMMAND = 3  # ticket, arm or the like, result
ENTRIES_OF_BUFFER = 14  # reserve, and what a move and one eviction for it make whatever their pages
ENTRIES_OF_PAGE = 4  # populate and packet, of the buffer and of a victim


def drawing_actors(script: Script) -> List[str]:
    """Returns the actors that may have an entry: threads with a command, the move engine, engines that have a job, the reaper."""
    threads = [Actor("t", thread.number) for thread in script.threads if thread.commands]
    used = {command.engine for thread in script.threads for command in thread.commands if command.verb == "submit"}
    engines = [Actor("e", number) for number in sorted({0, *used})]
    return [str(actor) for actor in [*threads, *engines, Actor("r", 0)]]


def entries_of(script: Script, command: Command) -> int:
    """Estimates how many entries a command makes, with the jobs and evictions that come of it."""
    pages = sum(script.buffers[buffer].pages for buffer in command.buffers)
    packets = sum(2 + operation.length // PAGE_BYTES for operation in command.operations)
    return ENTRIES_OF_COMMAND + ENTRIES_OF_BUFFER * len(command.buffers) + ENTRIES_OF_PAGE * pages + packets


def turns_for(script: Script) -> int:
    """Estimates how many drawn turns bring a script to its end, most of which are lost."""
    entries = sum(entries_of(script, command) for thread in script.threads for command in thread.commands)
    return max(LEAST_TURNS, entries * len(drawing_actors(script)) // 3)


def below(draw: random.Random, count: int) -> int:
    """Draws a number below `count`, by the one method that gives the same numbers in every version of Python."""
    return int(draw.random() * count)


def phase_of(draw: random.Random, actors: Sequence[str]) -> List[str]:
    """Draws the turns of one phase."""
    sums = list(itertools.accumulate(WEIGHTS[below(draw, len(WEIGHTS))] for _ in actors))
    length = SHORTEST_PHASE + below(draw, LONGEST_PHASE - SHORTEST_PHASE + 1)
    return [actors[bisect.bisect(sums, below(draw, sums[-1]))] for _ in range(length)]


def drawn_turns(script: Script, seed: int) -> List[str]:
    """Draws the turns of interleaving number `seed`, as many as are likely to be needed or as fit into the script."""
    draw = random.Random(seed)
    actors, room = drawing_actors(script), room_for_turns(script)
    count = min(turns_for(script), room // 2)
    turns: List[str] = []
    while len(turns) < count:
        turns += phase_of(draw, actors)
    return turns[: fitting_turns(turns, room)]
