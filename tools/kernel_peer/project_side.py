"""Runs the project's program on a script in an order, and reads its report."""

from __future__ import annotations

import os
from collections import deque
from collections.abc import Callable
from dataclasses import dataclass, field
from pathlib import Path

from observed import Answer, Observed
from orders import Order, TurnTaker
from processes import run_program
from scripts import Script

UNFINISHED = 7  # the exit status of a run with --turns that isn't over


class ProgramFault(Exception):
    """The program refused a script: what it said."""


def project_program() -> str:
    return os.environ.get("TTM_PROGRAM", str(Path(__file__).resolve().parent.parent.parent / "ttm"))


@dataclass
class Report:
    entries: list[list[str]]  # actor and words of each entry
    accounts: dict[str, list[str]]


def simulate(text: str, turns: int | None = None, known: int = 0) -> Report:
    """The report of a run of at most `turns` turns, without its first `known` entries."""
    limit = [] if turns is None else ["--turns", str(turns)]
    ran = run_program([project_program(), "sim", *limit], text)
    if ran.status not in ((0,) if turns is None else (0, UNFINISHED)):
        raise ProgramFault(f"status {ran.status}: {ran.output[:200]}{ran.errors[:200]}")
    lines = ran.output.splitlines()
    at = 2 if ran.status == UNFINISHED else 1
    end = at + 1 + int(lines[at].split()[1])
    entries = [line.split()[1:] for line in lines[at + 1 + known : end]]
    accounts = {line.split()[0]: line.split() for line in lines[end:] if " size " in line}
    return Report(entries, accounts)


class Known:
    """What the program's runs so far tell: the actor of each entry, and the actors that had none at each point."""

    def __init__(self, script: Script) -> None:
        self.script = script
        self.made: list[list[str]] = []  # entries that are accepted
        self.ahead: deque[list[str]] = deque()  # entries after them in the last run
        self.idle: deque[set[str]] = deque([set()])  # actors without an entry, before each of `ahead`
        self.accounts: dict[str, list[str]] = {}  # of the last run
        self.runs = 0

    def take(self, actor: str, upcoming: Callable[[], list[str]]) -> list[str] | None:
        """A turn of the actor: the entry that it makes, or None."""
        while actor not in self.idle[0]:
            if self.ahead and self.ahead[0][0] == actor:
                self.idle.popleft()
                entry = self.ahead.popleft()
                self.made.append(entry)
                return entry[1:]
            self.ask([actor] + upcoming())
        return None

    def ask(self, upcoming: list[str]) -> None:
        """Runs the program with the turns that are known and then the likely ones."""
        self.runs += 1
        known = [entry[0] for entry in self.made]
        report = simulate(self.script.text(known + upcoming), len(known) + len(upcoming), len(known))
        self.ahead, self.accounts = deque(report.entries), report.accounts
        self.idle = deque()
        start = 0
        for entry in report.entries:
            at = upcoming.index(entry[0], start)
            self.idle.append(set(upcoming[start:at]))
            start = at + 1
        self.idle.append(set(upcoming[start:]))


def run_in_order(script: Script, order: Order) -> Report:
    """The report of the whole run. At its end nobody can do anything, so the last run of the program knew all of it."""
    known, taker = Known(script), TurnTaker(script, order)
    turns = taker.turns()
    try:
        actor = next(turns)
        while True:
            actor = turns.send(known.take(actor, taker.upcoming))
    except StopIteration:
        return Report(known.made, known.accounts)


@dataclass
class Place:
    memory: str = "sys"
    spans: str = "-"
    targets: dict[str, str] = field(default_factory=dict)

    def arrive(self, memory: str) -> None:
        self.memory, self.spans = memory, self.targets.pop(memory, "-")


class Reader:
    """Follows a journal."""

    def __init__(self, script: Script) -> None:
        self.names = [declared.name for declared in script.declarations]
        self.places: dict[str, Place] = {}
        self.done = [0] * script.engines
        self.ghosts = 0
        self.victims: dict[str, list[str]] = {}
        self.notes: dict[str, list[str]] = {}
        self.seen = Observed()

    def read(self, entry: list[str]) -> None:
        actor, kind, rest = entry[0], entry[1], entry[2:]
        if actor[0] == "t":
            self.read_of_thread(actor, kind, rest)
        elif kind == "done":
            self.done[int(actor[1:])] = int(rest[0])
        elif kind == "reap":
            self.ghosts -= 1
        elif kind == "packet" and len(rest) > 2:
            job = actor, int(rest[0])
            self.seen.probes[job] = self.seen.probes.get(job, "") + rest[2]

    def read_of_thread(self, actor: str, kind: str, rest: list[str]) -> None:
        if kind == "new":
            self.places[rest[0]] = Place()
        elif kind == "free":
            del self.places[rest[0]]
            self.ghosts += rest[1] != "0"
        elif kind in ("take", "untake", "bind", "unbind", "move", "catch"):
            self.read_move(actor, kind, rest)
        elif kind in ("dry", "skip", "nopages", "loose"):
            self.notes.setdefault(actor, []).append(" ".join([kind, *rest]))
        elif kind in ("result", "refused"):
            self.answer(actor, " ".join(rest if kind == "result" else [kind, *rest]))

    def read_move(self, actor: str, kind: str, rest: list[str]) -> None:
        place = self.places[rest[0]]
        if kind == "take":
            place.targets[rest[1]] = rest[2]
        elif kind == "untake":
            del place.targets[rest[1]]
        elif kind == "bind":
            place.arrive("tt")
        elif kind == "unbind":
            place.arrive("sys")
        elif kind == "move":
            place.arrive(rest[1])
            self.ghosts += rest[3] != "now"
        else:
            self.victims.setdefault(actor, []).append(f"{rest[0]}:{'swap' if rest[1] == 'swap' else place.memory}")
            if place.memory == "tt":
                place.targets["sys"] = "-"

    def answer(self, actor: str, result: str) -> None:
        places = " ".join(f"{name}={self.places[name].memory}:{self.places[name].spans}" for name in self.names if name in self.places)
        victims, notes = self.victims.pop(actor, []), self.notes.pop(actor, [])
        done = " ".join(map(str, self.done))
        self.seen.answers.append(Answer(int(actor[1:]), result, tuple(victims), places, done, self.ghosts, "; ".join(notes)))


def held_pages(account: list[str]) -> int:
    """Live, target and ghost of an accounts line."""
    return sum(int(account[at]) for at in (6, 8, 10))


def observe(script: Script, report: Report) -> Observed:
    reader = Reader(script)
    for entry in report.entries:
        reader.read(entry)
    held = {name: held_pages(report.accounts[name]) for name in ("vram", "tt", "frames")}
    reader.seen.accounts = " ".join(f"{name} {pages}" for name, pages in held.items())
    return reader.seen


def run_project(script: Script, order: Order) -> Observed:
    if not order.lagging and len(script.threads) == 1:
        return observe(script, simulate(script.text()))  # the program's own order
    return observe(script, run_in_order(script, order))
