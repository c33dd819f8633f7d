"""What is seen of a run, of either side."""

from __future__ import annotations

from dataclasses import dataclass, field
from operator import attrgetter


@dataclass
class Answer:
    """A command's answer, and what is seen when it comes."""

    thread: int
    result: str
    victims: tuple[str, ...]  # NAME:TYPE, in order, with the memory type that each left, or `swap`
    places: str  # of each live buffer
    done: str  # the last job done of each engine
    ghosts: int
    notes: str = ""  # what isn't compared

    @property
    def is_refused(self) -> bool:
        return self.result.startswith("refused ")


@dataclass
class Observed:
    answers: list[Answer] = field(default_factory=list)  # in the order of time
    probes: dict[tuple[str, int], str] = field(default_factory=dict)  # bytes by engine and job
    accounts: str = ""
    warnings: int = 0


@dataclass(frozen=True)
class Difference:
    """The first answer (from 1) in which two runs differ, or 0 for what is seen at the end, and in what."""

    answer: int
    parts: tuple[str, ...]


PARTS = ("thread", "result", "victims", "places", "done")


def first_difference(one: Observed, other: Observed, with_ghosts: bool = False) -> Difference | None:
    parts = PARTS + (("ghosts",) if with_ghosts else ())
    values = attrgetter(*parts)
    for number, (a, b) in enumerate(zip(one.answers, other.answers), 1):
        if values(a) != values(b):
            return Difference(number, tuple(part for part in parts if getattr(a, part) != getattr(b, part)))
    if len(one.answers) != len(other.answers):
        return Difference(0, ("answers",))
    differing = tuple(part for part in ("probes", "accounts") if getattr(one, part) != getattr(other, part))
    return Difference(0, differing) if differing else None
