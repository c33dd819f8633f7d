"""A script's text, taken apart as far as the comparison needs it."""

from __future__ import annotations

from dataclasses import dataclass
from functools import cached_property

PAGE = 4096
OPS_OF_TWO = ("copy", "xor")


@dataclass(frozen=True)
class Declaration:
    name: str
    pages: int


def named_buffers(command: str) -> list[str]:
    """The buffers that a command names, each once, in order of first mention."""
    words = command.split()
    if words[0] in ("touch", "map", "unmap"):
        return []
    if words[0] != "submit":
        return [words[1]]
    names: dict[str, None] = {}
    for op in " ".join(words[2:]).split(" ; "):
        part = op.split()
        names[part[1]] = None
        if part[0] in OPS_OF_TWO:
            names[part[3]] = None
    return list(names)


@dataclass(frozen=True)
class Script:
    """The lines of a script, without those of a schedule."""

    head: tuple[str, ...]
    threads: tuple[tuple[str, ...], ...]

    @staticmethod
    def parse(text: str) -> Script:
        head: list[str] = []
        threads: list[list[str]] = []
        for line in text.splitlines():
            if line == "thread":
                threads.append([])
            elif line == "end":
                break
            elif line.startswith("schedule "):
                continue
            elif threads:
                threads[-1].append(line)
            else:
                head.append(line)
        return Script(tuple(head), tuple(tuple(commands) for commands in threads))

    def text(self, schedule: list[str] | None = None) -> str:
        """The script, with the actors of a schedule in lines of 64."""
        lines = list(self.head)
        for commands in self.threads:
            lines += ["thread", *commands]
        for at in range(0, len(schedule or []), 64):
            lines.append("schedule " + " ".join((schedule or [])[at : at + 64]))
        return "\n".join(lines + ["end"]) + "\n"

    @cached_property
    def declarations(self) -> tuple[Declaration, ...]:
        words = [line.split() for line in self.head if line.startswith("buffer ")]
        return tuple(Declaration(word[1], int(word[2])) for word in words)

    @cached_property
    def engines(self) -> int:
        """How many engines there are, with the move engine."""
        return 1 + next(int(line.split()[1]) for line in self.head if line.startswith("engines "))
