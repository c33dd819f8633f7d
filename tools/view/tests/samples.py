"""Reports for tests: the examples, and reports that the program makes of drawn scripts."""

from __future__ import annotations

from functools import lru_cache
from typing import List, Tuple

from view.report import Report, load, read_report

from . import program
from .random_scripts import RandomScript


def example(name: str) -> Report:
    """Returns an example."""
    path = program.EXAMPLES / f"{name}.ttm"
    return load([str(path), str(path.with_suffix(".report"))])


@lru_cache(maxsize=None)
def examples() -> List[Tuple[str, Report]]:
    """Returns all examples with their names."""
    return [(path.stem, example(path.stem)) for path in program.examples()]


@lru_cache(maxsize=None)
def drawn_reports(count: int) -> List[Tuple[str, Report]]:
    """Returns reports of so many drawn scripts of each version, with what they are drawn from."""
    found: List[Tuple[str, Report]] = []
    for seed in range(count):
        for version in (1, 2):
            script = RandomScript(seed, version).text().encode()
            found.append((f"seed {seed}, version {version}", read_report(script + program.run(["sim"], script)[1])))
    return found


SIZES = {"vram": 4, "tt": 4, "frames": 4, "swap": 4}


def written(threads: List[List[str]], journal: List[str], accounts: List[str], head: str = "", buffers: int = 1) -> bytes:
    """Returns a script of these threads with a report of these entries, which have no numbers yet."""
    script = ["ttm 1", "vram range 4", "tt 4", "frames 4", "swap 4", "engines 1"]
    script += [f"buffer b{index} 1 prio 1 group - align 1 want vram busy vram" for index in range(buffers)]
    for commands in threads:
        script += ["thread", *commands]
    lines = [f"{number} {entry}" for number, entry in enumerate(journal, 1)]
    report = [*([head] if head else []), "report 1", f"journal {len(lines)}", *lines, "results", "accounts", *accounts, "end"]
    return "\n".join([*script, "end", *report, ""]).encode()


FREE = [f"{name} size {size} free {size} live 0 target 0 ghost 0" for name, size in SIZES.items()]


def long_report(threads: int, commands: int) -> Report:
    """Returns a report of threads that make and free a buffer each, in turn: five entries for two commands."""
    entries: List[str] = []
    stamp = 0
    for _pair in range(commands // 2):
        for thread in range(1, threads + 1):
            stamp += 1
            name = f"b{thread - 1}"
            steps = (f"new {name}", "result ok", f"ticket {stamp}", f"reserve {name}", f"free {name} 0", "result ok")
            entries += [f"t{thread} {step}" for step in steps]
    commands_of = [[word for _pair in range(commands // 2) for word in (f"new b{thread}", f"free b{thread}")] for thread in range(threads)]
    return read_report(written(commands_of, entries, FREE, buffers=threads))
