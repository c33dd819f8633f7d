#!/usr/bin/env python3
"""Runs the definitions as a program: what `ttm` should print, by the text of crates/journal_model/specs and crates/ttm_base/specs.

usage: tools/definitions/model.py sim [--turns N]      runs the script on standard input as `ttm sim` does
       tools/definitions/model.py play SEED            the same, by turns that are drawn until all is done
       tools/definitions/model.py check                judges the script and report on standard input as `ttm check` does
       tools/definitions/model.py random SEED [--v2]   prints a script that is drawn
       tools/definitions/model.py mangle SEED          breaks the script on standard input

A status is that of `ttm`. It is slow: a second and more for each hundred entries. Its page tells what isn't of the definitions.
"""

from __future__ import annotations

import pathlib
import random
import sys
import threading
from typing import Any, Callable, Dict, List, Optional, Tuple

from reading import EntryReader
from translate import Program
from values import Record, Value, Variant, some

TOP = pathlib.Path(__file__).resolve().parent.parent.parent
sys.path.append(str(TOP / "tools" / "view" / "tests"))

from mutations import Mutations  # noqa: E402  pylint: disable=wrong-import-position
from random_scripts import RandomScript  # noqa: E402  pylint: disable=wrong-import-position

# Definitions of lists as the code keeps them: no claim needs them, and they don't compute as written.
LEFT_OUT = ("Lib", "Jobs", "JobRuns")


def definitions() -> Program:
    """Translates the definitions. Two are replaced by what computes the same faster."""
    crates = TOP / "crates"
    files = sorted((crates / "journal_model" / "specs").rglob("*.antt"))
    names = [".".join(file.relative_to(crates).with_suffix("").parts) for file in files if file.stem[0].isupper() and file.stem not in LEFT_OUT]
    program = Program(crates, names)
    within = program["Stores.within"]
    program.replace("Stores.within", lambda sizes, stores: remembered(within(sizes, stores)))
    program.replace("ListWords.count_from", lambda step, count, start: [start + step * at for at in range(count)])
    return program


def remembered(stores: Callable[[Value], Callable[[int], int]]) -> Callable[[Value], Callable[[int], int]]:
    """Returns stores that look up each byte once."""
    seen: Dict[Tuple[str, Tuple[Any, ...], int], int] = {}

    def page(place: Value) -> Callable[[int], int]:
        def byte(at: int) -> int:
            key = (place.name, place.arguments, at)
            if key not in seen:
                seen[key] = stores(place)(at)
            return seen[key]

        return byte

    return page


class Model:
    """The definitions, and what the program does by them."""

    def __init__(self) -> None:
        self.definitions = definitions()

    def of(self, name: str, *arguments: Value) -> Value:
        """Returns what the function `Module.name` is of these arguments."""
        return self.definitions[name](*arguments)

    def script(self, text: bytes) -> Tuple[Optional[Record], str]:
        """Returns the script of a text; without one, the line that says which line breaks which rule."""
        read = self.of("FirstFault.script_of", list(text))
        if read.name == "Ok":
            return read.arguments[0], ""
        line, rule = read.arguments[0]
        return None, f"bad script: line {line}, rule {rule}\n"

    def first_run(self, script: Record) -> Record:
        return Record({"world": self.of("Legal.first_world", script), "journal": []})

    def is_over(self, script: Record, run: Record) -> bool:
        return bool(self.of("Complete.is_over", script, run.world.state))

    def sim(self, text: bytes, turns: Optional[int] = None) -> Tuple[int, bytes]:
        """Runs a script by the stated turns."""
        script, fault = self.script(text)
        if script is None:
            return 3, fault.encode()
        allowed = self.of("Scheduled.turn_limit", script) if turns is None else turns
        run, taken = self.first_run(script), 0
        while taken < allowed and not self.is_over(script, run):
            run = self.of("Scheduled.stepped", script, run, self.of("Scheduled.actor_of_turn", script, run.world.state, taken))
            taken += 1
        report = self.report(script, run)
        return (0, report) if self.is_over(script, run) else (7, b"unfinished %d\n" % allowed + report)

    def report(self, script: Record, run: Record) -> bytes:
        return bytes(self.of("ReportText.report", script, run.journal))

    def play(self, text: bytes, seed: int) -> Tuple[int, bytes]:
        """Runs a script by turns that are drawn."""
        script, fault = self.script(text)
        if script is None:
            return 3, fault.encode()
        draw, run = random.Random(seed), self.first_run(script)
        actors = [Variant("Thread", (at + 1,)) for at in range(len(script.threads))]
        actors += [Variant("Engine", (at,)) for at in range(script.sizes.engines + 1)] + [Variant("Reaper")]
        weights = [draw.choice((1, 1, 2, 8)) for _ in actors]
        while not self.is_over(script, run):
            run = self.of("Scheduled.stepped", script, run, some(draw.choices(actors, weights)[0]))
        return 0, self.report(script, run)

    # ---- the verdict

    def check(self, data: bytes) -> Tuple[int, bytes]:
        """Judges a report that follows its script."""
        if len(data) > self.of("Verdict.check_limit"):
            return 8, b"rejected: entry 0, rule 1\n"
        script, fault = self.script(bytes(self.of("Verdict.script_part", list(data))))
        if script is None:
            return 3, fault.encode()
        rejected = self.rejection(script, bytes(self.of("Verdict.report_part", list(data))))
        return (8, b"rejected: entry %d, rule %d\n" % rejected) if rejected else (0, b"valid\n")

    def rejection(self, script: Record, report: bytes) -> Optional[Tuple[int, int]]:
        """Returns the first entry that isn't as it should be, with the rule that it breaks."""
        words = EntryReader([bytes(buffer.name).decode() for buffer in script.buffers])
        reader = Record({
            "head": lambda lines: self.head_of(script, lines),
            "entry": lambda number: lambda text: self.entry_of(script, words, number, text),
            "same": lambda kind: lambda other: kind == other,
        })  # fmt: skip
        verdict = self.of("VerdictOf.verdict_of", reader, script, list(report))
        return verdict.arguments[0] if verdict.name == "Some" else None

    def head_of(self, script: Record, lines: List[List[int]]) -> Variant:
        """Reads how many entries a report says that it has, with the lines after that; None where its first two lines aren't those of one."""
        if len(lines) < 2 or lines[0] != self.of("ReportText.report_head", script):
            return Variant("None")
        word = bytes(lines[1])[len(b"journal ") : -1]
        if not word.isdigit() or bytes(lines[1]) != b"journal %d\n" % int(word) or not self.of("Readable.is_u64", int(word)):
            return Variant("None")
        return some((int(word), lines[2:]))

    def entry_of(self, script: Record, words: EntryReader, number: int, text: List[int]) -> Variant:
        """Reads the entry by an actor of the script of which a line is the text; None where it is of none."""
        entry = words.entry(bytes(text).decode("latin-1")[:-1])
        if entry is None or not self.of("Readable.is_readable", script, entry) or not self.of("Verdict.has_actor", script, entry.who):
            return Variant("None")
        return some(entry) if self.of("EntryText.entry_line", script, (number, entry)) == text else Variant("None")


def answer(words: List[str], given: Callable[[], bytes]) -> Tuple[int, bytes]:
    """Returns status and output for the words of a command."""
    if words[:1] == ["random"] and words[2:] in ([], ["--v2"]):
        return 0, RandomScript(int(words[1]), 2 if words[2:] else 1).text().encode()
    if words[:1] == ["mangle"] and len(words) == 2:
        return 0, Mutations(int(words[1])).broken(given())
    if words == ["sim"] or (words[:2] == ["sim", "--turns"] and len(words) == 3):
        return Model().sim(given(), int(words[2]) if words[2:] else None)
    if words[:1] == ["play"] and len(words) == 2:
        return Model().play(given(), int(words[1]))
    if words == ["check"]:
        return Model().check(given())
    return 2, b"usage\n"


def deeply(run: Callable[[], None]) -> None:
    """Runs something with room for deep recursion, as definitions over lists need it."""
    sys.setrecursionlimit(10**6)
    threading.stack_size(512 * 1024 * 1024)
    thread = threading.Thread(target=run)
    thread.start()
    thread.join()


def main() -> int:
    result: List[Tuple[int, bytes]] = []
    deeply(lambda: result.append(answer(sys.argv[1:], sys.stdin.buffer.read)))
    if not result:
        return 1
    sys.stdout.buffer.write(result[0][1])
    return result[0][0]


if __name__ == "__main__":
    sys.exit(main())
