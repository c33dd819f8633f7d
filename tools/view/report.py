"""Reads a script followed by its report: the journal as entries, results, accounts, and the parts of version 2."""

from __future__ import annotations

from typing import List, NamedTuple, Optional, Sequence, Tuple

from .entries import Entry, Spans, first_odd_byte, number, read_spans
from .entry_reader import read_entries
from .errors import ViewError
from .limits import REPORT_BYTES
from .script import Script
from .script_reader import read_script, split_input
from .source import name_of, read_bytes


class Answer(NamedTuple):
    """A line of the part `results`: `text` is `ok`, `read HEX`, `find MEMORY SPANS` or `refused NAME`."""

    thread: int
    command: int
    text: str


class Account(NamedTuple):
    """A line of the part `accounts`: pages of `vram` or `tt`, `frames`, or slots of `swap`."""

    name: str
    size: int
    free: int
    live: int
    target: int
    ghost: int


class Faults(NamedTuple):
    """A line of the part `maps`: which pages the `peek` or `poke` faulted."""

    thread: int
    command: int
    pages: Tuple[int, ...]


class SpaceStep(NamedTuple):
    """A line of the part `spaces`: a step of request number `request` of a thread; `kept` is what a remap keeps."""

    thread: int
    request: int
    verb: str
    spans: Spans
    kept: Spans
    buffer: Optional[int]
    offset: int


class Report(NamedTuple):
    """A script and its report.

    `lines[i]` is the line of entry `i + 1`, `first_line` the line of the input of entry 1; `unfinished` is the number of turns of a run that
    was cut off, else None.
    """

    script: Script
    entries: List[Entry]
    lines: List[str]
    first_line: int
    results: List[Answer]
    accounts: List[Account]
    faults: List[Faults]
    steps: List[SpaceStep]
    unfinished: Optional[int]
    name: str

    def text(self, entry: int) -> str:
        """Returns the words of entry number `entry`, from 1, without its number and actor."""
        return self.lines[entry - 1].split(" ", 2)[2]

    def error(self, entry: int, text: str) -> ViewError:
        """Returns an error about entry number `entry`."""
        return ViewError(f"entry {entry}: {text}", self.first_line + entry - 1)


class _Lines:
    """The lines of a report, and how far they are read; `start` is the line of the input of the first."""

    def __init__(self, data: bytes, start: int) -> None:
        self.lines = data.decode("latin-1").split("\n")
        self.start = start
        self.at = 0
        if self.lines and not self.lines[-1]:
            self.lines.pop()

    def error(self, text: str) -> ViewError:
        """Returns an error about the next line."""
        return ViewError(text, self.start + self.at)

    def peek(self) -> Optional[str]:
        """Returns the next line, where there is one."""
        return self.lines[self.at] if self.at < len(self.lines) else None

    def expect(self, text: str) -> None:
        """Passes a line that is `text`."""
        if self.peek() != text:
            raise self.error(f"the line `{text}` is expected here")
        self.at += 1

    def numbered(self, word: str) -> int:
        """Passes a line of this word and a number."""
        parts = (self.peek() or "").split(" ")
        try:
            if len(parts) == 2 and parts[0] == word:
                value = number(parts[1])
                self.at += 1
                return value
        except ValueError:
            pass
        raise self.error(f"the line `{word}` with a number is expected here")


def _results(lines: _Lines, script: Script) -> List[Answer]:
    """Reads the part `results`."""
    lines.expect("results")
    answers: List[Answer] = []
    while (line := lines.peek()) is not None and line.startswith("t"):
        words = line.split(" ", 2)
        try:
            thread, command, text = number(words[0][1:]), number(words[1]), words[2]
        except (ValueError, IndexError):
            raise lines.error("a result `tT C RESULT` is expected here") from None
        if script.command(thread, command) is None:
            raise lines.error(f"the script has no command {command} of thread {thread}")
        answers.append(Answer(thread, command, text))
        lines.at += 1
    return answers


def _accounts(lines: _Lines, script: Script) -> List[Account]:
    """Reads the part `accounts`."""
    lines.expect("accounts")
    accounts: List[Account] = []
    for name in ("vram", "tt", "frames", "swap"):
        words = (lines.peek() or "").split(" ")
        if len(words) != 11 or words[0] != name or words[1::2] != ["size", "free", "live", "target", "ghost"]:
            raise lines.error(f"the account `{name} size S free F live L target T ghost G` is expected here")
        try:
            account = Account(name, *(number(word) for word in words[2::2]))
        except ValueError as error:
            raise lines.error(str(error)) from None
        if account.size != script.size(name):
            raise lines.error(f"the size of {name} is {script.size(name)} in the script")
        accounts.append(account)
        lines.at += 1
    return accounts


def _faults(lines: _Lines) -> List[Faults]:
    """Reads the part `maps`, where there is one."""
    found: List[Faults] = []
    if lines.peek() != "maps":
        return found
    lines.at += 1
    while (line := lines.peek()) is not None and line.startswith("t"):
        words = line.split(" ")
        try:
            thread, command, _, pages = words
            listed = () if pages == "-" else tuple(number(page) for page in pages.split(","))
            found.append(Faults(number(thread[1:]), number(command), listed))
        except ValueError:
            raise lines.error("a line `tT C faults LIST` is expected here") from None
        lines.at += 1
    return found


def _steps(lines: _Lines, script: Script) -> List[SpaceStep]:
    """Reads the part `spaces`, where there is one."""
    found: List[SpaceStep] = []
    if lines.peek() != "spaces":
        return found
    lines.at += 1
    while (line := lines.peek()) is not None and line.startswith("t"):
        words = line.split(" ")
        try:
            thread, request, verb, span = words[:4]
            kept = read_spans(words[5]) if verb == "remap" else ()
            buffer, offset = (script.names[words[4]], number(words[5])) if verb == "map" else (None, 0)
            found.append(SpaceStep(number(thread[1:]), number(request), verb, read_spans(span), kept, buffer, offset))
        except (ValueError, KeyError, IndexError):
            raise lines.error("a step `tT K unmap F-L`, `tT K remap F-L keep SPANS` or `tT K map F-L B BO` is expected here") from None
        lines.at += 1
    return found


def read_report(data: bytes, name: str = "standard input") -> Report:
    """Reads a script followed by its report; raises ViewError."""
    script_part, report_part = split_input(data)
    script = read_script(script_part)
    if not report_part:
        raise ViewError("no report follows the script", script_part.count(b"\n") + 1)
    if len(report_part) > REPORT_BYTES:
        raise ViewError(f"the report has more than {REPORT_BYTES} bytes", script_part.count(b"\n") + 1)
    odd = first_odd_byte(report_part)
    if odd >= 0:
        raise ViewError(f"the byte 0x{report_part[odd]:02x} can't stand here in a report", data.count(b"\n", 0, len(script_part) + odd) + 1)
    lines = _Lines(report_part, script_part.count(b"\n") + 1)
    unfinished = lines.numbered("unfinished") if (lines.peek() or "").startswith("unfinished") else None
    lines.expect(f"report {script.version}")
    count = lines.numbered("journal")
    if count > len(lines.lines) - lines.at:
        raise ViewError(f"the journal should have {count} entries, and the report ends before", lines.start + lines.at - 1)
    first_line = lines.start + lines.at
    journal = lines.lines[lines.at : lines.at + count]
    entries, wrong = read_entries(script, journal)
    if len(entries) < count:
        raise ViewError(f"entry {len(entries) + 1}: {wrong}", first_line + len(entries))
    lines.at += count
    results, accounts = _results(lines, script), _accounts(lines, script)
    faults, steps = _faults(lines), _steps(lines, script)
    lines.expect("end")
    if lines.peek() is not None:
        raise lines.error("nothing is expected after `end`")
    return Report(script, entries, journal, first_line, results, accounts, faults, steps, unfinished, name)


def load(paths: Sequence[str]) -> Report:
    """Reads a report from no file (standard input), one file (a script and its report) or two (a script, a report); `-` is standard input."""
    if len(paths) > 2:
        raise ViewError("a script and its report are one file, or two")
    sources = list(paths) or ["-"]
    return read_report(b"".join(read_bytes(path) for path in sources), name_of(sources[0]))
