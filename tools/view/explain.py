"""`explain`: finds the first broken line of a script, and says what is wrong there and what would be right."""

from __future__ import annotations

from typing import List

from .errors import ViewError
from .script import Script
from .script_reader import BrokenScript, read_script
from .shown import marked, place
from .source import name_of, read_bytes

BROKEN = 3


def fault_lines(name: str, broken: BrokenScript) -> List[str]:
    """Returns what is shown of the first broken line."""
    fault = broken.fault
    lines = [f"{place(name, broken.line, fault.column if broken.line else 0)}: {fault.cause} (rule {fault.rule})"]
    if broken.shown_line:
        lines += marked(broken.shown_line, fault.column, fault.width)
    return [*lines, f"    expected: {fault.right}"]


def counted(count: int, word: str) -> str:
    """Returns a number with its noun."""
    return f"{count} {word}{'' if count == 1 else 's'}"


def right_line(name: str, script: Script) -> str:
    """Returns what is said of a script without a fault."""
    commands = sum(len(thread.commands) for thread in script.threads)
    parts = [counted(len(script.buffers), "buffer"), counted(len(script.threads), "thread"), counted(commands, "command")]
    return f"{name}: a script of version {script.version} without a fault: {', '.join(parts)}"


def main(args: List[str]) -> int:
    """Explains the script of a file, or of standard input. Returns 0 for a script, and 3 for what isn't one, as the program does."""
    if len(args) > 1:
        raise ViewError("one script at a time: explain [FILE]")
    path = args[0] if args else "-"
    try:
        print(right_line(name_of(path), read_script(read_bytes(path))))
        return 0
    except BrokenScript as broken:
        print("\n".join(fault_lines(name_of(path), broken)))
        return BROKEN
