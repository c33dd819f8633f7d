"""`diagnose WORD STATUS INPUT [ANSWER]`: says why the program refused an input.

WORD is the program's first word, STATUS its status (3 or 8), INPUT the file that it was given (before comments were left out), ANSWER the
file of what it wrote. In the environment TTM_NAME is how to call the input, and TTM_REPORT the report where that came from a file of its own, in
which its lines are counted then.
"""

from __future__ import annotations

import os
from typing import List, Optional, Tuple

from .errors import ViewError
from .explain import fault_lines
from .rules import SCRIPT_RULES, VERDICT_RULES
from .script_reader import BrokenScript, read_script, split_input
from .shown import marked, place
from .source import read_bytes
from .verdict import Rejected

BAD_SCRIPT, REJECTED = "bad script: line ", "rejected: entry "


def answer_of(text: str) -> Optional[Tuple[int, int]]:
    """Returns the numbers of an answer, as of `bad script: line L, rule R`; None where it is another."""
    for head in (BAD_SCRIPT, REJECTED):
        if text.startswith(head):
            first, _, rule = text[len(head) :].rstrip("\n").partition(", rule ")
            return (int(first), int(rule)) if first.isdecimal() and rule.isdecimal() else None
    return None


def bad_script(name: str, data: bytes, answer: Optional[Tuple[int, int]]) -> List[str]:
    """Says where a script is broken. The program's answer counts, where it has another line or rule."""
    try:
        read_script(data)
    except BrokenScript as broken:
        if answer in (None, (broken.plain_line, broken.fault.rule)):
            return fault_lines(name, broken)
    if answer is None:
        return [f"{name}: this is a script without a fault"]
    line, rule = answer
    return [f"{place(name, line)}: rule {rule} is broken: {SCRIPT_RULES.get(rule, 'an unknown rule')}"]


def rejected(name: str, report_name: str, data: bytes, answer: Tuple[int, int]) -> List[str]:
    """Says why a report isn't that of its script; `report_name` is empty where both are in one input."""
    entry, rule = answer
    report = Rejected(data, entry, rule)
    said = report.said()
    where = place(name, said.line)
    if report_name:
        where = place(report_name, said.line - report.first + 1 if said.line else 0)
    lines = [f"{where}: {said.cause} (rule {rule})"]
    if said.shown:
        lines += marked(said.shown, 1, len(said.shown))[:1]
    return [*lines, f"    expected: {said.expected}", f"    rule {rule}: {VERDICT_RULES[rule]}"]


def main(args: List[str]) -> int:
    """Writes why the program refused an input. Returns 0 where that is known."""
    if len(args) not in (3, 4):
        raise ViewError("the words are: diagnose WORD STATUS INPUT [ANSWER]")
    word, status, path = args[:3]
    data = read_bytes(path)
    name = os.environ.get("TTM_NAME") or path
    answer = answer_of(read_bytes(args[3]).decode("latin-1")) if len(args) == 4 else None
    if status == "3":
        print("\n".join(bad_script(name, split_input(data)[0] if word == "check" else data, answer)))
    elif status == "8" and answer is not None and answer[1] in VERDICT_RULES:
        print("\n".join(rejected(name, os.environ.get("TTM_REPORT", ""), data, answer)))
    return 0
