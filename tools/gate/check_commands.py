#!/usr/bin/env python3
"""Checks that the man page and the list of changes say what the table of the words of ./ttm says (tools/launcher/commands.txt): each way in which
./ttm is called, and the version, which is that of the program too; and that the viewers' words are those of tools/view. Each fault is a line; the
exit status is 1 if there is one.

usage: tools/gate/check_commands.py
"""
from __future__ import annotations

import pathlib
import re
import sys
from typing import Iterator

TOP = pathlib.Path(__file__).resolve().parent.parent.parent
sys.path.insert(0, str(TOP / "tools"))

from view.words import WORDS  # noqa: E402

KINDS = ("program", "viewer", "launcher")
OWN_WORDS = {"plain", "diagnose"}  # of the viewers, for the launcher alone


def table() -> tuple[str, dict[str, str]]:
    """Returns the version, and each way to call ./ttm with who answers it, in the order of the table."""
    version, forms = "", {}
    for row in (TOP / "tools/launcher/commands.txt").read_text().splitlines():
        columns = [column.strip() for column in row.split("|")]
        if columns[0] == "version":
            version = columns[1]
        elif columns[0].rstrip("+") in KINDS:
            forms[columns[1]] = columns[0].rstrip("+")
    return version, forms


def told_forms(page: str) -> list[str]:
    """Returns the paragraphs of the man page's section on commands, by their heads."""
    section = page.partition(".SH COMMANDS\n")[2].partition(".SH ")[0]
    return [head.replace("\\-", "-") for head in re.findall(r"^\.TP\n\.B (.*)$", section, re.M)]


def faults() -> Iterator[str]:
    version, forms = table()
    page = (TOP / "ttm.1").read_text()
    told = told_forms(page)
    for form in forms:
        if form not in told:
            yield f"ttm.1 doesn't have `{form}`"
    for form in told:
        if form not in forms:
            yield f"ttm.1 has `{form}`, which the table doesn't have"
    viewers = {form.split()[0] for form, kind in forms.items() if kind == "viewer"}
    for word in viewers ^ ({word.name for word in WORDS} - OWN_WORDS):
        yield f"`{word}` is a word of the table or of the viewers, and not of both"
    if f'"ttm {version}"' not in page.splitlines()[0]:
        yield f"ttm.1 isn't the page of version {version}"
    changes = re.search(r"^## ([0-9.]+)", (TOP / "CHANGELOG.md").read_text(), re.M)
    if changes is None or changes[1] != version:
        yield f"CHANGELOG.md doesn't begin with version {version}"
    if not any(f'b"ttm {version}\\n"' in path.read_text() for path in (TOP / "crates/simulator/src").glob("*.rt")):
        yield f"the program doesn't answer --version with {version}"


def main() -> int:
    found = list(faults())
    for fault in found:
        print(f"commands: {fault}")
    if not found:
        print("commands: the man page, the list of changes and the viewers have the words of the table")
    return 1 if found else 0


if __name__ == "__main__":
    sys.exit(main())
