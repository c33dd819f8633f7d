"""The table of edits that must fail: for each function that one turns, the edits. Used by docs_made.py."""
from __future__ import annotations

import collections
import pathlib
import re
from dataclasses import dataclass
from typing import Dict, Iterator, List, Tuple

FUNCTION = re.compile(r"^(\s*)(?:pub(?:\([a-z]+\))? )?(?:const )?(?:extern \"C\" )?fn (\w+)")
IMPL = re.compile(r"^impl(?:<[^>]*>)? (?:[\w:<>, ]+ for )?(\w+)")


@dataclass(frozen=True)
class Edit:
    """An edit: its name, the file that it changes and the first text that it replaces."""

    name: str
    file: str
    old: str


def edits_of(crate: pathlib.Path) -> Iterator[Edit]:
    """Yields the edits of a crate, by name."""
    for path in sorted(crate.glob("must-fail/*.edit")):
        fields = dict(line.split(": ", 1) for line in reversed(path.read_text().splitlines()) if ": " in line)
        yield Edit(path.stem, fields["file"], fields["old"])


def function_at(source: str, text: str) -> str:
    """Returns the function in which a text stands, with its type where it is a method; an empty string outside of functions."""
    lines = source[: source.index(text)].split("\n")
    for at in range(len(lines) - 1, -1, -1):
        found = FUNCTION.match(lines[at] + (text if at == len(lines) - 1 else ""))
        if found:
            impls = (IMPL.match(line) for line in reversed(lines[:at]) if not line.startswith(" "))
            of = next((impl[1] for impl in impls if impl), "") if found[1] else ""
            return f"{of}::{found[2]}" if of else found[2]
    return ""


def rows_of_edits(top: pathlib.Path, crates: List[str]) -> Iterator[Tuple[str, str, List[str]]]:
    """Yields crate, function and edits for each function of these crates that an edit turns, in the order of crates."""
    for crate in crates:
        found: Dict[str, List[str]] = collections.defaultdict(list)
        for edit in edits_of(top / "crates" / crate):
            source = (top / "crates" / crate / edit.file).read_text()
            found[function_at(source, edit.old) if edit.old in source else "?"].append(edit.name)
        for function in sorted(found):
            yield crate, function, found[function]


def table_of_edits(top: pathlib.Path, groups: Iterator[Tuple[str, List[str]]]) -> List[str]:
    """Returns a table for each group of crates that has edits."""
    lines: List[str] = []
    for head, crates in groups:
        rows = [f"| `{crate}` | `{function}` | {', '.join(f'`{edit}`' for edit in edits)} |" for crate, function, edits in rows_of_edits(top, crates)]
        if rows:
            lines += ["", f"**{head}**", "", "| crate | function | edits |", "|---|---|---|", *rows]
    return [*lines[1:], ""]
