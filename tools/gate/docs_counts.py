"""Numbers that documents tell and that the sources have. Used by check_docs.py."""
from __future__ import annotations

import pathlib
import re
from dataclasses import dataclass
from typing import Callable, Iterator, Tuple

from docs_lists import variants

WORDS = ("none one two three four five six seven eight nine ten eleven twelve thirteen fourteen fifteen sixteen seventeen eighteen nineteen "
         "twenty").split()


@dataclass(frozen=True)
class Count:
    """A number that a document tells: its pattern there, with the number as its group, and how the sources have it."""
    document: str
    pattern: str
    count: Callable[[pathlib.Path], int]


def number_of(word: str) -> int:
    """Returns the number that a word or numeral says, or -1."""
    if word.isdigit():
        return int(word)
    return WORDS.index(word.lower()) if word.lower() in WORDS else -1


def kinds(top: pathlib.Path) -> int:
    """Counts the kinds of entries."""
    return len(variants((top / "crates/journal_model/src/entry.rt").read_text(), "Kind"))


def tasks(top: pathlib.Path) -> int:
    """Counts the tasks of a thread."""
    return max(len(variants(path.read_text(), "Task")) for path in (top / "crates/journal_model/src").glob("*.rt"))


def checks_after_the_gate(top: pathlib.Path) -> int:
    """Counts the checks that .ci/run makes after `rt ci`."""
    found = re.search(r"for check in ([^;]*);", (top / ".ci/run").read_text())
    return len(found[1].split()) if found else 0


def rules_of_the_kernel(top: pathlib.Path) -> int:
    """Counts the named rules by which this TTM differs from kernel 6.1's."""
    section = re.search(r"^### Rules\n(.*?)^### ", (top / "docs/KERNEL.md").read_text(), re.M | re.S)
    return len(re.findall(r"^\| \[", section[1], re.M)) if section else 0


def public_functions(crate: str) -> Callable[[pathlib.Path], int]:
    """Returns what counts the public functions of a crate."""
    def count(top: pathlib.Path) -> int:
        sources = (top / "crates" / crate / "src").glob("**/*.rt")
        return sum(len(re.findall(r"^ *pub fn ", path.read_text(), re.M)) for path in sources)

    return count


def comparisons(top: pathlib.Path) -> int:
    """Counts the cases of test_device that compare two devices."""
    return len(re.findall(r"^compare (?:each entry|at the end)$", (top / "crates/test_device/stdin").read_text(errors="replace"), re.M))


def edits(top: pathlib.Path) -> int:
    """Counts the edits that must fail."""
    return len(list((top / "crates").glob("*/must-fail/*.edit")))


def crates_with_edits(top: pathlib.Path) -> int:
    """Counts the crates that have edits that must fail."""
    return len({path.parent for path in (top / "crates").glob("*/must-fail/*.edit")})


COUNTS: Tuple[Count, ...] = (
    Count("README.md", r"some of (\w+) named rules", rules_of_the_kernel),
    Count("docs/CHANGING.md", r"over the (\w+) kinds", kinds),
    Count("docs/CLAIMS.md", r"any of the (\w+) kinds", kinds),
    Count("docs/CLAIMS.md", r"In (\w+) cases the program `test_device`", comparisons),
    Count("docs/DECISIONS.md", r"(\w+) checks follow `rt ci`", checks_after_the_gate),
    Count("docs/GATE.md", r"edits came: (\w+) in", edits),
    Count("docs/GATE.md", r"edits came: \w+ in (\w+) crates", crates_with_edits),
    Count("docs/READING.md", r"one step of the manager, and which of (\w+) \|", kinds),
    Count("docs/READING.md", r"has one of (\w+) tasks", tasks),
    Count("crates/room_representation/README.md", r"its (\w+) public functions", public_functions("room_representation")),
    Count("crates/test_device/README.md", r"All (\w+) kinds", kinds),
    Count("crates/test_device/README.md", r"^\| (\w+) \| with `compare", comparisons),
)


def faults_of_counts(top: pathlib.Path, counts: Tuple[Count, ...] = COUNTS) -> Iterator[str]:
    """Tells each number that isn't the sources', and each that a document doesn't tell any more."""
    for count in counts:
        text = (top / count.document).read_text()
        found = re.search(count.pattern.replace(" ", r"\s+"), text, re.M)
        if not found:
            yield f"{count.document}:1: it doesn't say how many (docs_counts.py): {count.pattern}"
        elif number_of(found[1]) != count.count(top):
            yield f'{count.document}:{text.count(chr(10), 0, found.start()) + 1}: it says {found[1]}, and the sources have {count.count(top)}'
