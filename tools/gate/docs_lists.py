"""The tables of docs/CHANGING.md that list which files name every variant of an enum, made from the sources. Used by check_docs.py."""
from __future__ import annotations

import collections
import pathlib
import re
from dataclasses import dataclass
from typing import Dict, Iterator, List, Set


@dataclass(frozen=True)
class FullTable:
    """A table of a document: the head of its second column, and the enum whose variants each file in it names."""
    head: str
    source: str
    enum: str


# A crate's folders of sources; out/, which a check leaves, is none.
FOLDERS = ("src", "specs", "proofs")

TABLES = (
    FullTable("files that name every command", "crates/journal_model/src/script.rt", "Command"),
    FullTable("files that name every kind", "crates/journal_model/src/entry.rt", "Kind"),
)


def variants(text: str, enum: str) -> Set[str]:
    """Returns the names of an enum's variants in a source."""
    body = re.search(rf"pub enum {enum} \{{(.*?)^\}}", text, re.S | re.M)
    return set(re.findall(r"^    ([A-Z][A-Za-z]*)\b", body[1], re.M)) if body else set()


def words_of(text: str) -> Set[str]:
    """Returns the words of a source or of definitions, without comments."""
    return set(re.findall(r"[A-Za-z_]+", re.sub(r"(--|//).*", "", text)))


def files_of(top: pathlib.Path, table: FullTable) -> Dict[str, List[str]]:
    """Returns by crate the files, from the crate's folder, that name every variant of the table's enum."""
    wanted = variants((top / table.source).read_text(), table.enum)
    found: Dict[str, List[str]] = collections.defaultdict(list)
    sources = (path for folder in FOLDERS for path in (top / "crates").glob(f"*/{folder}/**/*"))
    for path in sorted(sources):
        if path.suffix in (".rt", ".antt") and wanted and wanted <= words_of(path.read_text()):
            crate, *rest = path.relative_to(top / "crates").parts
            found[crate].append("/".join(rest))
    return found


def rows_of(found: Dict[str, List[str]]) -> List[str]:
    """Returns the rows of the table, a crate each."""
    return [f"| `{crate}` | {', '.join(f'`{name}`' for name in names)} |" for crate, names in sorted(found.items())]


def faults_of_lists(top: pathlib.Path, document: pathlib.Path) -> Iterator[str]:
    """Tells each row of the tables that is missing or that the sources don't give."""
    lines = document.read_text().splitlines()
    name = document.relative_to(top)
    for table in TABLES:
        head = f"| crate | {table.head} |"
        if head not in lines:
            yield f"{name}:1: it has no table {head}"
            continue
        start = lines.index(head) + 2
        rows = []
        for line in lines[start:]:
            if not line.startswith("|"):
                break
            rows.append(line)
        wanted = rows_of(files_of(top, table))
        for row in wanted:
            if row not in rows:
                yield f"{name}:{start}: it lacks the row {row}"
        for number, row in enumerate(rows, start + 1):
            if row not in wanted:
                yield f"{name}:{number}: the sources don't give the row {row}"
