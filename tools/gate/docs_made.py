"""What documents have from the sources: numbers of lines with what a file's head says, README's sizes, lists of files, tables of crates and of
modules, and the lines that links name. Used by check_docs.py, which compares it, and with `--write` makes it again.

A block that is made stands between `<!-- made: WHAT -->` and `<!-- end -->`:

  crates     in docs/ARCHITECTURE.md: the crates in the groups of crates.txt, each with the first sentence of its page
  modules    on a crate's page: its modules, each with the first sentence of its head (`//!`)
  edits      in docs/CLAIMS.md: the edits that must fail, by the function that they turn (docs_edits.py)
  callers    on a crate's page: its public functions, what is lent to them for writing, which crates call them, what those do that the
             page doesn't name, and the claims and laws that go with the crate (docs_callers.py)
"""
from __future__ import annotations

import os
import pathlib
import re
from typing import Callable, Dict, Iterator, List, Optional, Tuple

from docs_callers import table_of_calls
from docs_edits import table_of_edits
from docs_english import first_sentence
from docs_lists import TABLES, files_of, rows_of

WORD = r"[A-Za-z_][A-Za-z0-9_]*"
SIZED = re.compile(r"(\| \[?`(crates/[^`]+)`(?:\]\([^)]*\))? \| )(\d+) \|(.*)\|")
SUMMED = re.compile(r"(\| sum[^|]*\| )(\d+)( \|.*)")
LINKED = re.compile(r"\[`([^`]+)`\]\(([^)#]+)#L(\d+)\)")
BLOCK = re.compile(r"(<!-- made: ([a-z]+) -->\n)(.*?)(<!-- end -->)", re.S)
# Lines by which a link may miss its name, so that it needn't follow each change.
NEAR = 25

Place = Tuple[pathlib.Path, int]
Finder = Callable[[str], Optional[Place]]


def code_lines(path: pathlib.Path) -> int:
    """Returns how many lines a file has without imports, comments and blanks."""
    count, importing = 0, False
    for line in path.read_text().splitlines():
        text = line.strip()
        if re.match(r"(ghost |pub )*use ", text):
            importing = path.suffix == ".rt" and not text.endswith(";")
        elif importing:
            importing = not text.endswith(";")
        elif text and not text.startswith(("--", "//")):
            count += 1
    return count


def sized_text(top: pathlib.Path, text: str) -> str:
    """Returns a text with the right number of lines and what its head says in each row that has a file, and the right sums after them."""
    lines, total = [], 0
    for line in text.split("\n"):
        sized, summed = SIZED.fullmatch(line), SUMMED.fullmatch(line)
        if not line.startswith("|"):
            total = 0
        elif sized and (top / sized[2]).is_file():
            count = code_lines(top / sized[2])
            total += count
            line = f"{sized[1]}{count} | {head_sentence(top / sized[2]) or sized[4].strip()} |"
        elif summed:
            line, total = f"{summed[1]}{total}{summed[3]}", 0
        lines.append(line)
    return "\n".join(lines)


def listed_text(top: pathlib.Path, text: str) -> str:
    """Returns a text with the tables of docs_lists.py as the sources have them."""
    lines = text.split("\n")
    for table in TABLES:
        head = f"| crate | {table.head} |"
        if head not in lines:
            continue
        start = end = lines.index(head) + 2
        while end < len(lines) and lines[end].startswith("|"):
            end += 1
        lines[start:end] = rows_of(files_of(top, table))
    return "\n".join(lines)


def page_sentence(page: pathlib.Path) -> str:
    """Returns the first sentence after a page's heading."""
    paragraphs = page.read_text().split("\n\n")
    return first_sentence(paragraphs[1]) if len(paragraphs) > 1 else ""


def head_sentence(module: pathlib.Path) -> str:
    """Returns the first sentence of the head of a module, or of a file of definitions."""
    mark = "//!" if module.suffix == ".rt" else "--"
    head = re.match(rf"(?:{mark} ?.*\n)+", module.read_text())
    return first_sentence(re.sub(rf"^{mark} ?", "", head[0], flags=re.M)).replace("`crate::", "`") if head else ""


def groups(top: pathlib.Path) -> Iterator[Tuple[str, List[str]]]:
    """Returns the groups of crates.txt, each with the line over it."""
    head, names = "", []
    for line in [*(top / "crates.txt").read_text().splitlines(), "# end"]:
        if line.startswith("#"):
            if names:
                yield head, names
            head, names = line[1:].strip(), []
        elif re.match(rf"{WORD}\b[^#]*:", line):
            names.append(re.match(WORD, line)[0])


def table_of_crates(top: pathlib.Path, document: pathlib.Path) -> List[str]:
    """Returns the tables of all crates, a table for each group."""
    lines: List[str] = []
    for head, names in groups(top):
        lines += ["", f"**{head}**", "", "| crate | what it is for |", "|---|---|"]
        for name in names:
            page = top / "crates" / name / "README.md"
            told = rebased(page_sentence(page), page, document) if page.is_file() else ""
            lines.append(f"| [`{name}`]({os.path.relpath(page, document.parent)}) | {told} |")
    return [*lines[1:], ""]


def rebased(text: str, source: pathlib.Path, document: pathlib.Path) -> str:
    """Returns a text of one document with its links as another one needs them."""
    def link(found: "re.Match[str]") -> str:
        path, mark, heading = found[1].partition("#")
        if re.match(r"[a-z]+:", path) or not path:
            return found[0]
        return f"]({os.path.relpath(source.parent / path, document.parent)}{mark}{heading})"

    return re.sub(r"\]\(([^)]+)\)", link, text)


def table_of_modules(top: pathlib.Path, document: pathlib.Path) -> List[str]:
    """Returns the table of a crate's modules, in the order of their names."""
    rows = []
    for path in sorted(document.parent.glob("src/*.rt")):
        if path.stem not in ("lib", "main"):
            rows.append(f"| [`{path.stem}`](src/{path.name}) | {head_sentence(path)} |")
    return ["", "| module | what it has |", "|---|---|", *rows, ""]


BLOCKS: Dict[str, Callable[[pathlib.Path, pathlib.Path], List[str]]] = {
    "crates": table_of_crates, "modules": table_of_modules, "edits": lambda top, document: table_of_edits(top, groups(top)),
    "callers": table_of_calls,
}  # fmt: skip


def block_text(top: pathlib.Path, document: pathlib.Path, text: str) -> str:
    """Returns a text with each block made again."""
    def made(found: "re.Match[str]") -> str:
        make = BLOCKS.get(found[2])
        return found[0] if make is None else found[1] + "\n".join(make(top, document)) + "\n" + found[4]

    return BLOCK.sub(made, text)


def linked_text(top: pathlib.Path, document: pathlib.Path, text: str, find: Finder) -> str:
    """Returns a text whose links to a line go to where their name stands."""
    def link(found: "re.Match[str]") -> str:
        place = find(found[1])
        if place is None:
            return found[0]
        return f"[`{found[1]}`]({os.path.relpath(place[0], document.parent)}#L{place[1]})"

    return LINKED.sub(link, text)


def made_text(top: pathlib.Path, document: pathlib.Path, find: Finder) -> str:
    """Returns a document's text with all that is made from the sources."""
    text = block_text(top, document, document.read_text())
    return linked_text(top, document, listed_text(top, sized_text(top, text)), find)


def fault_of_line(document: pathlib.Path, name: str, path: str, line: int, find: Finder) -> Optional[str]:
    """Tells a link that names a line too far from where its name stands."""
    place = find(name)
    if place is None:
        return f"{name} stands nowhere"
    if (document.parent / path).resolve() != place[0].resolve() or abs(place[1] - line) > NEAR:
        return f"{name} is at line {place[1]} of {os.path.relpath(place[0], document.parent)}, not {line} of {path}"
    return None


def fault_of_sized(top: pathlib.Path, line: str) -> Optional[str]:
    """Tells a row of a file that doesn't say what the file's head says."""
    sized = SIZED.fullmatch(line)
    if not sized or not (top / sized[2]).is_file():
        return None
    said = head_sentence(top / sized[2])
    return None if said in ("", sized[4].strip()) else f"the head of {sized[2]} says: {said}"


def faults_of_blocks(top: pathlib.Path, document: pathlib.Path) -> Iterator[Tuple[int, str]]:
    """Tells the first line of each block that isn't as the sources have it, and blocks without an end or of no known name."""
    text = document.read_text()
    for found in BLOCK.finditer(text):
        start = text.count("\n", 0, found.start()) + 1
        if found[2] not in BLOCKS:
            yield start, f"no block has the name {found[2]}"
            continue
        now, wanted = found[3].rstrip("\n").split("\n"), BLOCKS[found[2]](top, document)
        while wanted and not wanted[-1]:
            wanted = wanted[:-1]
        for number, line in enumerate(wanted):
            if number >= len(now) or now[number] != line:
                yield start + 1 + number, f"tools/gate/check_docs.py --write has here: {line}"
                break
        else:
            if len(now) > len(wanted):
                yield start + 1 + len(wanted), "a row that the sources don't give"
    if text.count("<!-- made:") != len(BLOCK.findall(text)):
        yield 1, "a block that is made has no end"
