"""Loads modules of definitions: what each names of others, and the rows of its own functions."""

from __future__ import annotations

import pathlib
import re
from dataclasses import dataclass, field
from typing import Dict, List, Set, Tuple

from syntax import Expression, Parser, Pattern, tokens_of

USE = re.compile(r"(?:pub )?use Rattle\.([\w.]+?)(?:\.\{(.*)\})?(?: as (\w+))?\s*$", re.S)
NOT_COMPUTED = ("abbrev", "unfoldable", "pub record", "record", "pub abbrev", "pub unfoldable", "module", "pub mod", "mod")
Key = Tuple[str, str]


@dataclass
class Definition:
    """The rows of a function: patterns of its arguments, and what it is."""

    module: "Module"
    name: str
    rows: List[Tuple[List[Pattern], Expression]]

    def arity(self) -> int:
        return len(self.rows[0][0])


@dataclass
class Module:
    """A module: what its names mean, which are variants, and which stand for a type's variants."""

    name: str
    names: Dict[str, Key] = field(default_factory=dict)
    variants: Set[str] = field(default_factory=set)
    types: Set[str] = field(default_factory=set)
    own: Set[str] = field(default_factory=set)


class Library:
    """The modules of definitions below a folder of crates."""

    def __init__(self, crates: pathlib.Path) -> None:
        self.crates = crates
        self.modules: Dict[str, Module] = {}
        self.definitions: Dict[Key, Definition] = {}

    def load(self, name: str) -> Module:
        """Loads a module and what it uses, once. `name` is a whole name without `Rattle`."""
        if name not in self.modules:
            module = self.modules[name] = Module(name)
            rows: Dict[str, List[str]] = {}
            for chunk in self._chunks(name):
                self._read(module, chunk, rows)
            for own, texts in rows.items():
                self.definitions[name, own] = Definition(module, own, [row_of(text) for text in texts])
        return self.modules[name]

    def _chunks(self, name: str) -> List[str]:
        """Returns the items of a module: each begins at a line's first column."""
        text = self._file(name).read_text(encoding="utf-8")
        chunks: List[List[str]] = []
        for line in re.sub(r"--.*", "", text).split("\n"):
            if line.strip():
                if line[0].isspace() or line[0] == "}":
                    chunks[-1].append(line)
                else:
                    chunks.append([line])
        return ["\n".join(lines) for lines in chunks]

    def _file(self, name: str) -> pathlib.Path:
        return self.crates.joinpath(*name.split(".")).with_suffix(".antt")

    def _read(self, module: Module, chunk: str, rows: Dict[str, List[str]]) -> None:
        """Reads an item: a use, a type's variants, or a row of a function, which is put into `rows`."""
        used = USE.match(chunk)
        if used:
            names = [name.strip() for name in (used[2] or "").split(",") if name.strip()]
            self._use(module, used[1], names, used[3])
        elif chunk.startswith("pub data"):
            module.variants |= set(re.findall(r"^\s+(\w+) :", chunk, re.M))
        elif not chunk.startswith(NOT_COMPUTED):
            name = re.match(r"[A-Za-z_][A-Za-z0-9_']*", chunk)
            if name and not name[0][0].isupper():
                rows.setdefault(name[0], []).append(chunk)
                module.own.add(name[0])
                module.names[name[0]] = (module.name, name[0])

    def _use(self, module: Module, path: str, names: List[str], alias: str) -> None:
        if path.endswith("TheVariants"):
            module.types |= {alias} if alias else set()
            module.variants |= set(names)
        elif path.startswith("std."):
            module.names.update({name: ("std", name) for name in names})
        elif ".declared." not in path and self._file(path).is_file():
            other = self.load(path)
            module.variants |= other.variants & set(names)
            module.names.update({name: other.names[name] for name in names if name in other.names})


def row_of(text: str) -> Tuple[List[Pattern], Expression]:
    """Reads a row of a function, after its name."""
    parser, patterns = Parser(tokens_of(text)), []
    parser.take()
    while not parser.is_mark("="):
        patterns.append(parser.simple_pattern())
    parser.expect("=")
    body = parser.expression()
    if parser.peek().sort != "end":
        raise SyntaxError(f"{text.split()[0]}: {parser.peek().text!r} stands after its row")
    return patterns, body
