"""Which crates call a crate's public functions, and what is lent to these for writing, as the sources say. Used by docs_made.py.

A function is found by the import or the path that names it; a method by the type of what stands before its dot, as far as heads of functions, fields
and bindings tell it, else by its name, if just one type of the crates below has a method of that name. Calls inside of a crate aren't looked at.
"""
from __future__ import annotations

import collections
import functools
import pathlib
import re
from dataclasses import dataclass, field
from typing import Dict, Iterable, Iterator, List, Set, Tuple

from docs_english import first_sentence

WORD = r"[A-Za-z_][A-Za-z0-9_]*"
# Methods of slices, options, numbers and iterators: by its name alone, none of them is a type's of the repository.
COMMON = {"bytes", "clear", "clone", "contains", "count", "extend", "fill", "find", "first", "get", "get_mut", "insert", "is_empty", "items", "iter",
          "last", "len", "map", "max", "min", "new", "next", "push", "read", "remove", "set", "swap", "take", "truncate", "write"}
# Those whose result has what they are called on.
PASSING = {"as_mut", "as_ref", "cloned", "copied", "enumerate", "filter", "first", "get", "get_mut", "items", "iter", "iter_mut", "last", "next",
           "ok", "ok_or", "rev", "skip", "take", "unwrap", "unwrap_or", "zip"}

# Types that hold values of the types that they are given.
HOLDERS = "Option|Result|Box|ItemList|ItemQueue|LinkedList|Vec"

HEAD = re.compile(rf"^( *)(pub )?(?:const )?(?:unsafe )?(?:extern \"\" )?fn ({WORD})(?:<[^(]*>)?\(", re.M)
OPENED = re.compile(rf"^(pub(?:\([a-z]+\))? )?(?:unsafe )?(?:(trait|struct|enum|union) ({WORD})|"
                    rf"impl(?:<.*?>)? (?:([^{{\n]*?) for )?&?(?:mut )?({WORD}))", re.M)
ALIAS = re.compile(rf"^(?:pub )?type ({WORD})[^=;]* =([^;]*);", re.M)
METHOD = re.compile(rf"\.\s*({WORD})(?:::<[^<>()]*>)?\(")
PATH = re.compile(rf"(?<![\w.:])({WORD}(?:::(?:<[^<>()]*>::)?{WORD})+)")

Types = Dict[str, Set[str]]


@dataclass(frozen=True)
class Function:
    """A public function, its type or trait if it has one, and its parameters that are lent for writing."""
    crate: str
    owner: str
    name: str
    lent: Tuple[str, ...]
    does: str


@dataclass
class File:
    """A source without comments, texts and contracts; and what its names are those of, a type as `crate.Type`."""
    crate: str
    module: Tuple[str, ...]
    text: str
    imports: List[Tuple[str, List[str], bool]]
    does: List[str]
    names: Dict[str, str] = field(default_factory=dict)

    def types(self, text: str) -> Set[str]:
        """Returns the types that are named in a type, without the arguments of those that hold nothing of them."""
        for _ in range(3):
            text = re.sub(rf"(?<!\w)(?!(?:{HOLDERS})<)(\w+)<[^<>]*>", r"\1", text)
            text = re.sub(rf"(?<!\w)({HOLDERS})<([^<>]*)>", r"\1 \2", text)
        return {self.names.get(name, name) for name in re.findall(r"\b[A-Z]\w*", text)}


def code_of(text: str) -> str:
    """Returns a source without comments, texts, contracts and what only contracts import."""
    text = re.sub(r"//[^\n]*", "", text)
    text = re.sub(r'b?"(?:[^"\\]|\\.)*"', '""', text)
    return re.sub(r"^\s*(?:ghost use|ensures|requires)\b[^\n]*(?:\n {8}[^\n]*)*", "\n", text, flags=re.M)


def does_of(text: str) -> List[str]:
    """Returns of each function of a source, with its comments, the first sentence of its comment."""
    text = re.sub(r'extern "C"', 'extern ""', text)
    found = []
    for head in HEAD.finditer(text):
        above = re.search(r"((?:^ *///.*\n)+)(?:^ *#\[.*\n)*\Z", text[:head.start()], re.M)
        comment = re.sub(r"^ */// ?", "", above[1], flags=re.M) if above else ""
        found.append(first_sentence(comment.split("\n\n")[0]).replace("`crate::", "`"))
    return found


def parts_of(text: str) -> Iterator[str]:
    """Yields the parts of a list between its commas."""
    depth, start = 0, 0
    for at, c in enumerate(text + ","):
        depth += (c in "{(<[") - (c in "})]" or c == ">" and text[at - 1] != "-")
        if c == "," and depth == 0:
            if text[start:at].strip():
                yield text[start:at].strip()
            start = at + 1


def leaves(path: List[str], tree: str) -> Iterator[Tuple[str, List[str]]]:
    """Yields what a tree of imports names: the name here, and the path."""
    for part in parts_of(tree):
        inside = re.fullmatch(r"((?:\w+::)*)\{(.*)\}", part, re.S)
        if inside:
            yield from leaves([*path, *inside[1].split("::")[:-1]], inside[2])
            continue
        whole, _, here = part.partition(" as ")
        steps = [*path, *whole.strip().split("::")]
        if steps[-1] == "self":
            steps.pop()
        yield here.strip() or steps[-1], steps


def imports_of(text: str) -> List[Tuple[str, List[str], bool]]:
    """Returns what a source imports: the name that it has here, its path, and whether it is passed on."""
    return [(here, steps, bool(found[1])) for found in re.finditer(r"^\s*(pub )?use ([^;]*);", text, re.M) for here, steps in leaves([], found[2])]


def end_of_list(text: str, at: int) -> int:
    """Returns where the list ends that begins at a place."""
    depth = 1
    while depth and at < len(text):
        depth += (text[at] == "(") - (text[at] == ")")
        at += 1
    return at - 1


def start_of_list(text: str) -> int:
    """Returns where the list begins with whose end a text ends."""
    depth, at = 0, len(text)
    while at:
        at -= 1
        depth += (text[at] in ")]") - (text[at] in "([")
        if not depth:
            break
    return at


def lent_of(parameters: str) -> Tuple[str, ...]:
    """Returns the parameters that are lent for writing."""
    found = []
    for part in parts_of(parameters):
        name, _, kind = part.partition(":")
        if kind.strip().startswith("&mut ") or name.startswith("&mut "):
            found.append(name.replace("&mut ", "").strip())
    return tuple(found)


def seen_of(files: List[File], crate: str) -> Tuple[Set[Tuple[str, ...]], Set[str]]:
    """Returns the modules of a crate that other crates see, and the names that such a module passes on from others."""
    own = {file.module: file for file in files if file.crate == crate}
    modules, names, todo = set(), set(), [()]
    while todo:
        module = todo.pop()
        if module in own and module not in modules:
            modules.add(module)
            todo.extend((*module, name) for name in re.findall(rf"^pub mod ({WORD});", own[module].text, re.M))
            names.update(here for here, _, passed in own[module].imports if passed)
    return modules, names


class Calls:
    """Who calls which public function of which crate."""

    def __init__(self, top: pathlib.Path) -> None:
        self.uses: Dict[str, List[str]] = {}
        self.files: List[File] = []
        self.public: List[Function] = []
        self.by: Dict[Tuple[str, str, str], Set[str]] = collections.defaultdict(set)
        self.passed: Dict[Tuple[str, str], Tuple[str, str]] = {}
        self.declared: Set[str] = set()
        self.wider: Types = collections.defaultdict(set)
        self.fields: Types = collections.defaultdict(set)
        self.results: Types = collections.defaultdict(set)
        self.own: Set[Tuple[str, str]] = set()
        for line in (top / "crates.txt").read_text().splitlines():
            found = re.match(rf"({WORD})\b[^#:]*:(.*)", line)
            if found:
                self.uses[found[1]] = found[2].split()
        for crate in self.uses:
            for path in sorted((top / "crates" / crate).glob("src/**/*.rt")):
                whole = path.read_text()
                text = code_of(whole)
                module = path.relative_to(top / "crates" / crate / "src").with_suffix("").parts
                self.files.append(File(crate, () if module in (("lib",), ("main",)) else module, text, imports_of(text), does_of(whole)))
        self.seen = {crate: seen_of(self.files, crate) for crate in self.uses}
        self.below = {crate: self.crates_below(crate) for crate in self.uses}
        self.read_names()
        for file in self.files:
            self.read_heads(file)
        self.known = {(f.crate, f.owner, f.name) for f in self.public}
        self.methods: Types = collections.defaultdict(set)
        for crate, owner, name in self.known:
            if owner:
                self.methods[name].add(f"{crate}.{owner}")
        for file in self.files:
            self.read_calls(file)

    def crates_below(self, crate: str) -> Set[str]:
        """Returns a crate and all that it uses, through others too."""
        found: Set[str] = set()
        todo = [crate]
        while todo:
            name = todo.pop()
            if name in self.uses and name not in found:
                found.add(name)
                todo.extend(self.uses[name])
        return found

    def home(self, crate: str, name: str) -> Tuple[str, str]:
        """Returns the crate and the name that are meant by a name of a crate, which may pass on another's."""
        passed = self.passed.get((crate, name))
        return self.home(*passed) if passed else (crate, name)

    def home_of(self, crate: str, steps: List[str]) -> Tuple[str, str]:
        """Returns the crate and the name that are meant by a path in a crate, whose modules may be another's too."""
        for step in steps[:-1]:
            crate = self.passed.get((crate, step), (crate,))[0]
        return self.home(crate, steps[-1])

    def read_names(self) -> None:
        """Finds what the names of types are those of."""
        for file in self.files:
            self.declared |= {f"{file.crate}.{found[3]}" for found in OPENED.finditer(file.text) if found[3]}
            self.declared |= {f"{file.crate}.{found[1]}" for found in ALIAS.finditer(file.text)}
            for here, steps, passed in file.imports:
                if passed and steps[0] in self.uses and steps[0] != file.crate:
                    self.passed[file.crate, here] = (steps[0], steps[-1])
        for file in self.files:
            for name in set(re.findall(r"\b[A-Z]\w*", file.text)):
                if f"{file.crate}.{name}" in self.declared:
                    file.names[name] = f"{file.crate}.{name}"
            for here, steps, _ in file.imports:
                home = file.crate if steps[0] in ("crate", "self", "super") else steps[0]
                if home in self.uses and here[0].isupper():
                    file.names[here] = ".".join(self.home(home, steps[-1]))

    def read_heads(self, file: File) -> None:
        """Finds the functions of a file, what they give, and what types have."""
        text = file.text
        owners = list(OPENED.finditer(text))
        for name, kind in ALIAS.findall(text):
            self.wider[f"{file.crate}.{name}"] |= file.types(kind)
        for name, kind in re.findall(rf"^pub trait ({WORD})(?:<[^>]*>)?: ([A-Z][\w +]*)", text, re.M):
            self.wider[f"{file.crate}.{name}"] |= file.types(kind)
        for found in owners:
            if found[4]:
                self.wider[file.names.get(found[5], found[5])] |= file.types(re.sub(r"<.*>", "", found[4]))
            if found[3]:
                body = text[found.end():text.find("\n}", found.end())]
                for name, kind in re.findall(rf"^    ({WORD})\((.*)\),$", body, re.M) if found[2] == "enum" else ():
                    self.fields[name] |= file.types(kind)
                for name, kind in re.findall(rf"^    (?:pub(?:\([a-z]+\))? )?({WORD}): (.*?),?$", body, re.M):
                    self.fields[name] |= file.types(kind)
        for head, does in zip(HEAD.finditer(text), file.does):
            end = end_of_list(text, head.end())
            given = re.match(r"\)\s*->\s*([^{\n]*)", text[end:])
            above = [found for found in owners if found.start() < head.start()] if head[1] else []
            owner = (above[-1][3] or above[-1][5]) if above else ""
            kind = file.names.get(owner, owner)
            result = {kind if one == "Self" else one for one in (file.types(given[1]) if given else ())}
            for key in (f"{kind}::{head[3]}", f"*::{head[3]}"):
                self.results[key] |= result
            self.own.add((file.crate, head[3]))
            modules, names = self.seen[file.crate]
            seen = file.module in modules or (owner or head[3]) in names or 'extern ""' in head[0]
            if seen and (head[2] or above and above[-1][2] == "trait" and above[-1][1]):
                self.public.append(Function(file.crate, owner, head[3], lent_of(text[head.end():end]), does))

    def put(self, caller: str, crate: str, owner: str, name: str) -> None:
        """Notes a call, if it is one of another crate's public function."""
        if crate != caller and (crate, owner, name) in self.known:
            self.by[crate, owner, name].add(caller)

    def widened(self, kinds: Set[str]) -> Set[str]:
        """Returns types with the traits that they implement and the types that they are other names of."""
        wide = kinds | {wider for kind in kinds for wider in self.wider.get(kind, ())}
        return wide if wide == kinds else self.widened(wide)

    def read_calls(self, file: File) -> None:
        """Finds the calls of a file."""
        modules: Dict[str, str] = {}
        body = re.sub(r"^\s*(?:pub )?use [^;]*;", "", file.text, flags=re.M)
        for here, steps, passed in file.imports:
            above = file.crate if steps[0] == "crate" else steps[0]
            if above in self.uses and len(steps) > 1:
                home, name = self.home_of(above, steps[1:])
                modules[here] = home
                if not passed or re.search(rf"(?<![\w.:]){here}\(", body):
                    self.put(file.crate, home, "", name)
        for path in PATH.findall(body):
            steps = re.sub(r"::<[^<>()]*>", "", path).split("::")
            if steps[-2][0].isupper():
                kind = ".".join(self.home(steps[0], steps[1])) if steps[0] in self.uses else file.names.get(steps[-2], steps[-2])
                bounds = {one for found in re.findall(rf"\b{steps[-2]}: ([A-Z][\w +]*)", file.text) for one in file.types(found)}
                for wide in self.widened({kind, *bounds}):
                    crate, _, owner = wide.partition(".")
                    self.put(file.crate, crate, owner, steps[-1])
            elif steps[0] in self.uses or steps[0] in modules:
                self.put(file.crate, *self.home(modules.get(steps[0], steps[0]), steps[-1])[:1], "", steps[-1])
        heads = [0, *(found.start() for found in HEAD.finditer(body)), len(body)]
        owners = [(found.start(), found[3] or found[5]) for found in OPENED.finditer(body)]
        for start, end in zip(heads, heads[1:]):
            owner = [name for at, name in owners if at <= start][-1:]
            Body(self, file, body[start:end], {file.names.get(name, name) for name in owner}).read_methods()


class Body:
    """A function's head and body, with the types that its names may have, as far as they are told."""

    def __init__(self, calls: Calls, file: File, text: str, owner: Set[str]) -> None:
        self.calls, self.file, self.text, self.owner = calls, file, text, owner
        self.bound: Types = collections.defaultdict(set)
        for name, kind in re.findall(rf"\b({WORD}): (&?(?:mut )?(?:dyn )?[^,;)=\n{{]*)", text):
            self.bound[name] |= file.types(kind)
        for found in re.finditer(rf"\blet (?:\w+\()?(?:mut )?({WORD})\)?(?:: [^=;]*)? = ([^;{{]*?)(?:;| else\b| \{{\n)", text):
            if not found[2].startswith(("match ", "if ")):
                self.bound[found[1]] |= self.types_of(found[2])
        for name, arms in re.findall(rf"\blet (?:mut )?({WORD}) = match [^\n]* \{{\n(.*?)\n\s*\}};", text, re.S):
            for value in re.findall(r"=> (.*),$", arms, re.M):
                self.bound[name] |= self.types_of(value)
        for found in re.finditer(rf"\bfor &?({WORD}) in ([^{{\n]*) \{{", text):
            self.bound[found[1]] |= self.types_of(found[2])
        for found in re.finditer(r"\bmatch ([^{\n]*) \{", text):
            kinds = self.types_of(found[1])
            for variant, name in re.findall(rf"\b([A-Z]\w*)\((?:mut |ref )?({WORD})\)\s*(?:if [^=]*)?=>", text[found.end():]):
                self.bound[name] |= self.told(calls.fields, variant) or kinds
        for names, made in re.findall(r"\blet \(([\w, ]*)\) = ([^;{]*);", text):
            for name in re.findall(WORD, names):
                self.bound[name] |= self.types_of(made)
        for names in re.findall(r"\b[A-Z]\w* \{\s*([a-z_][\w, \n]*?)\s*(?:\.\.)?\}", text):
            for name in re.findall(WORD, names):
                self.bound[name] |= self.told(calls.fields, name)
        self.bounds: Types = collections.defaultdict(set)
        for name, kind in re.findall(r"\b([A-Z]\w*): ([A-Z][\w +]*)", file.text):
            self.bounds[name] |= file.types(kind)

    def read_methods(self) -> None:
        calls, near = self.calls, self.calls.below[self.file.crate]
        for found in METHOD.finditer(self.text):
            name = found[1]
            if name not in calls.methods:
                continue
            known = self.types_before(self.text[:found.start()])
            known = calls.widened(known | {wide for one in known for wide in self.bounds.get(one, ())})
            typed = {kind for kind in calls.methods[name] & known if kind.split(".")[0] in near}
            if not known and name not in COMMON and (self.file.crate, name) not in calls.own:
                used = {kind for kind in calls.methods[name] if kind.split(".")[0] in calls.uses[self.file.crate]}
                typed = used if len(used) == 1 else set()
            for kind in typed:
                crate, _, owner = kind.partition(".")
                calls.put(self.file.crate, crate, owner, name)

    def told(self, types: Types, name: str) -> Set[str]:
        """Returns the types that a name has anywhere in the crates below, of fields or results."""
        near = self.calls.below[self.file.crate]
        return {kind for kind in types.get(name, ()) if kind.split(".")[0] in near or "." not in kind}

    def types_of(self, text: str) -> Set[str]:
        """Returns the types that an expression may have."""
        return self.types_before(re.sub(r"^&(?:mut )?", "", text.strip()))

    def types_before(self, text: str) -> Set[str]:
        """Returns the types that what stands before a dot may have."""
        text = text[-600:].rstrip("? \n")
        if text.endswith("]"):
            return self.types_before(text[:start_of_list(text)])
        if text.endswith(")"):
            at = start_of_list(text)
            called = re.search(rf"((?:{WORD}::)*)({WORD})(?:::<[^<>()]*>)?$", text[:at])
            return self.types_of_call(called, text[:at]) if called else self.types_of(text[at + 1:-1])
        variant = re.search(rf"\b([A-Z]\w*)::{WORD}$", text)
        if variant:
            return {self.file.names.get(variant[1], variant[1])}
        last = re.search(rf"(\.\s*)?({WORD})$", text)
        if not last or last[2] == "self":
            return self.owner if last else set()
        return self.told(self.calls.fields, last[2]) if last[1] else set(self.bound.get(last[2], ()))

    def types_of_call(self, called: "re.Match[str]", text: str) -> Set[str]:
        """Returns the types that a call may give."""
        results = self.calls.results
        above = called[1].split("::")[-2] if called[1] else ""
        if above[:1].isupper():
            kind = self.file.names.get(above, above)
            return self.told(results, f"{kind}::{called[2]}") or {kind}
        before = text[:called.start()].rstrip()
        if not before.endswith("."):
            return self.told(results, f"::{called[2]}")
        kinds = self.types_before(before[:-1])
        known = {kind for kind in self.calls.widened(kinds) if f"{kind}::{called[2]}" in results}
        found = {one for kind in known or {"*"} for one in self.told(results, f"{kind}::{called[2]}")}
        if not known and called[2] in PASSING or any(len(kind) == 1 for kind in found):
            found |= {kind for kind in self.calls.widened(kinds) if not known & self.calls.widened({kind})}
        return found


@functools.lru_cache(maxsize=None)
def calls_of(top: pathlib.Path) -> Calls:
    """Returns who calls what in a repository."""
    return Calls(top)


# Crates whose functions are laws, lemmas or tests, which no program calls.
APART = ("law", "lemma_", "test_")
MANY = 9  # crates from which on they are counted, and not named


def names_of_calls(functions: Iterable[Function]) -> str:
    """Returns functions, each with its type. A name that is in two modules is told once."""
    return listed({f"{function.owner}::{function.name}".lstrip(":"): None for function in functions})


def listed(names: Iterable[str]) -> str:
    return ", ".join(f"`{name}`" for name in names)


@functools.lru_cache(maxsize=None)
def claims_of(top: pathlib.Path) -> Dict[str, List[str]]:
    """Returns by crate the functions that the tables of docs/CLAIMS.md name, up to what is trusted."""
    calls = calls_of(top)
    functions = sorted(calls.public, key=lambda f: not f.crate.startswith(("plain_", "rules_", "test_")))
    homes = {(f.owner, f.name): f.crate for f in functions}
    modules = {(module, name): file.crate for file in calls.files for module in file.module for _, _, name in HEAD.findall(file.text)}
    claims: Dict[str, List[str]] = collections.defaultdict(list)
    text = (top / "docs" / "CLAIMS.md").read_text().split("\n## 5")[0]
    for name in re.findall(rf"`((?:{WORD}::)+{WORD})`", text):
        above, last = name.split("::")[-2:]
        crate, _, rest = name.partition("::")
        if crate not in calls.uses:
            crate, rest = homes.get((above, last)) or modules.get((above, last)) or "", name
        if rest not in claims[crate]:
            claims[crate].append(rest)
    return claims


def ways_to_claims(calls: Calls, claims: Dict[str, List[str]], crate: str) -> List[str]:
    """Returns the nearest crates that claims name of those that call a crate, or are laws about it."""
    above: Dict[str, Set[str]] = collections.defaultdict(set)
    for (below, _, _), names in calls.by.items():
        above[below] |= {name for name in names if not name.startswith(APART)}
    for name, uses in calls.uses.items():
        for below in uses if name.startswith("law") else ():
            above[below].add(name)
    seen, todo, found = {crate}, [crate], set()
    while todo:
        for name in above[todo.pop()] - seen:
            seen.add(name)
            if claims.get(name):
                found.add(name)
            else:
                todo.append(name)
    return [name for name in calls.uses if name in found]


def laws_cited(top: pathlib.Path, crate: str) -> List[str]:
    """Returns the modules of laws that a crate's contracts and proofs use."""
    found = set()
    for folder in ("src", "specs", "proofs"):
        for path in (top / "crates" / crate).glob(f"{folder}/**/*"):
            if path.suffix in (".rt", ".antt"):
                found |= set(re.findall(r"Rattle\.laws\.(?:specs|proofs)\.(law_\w+)", path.read_text()))
                found |= set(re.findall(r"Rattle\.(law_\w+)\.", path.read_text()))
    return sorted(found)


def is_called(top: pathlib.Path, crate: str) -> bool:
    """Whether a crate has public functions for programs."""
    return not crate.startswith(APART) and any(function.crate == crate for function in calls_of(top).public)


def callers_of(calls: Calls, function: Function) -> str:
    """Returns the crates that call a function, as a table says it."""
    by = calls.by[function.crate, function.owner, function.name]
    told = [name for name in calls.uses if name in by and not name.startswith(APART)]
    if told:
        return listed(told) if len(told) < MANY else f"{len(told)} crates"
    if function.name.startswith("pearoar_"):
        return "C"
    return "laws" if any(name.startswith("law") for name in by) else "tests" if by else "no other crate"


def table_of_calls(top: pathlib.Path, document: pathlib.Path) -> List[str]:
    """Returns the table of a crate's public functions, by who calls them, and the claims and laws that go with the crate."""
    calls, crate = calls_of(top), document.parent.name
    rows: Dict[Tuple[Tuple[str, ...], str], List[Function]] = collections.defaultdict(list)
    for function in calls.public:
        if function.crate == crate:
            rows[function.lent, callers_of(calls, function)].append(function)
    lines = ["", "| call | lent for writing | called by |", "|---|---|---|"]
    lines += [f"| {names_of_calls(functions)} | {listed(lent) or 'nothing'} | {by} |" for (lent, by), functions in rows.items()]
    told = "".join(re.sub(r"<!-- made: .*?<!-- end -->", "", page.read_text(), flags=re.S) for page in document.parent.glob("*.md"))
    names = set(re.findall(WORD, " ".join(re.findall(r"`([^`]+)`", told))))
    untold = [f for f in calls.public if f.crate == crate and f.name not in names and f.does and not f.name.startswith("pearoar_")]
    if untold:
        lines += ["", "| call not named above | does |", "|---|---|", *(f"| {names_of_calls([f])} | {f.does} |" for f in untold)]
    claims = claims_of(top)
    ways = ways_to_claims(calls, claims, crate)
    by_way = f"by way of {listed(ways) if len(ways) < MANY else f'{len(ways)} crates'}."
    if claims.get(crate):
        lines += ["", f"Claimed in [CLAIMS.md](../../docs/CLAIMS.md): {listed(claims[crate])}." + (f" More rests on it {by_way}" if ways else "")]
    elif ways:
        lines += ["", f"Claims ([CLAIMS.md](../../docs/CLAIMS.md)) rest on it {by_way}"]
    laws = laws_cited(top, crate)
    if laws:
        lines += ["", f"Laws that its contracts and proofs use: {listed(laws)}."]
    return [*lines, ""]
