#!/usr/bin/env python3
"""Checks that what documents name exists. Takes some seconds; needs Python alone, and no build.

usage: tools/gate/check_docs.py [DOCUMENT ...]      without documents: README.md, CHANGELOG.md, docs/*.md, crates/*/*.md and
                                               README.md of editors, examples and tools; that each crate is in crates.txt and in
                                               docs/ARCHITECTURE.md and has its README.md, headed by its name (so do
                                               pages of a crate's parts, modules of its) and a table of who calls
                                               it (docs_callers.py), and each law (public
                                               function of crates/law*) stands in docs/CLAIMS.md;
                                               that README.md has at most 7 KB and its table of sizes is right;
                                               that docs/CHANGING.md lists the files that name every kind or
                                               every command (docs_lists.py); that numbers are the sources'
                                               (docs_counts.py); that the kernel's names in documents and
                                               comments are in tools/gate/kernel_names.txt (docs_kernel.py); that
                                               tools/README.md has each tool; that blocks that are made from the
                                               sources are as the sources have them (docs_made.py); and that no
                                               document has phrases to avoid (docs_english.py)
       tools/gate/check_docs.py --write             makes anew what documents have from the sources: numbers of lines,
                                               README's sizes, lists of files, made blocks, the lines of links
       tools/gate/check_docs.py --link [DOCUMENT ..]  makes links of the names in its tables, too (docs/READING.md's, without one)
       tools/gate/check_docs.py --words             how many words each document has, and all together
       tools/gate/check_docs.py --sizes             README's table of sizes
       tools/gate/check_docs.py --closure MODULE    the definition files that MODULE rests on, as rows of a table

In backquotes, outside of blocks of code, are checked:

  `crates/x/src/y.rt`, `docs/..`      a file or folder from the top; `*` stands for any part, and so does a part in
                                      capitals (`crates/NAME/specs`); `src/..` and `specs/..` are in any crate
  `crate::name`, `crate::Type::name`  a crate of the repository (or a library in crates.txt, which isn't looked into) and in it
                                      a function, type, variant, field, constant or re-export; modules may stand between
  `Type::name`, `module::name`        the same in any crate; `Type.name` too
  `crate/Module.name`, `Module.name`  a definition (abbrev, record, data, field, lemma) of crates/crate/specs/Module.antt or of
                                      its proofs/, without a crate of any; `Module.antt` is the file alone; for a crate may
                                      stand a part of one, a module that has a page beside the crate's
  `name_of_it`, `NameOfIt`            a name of anything above, of a clause, a crate, an edit, an example, a case of test_device, or a word in a source
  `crate::f` (one, other)             a function with clauses of these names
  `name()`, `struct name`             the kernel's, which isn't checked; nor is a name that begins as one of KERNEL below

Links `[..](path)` are checked from the document's folder, with their `#heading`; in a link of a name to a line, `[`name`](path#L12)`,
the name stands there or some lines off. In a row of a table that begins with a backquoted `crates/..` file and then a number, the number
is the file's lines without imports, comments and blanks, and what follows is what the file's head says; in a row that begins with `sum`, it
is the sum of such rows above in the same table.

Words are those with a letter, outside of code, names in backquotes, targets of links and blocks that are made.

A mark that a merge left is a fault, too. Each fault is a line `document:line: what`; the exit status is 1 if there is one.
tools/gate/test_check_docs.py tests it with planted faults.
"""
import collections
import functools
import glob
import pathlib
import re
import sys

from docs_callers import is_called
from docs_counts import faults_of_counts
from docs_english import faults_of_text, words_of_text
from docs_kernel import faults_of_kernel, ours_of, stored, texts
from docs_lists import faults_of_lists
from docs_made import BLOCK, LINKED, code_lines, fault_of_line, fault_of_sized, faults_of_blocks, linked_text, made_text

TOP = pathlib.Path(__file__).resolve().parent.parent.parent
FOLDERS = ("crates/", "docs/", "tools/", "examples/", ".ci/", "src/", "specs/", "proofs/", "must-fail/")
KERNEL = ("ttm_", "drm_", "dma_", "ww_", "amdgpu_", "nouveau_", "radeon_", "reservation_ww_class", "swap_storage", "sg_table",
          "evict_flags", "busy_placement", "no_wait_gpu", "force_space")
WORD = r"[A-Za-z_][A-Za-z0-9_]*"
README_BYTES = 7 * 1024
PAGE_BYTES = 4 * 1024
SLACK = 5  # percent by which a rounded number of README.md may be off, so that it needn't follow each change


class Index:
    """The names in crates: by crate those at the top of it, those inside of its types, and its modules of definitions."""

    def __init__(self):
        self.items = collections.defaultdict(set)
        self.inner = collections.defaultdict(lambda: collections.defaultdict(set))
        self.modules = collections.defaultdict(set)
        self.specs = collections.defaultdict(lambda: collections.defaultdict(set))
        self.clauses = collections.defaultdict(set)
        self.words = set()
        self.crates = {path.name for path in (TOP / "crates").iterdir() if path.is_dir()}
        # (a module of a crate that has a page or definitions of its own)
        self.parts = {path.stem for path in (TOP / "crates").glob("*/*.md") if path.stem != "README"}
        self.parts |= {path.name for folder in ("specs", "proofs") for path in (TOP / "crates").glob(f"*/{folder}/*") if path.is_dir()}
        self.places = collections.defaultdict(list)
        self.foreign = set()
        self.libraries = {"std"}
        for line in (TOP / "crates.txt").read_text().splitlines():
            if ":" in line and not line.startswith("#"):
                self.libraries.update(line.split(":", 1)[1].split())
        self.libraries -= self.crates
        for crate in sorted(self.crates):
            for path in sorted((TOP / "crates" / crate).glob("src/**/*.rt")):
                self.read_source(crate, path)
            for folder in ("specs", "proofs"):
                for path in sorted((TOP / "crates" / crate).glob(f"{folder}/**/*.antt")):
                    self.read_definitions(crate, path)
                    part = path.relative_to(TOP / "crates" / crate / folder).parts[0]
                    if part in self.parts:
                        self.read_definitions(part, path)
            for path in (TOP / "crates" / crate).glob("must-fail/*"):
                self.words.add(path.stem)
            for path in (TOP / "crates" / crate).glob("stdin"):
                # (a row of cases is named by what stands before the slash)
                self.words.update(re.findall(rf"^case ({WORD})", path.read_text(errors="replace"), re.M))
        self.words |= self.crates | self.libraries | {path.stem for path in (TOP / "examples").iterdir()}
        self.words |= {path.stem for path in tools_below(TOP / "tools")}

    @functools.lru_cache(maxsize=None)
    def source_of(self, crate):
        """All sources of a crate, as one text."""
        return "\n".join(path.read_text() for path in sorted((TOP / "crates" / crate).glob("src/**/*.rt")))

    def read_source(self, crate, path):
        if path.stem not in ("lib", "main"):
            self.modules[crate].add(path.stem)
        owner = function = None
        for number, line in enumerate(path.read_text().splitlines(), 1):
            clause = re.match(r"\s*(?:ensures|requires)\*? (" + WORD + r") \{", line)
            if clause:
                self.clauses[function].add(clause[1])
            self.words.update(re.findall(WORD, line))
            opened = re.match(r"(?:pub(?:\([a-z]+\))? )?(struct|enum|trait|union) (" + WORD + ")", line)
            implemented = re.match(r"(?:unsafe )?impl(?:<.*?>)? (?:[^{]*? for )?&?(?:mut )?(" + WORD + ")", line)
            named = re.match(r"(\s*)(?:pub(?:\([a-z]+\))? )?(?:unsafe )?(?:fn|type|const|static|mod|ghost) (" + WORD + ")", line)
            if opened or named:
                self.places[(opened or named)[2]].append((path, number, owner if named and named[1] else None))
            if opened:
                owner = opened[2]
                self.items[crate].add(owner)
            elif implemented:
                owner = implemented[1]
                if not re.search(rf"\b(?:struct|enum|trait|union) {owner}\b", self.source_of(crate)):
                    self.foreign.add((path, owner))
            elif line.startswith("}"):
                owner = None
            if named and re.search(r"\bfn\b", line):
                function = named[2]
            if named and named[1] and owner:
                self.inner[crate][owner].add(named[2])
            elif named:
                self.items[crate].add(named[2])
            elif owner:
                inside = re.match(r" {4}(?:pub(?:\([a-z]+\))? )?(" + WORD + r")\s*[:,({]", line)
                if inside:
                    self.inner[crate][owner].add(inside[1])
                    self.places[inside[1]].append((path, number, owner))
        for names in re.findall(r"^pub use ([^;]*);", path.read_text(), re.M):
            self.items[crate].update(re.findall(WORD, names))

    def read_definitions(self, crate, path):
        names = self.specs[crate][path.stem]
        for number, line in enumerate(path.read_text().splitlines(), 1):
            self.words.update(re.findall(WORD, line.split("--")[0]))
            named = re.match(r"\s*(?:abbrev |unfoldable )?(?:pub )?(?:record |data |abbrev )?(" + WORD + r")\b.*:", line)
            if named and not line.startswith("use "):
                names.add(named[1])
                self.places[named[1]].append((path, number, None))

    def place_of(self, text):
        """The file and the line where a name stands, if it is a definition, a function, a type or what is inside of one."""
        definition = re.fullmatch(rf"(?:([a-z_0-9]+)/)?({WORD})\.({WORD})", text)
        if definition and definition[3] != "antt" and definition[2][0].isupper():
            above, module, name = definition.groups()
            found = [(path, line) for path, line, _ in self.places[name]
                     if path.stem == module and path.suffix == ".antt" and (not above or above in path.parts)]
            first = [(path, line) for path, line in found if above or {"journal_model", "ttm_base"} & {*path.parts} and "specs" in path.parts]
            return (first or found or [None])[0]
        *above, name = text.split("::")
        found = []
        for path, line, owner in self.places[name]:
            if path.suffix == ".rt" and above and all(part in {*path.parts, path.stem, owner} for part in above):
                crate = path.relative_to(TOP / "crates").parts[0]
                defines = owner is None or owner in self.items[crate] and (path, owner) not in self.foreign
                found.append((not defines, crate.startswith(("plain_", "rules_", "test_")), path, line))
        return min(found)[2:] if found else None

    def has_definition(self, crate, module, name):
        return module in self.specs[crate] and (name is None or name in self.specs[crate][module])

    def has_path(self, crate, parts):
        """The parts behind the crate: modules, then an item, or a type and what is inside of it."""
        parts = list(parts)
        while len(parts) > 1 and parts[0] in self.modules[crate] | {"specs"}:
            parts.pop(0)
        if len(parts) == 1:
            inside = any(parts[0] in names for names in self.inner[crate].values())
            return parts[0] in self.items[crate] | self.modules[crate] or (inside and parts[0].islower())
        return len(parts) == 2 and parts[1] in self.inner[crate][parts[0]]

    def fault_of_definition(self, crate, module, name):
        crates = [crate] if crate else sorted(self.crates)
        if any(self.has_definition(c, module, name) for c in crates):
            return None
        if name and any(self.has_path(c, [module, name]) for c in crates):
            return None
        where = f"crates/{crate or '*'}/specs/{module}.antt"
        return f"no {name} in {where}" if name else f"no {where}"

    def fault_of_path(self, parts):
        if parts[0] in self.libraries:
            return None
        if parts[0] in self.crates:
            return None if self.has_path(parts[0], parts[1:]) else f"no {'::'.join(parts[1:])} in crates/{parts[0]}/src"
        if any(self.has_path(crate, parts) for crate in sorted(self.crates)):
            return None
        return f"no crate, module or type {parts[0]} with {'::'.join(parts[1:])}"


def fault_of_file(text):
    if text.startswith(("src/", "specs/", "proofs/", "must-fail/")):
        text = "crates/*/" + text
    pattern = "/".join("*" if part.isupper() and part.isalpha() else part for part in text.split("/"))
    return None if glob.glob(str(TOP / pattern.rstrip("/"))) else f"no file {text}"


def fault_of_word(index, text):
    if text.endswith("()") or " " in text or not text:
        return None
    if text.startswith(FOLDERS):
        return fault_of_file(text.split(":")[0])
    if re.fullmatch(rf"{WORD}(::{WORD})+", text):
        return index.fault_of_path(text.split("::"))
    definition = re.fullmatch(rf"(?:([a-z_0-9]+)/)?({WORD})\.({WORD})", text)
    if definition and (definition[1] or definition[2][0].isupper()):
        crate, module, name = definition.groups()
        if crate and crate not in index.crates | index.parts:
            return f"no crate {crate}"
        return index.fault_of_definition(crate, module, None if name == "antt" else name)
    if re.fullmatch(r"[a-z]+[a-z0-9]*(_[a-z0-9]+)+|[A-Z][a-z0-9]+([A-Z][a-z0-9]*)+", text):
        if text not in index.words and not text.startswith(KERNEL):
            return f"nothing has the name {text}"
    return None


def faults_of_clauses(index, line):
    for function, names in re.findall(rf"`(?:{WORD}::)+({WORD})` \(({WORD}(?:, {WORD})*)\)", line):
        for name in names.split(", "):
            if name not in index.clauses[function]:
                yield f"{function} has no clause {name}"


def headings_of(path):
    found = re.findall(r"^#+ (.*)$", path.read_text(), re.M)
    return {re.sub(r"[^a-z0-9_ -]", "", head.lower()).replace(" ", "-") for head in found}


def fault_of_link(document, target):
    if re.match(r"[a-z]+:", target):
        return None
    path, _, heading = target.partition("#")
    file = (document.parent / path).resolve() if path else document
    if not file.exists():
        return f"no file {target}"
    if re.fullmatch(r"L\d+", heading):
        return None
    if heading and file.suffix == ".md" and heading not in headings_of(file):
        return f"no heading {heading} in {path or document.name}"
    return None


def faults_of(index, document):
    fenced, total = False, 0
    for number, line in enumerate(document.read_text().splitlines(), 1):
        if line.startswith(("<<<<<<< ", ">>>>>>> ")):
            yield number, "a merge left its marks"
        if line.startswith("```"):
            fenced = not fenced
        if fenced or line.startswith(("```", "    ")):
            continue
        for text in re.findall(r"`([^`]+)`", line):
            yield number, fault_of_word(index, text)
        for fault in faults_of_clauses(index, line):
            yield number, fault
        for target in re.findall(r"\]\(([^)]+)\)", line):
            yield number, fault_of_link(document, target)
        for name, path, at in LINKED.findall(line):
            yield number, fault_of_line(document, name, path, int(at), index.place_of)
        sized = re.match(r"\| \[?`(crates/[^`]+)`(?:\]\([^)]*\))? \| (\d+) \|", line)
        summed = re.match(r"\| sum[^|]*\| (\d+) \|", line)
        if not line.startswith("|"):
            total = 0
        elif sized and (TOP / sized[1]).is_file():
            total += int(sized[2])
            yield number, fault_of_sized(TOP, line)
            lines = code_lines(TOP / sized[1])
            yield number, None if lines == int(sized[2]) else f"{sized[1]} has {lines} lines, not {sized[2]}"
        elif summed:
            yield number, None if total == int(summed[1]) else f"the rows above have {total} lines, not {summed[1]}"
            total = 0


def closure_of(name):
    """The files of definitions, and of declared types, that a file imports, and those that they import; the deepest first."""
    found = []

    def visit(path):
        if path in found or not path.is_file():
            return
        text = path.read_text()
        mark = len(found)
        found.append(None)
        for crate, rest in re.findall(r"^(?:pub )?use Rattle\.([a-z_]+)\.specs\.([A-Za-z_.]+?)(?:\.\{| as |$)", text, re.M):
            parts = rest.split(".")
            if parts[0] == "declared":
                folder = TOP / "crates" / crate / "src"
                visit(folder.joinpath(*parts[1:-1]).with_suffix(".rt") if len(parts) > 2 else folder / "lib.rt")
            else:
                visit((TOP / "crates" / crate / "specs").joinpath(*parts).with_suffix(".antt"))
        found.pop(mark)
        found.append(path)

    if "/" in name:
        visit(TOP / "crates" / name)
    else:
        visit(next((TOP / "crates" / "journal_model" / "specs").rglob(f"{name}.antt")))
    return found


def sizes():
    """The table of README.md: how large the definitions are against code and proofs. The first row is exact, the others are rounded."""
    needed = set(closure_of("Legal")) | set(closure_of("Transparent"))
    code = set((TOP / "crates").glob("*/src/**/*.rt"))
    tests = set((TOP / "crates").glob("test_*/src/**/*.rt"))
    return [
        ("definitions that *legal* and *transparent* need", needed, 1),
        ("all definitions (`specs`)", set((TOP / "crates").glob("*/specs/**/*.antt")), 100),
        ("code with its contracts (`src`), without tests", code - tests, 100),
        ("tests", tests, 100),
        ("proofs (`proofs`)", set((TOP / "crates").glob("*/proofs/**/*.antt")), 100),
    ]


def size_row(what, paths, unit):
    return f"| {what} | {len(paths)} | {round(sum(map(code_lines, paths)) / unit) * unit} |"


def faults_of_readme():
    """README.md is short, and its table of sizes is that of the sources."""
    readme = TOP / "README.md"
    length = len(readme.read_bytes())
    if length > README_BYTES:
        yield f"README.md:1: it has {length} bytes, more than {README_BYTES}"
    lines = readme.read_text().splitlines()
    for what, paths, unit in sizes():
        rows = [(number, line) for number, line in enumerate(lines, 1) if line.startswith(f"| {what} |")]
        told = re.fullmatch(r"\|[^|]*\| (\d+) \| (\d+) \|", rows[0][1]) if len(rows) == 1 else None
        if not told:
            yield f"README.md:1: it doesn't have one row {size_row(what, paths, unit)}"
            continue
        slack = SLACK if unit > 1 else 0
        for number, count in ((int(told[1]), len(paths)), (int(told[2]), sum(map(code_lines, paths)))):
            if abs(number - count) * 100 > count * slack:
                yield f"README.md:{rows[0][0]}: it has {number}, and should have the row {size_row(what, paths, unit)}"


def readme_text():
    """README.md with the rows of its table of sizes, and its first one where its text says it."""
    text = (TOP / "README.md").read_text()
    for what, paths, unit in sizes():
        text = re.sub(rf"^\| {re.escape(what)} \|.*$", lambda _: size_row(what, paths, unit), text, flags=re.M)
    count = sum(map(code_lines, sizes()[0][1]))
    return re.sub(r"[\d,]+ lines of definitions", f"{count:,} lines of definitions", text)


def write(index, documents):
    """Makes anew what documents have from the sources; tells which have changed."""
    for document in documents:
        before = document.read_text()
        text = readme_text() if document == TOP / "README.md" else made_text(TOP, document, index.place_of)
        if text != before:
            document.write_text(text)
            print(f"{document.relative_to(TOP)}: written")


def link(index, document):
    """Makes links of the names in a document's tables that have none."""
    lines = document.read_text().split("\n")
    for at, line in enumerate(lines):
        if line.startswith("| ") and not re.match(r"\| \[?`crates/", line):
            lines[at] = re.sub(r"\[`[^`]+`\]\([^)]*\)|`([^`]+)`",
                               lambda found: f"[`{found[1]}`](.#L1)" if found[1] and index.place_of(found[1]) else found[0], line)
        elif line.startswith("| `crates/"):
            lines[at] = re.sub(r"^\| `([^`]+)`", r"| [`\1`](../\1)", line)
    document.write_text(linked_text(TOP, document, "\n".join(lines), index.place_of))


def words_of_documents(documents):
    """Each document with the number of its words, most first."""
    return sorted(((words_of_text(document.read_text()), document.relative_to(TOP)) for document in documents), reverse=True)


def words_told(documents):
    """How many words documents have, without the pages of examples and tools."""
    return sum(count for count, name in words_of_documents(documents) if name.parts[0] not in ("examples", "tools"))


def faults_of_pages(index):
    """Each crate has its page, headed by its name and short, with who calls it."""
    for crate in sorted(index.crates):
        page = TOP / "crates" / crate / "README.md"
        if not page.is_file():
            yield f"crates/{crate}/README.md:1: no such page"
        elif page.read_text().splitlines()[:1] != [f"# `{crate}`"]:
            yield f"crates/{crate}/README.md:1: its heading isn't the crate's name"
        elif (length := len(BLOCK.sub("", page.read_text()).encode())) > PAGE_BYTES:
            yield f"crates/{crate}/README.md:1: it has {length} bytes, more than {PAGE_BYTES}, without blocks that are made"
        elif is_called(TOP, crate) and "<!-- made: callers -->" not in page.read_text():
            yield f"crates/{crate}/README.md:1: it has no block callers"
        for page in sorted((TOP / "crates" / crate).glob("*.md")):
            if page.stem != "README" and page.read_text().splitlines()[:1] != [f"# `{page.stem}`"]:
                yield f"crates/{crate}/{page.name}:1: its heading isn't the part's name"


def missing_crates(index):
    """Crates that the list of crates or the page about them doesn't have."""
    listed = set(re.findall(rf"^({WORD})\b[^#\n]*:", (TOP / "crates.txt").read_text(), re.M))
    told = set(re.findall(rf"`({WORD})`", (TOP / "docs" / "ARCHITECTURE.md").read_text()))
    for crate in sorted(index.crates):
        for name, names in (("crates.txt", listed), ("docs/ARCHITECTURE.md", told)):
            if crate not in names:
                yield f"{name}:1: it doesn't have the crate {crate}"


def missing_laws():
    """Laws that the page of claims doesn't have."""
    claims = (TOP / "docs" / "CLAIMS.md").read_text()
    for path in sorted((TOP / "crates").glob("law*/src/**/*.rt")):
        for name in re.findall(rf"^pub fn ({WORD})\(\)", path.read_text(), re.M):
            law = f"{path.parts[-3] if path.stem == 'lib' else path.stem}::{name}"
            if f"`{law}`" not in claims:
                yield f"docs/CLAIMS.md:1: it doesn't have the law {law}"


TOOL_GROUPS = ("build", "gate", "measure", "compare")


def tools_below(folder):
    """Yields the tools of a folder, and in place of a group's folder what is in it."""
    for path in folder.iterdir():
        if path.name in TOOL_GROUPS and path.is_dir():
            yield from tools_below(path)
        elif not path.name.startswith((".", "__")) and path.name != "README.md":
            yield path


def faults_of_tools(top):
    """Tools without a line in tools/README.md, or with more than one, and lines of what isn't there."""
    page = top / "tools" / "README.md"
    told = collections.Counter()
    for line in page.read_text().splitlines() if page.is_file() else ():
        if line.startswith("| ["):
            told.update(re.findall(r"\[`([^`]+)`\]\(", line.split(" | ")[0]))
    there = {path.name for path in tools_below(top / "tools")}
    for name in sorted(there | set(told)):
        if name not in there:
            yield f"tools/README.md:1: there is no tool {name}"
        elif told[name] != 1:
            yield f"tools/README.md:1: it has {told[name]} lines on {name}"


def faults_of_names(documents):
    """The kernel's names, in documents and in comments of sources, that aren't in the stored list."""
    known, ours = stored(), ours_of()
    for path, text in texts(documents):
        yield from faults_of_kernel(str(path.relative_to(TOP)), text, known, ours)


def faults_of_all(index):
    """The faults that no single document shows: what is missing, and what isn't as the sources have it."""
    yield from missing_crates(index)
    yield from missing_laws()
    yield from faults_of_pages(index)
    yield from faults_of_readme()
    yield from faults_of_lists(TOP, TOP / "docs" / "CHANGING.md")
    yield from faults_of_counts(TOP)
    yield from faults_of_tools(TOP)


def main():
    words = sys.argv[1:]
    option = words.pop(0) if words and words[0] in ("--write", "--link", "--words") else None
    if words and words[0] == "--closure":
        paths = closure_of(words[1])
        for path in paths:
            print(f"| `{path.relative_to(TOP)}` | {code_lines(path)} | |")
        print(f"| sum, {len(paths)} files | {sum(map(code_lines, paths))} | |")
        return
    if words == ["--sizes"]:
        for row in sizes():
            print(size_row(*row))
        return
    documents = [pathlib.Path(word).resolve() for word in words] or [
        TOP / "README.md", TOP / "CHANGELOG.md", TOP / "editors" / "README.md", TOP / "examples" / "README.md", TOP / "tools" / "README.md",
        *sorted((TOP / "docs").glob("*.md")), *sorted((TOP / "crates").glob("*/*.md"))]
    if option == "--words":
        for count, name in words_of_documents(documents):
            print(f"{count:6} {name}")
        print(f"{words_told(documents):6} words, without those of examples/ and tools/")
        return
    index = Index()
    if option in ("--write", "--link"):
        if option == "--link":
            for document in documents if words else [TOP / "docs" / "READING.md"]:
                link(index, document)
        write(index, documents)
        return
    faults = 0
    for fault in [] if words else [*faults_of_all(index), *faults_of_names(documents)]:
        faults += 1
        print(fault)
    for document in documents:
        for number, fault in [*faults_of(index, document), *faults_of_blocks(TOP, document), *faults_of_text(document.read_text())]:
            if fault:
                faults += 1
                print(f"{document.relative_to(TOP)}:{number}: {fault}")
    print(f"{len(documents)} documents, {words_told(documents)} words without those of examples/ and tools/, {faults} faults")
    sys.exit(1 if faults else 0)


if __name__ == "__main__":
    main()
