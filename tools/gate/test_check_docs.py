#!/usr/bin/env python3
"""Tests check_docs.py with planted faults: phrases, lists of files, what is made from the sources, numbers, the kernel's names, tools, links.

usage: tools/gate/test_check_docs.py
"""
import pathlib
import tempfile
import unittest

import check_docs
import docs_english
from docs_callers import claims_of, is_called, table_of_calls
from docs_counts import Count, faults_of_counts, number_of
from docs_edits import Edit, edits_of, function_at, rows_of_edits
from docs_english import PHRASES, faults_of_text, words_of_text
from docs_kernel import faults_of_kernel, lines_of, names_of
from docs_lists import TABLES, faults_of_lists, files_of, rows_of, variants, words_of
from docs_made import fault_of_line, fault_of_sized, faults_of_blocks, first_sentence, made_text

PLANTED = (
    "The state behind each entry.", "After so\nmany turns it ends.", "Want of memory ends it.", "Who evicts wants the pages.",
    "A gate shows that who waits is woken.", "A proof stands on laws.", "No frame is to be had.", "The crate of its like.", "The elder thread waits.",
    "This is the dearest change.", "Run it by hand.", "It is proved anew.", "The end of it.", "No two names are one.",
    "The same, where no marks are kept.", "It is true exactly where it ends.", "It stops. Where a page is left, it goes on.", "All but for one.",
    "A call asks that it is live.",
)
PLAIN = (
    "The state after each entry.", "Who holds what?", "**Who holds what.** A page of TT is held.", "`behind` is a name.", "It is one of two.",
    "It fails because of it.", "[page](docs/behind.md)", "```\nbehind\n```", "    behind in a listing", "Dearborn is a town.",
    "It ends. Where a block ends is kept in 4,096 bytes.", "It asks for memory.",
)


class English(unittest.TestCase):
    def test_a_planted_sentence_of_each_phrase_is_found(self) -> None:
        for text in PLANTED:
            with self.subTest(text):
                self.assertEqual([line for line, _ in faults_of_text(text)], [1])

    def test_each_phrase_has_a_planted_sentence(self) -> None:
        for phrase in PHRASES:
            with self.subTest(phrase.pattern):
                self.assertTrue(any(phrase.regex().search(text) for text in PLANTED))

    def test_plain_sentences_names_and_listings_pass(self) -> None:
        for text in PLAIN:
            with self.subTest(text):
                self.assertEqual(list(faults_of_text(text)), [])

    def test_a_fault_has_its_line(self) -> None:
        self.assertEqual([line for line, _ in faults_of_text("One.\n\nTwo, anew.\n")], [3])

    def test_exceptions_are_left_alone(self) -> None:
        kept = docs_english.EXCEPTIONS
        docs_english.EXCEPTIONS = ("the man behind the curtain",)
        try:
            self.assertEqual(list(faults_of_text("It is the man behind the curtain.")), [])
            self.assertEqual(len(list(faults_of_text("It is the man behind it."))), 1)
        finally:
            docs_english.EXCEPTIONS = kept


class Tree(unittest.TestCase):
    """A test in a folder of its own, which stands for the repository."""

    def setUp(self) -> None:
        self.folder = tempfile.TemporaryDirectory()
        self.top = pathlib.Path(self.folder.name)

    def tearDown(self) -> None:
        self.folder.cleanup()

    def write(self, name: str, text: str) -> pathlib.Path:
        path = self.top / name
        path.parent.mkdir(parents=True, exist_ok=True)
        path.write_text(text)
        return path


class Lists(Tree):
    def setUp(self) -> None:
        super().setUp()
        for table in TABLES:
            self.write(table.source, f"pub enum {table.enum} {{\n    /// One.\n    One,\n    Two {{ b: u32 }},\n}}\n")
        self.write("crates/a/src/all.rt", "match k { One => 1, Two => 2 }")
        self.write("crates/a/src/some.rt", "match k { One => 1, _ => 2 } // and Two")

    def document(self, drop: str = "", add: str = "") -> pathlib.Path:
        lines = []
        for table in TABLES:
            rows = [row for row in rows_of(files_of(self.top, table)) if row != drop]
            lines += [f"| crate | {table.head} |", "|---|---|", *rows, *([add] if add else []), ""]
        return self.write("docs/CHANGING.md", "\n".join(lines))

    def test_variants_and_words(self) -> None:
        self.assertEqual(variants("pub enum K {\n    One,\n    Two(u32),\n}\n", "K"), {"One", "Two"})
        self.assertEqual(words_of("One -- Two\nThree // Four"), {"One", "Three"})

    def test_only_full_files_are_listed(self) -> None:
        self.assertEqual(files_of(self.top, TABLES[0])["a"], ["src/all.rt"])

    def test_a_right_document_has_no_fault(self) -> None:
        self.assertEqual(list(faults_of_lists(self.top, self.document())), [])

    def test_a_missing_and_a_needless_row(self) -> None:
        self.assertEqual(len(list(faults_of_lists(self.top, self.document(drop="| `a` | `src/all.rt` |")))), len(TABLES))
        self.assertEqual(len(list(faults_of_lists(self.top, self.document(add="| `b` | `src/gone.rt` |")))), len(TABLES))

    def test_a_document_without_tables(self) -> None:
        self.assertEqual(len(list(faults_of_lists(self.top, self.write("docs/CHANGING.md", "")))), len(TABLES))

    def test_a_list_is_written(self) -> None:
        document = self.document(drop="| `a` | `src/all.rt` |", add="| `b` | `src/gone.rt` |")
        document.write_text(made_text(self.top, document, lambda name: None))
        self.assertEqual(list(faults_of_lists(self.top, document)), [])


class Made(Tree):
    def setUp(self) -> None:
        super().setUp()
        self.write("crates.txt", "# Small ones.\na: b\n# Others.\nb may_wait=1: c\n")
        self.write("crates/a/README.md", "# `a`\n\nCounts pages\n(ttm_pool). More.\n\n<!-- made: modules -->\n<!-- end -->\n")
        self.write("crates/b/README.md", "# `b`\n\nWalks [names](../../docs/N.md).\n")
        self.write("crates/a/src/one.rt", "//! The first of `crate::two`.\n//! More.\nuse x;\n\nfn one() {}\n// no line\nfn two() {}\n")
        self.write("crates/a/src/lib.rt", "pub mod one;\n")
        self.write("crates/a/specs/S.antt", "-- What is said. More.\nuse x\nn : N\n")

    def made(self, text: str) -> pathlib.Path:
        document = self.write("docs/D.md", text)
        document.write_text(made_text(self.top, document, self.find))
        return document

    def find(self, name: str):
        return (self.top / "crates/a/src/one.rt", 5) if name == "one" else None

    def test_rows_of_files_and_their_sum(self) -> None:
        rows = "| `crates/a/src/one.rt` | 9 | wrong |\n| `crates/a/specs/S.antt` | 9 | |\n| sum | 9 | |\n"
        self.assertEqual(self.made(rows).read_text(), "| `crates/a/src/one.rt` | 2 | The first of `two` |\n"
                         "| `crates/a/specs/S.antt` | 1 | What is said |\n| sum | 3 | |\n")

    def test_a_row_that_says_something_else(self) -> None:
        self.assertIn("What is said", fault_of_sized(self.top, "| `crates/a/specs/S.antt` | 1 | What is sung |") or "")
        self.assertIsNone(fault_of_sized(self.top, "| `crates/a/specs/S.antt` | 1 | What is said |"))

    def test_a_table_of_crates(self) -> None:
        text = self.made("<!-- made: crates -->\n<!-- end -->\n").read_text()
        self.assertIn("**Small ones.**", text)
        self.assertIn("| [`a`](../crates/a/README.md) | Counts pages (ttm_pool) |", text)
        self.assertIn("| [`b`](../crates/b/README.md) | Walks [names](N.md) |", text)

    def test_a_table_of_modules(self) -> None:
        page = self.top / "crates/a/README.md"
        self.assertEqual([line for line, _ in faults_of_blocks(self.top, page)], [8])
        page.write_text(made_text(self.top, page, self.find))
        self.assertEqual(list(faults_of_blocks(self.top, page)), [])
        self.assertIn("| [`one`](src/one.rt) | The first of `two` |", page.read_text())
        page.write_text(page.read_text().replace("The first", "The last"))
        self.assertEqual(len(list(faults_of_blocks(self.top, page))), 1)

    def test_a_block_without_an_end_or_a_name(self) -> None:
        self.assertEqual(len(list(faults_of_blocks(self.top, self.write("docs/D.md", "<!-- made: crates -->\n")))), 1)
        self.assertEqual(len(list(faults_of_blocks(self.top, self.write("docs/D.md", "<!-- made: nothing -->\n<!-- end -->\n")))), 1)

    def test_links_to_lines(self) -> None:
        document = self.made("[`one`](gone.rt#L99) and [`other`](x.rt#L1)")
        self.assertEqual(document.read_text(), "[`one`](../crates/a/src/one.rt#L5) and [`other`](x.rt#L1)")
        self.assertIsNone(fault_of_line(document, "one", "../crates/a/src/one.rt", 9, self.find))
        self.assertIn("line 5", fault_of_line(document, "one", "../crates/a/src/one.rt", 99, self.find) or "")
        self.assertIn("line 5", fault_of_line(document, "one", "../crates/a/src/lib.rt", 5, self.find) or "")
        self.assertIn("nowhere", fault_of_line(document, "other", "x.rt", 1, self.find) or "")

    def test_first_sentences(self) -> None:
        self.assertEqual(first_sentence("Lists (a, b).\nThen"), "Lists (a, b)")
        self.assertEqual(first_sentence("Of 6.1, `..` too: what"), "Of 6.1, `..` too: what")

    def test_words(self) -> None:
        text = "Two words `code` [here](a.md) 12\n\n```\ncode\n```\n<!-- made: x -->\nno\n<!-- end -->\n| `crates/a/src/b.rt` | 1 | no |\n"
        self.assertEqual(words_of_text(text), 3)


class Callers(Tree):
    def setUp(self) -> None:
        super().setUp()
        self.write("crates.txt", "low:\nmid: low\nover: mid\nlaws: low\ntest_low: low\n")
        self.write("crates/low/src/lib.rt", "mod list;\npub mod words;\npub use list::List;\n")
        self.write("crates/low/src/list.rt", "/// Of words.\npub struct List {\n    words: u32,\n}\n\nimpl List {\n"
                   "    pub fn put(&mut self, n: u32)\n        ensures { self.new ≡ f (self.old) }\n    {}\n\n"
                   "    pub fn len(&self) -> u32 {\n        1\n    }\n}\n\npub fn hidden() {}\n")
        self.write("crates/low/src/words.rt", "/// Tells `n`. Costs nothing.\npub fn told(out: &mut List, n: u32) {}\n\n"
                   "/// Named on the page.\npub fn alone() {}\n\npub fn tried() {}\n")
        self.write("crates/low/README.md", "# `low`\n\nLists, and `alone`.\n\n<!-- made: callers -->\n<!-- end -->\n")
        self.write("crates/mid/src/lib.rt", "use low::{List, words::told};\n\npub struct Held {\n    pub list: List,\n}\n\n"
                   "pub fn go(held: &mut Held) {\n    held.list.put(1); // held.alone()\n    told(&mut held.list, 2);\n}\n")
        self.write("crates/over/src/lib.rt", "use mid::{Held, go};\n\npub fn top(held: &mut Held, other: &[u32]) {\n    go(held);\n"
                   "    let list = &held.list;\n    f(list.len() + other.len());\n}\n")
        self.write("crates/test_low/src/lib.rt", "fn case() {\n    low::words::tried();\n}\n")
        self.write("docs/CLAIMS.md", "| Words are told. | `words::told` |\n\n## 5. What is trusted\n\n`mid::go`\n")

    def test_a_table_of_callers(self) -> None:
        page = self.top / "crates/low/README.md"
        self.assertEqual(len(list(faults_of_blocks(self.top, page))), 1)
        page.write_text(made_text(self.top, page, lambda name: None))
        self.assertEqual(list(faults_of_blocks(self.top, page)), [])
        for row in ("| `List::put` | `self` | `mid` |", "| `List::len` | nothing | `over` |", "| `told` | `out` | `mid` |",
                    "| `alone` | nothing | no other crate |", "| `tried` | nothing | tests |",
                    "| call not named above | does |\n|---|---|\n| `told` | Tells `n` |\n", "Claimed in [CLAIMS.md](../../docs/CLAIMS.md): `words::told`."):
            self.assertIn(row.rstrip() + "\n", page.read_text())
        for text in ("hidden", "Named on the page"):
            self.assertNotIn(text, page.read_text())

    def test_a_wrong_caller_is_found(self) -> None:
        page = self.top / "crates/low/README.md"
        page.write_text(made_text(self.top, page, lambda name: None).replace("| `self` | `mid` |", "| `self` | `over` |"))
        self.assertEqual([fault for _, fault in faults_of_blocks(self.top, page)],
                         ["tools/gate/check_docs.py --write has here: | `List::put` | `self` | `mid` |"])

    def test_claims_rest_on_a_crate_by_its_callers(self) -> None:
        self.write("docs/CLAIMS.md", "| All is told. | `over::top`, `laws::are_kept` |\n")
        self.assertIn("Claims ([CLAIMS.md](../../docs/CLAIMS.md)) rest on it by way of `over`, `laws`.",
                      table_of_calls(self.top, self.top / "crates/low/README.md"))
        self.write("docs/CLAIMS.md", "| All is told. | `over::top`, `low::words::told` |\n")
        claims_of.cache_clear()
        self.assertIn("Claimed in [CLAIMS.md](../../docs/CLAIMS.md): `words::told`. More rests on it by way of `over`.",
                      table_of_calls(self.top, self.top / "crates/low/README.md"))

    def test_crates_that_programs_call(self) -> None:
        self.assertEqual([name for name in ("low", "laws", "test_low") if is_called(self.top, name)], ["low"])


class Counts(Tree):
    def test_numbers(self) -> None:
        self.assertEqual([number_of(word) for word in ("seven", "Twelve", "26", "many")], [7, 12, 26, -1])

    def test_a_wrong_number_and_one_that_is_gone(self) -> None:
        self.write("D.md", "One.\nIt has nine\nlives.\n")
        for pattern, count, faults in ((r"has (\w+) lives", 9, 0), (r"has (\w+) lives", 8, 1), (r"has (\w+) tails", 9, 1)):
            with self.subTest(pattern=pattern, count=count):
                self.assertEqual(len(list(faults_of_counts(self.top, (Count("D.md", pattern, lambda top: count),)))), faults)


class Kernel(Tree):
    def test_names(self) -> None:
        text = "`ttm_bo_pin()` and ttm_pool, not ttm_bo.c or ttm_base::X or [x](ttm_y.md) or man-ttm_z\n```\nttm_code\n```\n"
        self.assertEqual([name for _, name in names_of(text)], ["ttm_bo_pin", "ttm_pool"])

    def test_a_name_of_no_kernel_is_found(self) -> None:
        self.assertEqual(list(faults_of_kernel("D.md", "`ttm_bo_pin()`, ttm_top", {"ttm_bo_pin"}, {"ttm_top"})), [])
        self.assertEqual(len(list(faults_of_kernel("D.md", "one\n`ttm_bo_pipeline_move()`", {"ttm_bo_pin"}, set()))), 1)

    def test_where_a_name_stands(self) -> None:
        self.write("drivers/gpu/drm/ttm/ttm_bo.c", "\tttm_bo_pin(bo);\nvoid ttm_bo_pin(struct x *bo)\n{\n}\n")
        self.assertEqual(lines_of(self.top, {"ttm_bo_pin", "ttm_gone"}), {"ttm_bo_pin": "drivers/gpu/drm/ttm/ttm_bo.c:2"})


class Tools(Tree):
    def test_each_tool_has_one_line(self) -> None:
        self.write("tools/a.py", "")
        self.write("tools/b/c.py", "")
        self.write("tools/README.md", "| [`a.py`](a.py), [`b`](b/README.md) | what |\n")
        self.assertEqual(list(check_docs.faults_of_tools(self.top)), [])
        self.write("tools/d.py", "")
        self.write("tools/README.md", "| [`a.py`](a.py) | what |\n| [`a.py`](a.py) | what |\n| [`b`](b) | |\n| [`gone.py`](x) | |\n")
        self.assertEqual(len(list(check_docs.faults_of_tools(self.top))), 3)


class Links(Tree):
    def test_files_and_headings(self) -> None:
        document = self.write("docs/D.md", "# Its head\n")
        self.write("docs/E.md", "## What (it) is\n")
        for target, right in (("E.md", True), ("E.md#what-it-is", True), ("#its-head", True), ("F.md", False), ("E.md#else", False)):
            with self.subTest(target):
                self.assertEqual(check_docs.fault_of_link(document, target) is None, right)

    def test_names_after_a_link_are_linked_too(self) -> None:
        class Found:
            @staticmethod
            def place_of(name):
                return (self.top / "a.rt", 7) if name in ("a", "b") else None

        document = self.write("docs/D.md", "| [`a`](../a.rt#L7), `b`, `c` |\n")
        check_docs.link(Found, document)
        self.assertEqual(document.read_text(), "| [`a`](../a.rt#L7), [`b`](../a.rt#L7), `c` |\n")


class Edits(unittest.TestCase):
    SOURCE = "fn free(n: u32) -> u32 {\n    n\n}\n\nimpl<T: Copy> Drop for Pool<T> {\n    /// Gives.\n    pub fn give(&mut self) {\n        self.free += 1;\n    }\n}\n"

    def test_a_method_has_its_type(self):
        self.assertEqual(function_at(self.SOURCE, "self.free += 1;"), "Pool::give")

    def test_a_function_has_none(self):
        self.assertEqual(function_at(self.SOURCE, "    n\n"), "free")

    def test_rows_are_by_function(self):
        with tempfile.TemporaryDirectory() as folder:
            crate = pathlib.Path(folder, "crates/pool")
            (crate / "src").mkdir(parents=True)
            (crate / "must-fail").mkdir()
            (crate / "src/lib.rt").write_text(self.SOURCE)
            for name in ("gives_two", "gives_none"):
                (crate / f"must-fail/{name}.edit").write_text("file: src/lib.rt\nold: self.free += 1;\nnew: self.free += 2;\n")
            self.assertEqual(next(edits_of(crate)), Edit("gives_none", "src/lib.rt", "self.free += 1;"))
            self.assertEqual(list(rows_of_edits(pathlib.Path(folder), ["pool"])), [("pool", "Pool::give", ["gives_none", "gives_two"])])


if __name__ == "__main__":
    unittest.main()
