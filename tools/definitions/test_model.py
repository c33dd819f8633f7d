#!/usr/bin/env python3
"""Tests the definitions as a program on the stored reports of examples/, and its verdicts on edited ones. Takes half a minute.

usage: tools/definitions/test_model.py [--all]      --all: long examples too, for some minutes
"""

from __future__ import annotations

import sys
import unittest
from typing import Iterator, List, Tuple

from model import TOP, Model, answer, deeply

sys.path.append(str(TOP / "tools" / "view"))
from comments import plain  # noqa: E402  pylint: disable=wrong-import-position

LONGEST = 40  # entries of an example that is run without --all
LAST = 400
ALL = "--all" in sys.argv
EVICTION = "one_page_eviction"


def examples(longest: int) -> Iterator[Tuple[str, bytes, bytes]]:
    """Yields name, script and stored report of each example with at most `longest` entries."""
    for script in sorted((TOP / "examples").glob("*.ttm")):
        report = script.with_suffix(".report")
        text = report.read_bytes() if report.is_file() else b""
        if text.startswith(b"report") and int(text.split()[3]) <= longest:
            yield script.stem, plain(script.read_bytes()).data, text


class Definitions(unittest.TestCase):
    model: Model

    @classmethod
    def setUpClass(cls) -> None:
        cls.model = Model()

    def test_all_are_translated(self) -> None:
        self.assertEqual(self.model.definitions.not_translated, [])

    def test_stored_reports(self) -> None:
        count = 0
        for name, script, report in examples(LAST if ALL else LONGEST):
            with self.subTest(name):
                self.assertEqual(self.model.sim(script), (0, report))
                count += 1
        self.assertGreater(count, 10)

    def test_turns_may_end_first(self) -> None:
        script = next(script for name, script, _ in examples(LAST) if name == EVICTION)
        status, text = self.model.sim(script, 2)
        self.assertEqual((status, text.split(b"\n")[:5]), (7, [b"unfinished 2", b"report 1", b"journal 2", b"1 t1 new a", b"2 t1 result ok"]))

    def test_broken_lines(self) -> None:
        self.assertEqual(self.model.sim(b"ttm 3\n"), (3, b"bad script: line 1, rule 4\n"))
        self.assertEqual(self.model.check(b"ttm 1\n"), (3, b"bad script: line 2, rule 3\n"))

    def test_drawn_turns_are_judged(self) -> None:
        script = next(script for name, script, _ in examples(LAST) if name == EVICTION)
        status, report = self.model.play(script, 5)
        self.assertEqual((status, self.model.check(script + report)), (0, (0, b"valid\n")))


def edited(edits: List[Tuple[bytes, bytes]], report: bytes) -> bytes:
    for old, new in edits:
        if report.count(old) != 1:
            raise ValueError(f"{old!r} stands {report.count(old)} times")
        report = report.replace(old, new)
    return report


class Verdicts(unittest.TestCase):
    """One edit of a report for each rule of a verdict."""

    def verdict(self, *edits: Tuple[bytes, bytes]) -> bytes:
        script, report = next((script, report) for name, script, report in examples(LAST) if name == EVICTION)
        return answer(["check"], lambda: script + edited(list(edits), report))[1]

    def test_as_it_is(self) -> None:
        self.assertEqual(self.verdict(), b"valid\n")

    def test_the_head_is_another(self) -> None:
        self.assertEqual(self.verdict((b"report 1\n", b"report 2\n")), b"rejected: entry 0, rule 1\n")

    def test_a_line_is_no_entry(self) -> None:
        self.assertEqual(self.verdict((b"\n23 t1 populate a 0 0\n", b"\n23 t1 populate a 0 00\n")), b"rejected: entry 23, rule 2\n")

    def test_a_number_has_no_sign(self) -> None:
        self.assertEqual(self.verdict((b"\n23 t1 populate a 0 0\n", b"\n23 t1 populate a 0 -1\n")), b"rejected: entry 23, rule 2\n")

    def test_an_entry_is_not_next(self) -> None:
        self.assertEqual(self.verdict((b"\n23 t1 populate a 0 0\n", b"\n23 t1 populate a 0 1\n")), b"rejected: entry 23, rule 3\n")

    def test_an_entry_shows_other_bytes(self) -> None:
        self.assertEqual(self.verdict((b"\n39 t1 result read aa\n", b"\n39 t1 result read ab\n")), b"rejected: entry 39, rule 4\n")

    def test_the_journal_ends_early(self) -> None:
        self.assertEqual(self.cut_short(), b"rejected: entry 39, rule 5\n")

    def cut_short(self) -> bytes:
        script, report = next((script, report) for name, script, report in examples(LAST) if name == EVICTION)
        lines = report.split(b"\n")
        at = lines.index(b"39 t1 result read aa")
        short = b"\n".join([lines[0], b"journal 38", *lines[2:at], *lines[at + 1 :]])
        return answer(["check"], lambda: script + short)[1]

    def test_the_accounts_are_others(self) -> None:
        self.assertEqual(self.verdict((b"vram size 1 free 0 live 1", b"vram size 1 free 1 live 0")), b"rejected: entry 40, rule 6\n")


def main() -> int:
    results: List[bool] = []
    words = [sys.argv[0]]
    deeply(lambda: results.append(unittest.main(argv=words, exit=False, verbosity=0).result.wasSuccessful()))
    return 0 if results == [True] else 1


if __name__ == "__main__":
    sys.exit(main())
