"""Tests `diagnose`: what is said where the program refuses a script or a report."""

from __future__ import annotations

import unittest
from typing import Callable, List

from view.diagnose import answer_of, bad_script, rejected
from view.tests.program import EXAMPLES, needs_program, run

Lines = List[str]


class Answers(unittest.TestCase):
    """The program's answers are read, and count where they differ."""

    def test_answers(self) -> None:
        self.assertEqual(answer_of("bad script: line 10, rule 6\n"), (10, 6))
        self.assertEqual(answer_of("rejected: entry 0, rule 1\n"), (0, 1))
        self.assertIsNone(answer_of("valid\n"))
        self.assertIsNone(answer_of("bad script: line x, rule 6\n"))

    def test_the_programs_line_counts(self) -> None:
        said = bad_script("file", b"ttm 3\n", (7, 5))
        self.assertEqual(said, ["file:7: rule 5 is broken: a number is plain and in its range"])


@needs_program
class Verdicts(unittest.TestCase):
    """A report with one change is told with what was expected."""

    def said(self, name: str, change: Callable[[Lines], None]) -> Lines:
        """Returns what is said of an example whose report is changed; `check` says where."""
        path = EXAMPLES / f"{name}.ttm"
        lines = path.with_suffix(".report").read_text().split("\n")
        change(lines)
        data = path.read_bytes() + "\n".join(lines).encode()
        status, output = run(["check"], data)
        self.assertEqual(status, 8)
        answer = answer_of(output.decode())
        assert answer is not None
        return rejected("file", "", data, answer)

    def check(self, name: str, line: int, new: str, cause: str, expected: str) -> None:
        """Checks what is said where a line of a report, from 0 on, is another."""

        def change(lines: Lines) -> None:
            lines[line] = new

        said = self.said(name, change)
        start = (EXAMPLES / f"{name}.ttm").read_text().count("\n") + 1
        self.assertTrue(said[0].startswith(f"file:{start + line}: {cause} (rule "), said[0])
        self.assertEqual(said[1:3], [f"    {new}", f"    expected: {expected}"])

    def test_heads(self) -> None:
        self.check("no_pages", 0, "report 2", "this isn't the first line of a report of this script", "`report 1`")
        self.check("no_pages", 1, "journal", "this isn't the second line of a report", "`journal N`, N the number of entries")

    def test_entries(self) -> None:
        name = "read_crosses_a_page"
        self.check(name, 6, "5 t2 populate a 0 0", "the script has no actor `t2`", "`5 ACTOR ENTRY`, as section 7 of docs/SPECIFICATION.md has them")
        self.check(name, 6, "5 t1 populate a 1 0", "this isn't what t1 does next", "`5 t1 populate a 0 0`")
        cause = "the entry may come here, but not with what it shows"
        self.check(name, 11, "10 t1 result read 01010200", cause, "`10 t1 result read 00010200`")

    def test_actors_that_must_wait(self) -> None:
        name, start = "pipelined_eviction", "an entry of another actor, since "
        self.check(name, 39, "38 t1 result read aa", "t1 can't do anything here", f"{start}t1 waits for job 2 of e0, a fence of a")
        self.check(name, 38, "37 e1 packet 1 0", "e1 can't do anything here", f"{start}job 1 of e1 waits for job 3 of e0")

    def test_the_rest(self) -> None:
        line = "frames size 2 free 9 live 2 target 0 ghost 0"
        self.check("read_crosses_a_page", 19, line, "this isn't what the journal comes to", "`frames size 2 free 0 live 2 target 0 ghost 0`")

    def test_journals_that_end_too_early(self) -> None:
        def change(lines: Lines) -> None:
            lines[1] = "journal 9"
            del lines[11]

        said = self.said("read_crosses_a_page", change)
        self.assertIn("the journal ends after entry 9, and not all is done", said[0])
        self.assertEqual(said[2], "    expected: an entry such as `10 t1 result read 00010200`")

    def test_a_report_in_a_file_of_its_own(self) -> None:
        data = (EXAMPLES / "no_pages.ttm").read_bytes() + b"report 2\n"
        line = data.count(b"\n")
        self.assertTrue(rejected("both", "", data, (0, 1))[0].startswith(f"both:{line}: "))
        self.assertTrue(rejected("script", "report", data, (0, 1))[0].startswith("report:1: "))


if __name__ == "__main__":
    unittest.main()
