"""Tests odd and broken reports: each is followed, or refused with one line that has the line's number."""

from __future__ import annotations

import os
import random
import subprocess
import sys
import tempfile
import unittest
from typing import List, Tuple

from view.errors import ViewError
from view.replay import Replay
from view.report import read_report
from view.tests.program import EXAMPLES, examples
from view.words import REPORT, WORDS

SCRIPT = "ttm 1\nvram range 1\ntt 1\nframes 1\nswap 0\nengines 0\nbuffer a 1 prio 1 group - align 1 want vram busy vram\nthread\nnew a\nend\n"
ACCOUNTS = "".join(f"{name} size {size} free {size} live 0 target 0 ghost 0\n" for name, size in (("vram", 1), ("tt", 1), ("frames", 1), ("swap", 0)))
REPORT_TEXT = f"report 1\njournal 2\n1 t1 new a\n2 t1 result ok\nresults\nt1 1 ok\naccounts\n{ACCOUNTS}end\n"
WORDS_OF_REPORTS = (
    "0 1 2 3 9 99 -1 1_0 99999999999999999999 18446744073709551616 x a b zz t1 t2 t9 e0 e1 r - now 0-1 1-0 0-99 0-16385 sys tt vram short ok"
).split()


def follow(data: bytes) -> None:
    """Reads and follows a report."""
    Replay(read_report(data)).run()


class Broken(unittest.TestCase):
    """One change each, and where it is told."""

    def check(self, old: str, new: str, line: int, text: str) -> None:
        """Checks what is said of a report with a change."""
        self.assertIn(old, SCRIPT + REPORT_TEXT)
        with self.assertRaises(ViewError) as raised:
            follow((SCRIPT + REPORT_TEXT).replace(old, new).encode())
        self.assertEqual((raised.exception.line, raised.exception.text), (line, text))

    def test_right(self) -> None:
        follow((SCRIPT + REPORT_TEXT).encode())

    def test_lines(self) -> None:
        self.check(REPORT_TEXT, "", 11, "no report follows the script")
        self.check("report 1", "report 2", 11, "the line `report 1` is expected here")
        self.check("journal 2", "journal x", 12, "the line `journal` with a number is expected here")
        count = 18446744073709551616
        self.check("journal 2", f"journal {count}", 12, f"the journal should have {count} entries, and the report ends before")
        self.check("2 t1 result", "3 t1 result", 14, "entry 2: entry 2 is expected here")
        self.check("journal 2", "journal 1", 14, "the line `results` is expected here")
        self.check("1 t1 new", "1 t2 new", 13, "entry 1: the script has no actor `t2`")
        self.check("1 t1 new a\n2", "1 t1 make a\n2", 13, "entry 1: `make` is no entry of a thread")
        self.check("1 t1 new a\n2", "1 t1 new b\n2", 13, "entry 1: the script has no buffer `b`")
        self.check("1 t1 new a\n2", "1 t1 new\n2", 13, "entry 1: these aren't the words of an entry")
        self.check("t1 1 ok", "t1 2 ok", 16, "the script has no command 2 of thread 1")
        self.check("tt size 1", "tt size 2", 19, "the size of tt is 1 in the script")
        self.check("ghost 0\nend\n", "ghost 0\n", 22, "the line `end` is expected here")
        self.check("ghost 0\nend\n", "ghost 0\nend\nend\n", 23, "nothing is expected after `end`")
        self.check("frames size", "frames\tsize", 20, "the byte 0x09 can't stand here in a report")

    def test_entries_that_cant_be(self) -> None:
        self.check("1 t1 new a\n", "1 t1 bind a\n", 13, "entry 1: `bind a` can't be what happens here: a isn't live")
        self.check("2 t1 result ok", "2 t1 populate a 0 1", 14, "entry 2: `populate a 0 1` can't be what happens here: there are 1 frames")
        self.check("2 t1 result ok", "2 t1 populate a 1 0", 14, "entry 2: `populate a 1 0` can't be what happens here: a has 1 pages")
        self.check("2 t1 result ok", "2 r reap 1", 14, "entry 2: `reap 1` can't be what happens here: it names what isn't there")
        said = "entry 2: `take a vram 0-16385` can't be what happens here: the spans haven't the buffer's pages"
        self.check("2 t1 result ok", "2 t1 take a vram 0-16385", 14, said)
        self.check("2 t1 result ok", "2 t1 take a vram 5-6", 14, "entry 2: `take a vram 5-6` can't be what happens here: vram has 1 pages")

    def test_sizes_are_refused_before_memory_is_taken(self) -> None:
        self.check("vram range 1", "vram range 100000000000", 2, "the number of pages 100000000000 is out of range")
        self.check("buffer a 1", "buffer a 4097", 7, "the number of pages 4097 is out of range")

    def test_a_run_that_was_cut_off(self) -> None:
        report = read_report((SCRIPT + "unfinished 2\n" + REPORT_TEXT).encode())
        self.assertEqual(report.unfinished, 2)


class Odd(unittest.TestCase):
    """Reports with random changes end in one error or none."""

    def test_random_changes(self) -> None:
        draw, refused = random.Random(1), 0
        paths = [path for path in examples() if path.stem != "pin_limit"]
        for _ in range(600):
            path = draw.choice(paths)
            lines = path.with_suffix(".report").read_text().split("\n")
            for _ in range(draw.choice((1, 1, 2))):
                self.change(draw, lines)
            try:
                follow(path.read_bytes() + "\n".join(lines).encode())
            except ViewError as error:
                refused += 1
                self.assertGreater(error.line, 0, error.text)
                self.assertNotIn("\n", error.text)
        self.assertGreater(refused, 400)

    def change(self, draw: random.Random, lines: List[str]) -> None:
        """Changes a word or a line."""
        at = draw.randrange(len(lines))
        kind = draw.randrange(5)
        if kind == 0:
            del lines[at]
        elif kind == 1:
            lines.insert(at, draw.choice(lines))
        else:
            words = lines[at].split(" ")
            words[draw.randrange(len(words))] = draw.choice(WORDS_OF_REPORTS)
            lines[at] = " ".join(words)
        lines[:] = lines or [""]


class Words(unittest.TestCase):
    """Each word of the table starts fast enough, and tells in one line what it can't show."""

    def start(self, words: List[str], data: bytes) -> Tuple[int, bytes, bytes]:
        """Runs a word in another folder."""
        here = os.path.dirname(os.path.dirname(os.path.abspath(__file__)))
        with tempfile.TemporaryDirectory() as room:
            done = subprocess.run([sys.executable, here, *words], input=data, stdout=subprocess.PIPE, stderr=subprocess.PIPE, cwd=room, check=False)
        return done.returncode, done.stdout, done.stderr

    def test_reports_that_cant_be_read(self) -> None:
        for word in WORDS:
            if word.reads == REPORT:
                status, output, said = self.start([word.name], (SCRIPT + "report 2\n").encode())
                self.assertEqual((status, output, said.count(b"\n")), (1, b"", 1), said)

    def test_words_that_arent_there(self) -> None:
        status, output, said = self.start(["paint"], b"")
        self.assertEqual((status, output), (2, b""))
        self.assertIn(b"usage", said)

    def test_plain(self) -> None:
        script = (EXAMPLES / "no_pages.ttm").read_bytes()
        commented = b"# first\n" + script.replace(b"\n", b"   # here\n")
        self.assertEqual(self.start(["plain"], commented), (0, self.start(["plain"], script)[1], b""))
        self.assertEqual(self.start(["plain"], b"new a # \nx\n \n#\n # b\nend")[1], b"new a\nx\n \nend")


if __name__ == "__main__":
    unittest.main()
