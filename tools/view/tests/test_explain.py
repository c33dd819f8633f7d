"""Tests `explain`: each cause is found at its column, and the program finds the same line and rule."""

from __future__ import annotations

import os
import subprocess
import unittest
from typing import List, NamedTuple, Optional, Tuple

from view.explain import fault_lines
from view.script_reader import BrokenScript, read_script
from view.tests.program import needs_program, refusal

ONE = """ttm 1
vram range 8
tt 8
frames 8
swap 2
engines 2
buffer a 2 prio 1 group - align 1 want sys busy sys
buffer b 1 prio 1 group - align 1 want vram busy vram,tt
thread
new a
write a 0 0102
submit 1 fill a 0 1 00
end
"""
TWO = """ttm 2
vram range 8
tt 8
frames 8
swap 2
engines 2
buffer a 2 prio 1 group - align 1 place sys
buffer b 1 prio 1 group - align 1 place vram,tt+fallback
thread
map a
vmap 16 2 a 0
poke a 0 0102
vsubmit 1 fill 65536 1 00
end
"""
HEAD = "buffer a 2 prio 1 group - align 1"


class Case(NamedTuple):
    """A script broken by another text for one of its lines, and where it is broken: rule, column, cause."""

    base: str
    line: int
    text: str
    rule: int
    column: int
    cause: str


def many(word: str, count: int, between: str = " ") -> str:
    """Returns a word several times."""
    return between.join([word] * count)


CASES: Tuple[Case, ...] = (
    Case(ONE, 10, "", 2, 1, "the line is empty"),
    Case(ONE, 10, "new\ta", 2, 4, "the byte 0x09 may not stand in a script"),
    Case(ONE, 10, "new ä", 2, 5, "the byte 0xc3 may not stand in a script"),
    Case(ONE, 3, "frames 8", 3, 1, "`frames` may not stand here"),
    Case(ONE, 10, " new a", 3, 1, "the line begins with a space"),
    Case(ONE, 10, "make a", 3, 1, "`make` begins no line of a script"),
    Case(ONE, 10, "map a", 3, 1, "`map` stands in scripts of version 2 only, and this one is of version 1"),
    Case(ONE, 13, "end\nend", 3, 1, "a line follows `end`"),
    Case(ONE, 1, "ttm 3", 4, 5, "there is no version `3`"),
    Case(ONE, 2, "vram list 8", 4, 6, "`list` is no manager of VRAM"),
    Case(ONE, 10, "new  a", 4, 5, "more than one space"),
    Case(ONE, 10, "new a ", 4, 6, "a space at the end of the line"),
    Case(ONE, 10, "new", 4, 4, "BUFFER is missing"),
    Case(ONE, 10, "new a b", 4, 7, "`b` is one word too many"),
    Case(ONE, 7, "buffer a 2 prior 1 group - align 1 want sys busy sys", 4, 12, "`prior` stands where the word `prio` must stand"),
    Case(ONE, 7, f"{HEAD} place sys", 4, 35, "`place` stands in scripts of version 2, and this one is of version 1"),
    Case(TWO, 7, f"{HEAD} want sys busy sys", 4, 35, "`want` stands in scripts of version 1, and this one is of version 2"),
    Case(ONE, 10, "move a gtt", 4, 8, "`gtt` is no memory type"),
    Case(ONE, 12, "submit 1 clear a 0 1", 4, 10, "`clear` is no operation"),
    Case(ONE, 12, "submit 1 fill a 0 1", 4, 20, "BYTE of the fill is missing"),
    Case(ONE, 12, "submit 1 fill a 0 1 00 ;", 4, 25, "an operation is missing"),
    Case(ONE, 13, "schedule t1 x1\nend", 4, 13, "`x1` is no actor"),
    Case(ONE, 13, f"schedule {many('r', 65)}\nend", 4, 138, "the line has 65 actors"),
    Case(ONE, 4, "frames 08", 5, 8, "the number 08 has a leading zero"),
    Case(ONE, 4, "frames -8", 5, 8, "the number `-8` isn't a plain number"),
    Case(ONE, 4, "frames 16385", 5, 8, "the number 16385 is out of range"),
    Case(ONE, 7, "buffer a 2 prio 4 group - align 1 want sys busy sys", 5, 17, "the priority 4 is out of range"),
    Case(ONE, 7, f"{HEAD} want vram@0-16385 busy sys", 5, 47, "the page 16385 is out of range"),
    Case(ONE, 12, "submit x fill a 0 1 00", 5, 8, "the engine `x` isn't a plain number"),
    Case(TWO, 11, "vmap 16 4097 a 0", 5, 9, "the number of pages 4097 is out of range"),
    Case(ONE, 7, "buffer A 2 prio 1 group - align 1 want sys busy sys", 6, 8, "`A` can't be a name"),
    Case(ONE, 8, "buffer a 1 prio 1 group - align 1 want sys busy sys", 6, 8, "the name a is declared twice"),
    Case(ONE, 10, "new c", 6, 5, "no buffer has the name c"),
    Case(ONE, 7, f"{HEAD} want ram busy sys", 7, 40, "`ram` is no memory type"),
    Case(ONE, 7, f"{HEAD} want vram+low busy sys", 7, 44, "`+low` is no flag of a place in version 1"),
    Case(ONE, 7, f"{HEAD} want vram+contig+top busy sys", 7, 51, "`+top` may not stand here"),
    Case(ONE, 7, f"{HEAD} want vram@4-4 busy sys", 7, 44, "the span 4-4 has no pages"),
    Case(ONE, 7, f"{HEAD} want vram@4 busy sys", 7, 44, "`@4` isn't a span of pages"),
    Case(ONE, 7, f"{HEAD} want sys@0-4 busy sys", 7, 43, "sys has no pages to choose from"),
    Case(ONE, 7, f"{HEAD} want sys,sys,sys,sys,sys busy sys", 7, 56, "the list has 5 places"),
    Case(TWO, 8, "buffer b 1 prio 1 group - align 1 place vram+desired", 7, 41, "all places of the list are +desired"),
    Case(ONE, 11, "write a 8191 0102", 8, 9, "bytes 8191 to 8192 pass the end of a"),
    Case(ONE, 11, "read a 0 0", 8, 10, "the length is 0"),
    Case(ONE, 11, "read a 0 257", 8, 10, "257 bytes are too many for one read"),
    Case(ONE, 12, "submit 1 probe a 0 257", 8, 20, "257 bytes are too many for a probe"),
    Case(TWO, 11, "vmap 1048575 2 a 0", 8, 6, "pages 1048575 to 1048576 pass the end of the address space"),
    Case(TWO, 11, "vmap 16 2 a 1", 8, 13, "pages 1 to 2 pass the end of a"),
    Case(TWO, 13, "vsubmit 1 fill 4294967295 2 00", 8, 16, "bytes 4294967295 to 4294967296 pass the end of the address space"),
    Case(ONE, 11, "write a 0 010", 9, 13, "the last byte has one digit only"),
    Case(ONE, 11, "write a 0 0A", 9, 12, "`A` is no lower-case hexadecimal digit"),
    Case(ONE, 11, f"write a 0 {many('00', 257, '')}", 9, 523, "these are 257 bytes"),
    Case(ONE, 12, "submit 1 fill a 0 1 0", 9, 21, "`0` isn't one byte"),
    Case(ONE, 12, "submit 1 copy a 0 a 0 1", 10, 19, "a stands on both sides of the copy"),
    Case(ONE, 12, f"submit 1 {many('fill a 0 1 00', 65, ' ; ')}", 10, 1034, "the job has 65 operations"),
    Case(TWO, 13, "vsubmit 1 copy 65536 69632 1", 10, 22, "pages of a are mapped in both ranges of the copy"),
    Case(ONE, 12, "submit 3 fill a 0 1 00", 11, 8, "there is no engine 3 for jobs"),
    Case(ONE, 13, "schedule t1 t2\nend", 11, 13, "there is no thread 2"),
    Case(TWO, 10, "map b", 14, 6, "the thread has not mapped a here"),
    Case(TWO, 11, "map a", 14, 5, "the thread has mapped a already"),
    Case(TWO, 13, "vsubmit 1 fill 73728 1 00", 15, 16, "page 18 of the address space isn't mapped here"),
)


def edited(case: Case) -> bytes:
    """Returns the broken script."""
    lines = case.base.split("\n")
    lines[case.line - 1] = case.text
    return "\n".join(lines).encode()


def fault_of(data: bytes) -> Optional[BrokenScript]:
    """Returns the fault of a script, or None where it has none."""
    try:
        read_script(data)
    except BrokenScript as broken:
        return broken
    return None


class Causes(unittest.TestCase):
    """One script for each cause."""

    def test_each_cause_has_its_column(self) -> None:
        for case in CASES:
            with self.subTest(case.text[:60]):
                broken = fault_of(edited(case))
                assert broken is not None
                self.assertEqual((broken.fault.rule, broken.fault.column, broken.fault.cause), (case.rule, case.column, case.cause))

    def test_causes_are_one_line_each(self) -> None:
        for case in CASES:
            broken = fault_of(edited(case))
            if broken is not None:
                first = fault_lines("file", broken)[0]
                self.assertTrue(first.startswith(f"file:{broken.line}:{case.column}: {case.cause}"), first)
                self.assertNotIn(", or ", first)

    @needs_program
    def test_the_program_finds_the_same(self) -> None:
        for case in CASES:
            data = edited(case)
            broken = fault_of(data)
            with self.subTest(case.text[:60]):
                self.assertEqual(refusal(data), (broken.plain_line, broken.fault.rule) if broken else None)


class Ends(unittest.TestCase):
    """Scripts that lack something, or have too much."""

    def check(self, data: bytes, line: int, rule: int, cause: str, right: str) -> None:
        """Checks the fault of a script."""
        broken = fault_of(data)
        assert broken is not None
        self.assertEqual((broken.line, broken.fault.rule, broken.fault.cause, broken.fault.right), (line, rule, cause, right))

    def test_a_missing_line_says_which(self) -> None:
        rows = ["the line `ttm 1` or `ttm 2`", "the line `vram range PAGES` or `vram buddy PAGES`", "the line `tt PAGES`", "the line `frames COUNT`"]
        rows += ["the line `swap SLOTS`", "the line `engines COUNT`", *["a line `buffer ..`, `thread`, `schedule ..` or `end`"] * 3]
        rows += ["a command, or a line `thread`, `schedule ..` or `end`"] * 4
        for count, right in enumerate(rows):
            self.check("".join(ONE.splitlines(True)[:count]).encode(), count + 1, 3, "the script ends here", right)

    def test_the_last_line_feed(self) -> None:
        self.check(ONE[:-1].encode(), 13, 2, "the last line lacks its line feed", "a line feed at the end of each line, the last one too")

    def test_too_many_bytes(self) -> None:
        data = ONE.encode() + b"#" + b"x" * 2_000_000
        self.assertIsNone(fault_of(data))
        self.check(b"x" * 1_048_577, 0, 1, "the script has 1048577 bytes", "at most 1048576 bytes")

    def test_too_many_lines(self) -> None:
        buffers = "".join(f"buffer b{number} 1 prio 1 group - align 1 want sys busy sys\n" for number in range(257))
        head = "".join(ONE.splitlines(True)[:6])
        self.check(f"{head}{buffers}end\n".encode(), 263, 12, "this is buffer line 257", "at most 256 buffers in a script")
        self.check(f"{head}{many('thread', 17, chr(10))}\nend\n".encode(), 23, 12, "this is thread 17", "at most 16 threads in a script")
        lines = many("touch 0", 4097, "\n")
        self.check(f"{head}thread\n{lines}\nend\n".encode(), 4104, 12, "this is line 4097 of thread 1", "at most 4096 lines in a thread")

    def test_too_many_buffers_in_a_job(self) -> None:
        head = "".join(ONE.splitlines(True)[:6])
        buffers = "".join(f"buffer b{number} 1 prio 1 group - align 1 want sys busy sys\n" for number in range(17))
        job = " ; ".join(f"probe b{number} 0 1" for number in range(17))
        script = f"{head}{buffers}thread\nsubmit 1 {job}\nend\n"
        self.check(script.encode(), 25, 10, "b16 is buffer number 17 of the job", "at most 16 buffers in a job")

    def test_too_many_bytes_in_operations(self) -> None:
        last = "submit 1 fill a 0 1 00"
        jobs = f"submit 1 {many('fill a 0 16777216 00', 4, ' ; ')}\n{last}"
        script = ONE.replace("buffer a 2", "buffer a 4096").replace(last, jobs)
        right = "at most 67108864 bytes in the operations of all jobs of a script"
        self.check(script.encode(), 13, 13, "the operations so far have 67108865 bytes", right)


class Comments(unittest.TestCase):
    """Lines count as in the file."""

    def test_lines_count_as_in_the_file(self) -> None:
        lines: List[str] = []
        for number, line in enumerate(ONE.splitlines(), 1):
            lines += [f"# line {number}", f"{line}   # and {line}"]
        self.assertIsNone(fault_of(("\n".join(lines) + "\n").encode()))
        broken = fault_of("\n".join(lines).replace("new a  ", "new c  ").encode())
        assert broken is not None
        self.assertEqual((broken.line, broken.plain_line, broken.fault.column), (20, 10, 5))

    def test_a_right_script_is_said_to_be_right(self) -> None:
        here = os.path.dirname(os.path.dirname(os.path.abspath(__file__)))
        done = subprocess.run(["python3", here, "explain"], input=TWO.encode(), stdout=subprocess.PIPE, check=False)
        self.assertEqual(done.returncode, 0)
        self.assertEqual(done.stdout.decode(), "standard input: a script of version 2 without a fault: 2 buffers, 1 thread, 2 commands\n")


if __name__ == "__main__":
    unittest.main()
