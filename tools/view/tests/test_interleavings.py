"""The words `schedule`, `shuffle` and `outcomes`."""

from __future__ import annotations

import os
import unittest
from collections import Counter
from typing import List

from ..draws import drawn_turns, turns_for
from ..errors import ViewError
from ..limits import SCHEDULE_ACTORS, SCRIPT_BYTES
from ..outcomes import lines_of, outcomes_of
from ..report import read_report
from ..schedule import turns_of
from ..script import Script
from ..script_reader import read_script
from ..shuffle import shuffled
from ..turns import fitting_turns, room_for_turns, schedule_lines, with_turns
from .random_scripts import RandomScript
from .program import needs_program, run

CONTENTION = """ttm 1
vram range 2
tt 3
frames 4
swap 4
engines 2
buffer a 1 prio 1 group - align 1 want vram busy vram
buffer b 1 prio 1 group - align 1 want vram busy vram,tt
buffer c 2 prio 1 group - align 1 want vram busy vram
thread
new a
write a 0 aa
submit 1 copy a 0 b 0 4
read a 0 4
thread
new b
find b
submit 2 fill b 0 4 55 ; copy b 8 a 8 4
read b 0 4
thread
new c
submit 1 fill c 0 8192 77
find c
swapout c
end
"""


def drawn_scripts(count: int) -> List[bytes]:
    """Draws scripts in which three threads or more want the same buffers."""
    return [RandomScript(seed, 1 + seed % 2, commands=12, threads=6).text().encode() for seed in range(100, 100 + count)]


def output_of(words: List[str], data: bytes) -> bytes:
    """Returns what the program writes, and requires that it ends well."""
    status, output = run(words, data)
    assert status == 0, output[:200]
    return output


def journal(output: bytes) -> bytes:
    """Returns the journal of a report."""
    return output[: output.index(b"\nresults\n")]


class TurnsTest(unittest.TestCase):
    def script(self) -> Script:
        return read_script(CONTENTION.encode())

    def test_lines_have_at_most_64_actors(self) -> None:
        lines = list(schedule_lines(["t1"] * 130))
        self.assertEqual([64, 64, 2], [len(line.split(" ")) - 1 for line in lines])
        self.assertEqual(64, SCHEDULE_ACTORS)

    def test_no_turns_are_no_lines(self) -> None:
        self.assertEqual(CONTENTION, with_turns(self.script(), []))

    def test_turns_take_the_place_of_others(self) -> None:
        once = with_turns(self.script(), ["t1", "r"])
        self.assertEqual(CONTENTION.replace("end\n", "schedule t1 r\nend\n"), once)
        self.assertEqual(CONTENTION.replace("end\n", "schedule e0\nend\n"), with_turns(read_script(once.encode()), ["e0"]))

    def test_the_longest_script_is_written_and_no_longer(self) -> None:
        script = self.script()
        most = fitting_turns(["t1"] * 400_000, room_for_turns(script))
        text = with_turns(script, ["t1"] * most)
        self.assertTrue(SCRIPT_BYTES - 12 < len(text) <= SCRIPT_BYTES)
        read_script(text.encode())
        with self.assertRaisesRegex(ViewError, f"room for {most:,}"):
            with_turns(script, ["t1"] * (most + 1))

    def test_drawn_turns_are_those_of_their_number(self) -> None:
        script = self.script()
        self.assertEqual(drawn_turns(script, 5), drawn_turns(script, 5))
        self.assertNotEqual(drawn_turns(script, 5), drawn_turns(script, 6))
        self.assertGreaterEqual(len(drawn_turns(script, 5)), turns_for(script))

    def test_all_actors_that_may_act_are_drawn(self) -> None:
        self.assertEqual({"t1", "t2", "t3", "e0", "e1", "e2", "r"}, set(drawn_turns(self.script(), 1)))

    def test_drawn_turns_fit_into_a_long_script(self) -> None:
        text = CONTENTION.replace("end\n", "thread\n" + "touch 0\n" * 4096) + "thread\n" + "find a\n" * 4096 + "end\n"
        for seed in range(3):
            self.assertLessEqual(len(shuffled(read_script(text.encode()), seed)), SCRIPT_BYTES)


@needs_program
class ScheduleTest(unittest.TestCase):
    def test_sim_writes_the_report_of_a_run_again(self) -> None:
        for text in [CONTENTION.encode(), *drawn_scripts(19)]:
            ran = output_of(["run"], text)
            report = read_report(text + ran)
            again = with_turns(report.script, turns_of(report)).encode()
            self.assertEqual(ran, output_of(["sim"], again))


@needs_program
class ShuffleTest(unittest.TestCase):
    def test_shuffles_give_many_journals_and_each_is_valid(self) -> None:
        script, journals = read_script(CONTENTION.encode()), set()
        for seed in range(100):
            text = shuffled(script, seed).encode()
            report = output_of(["sim"], text)
            self.assertEqual(b"valid\n", output_of(["check"], text + report))
            journals.add(journal(report))
        self.assertGreater(len(journals), 90)


@needs_program
class OutcomesTest(unittest.TestCase):
    def test_counts_are_those_of_the_reports(self) -> None:
        script, count = read_script(CONTENTION.encode()), 40
        found = outcomes_of(script, count)
        seen: Counter = Counter()
        for seed in range(1, count + 1):
            text = shuffled(script, seed).encode()
            for answer in read_report(text + output_of(["sim"], text)).results:
                seen[answer] += 1
        told = {(subject.split("  ")[0], what): number for subject, counts in found.answers.subjects.items() for what, number in counts.items()}
        self.assertEqual({(f"t{answer.thread} {answer.command}", answer.text): number for answer, number in seen.items()}, told)

    def test_the_first_interleaving_shows_its_outcome(self) -> None:
        script = read_script(CONTENTION.encode())
        found = outcomes_of(script, 20)
        for fact, seed in found.answers.first.items():
            text = shuffled(script, seed).encode()
            thread, command = fact.subject.split("  ")[0].split(" ")
            self.assertIn(f"\n{thread} {command} {fact.what}\n".encode(), output_of(["sim"], text))

    def test_each_part_has_its_lines(self) -> None:
        text = "\n".join(lines_of(outcomes_of(read_script(CONTENTION.encode()), 30)))
        for words in ("30 interleavings", "refused in some interleavings", "victims", "shuffle "):
            self.assertIn(words, text)


class WordsTest(unittest.TestCase):
    def test_without_a_program_there_are_no_outcomes(self) -> None:
        kept = os.environ.pop("TTM_PROGRAM", None)
        try:
            with self.assertRaisesRegex(ViewError, "TTM_PROGRAM"):
                outcomes_of(read_script(CONTENTION.encode()), 1)
        finally:
            if kept is not None:
                os.environ["TTM_PROGRAM"] = kept


if __name__ == "__main__":
    unittest.main()
