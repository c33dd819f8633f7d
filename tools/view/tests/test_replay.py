"""Tests reports and their replay: accounts, waits, and what the state says."""

from __future__ import annotations

import unittest
from concurrent.futures import ThreadPoolExecutor
from typing import Dict, List, Optional, Tuple

from view.entries import Result
from view.observers import Observer, Wait
from view.replay import Replay
from view.report import Report, read_report
from view.script import Command
from view.state import AREAS, Course, Holder, State
from view.tests.program import examples, needs_program, run
from view.tests.random_scripts import RandomScript
from view.tests.samples import example


class Watch(Observer):
    """Keeps who holds what by what it is told, the waits, and where commands begin and end."""

    def __init__(self, report: Report) -> None:
        self.owner: Dict[str, List[Optional[Holder]]] = {area: [None] * report.script.size(area) for area in AREAS}
        self.waits: List[Wait] = []
        self.commands: Dict[Tuple[int, int], Tuple[int, int, str]] = {}
        self.replay: Optional[Replay] = None

    def pages(self, area: str, first: int, last: int, before: Optional[Holder], after: Optional[Holder]) -> None:
        assert self.owner[area][first:last] == [before] * (last - first)
        self.owner[area][first:last] = [after] * (last - first)

    def waited(self, wait: Wait) -> None:
        self.waits.append(wait)

    def command_ended(self, course: Course, command: Command, answer: object) -> None:
        assert self.replay is not None
        self.commands[command.thread, command.number] = (course.first_entry, self.replay.number, command.text)


def followed(report: Report) -> Tuple[State, Watch]:
    """Follows a report; returns the last state, and what was told."""
    watch = Watch(report)
    watch.replay = Replay(report, watch)
    return watch.replay.run(), watch


def job_names(waits: List[Wait]) -> List[str]:
    """Returns the jobs that are waited for."""
    return [str(wait.need.job) for wait in waits]


class Accounts(unittest.TestCase):
    """The last state is the one of the accounts, and the results are those of the part `results`."""

    def check(self, report: Report) -> None:
        """Checks the last state of a report."""
        state, watch = followed(report)
        for account in report.accounts:
            self.assertEqual(state.account(account.name), tuple(account)[1:], account.name)
            self.assertEqual(watch.owner[account.name], state.areas[account.name].owner)
            self.assertEqual(state.areas[account.name].free, account.free)
        for buffer in state.buffers:
            self.assertEqual(buffer.frame_count, sum(frame is not None for frame in buffer.frames))
            self.assertEqual(buffer.slot_count, sum(slot is not None for slot in buffer.slots))
            on_list = sum(buffer.index in members for members in state.lists.values())
            self.assertEqual(on_list, int(buffer.is_live and not buffer.pins))
        self.assertEqual(sorted(watch.commands), sorted((answer.thread, answer.command) for answer in report.results))
        self.assertTrue(all(wait.until is not None for wait in watch.waits) or report.unfinished is not None)

    def test_examples(self) -> None:
        self.assertGreater(len(examples()), 20)
        for path in examples():
            with self.subTest(path.name):
                self.check(example(path.stem))

    @needs_program
    def test_random_scripts(self) -> None:
        scripts = [RandomScript(seed, version).text().encode() for seed in range(100) for version in (1, 2)]
        with ThreadPoolExecutor(4) as pool:
            runs = pool.map(lambda data: run(["run" if len(data) % 2 else "sim"], data), scripts)
            for at, (script, (status, output)) in enumerate(zip(scripts, runs)):
                with self.subTest(at):
                    self.assertEqual(status, 0)
                    self.check(read_report(script + output))

    @needs_program
    def test_runs_that_are_cut_off(self) -> None:
        for seed in range(20):
            script = RandomScript(seed, 1 + seed % 2).text().encode()
            status, output = run(["sim", "--turns", str(seed * 3)], script)
            report = read_report(script + output)
            self.assertEqual(report.unfinished, seed * 3 if status == 7 else None)
            self.check(report)


class Waits(unittest.TestCase):
    """A thread waits where it has no legal entry, and nowhere else."""

    def test_no_wait_where_others_only_go_first(self) -> None:
        self.assertEqual(followed(example("one_page_eviction"))[1].waits, [])

    def test_a_read_waits_for_the_move(self) -> None:
        waits = followed(example("pipelined_eviction"))[1].waits
        self.assertEqual(job_names(waits), ["job 2 of e0"])
        self.assertEqual([(wait.thread, wait.command, wait.since, wait.until) for wait in waits], [(1, 7, 37, 39)])

    def test_a_write_waits_for_readers(self) -> None:
        waits = followed(example("readers_and_writers"))[1].waits
        self.assertEqual([(wait.command, wait.since, wait.until) for wait in waits], [(6, 19, 23)])

    def test_a_holder_and_a_ghost_are_waited_for(self) -> None:
        backed = followed(example("younger_backs_off"))[1].waits
        self.assertEqual([(wait.thread, wait.need.kind, wait.need.stamp) for wait in backed], [(1, "holder", 2), (2, "holder", 1)])
        ghosts = followed(example("ghost_holds_tt_pages"))[1].waits
        self.assertEqual([(wait.need.kind, wait.need.ghost, wait.until) for wait in ghosts], [("ghost", 1, 17)])


class Numbers(unittest.TestCase):
    """Commands are numbered as the report numbers them: marks have no number."""

    def test_marks_have_no_number(self) -> None:
        commands = followed(example("pages_fault_and_leave"))[1].commands
        self.assertEqual(commands[1, 7], (27, 48, "find b"))
        self.assertEqual(commands[1, 2][2], "poke a 4095 0102")

    def test_a_job_with_addresses_names_its_buffers(self) -> None:
        report = example("job_with_addresses")
        command = report.script.threads[0].commands[2]
        self.assertEqual((command.word, command.verb, command.buffers), ("vsubmit", "submit", (0, 1)))
        self.assertEqual(len(command.operations), 4)


@needs_program
class Blocked(unittest.TestCase):
    """The program agrees in each state: a thread that waits makes no entry when it is given a turn, and any other one does."""

    def test_the_program_agrees(self) -> None:
        cases = [case for seed in range(12) for case in self.states(seed)]
        with ThreadPoolExecutor(4) as pool:
            runs = pool.map(lambda case: run(["sim", "--turns", str(case[1] + 1)], case[0]), cases)
            for (script, count, is_blocked), (_, output) in zip(cases, runs):
                entries = int(output.split(b"journal ")[1].split(b"\n")[0])
                self.assertEqual(entries == count, is_blocked, (script, count))
        self.assertTrue(any(case[2] for case in cases))

    def states(self, seed: int) -> List[Tuple[bytes, int, bool]]:
        """Returns scripts whose turns lead to a state of a run, with one more turn of a thread; how many turns; and whether it waits."""
        from view.turns import with_turns

        text = RandomScript(seed, 1 + seed % 2, 8).text().encode()
        report = read_report(text + run(["run"], text)[1])
        turns = [str(entry.actor) for entry in report.entries]
        replay, found = Replay(report), []
        for entry in replay.steps():
            if replay.number % 5 == 0 or isinstance(entry, Result):
                for course in replay.state.courses:
                    if course.command() is not None:
                        need = replay.waits.needs.of(course)[0]
                        script = with_turns(report.script, [*turns[: replay.number], f"t{course.thread}"])
                        found.append((script.encode(), replay.number, need is not None))
        return found


if __name__ == "__main__":
    unittest.main()
