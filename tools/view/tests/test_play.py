"""The page of `play`: it follows journals as the replay does, shows the accounts, and has all text escaped."""

from __future__ import annotations

import json
import random
import unittest
from html.parser import HTMLParser
from pathlib import Path
from typing import Any, Dict, List

from ..play import data_of, page_of
from ..replay import Replay
from ..report import Report
from ..script import MEMORY_TYPES
from ..state import AREAS, BufferState, Course, State
from .browser import browser, found_in, with_check
from .odd_reports import odd_reports
from .program import PROGRAM
from .samples import drawn_reports, example, examples

CHECK = Path(__file__).resolve().parent / "play_check.js"
NAMES = {"sys": "SYSTEM", "tt": "TT", "vram": "VRAM"}
SAMPLES = 12  # entries of a report at which states are compared
ODD = 400  # journals of which those are tried that can be followed
SHOWN = "pipelined_eviction"


def spans_of(spans: Any) -> str:
    """Returns spans as the page has them."""
    return ",".join(f"{span.first}-{span.last}" for span in spans)


def standing(buffer: BufferState) -> str:
    """Returns where a live buffer stands, as the page has it."""
    return NAMES[buffer.memory] + (f" {spans_of(buffer.spans)}" if buffer.spans else "")


def targets(buffer: BufferState) -> str:
    """Returns the targets of a buffer, as the page has them."""
    found = [f"{NAMES[memory]} {spans_of(buffer.targets[memory])}".strip() for memory in MEMORY_TYPES if memory in buffer.targets]
    return "; ".join(found) or "-"


def owner_name(state: State, holder: Any) -> str:
    """Returns the name of a holder, as the page has it."""
    if holder is None:
        return "free"
    if holder.kind == "ghost":
        return f"ghost {holder.number}"
    return state.script.buffer_name(holder.number) + (" (target)" if holder.kind == "target" else "")


def runs(state: State, area: str) -> List[List[Any]]:
    """Returns who holds what of an area, as the page has it."""
    found: List[List[Any]] = []
    for page, holder in enumerate(state.areas[area].owner):
        name = owner_name(state, holder)
        if found and found[-1][2] == name:
            found[-1][1] = page + 1
        else:
            found.append([page, page + 1, name])
    return found


def jobs_of(jobs: Any) -> List[List[int]]:
    """Returns jobs by engine and number, those that aren't done."""
    return sorted([job.engine, job.number] for job in jobs if not job.done)


def last_jobs(jobs: Any) -> List[List[int]]:
    """Returns the last job of each engine among those that aren't done."""
    return [list(job) for job in sorted(dict(jobs_of(jobs)).items())]


def buffer_row(buffer: BufferState) -> List[Any]:
    """Returns a buffer as the page's check has it."""
    table = [[-1 if one is None else one for one in pages] for pages in (buffer.frames, buffer.slots)]
    fences = sorted([job.engine, job.number, usage] for job, usage in buffer.fences.items() if not job.done)
    return [buffer.is_live, standing(buffer) if buffer.is_live else "", targets(buffer), buffer.pins, buffer.holder, *table, fences]


def course_row(course: Course) -> List[Any]:
    """Returns a thread as the page's check has it."""
    caught = [[victim.buffer, victim.why, victim.fail] for victim in course.caught]
    return [course.answered, course.stamp, course.held, course.first, caught, sorted(course.skips), course.fail]


def seen(state: State) -> Dict[str, Any]:
    """Returns a state as the page's check has it."""
    jobs = sorted(state.jobs.values(), key=lambda job: (job.engine, job.number))
    return {
        "areas": [runs(state, area) for area in AREAS],
        "accounts": [list(state.account(area)) for area in AREAS],
        "lists": [state.lists[memory, priority] for memory in MEMORY_TYPES for priority in range(4)],
        "buffers": [buffer_row(buffer) for buffer in state.buffers],
        "jobs": [[job.engine, job.number, job.ran, job.packets, last_jobs(job.waits)] for job in jobs],
        "ghosts": [[ghost.number, ghost.frames, jobs_of(ghost.jobs)] for ghost in state.ghosts.values()],
        "courses": [course_row(course) for course in state.courses],
    }


def states_at(report: Report, numbers: List[int]) -> Dict[int, Dict[str, Any]]:
    """Returns the states after these entries, in the form of the page's check."""
    replay = Replay(report)
    found = {0: json.dumps(seen(replay.state))}
    for _ in replay.steps():
        if replay.number in numbers:
            found[replay.number] = json.dumps(seen(replay.state))
    return {number: json.loads(text) for number, text in found.items()}


def reports() -> List[Report]:
    """Returns the reports that the page is tried on, those that no program writes last."""
    return [*(report for _, report in [*examples(), *(drawn_reports(8) if PROGRAM else [])]), *odd_reports(ODD)]


def numbers_of(report: Report) -> List[int]:
    """Draws entries of a report, in an order that goes back and forth."""
    draw, count = random.Random(7), len(report.entries)
    return [count, *(draw.randint(0, count) for _ in range(SAMPLES))]


class Parser(HTMLParser):
    """Notes the elements that are open, and those that were closed out of order."""

    ALONE = ("meta", "input", "link", "br")

    def __init__(self) -> None:
        super().__init__()
        self.open: List[str] = []
        self.faults: List[str] = []

    def handle_starttag(self, tag: str, attrs: Any) -> None:
        if tag not in self.ALONE:
            self.open.append(tag)

    def handle_endtag(self, tag: str) -> None:
        if not self.open or self.open.pop() != tag:
            self.faults.append(tag)


class PageTest(unittest.TestCase):
    def test_is_well_formed_and_escaped(self) -> None:
        report = example(SHOWN)._replace(name="</title><script>alert(1)</script>")
        page = page_of(report)
        parser = Parser()
        parser.feed(page)
        self.assertEqual(([], []), (parser.open, parser.faults))
        self.assertNotIn("<script>alert", page)

    def test_needs_no_network(self) -> None:
        for word in ("http:", "https:", "src=", "import ", "fetch(", "url("):
            self.assertNotIn(word, page_of(example(SHOWN)))

    def test_data_end_no_element(self) -> None:
        self.assertNotIn("<", data_of(example(SHOWN)))


@unittest.skipUnless(browser(), "there is no browser: the page of play isn't run")
class BrowserTest(unittest.TestCase):
    """One run of the browser for all."""

    @classmethod
    def setUpClass(cls) -> None:
        cls.reports = reports()
        cls.numbers = [numbers_of(report) for report in cls.reports]
        told = [{"data": json.loads(data_of(report)), "order": order} for report, order in zip(cls.reports, cls.numbers)]
        shown = example(SHOWN)
        cls.keys = ["Home", *["ArrowRight"] * len(shown.entries), *["ArrowLeft"] * 5, "PageUp", "End"]
        page = with_check(page_of(shown), CHECK.read_text(encoding="utf-8"), {"reports": told, "keys": cls.keys})
        cls.found = found_in(browser() or "", page)
        assert "error" not in cls.found, cls.found["error"]

    def test_states_are_those_of_the_replay(self) -> None:
        for report, numbers, found in zip(self.reports, self.numbers, self.found["reports"]):
            due = states_at(report, numbers)
            for number, state in found["states"]:
                with self.subTest(report=report.name, entry=number):
                    self.assertEqual(without_waits(due[number], report), without_waits(state, report))

    def test_last_accounts_are_those_of_the_report(self) -> None:
        for report, found in zip(self.reports, self.found["reports"]):
            number, state = found["states"][0]
            if report.name.startswith("odd "):
                continue
            self.assertEqual([list(account[1:]) for account in report.accounts], state["accounts"], (report.name, number))

    def test_each_entry_has_a_sentence(self) -> None:
        for report, found in zip(self.reports, self.found["reports"]):
            self.assertEqual([], found["faults"], report.name)

    def test_keys_step_through_the_shown_report(self) -> None:
        shown = example(SHOWN)
        due = states_at(shown, list(range(len(shown.entries) + 1)))
        for step in self.found["steps"]:
            number = int(step["entry"])
            accounts = zip(AREAS, due[number]["accounts"])
            self.assertEqual({area: account_text(area, account) for area, account in accounts}, step["accounts"], number)
        self.assertEqual([0, *range(1, 49), 47, 46, 45, 44, 43, 33, 48], [int(step["entry"]) for step in self.found["steps"]])


def without_waits(state: Dict[str, Any], report: Report) -> Dict[str, Any]:
    """Returns a state of a report that no program writes without what jobs wait for: there an engine may do its jobs in any order."""
    if not report.name.startswith("odd "):
        return state
    return {**state, "jobs": [job[:4] for job in state["jobs"]]}


def account_text(area: str, account: List[int]) -> str:
    """Returns the account of an area as the page shows it."""
    size, free, live, target, ghost = account
    if not size:
        return "none in this script"
    unit = {"vram": "page", "tt": "page", "frames": "frame", "swap": "slot"}[area] + ("" if size == 1 else "s")
    shares = ", ".join(f"{count} {kind}" for count, kind in ((live, "live"), (target, "target"), (ghost, "ghost"), (free, "free")) if count)
    return f"{size} {unit}: {shares}"


if __name__ == "__main__":
    unittest.main()
