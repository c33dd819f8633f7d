"""The word `trace`: its JSON is well formed, slices nest, arrows lead from what is waited for, and counters end as the accounts do."""

from __future__ import annotations

import io
import json
import unittest
from collections import defaultdict
from contextlib import redirect_stderr, redirect_stdout
from pathlib import Path
from tempfile import TemporaryDirectory
from typing import Any, Dict, List, Tuple

from ..errors import ViewError
from ..report import Report
from ..state import AREAS
from ..trace import COUNTERS, FIRST_ENGINE, REAPER, main
from . import program
from .odd_reports import odd_reports
from .samples import drawn_reports, examples


def trace_of(*paths: Path) -> Tuple[int, List[Dict[str, Any]]]:
    """Returns the status of the word, and the events that it writes."""
    output = io.StringIO()
    with redirect_stdout(output), redirect_stderr(io.StringIO()):
        status = main([str(path) for path in paths])
    return status, json.loads(output.getvalue())["traceEvents"]


def example_trace(name: str) -> List[Dict[str, Any]]:
    """Returns the events of an example."""
    status, events = trace_of(program.EXAMPLES / f"{name}.ttm", program.EXAMPLES / f"{name}.report")
    assert status == 0
    return events


def changed(*changes: Tuple[str, str]) -> bytes:
    """Returns the example `one_page_eviction` with changes in its report."""
    text = (program.EXAMPLES / "one_page_eviction.report").read_text()
    for old, new in changes:
        assert old in text
        text = text.replace(old, new, 1)
    return (program.EXAMPLES / "one_page_eviction.ttm").read_bytes() + text.encode()


def events_of(report: Report) -> List[Dict[str, Any]]:
    """Returns the events of a report."""
    with TemporaryDirectory() as folder:
        path = Path(folder) / "report"
        accounts = [f"{one.name} size {one.size} free {one.free} live {one.live} target {one.target} ghost {one.ghost}" for one in report.accounts]
        lines = [*report.script.lines, f"report {report.script.version}", f"journal {len(report.lines)}", *report.lines]
        path.write_text("\n".join([*lines, "results", "accounts", *accounts, "end", ""]), encoding="latin-1")
        return trace_of(path)[1]


def slices(events: List[Dict[str, Any]]) -> Dict[int, List[Tuple[int, int, str]]]:
    """Returns the slices of each track: first microsecond, the one after the last, name. Requires that each that begins ends."""
    found: Dict[int, List[Tuple[int, int, str]]] = defaultdict(list)
    open_ones: Dict[int, List[Dict[str, Any]]] = defaultdict(list)
    for event in sorted((event for event in events if event["ph"] in "BEX"), key=lambda event: event["ts"]):
        if event["ph"] == "X":
            found[event["tid"]].append((event["ts"], event["ts"] + event["dur"], event["name"]))
        elif event["ph"] == "B":
            open_ones[event["tid"]].append(event)
        else:
            begun = open_ones[event["tid"]].pop()
            found[event["tid"]].append((begun["ts"], event["ts"], begun["name"]))
    assert not any(open_ones.values())
    return found


def nests(one: Tuple[int, int, str], other: Tuple[int, int, str]) -> bool:
    """Tells whether two slices are apart, or one is inside of the other."""
    apart = one[1] <= other[0] or other[1] <= one[0]
    return apart or (one[0] <= other[0] and other[1] <= one[1]) or (other[0] <= one[0] and one[1] <= other[1])


class TraceTest(unittest.TestCase):
    def check(self, report: Report, events: List[Dict[str, Any]]) -> None:
        """Checks the events of a report."""
        found = slices(events)
        entries = sorted(event["ts"] for event in events if event["ph"] == "X" and event.get("cat") != "wait")
        self.assertEqual(list(range(1, len(report.entries) + 1)), entries)
        for track in found.values():
            track.sort(key=lambda one: (one[0], -one[1]))
            self.assertTrue(all(nests(one, other) for at, one in enumerate(track) for other in track[at + 1 : at + 12]), track)
        last = {event["name"]: event["args"]["free"] for event in events if event["ph"] == "C"}
        self.assertEqual({COUNTERS[account.name]: account.free for account in report.accounts}, last)
        starts, ends = ({event["id"]: event for event in events if event["ph"] == phase} for phase in "sf")
        self.assertEqual(starts.keys(), ends.keys())

    def test_examples(self) -> None:
        for name, report in examples():
            with self.subTest(name):
                self.check(report, example_trace(name))

    @program.needs_program
    def test_drawn_reports(self) -> None:
        for name, report in drawn_reports(20):
            with self.subTest(name):
                self.check(report, events_of(report))

    def test_odd_reports(self) -> None:
        for report in odd_reports(100):
            with self.subTest(report.name):
                entries = [event for event in events_of(report) if event["ph"] == "X" and event.get("cat") != "wait"]
                self.assertEqual(len(report.entries), len(entries))

    def test_an_arrow_leads_from_the_job_to_the_read_that_waits(self) -> None:
        events = example_trace("pipelined_eviction")
        waits = [event for event in events if event.get("cat") == "wait" and event["ph"] == "X" and event["tid"] == 1]
        self.assertEqual([(38, 2, "waits for job 2 of e0, a fence of a")], [(event["ts"], event["dur"], event["name"]) for event in waits])
        arrows = {event["id"]: event["ts"] for event in events if event["ph"] == "s" and event["tid"] == FIRST_ENGINE}
        self.assertIn(39, [arrows[event["id"]] for event in events if event["ph"] == "f" and event["tid"] == 1])

    def test_each_actor_has_a_track(self) -> None:
        events = example_trace("pipelined_eviction")
        tracks = {event["tid"]: event["args"]["name"] for event in events if event.get("name") == "thread_name"}
        self.assertEqual({1: "thread 1", FIRST_ENGINE: "engine 0 (moves)", FIRST_ENGINE + 1: "engine 1", REAPER: "reaper"}, tracks)

    def test_a_report_that_cannot_be_followed_gives_a_trace_up_to_there(self) -> None:
        with TemporaryDirectory() as folder:
            path = Path(folder) / "odd"
            path.write_bytes(changed((" bind a", " unbind a")))
            status, events = trace_of(path)
        self.assertEqual(1, status)
        self.assertIn("unbind a", [event["name"] for event in events if event["ph"] == "i"][0])
        slices(events)

    def test_odd_names_are_escaped(self) -> None:
        with TemporaryDirectory() as folder:
            path = Path(folder) / 'odd " \\ name'
            path.write_bytes(changed())
            _, events = trace_of(path)
        self.assertIn(f"ttm: {path}", [event["args"]["name"] for event in events if event.get("name") == "process_name"])

    def test_bytes_that_json_escapes_are_in_no_report(self) -> None:
        for odd in ('"', "\\", "\x7f", "\x01"):
            with TemporaryDirectory() as folder, self.assertRaises(ViewError):
                path = Path(folder) / "odd"
                path.write_bytes(changed((" packet 1 0\n", f" packet 1 0 {odd}\n")))
                trace_of(path)

    def test_areas_have_counters(self) -> None:
        self.assertEqual(set(AREAS), set(COUNTERS))


if __name__ == "__main__":
    unittest.main()
