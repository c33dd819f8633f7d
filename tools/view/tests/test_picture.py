"""What `picture` draws: pages as the accounts have them, commands, real waits, and always an SVG of a bounded size."""

import re
import time
import unittest
import xml.dom.minidom
from contextlib import redirect_stderr
from io import StringIO
from itertools import combinations
from typing import Any, Dict, List, Tuple

from view import docs_pictures
from view.draw_pages import Box as Place
from view.draw_pages import crosses
from view.errors import ViewError
from view.past import Past
from view.picture import detailed, followed, picture, range_of, read_words
from view.record import Recorder
from view.replay import Replay
from view.report import Report, read_report
from view.sums import KINDS, summed_up
from view.svg import escaped, width_of

from . import samples
from .program import needs_program

MOST_BYTES = 2_000_000


def past_of(report: Report) -> Past:
    """Returns what a report leaves to be drawn."""
    recorder = Recorder(report.script, 1, len(report.entries))
    return recorder.finish(Replay(report, recorder).run())


def element(svg: Any, name: str) -> Any:
    """Returns the element of an id of a parsed picture."""
    return next(one for one in svg.getElementsByTagName("g") if one.getAttribute("id") == name)


def right_end(rect: Any) -> float:
    """Returns where a box ends."""
    return float(rect.getAttribute("x")) + float(rect.getAttribute("width"))


def last_column(rects: List[Any]) -> Dict[str, float]:
    """Returns how high the boxes of live, target and ghost pages are that end where an area does."""
    right = max(map(right_end, rects))
    heights = {"live": 0.0, "target": 0.0, "ghost": 0.0}
    for rect in rects:
        kind = {"l": "live", "t": "target", "g": "ghost"}.get(rect.getAttribute("class")[0])
        if kind and abs(right_end(rect) - right) < 0.05:
            heights[kind] += float(rect.getAttribute("height"))
    return heights


def row_height(rects: List[Any]) -> float:
    """Returns how high a page is drawn, by a box whose pages its title tells."""
    for rect in rects:
        found = re.search(r" (\d+)-(\d+), from entry", rect.firstChild.firstChild.data if rect.firstChild else "")
        if found:
            return float(rect.getAttribute("height")) / (int(found[2]) - int(found[1]))
    return 1.0


SIZES = {"title": 14.0, "head": 11.0, "name": 9.5, "small": 8.5}
Box = Tuple[float, float, float, float]


def text_box(text: Any) -> Box:
    """Returns about where a label is: left, top, right, bottom."""
    kinds = text.getAttribute("class").split(" ")
    size = next((SIZES[kind] for kind in kinds if kind in SIZES), 10.0)
    width = width_of(text.firstChild.data, size)
    share = 1.0 if "end" in kinds else 0.5 if "mid" in kinds or "name" in kinds else 0.0
    left, base = float(text.getAttribute("x")) - share * width, float(text.getAttribute("y"))
    return left, base - 0.72 * size, left + width, base


def mark_box(mark: Any) -> Box:
    """Returns where a cross or a triangle is."""
    numbers = [float(word) for word in re.findall(r"-?[\d.]+", mark.getAttribute("points") or mark.getAttribute("d"))]
    if mark.tagName == "polygon":
        return min(numbers[::2]), min(numbers[1::2]), max(numbers[::2]), max(numbers[1::2])
    x, y, size = numbers[:3]
    return x, y, x + size, y + size


def overlap(one: Box, other: Box) -> bool:
    """Tells whether two boxes have more than an edge in common."""
    return one[0] < other[2] - 0.5 and other[0] < one[2] - 0.5 and one[1] < other[3] - 0.5 and other[1] < one[3] - 0.5


class Pictures(unittest.TestCase):
    def check_ends(self, name: str, report: Report) -> None:
        """Asserts that a picture is well formed, and that its last column and its counts are the report's accounts."""
        text = picture(report, read_words([]))
        svg = xml.dom.minidom.parseString(text)
        self.assertLess(len(text), MOST_BYTES, name)
        lines = re.findall(r">(free \d+, live \d+|target \d+, ghost \d+)<", text)
        counts = [int(word) for line in lines for word in re.findall(r"\d+", line)]
        sized = [account for account in report.accounts if account.size]
        self.assertEqual(counts, [one for account in sized for one in account[2:]], name)
        for account in sized if "columns of" not in text else []:
            rects = element(svg, account.name).getElementsByTagName("rect")
            row = row_height(rects)
            pages = {kind: round(height / row) for kind, height in last_column(rects).items()}
            self.assertEqual(pages, {"live": account.live, "target": account.target, "ghost": account.ghost}, (name, account.name))

    def check_sums(self, name: str, report: Report) -> None:
        """Asserts that sums end as the accounts say, and that the averages of columns are those of the states in them."""
        count = len(report.entries)
        columns = summed_up(report, 1, count)
        for account in report.accounts:
            ends = tuple(columns.level(account.name, kind).end() for kind in KINDS)
            self.assertEqual(ends, (account.live, account.target, account.ghost), name)
        replay = Replay(report)
        lives: List[int] = []
        for _entry in replay.steps():
            lives.append(sum(replay.state.account(area)[2] for area in ("vram", "tt", "frames", "swap")))
        totals = [sum(columns.level(area, "live").averages()[at] for area in ("vram", "tt", "frames", "swap")) for at in range(columns.count)] if count else []
        for total, (first, end) in zip(totals, columns.spans()):
            self.assertAlmostEqual(total, sum(lives[first - 1 : end - 1]) / (end - first), 6, name)

    def test_examples_end_as_their_accounts_say(self) -> None:
        for name, report in samples.examples():
            self.check_ends(name, report)
            self.check_sums(name, report)

    @needs_program
    def test_drawn_reports_end_as_their_accounts_say(self) -> None:
        for number, (name, report) in enumerate(samples.drawn_reports(100)):
            self.check_ends(name, report)
            if number % 10 == 0:
                self.check_sums(name, report)

    def test_docs_have_what_is_drawn(self) -> None:
        self.assertEqual(docs_pictures.main([]), 0)

    def test_labels_and_marks_stand_apart(self) -> None:
        for name, report in samples.examples():
            svg = xml.dom.minidom.parseString(picture(report, read_words([])))
            boxes = [(text_box(text), text.firstChild.data) for text in svg.getElementsByTagName("text") if text.firstChild]
            for kind in ("path", "polygon"):
                marks = [one for one in svg.getElementsByTagName(kind) if one.getAttribute("class") in ("refused", "backoff")]
                boxes += [(mark_box(one), one.getAttribute("class")) for one in marks]
            for (one, what), (other, that) in combinations(boxes, 2):
                self.assertFalse(overlap(one, other), (name, what, that, one, other))

    def test_no_move_passes_through_a_label(self) -> None:
        for name, report in samples.examples():
            svg = xml.dom.minidom.parseString(picture(report, read_words([])))
            names = [text_box(text) for text in svg.getElementsByTagName("text") if "name" in text.getAttribute("class")]
            for path in svg.getElementsByTagName("path"):
                if path.getAttribute("class") == "move" and path.firstChild:
                    x, y, end, there = map(float, re.findall(r"[\d.]+", path.getAttribute("d")))
                    for left, top, right, bottom in names:
                        self.assertFalse(crosses(((x, y), (end, there)), Place(left, top, right - left, bottom - top)), name)

    def test_arrows_point_where_moves_go(self) -> None:
        svg = xml.dom.minidom.parseString(picture(samples.example("pipelined_eviction"), read_words([])))
        lines = [one for one in svg.getElementsByTagName("path") if one.getAttribute("class") == "move" and one.firstChild]
        tips = [one for one in svg.getElementsByTagName("polygon") if one.getAttribute("class") == "tip"]
        self.assertEqual(len(lines), 3)
        for line, tip in zip(lines, tips):
            x, y, end, there = map(float, re.findall(r"[\d.]+", line.getAttribute("d")))
            points = [float(word) for word in re.findall(r"[\d.]+", tip.getAttribute("points"))]
            right, down = points[0] - (points[2] + points[4]) / 2, points[1] - (points[3] + points[5]) / 2
            across, along = (end - x) * down - (there - y) * right, (end - x) * right + (there - y) * down
            self.assertLess(abs(across), 0.05 * along)

    def pauses(self, name: str) -> List[Tuple[str, int, int, str]]:
        """Returns the waits of threads of an example."""
        past = past_of(samples.example(name))
        return [(one.actor, one.start, one.end, one.reason) for one in past.pauses if one.actor != "r"]

    def test_one_page_eviction_has_no_wait(self) -> None:
        self.assertEqual(self.pauses("one_page_eviction"), [])
        svg = xml.dom.minidom.parseString(picture(samples.example("one_page_eviction"), read_words([])))
        self.assertEqual([one for one in element(svg, "t1").getElementsByTagName("rect") if one.getAttribute("class") == "wait"], [])

    def test_the_read_of_pipelined_eviction_waits_for_job_2(self) -> None:
        self.assertEqual(self.pauses("pipelined_eviction"), [("t1", 37, 39, "job 2 of e0")])
        svg = picture(samples.example("pipelined_eviction"), read_words([]))
        self.assertIn("t1 waits for job 2 of e0, after entries 37 to 38", svg)

    def test_holders_are_named(self) -> None:
        self.assertEqual(self.pauses("younger_backs_off"), [("t1", 8, 9, "t2 to let b go"), ("t2", 9, 16, "t1 to let a go")])

    def test_marks_are_no_commands(self) -> None:
        past = past_of(samples.example("pages_fault_and_leave"))
        told = [(one.text, one.number) for one in past.doings if one.start == 27 and one.end == 48]
        self.assertEqual(told, [("find b", 7)])

    def test_ranges_are_drawn(self) -> None:
        report = samples.example("pipelined_eviction")
        svg = picture(report, read_words(["--from", "17", "--to", "31"]))
        xml.dom.minidom.parseString(svg)
        self.assertIn("Entries 17 to 31 of 48", svg)
        self.assertIn("after entry 31", svg)
        self.assertNotIn(">new a<", svg)
        whole = detailed(report, 1, 48, "in the end")
        self.assertEqual(picture(report, read_words(["--from", "1", "--to", "99"])), whole)
        with self.assertRaises(ViewError):
            range_of(read_words(["--from", "49"]), 48)
        for words in (["--from", "x"], ["--to"], ["--from", "0"], ["--wide"], ["a", "b", "c"]):
            with self.assertRaises(ViewError):
                read_words(words)

    def test_a_range_ends_as_the_state_there(self) -> None:
        report = samples.example("eviction_in_an_eviction")
        for last in range(1, len(report.entries) + 1):
            past_recorder = Recorder(report.script, 1, last)
            replay = Replay(report)
            for _entry in replay.steps():
                if replay.number == last:
                    break
            svg = picture(report, read_words(["--to", str(last)]))
            texts = re.findall(r">free (\d+), live (\d+)<", svg)
            ends = [replay.state.account(area)[1:3] for area in ("vram", "tt", "frames", "swap")]
            self.assertEqual([(int(free), int(live)) for free, live in texts], ends, (last, past_recorder.first))

    def test_texts_are_escaped(self) -> None:
        self.assertEqual(escaped('<a href="x">&\x00\ud800'), "&lt;a href=&quot;x&quot;&gt;&amp;??")
        report = samples.example("one_page_eviction")._replace(name='/x/<b>&"\x01.ttm')
        svg = picture(report, read_words([]))
        xml.dom.minidom.parseString(svg)
        self.assertIn('<title id="title">&lt;b&gt;&amp;&quot;?</title>', svg)

    def test_odd_reports_are_drawn(self) -> None:
        new = ["t1 new b0", "t1 result ok", "t1 ticket 1"]
        odd = {
            "empty": samples.written([], [], samples.FREE, buffers=0),
            "without entries": samples.written([["new b0"]], [], samples.FREE),
            "cut off": samples.written([["new b0", "find b0"]], new, samples.FREE, "unfinished 3"),
            "256 buffers": samples.written([["new b0", "find b0"]], new, samples.FREE, buffers=256),
        }
        for name, data in odd.items():
            svg = picture(read_report(data), read_words([]))
            xml.dom.minidom.parseString(svg)
            self.assertIn("</svg>", svg, name)

    def test_broken_reports_are_drawn_up_to_the_fault(self) -> None:
        broken = read_report(samples.written([["new b0"]], ["t1 new b0", "t1 bind b0"], samples.FREE))
        with self.assertRaises(ViewError) as raised:
            picture(broken, read_words([]))
        self.assertEqual(raised.exception.line, 14)
        with redirect_stderr(StringIO()) as said:
            svg, status = followed(broken, read_words([]))
        xml.dom.minidom.parseString(svg)
        self.assertEqual((status, said.getvalue()[:12]), (1, "picture:14: "))
        self.assertIn("Entries 1 to 1 of 2", svg)
        self.assertIn("entry 2: ", svg)
        first = read_report(samples.written([["new b0"]], ["t1 bind b0"], samples.FREE))
        with redirect_stderr(StringIO()):
            svg, status = followed(first, read_words([]))
        xml.dom.minidom.parseString(svg)
        with self.assertRaises(ViewError):
            followed(broken, read_words(["--from", "2"]))

    def test_long_runs_are_summed_in_a_bounded_size(self) -> None:
        report = samples.long_report(16, 400)
        start = time.process_time()
        svg = picture(report, read_words([]))
        xml.dom.minidom.parseString(svg)
        self.assertLess(len(svg), MOST_BYTES)
        self.assertIn("300 columns", svg)
        self.assertLess(time.process_time() - start, 20)
        self.assertLess(len(picture(report, read_words(["--from", "5001", "--to", "6200"]))), MOST_BYTES)


if __name__ == "__main__":
    unittest.main()
