"""What `stats` counts: the report's own accounts, and truths known of examples."""

import json
import re
import unittest
from pathlib import Path
from typing import Any, Dict, List, Set

from view.report import Report, read_report
from view.stats import summary
from view.stats_text import text_of

from . import samples
from .program import needs_program

PAGE = Path(__file__).resolve().parent.parent / "STATS.md"


def keys_of(value: Any, path: str = "") -> Set[str]:
    """Returns the keys of all objects in a value, each with those above it."""
    found: Set[str] = set()
    if isinstance(value, dict):
        for key, part in value.items():
            found |= {f"{path}.{key}"} | keys_of(part, f"{path}.{key}")
    elif isinstance(value, list):
        for part in value:
            found |= keys_of(part, path)
    return found


class Truths:
    """What holds of the counts of every report."""

    def __init__(self, case: unittest.TestCase, name: str, report: Report) -> None:
        self.case = case
        self.name = name
        self.report = report
        self.rows = json.loads(json.dumps(summary(report)))

    def verbs(self) -> List[str]:
        """Returns the first word of each entry."""
        return [self.report.text(number).split(" ")[0] for number in range(1, len(self.report.entries) + 1)]

    def hold(self) -> None:
        """Asserts them all."""
        self.accounts()
        verbs = self.verbs()
        for row in self.rows["kinds"]:
            self.case.assertEqual(row["entries"], verbs.count(row["kind"]), (self.name, row))
        self.case.assertEqual(sum(row["entries"] for row in self.rows["kinds"]), self.rows["entries"], self.name)
        moved = [row["moves"] for row in self.rows["moves"]]
        self.case.assertEqual(moved[3:] + [sum(moved[:3])], [verbs.count("swapout"), verbs.count("swapin"), verbs.count("move")], self.name)
        self.case.assertEqual(sum(row["bytes_moved"] for row in self.rows["buffers"]), sum(row["bytes"] for row in self.rows["moves"][:3]))
        self.case.assertEqual(sum(row["jobs"] for row in self.rows["engines"]), verbs.count("done"), self.name)
        self.case.assertEqual(sum(row["packets"] for row in self.rows["engines"]), verbs.count("packet"), self.name)
        self.case.assertEqual(sum(row["backoffs"] for row in self.rows["threads"]), verbs.count("backoff"), self.name)
        self.case.assertEqual([row["entry"] for row in self.rows["refusals"]], [at for at, verb in enumerate(verbs, 1) if verb == "refused"])
        let_go = sum(row["evicted"] + row["skipped"] for row in self.rows["evictions"])
        self.case.assertEqual(let_go, verbs.count("loose") + verbs.count("skip"), self.name)
        self.waits()
        self.case.assertIn(f"{len(verbs):,} entries", text_of(self.rows))

    def accounts(self) -> None:
        """Asserts that the counts of memory are the report's accounts."""
        for row, account in zip(self.rows["memory"], self.report.accounts):
            told = (row["memory"], row["size"], row["free"], row["live"], row["target"], row["ghost"])
            self.case.assertEqual(told, tuple(account), self.name)
            self.case.assertLessEqual(row["longest_free"] + max(row["holes"] - 1, 0), row["free"], self.name)
            self.case.assertGreaterEqual(row["most_held"], row["size"] - row["free"], self.name)

    def waits(self) -> None:
        """Asserts that no thread has an entry in a wait of its own."""
        for wait in self.rows["waits"]:
            inside = self.report.entries[wait["since"] : wait["until"]]
            actors = {str(entry.actor) for entry in inside}
            self.case.assertNotIn(f"t{wait['thread']}", actors, (self.name, wait))
        for row in self.rows["threads"]:
            own = [wait for wait in self.rows["waits"] if wait["thread"] == row["thread"]]
            self.case.assertEqual((row["waits"], row["waited_entries"]), (len(own), sum(wait["entries"] for wait in own)), self.name)


class Stats(unittest.TestCase):
    def rows(self, name: str) -> Dict[str, Any]:
        return summary(samples.example(name))

    def test_counts_are_those_of_each_example(self) -> None:
        for name, report in samples.examples():
            Truths(self, name, report).hold()

    @needs_program
    def test_counts_are_those_of_drawn_reports(self) -> None:
        for name, report in samples.drawn_reports(100):
            Truths(self, name, report).hold()

    def test_one_page_eviction_has_no_wait(self) -> None:
        rows = self.rows("one_page_eviction")
        self.assertEqual(rows["waits"], [])
        self.assertEqual([row["waited_entries"] for row in rows["threads"]], [0])

    def test_the_read_of_pipelined_eviction_waits_for_job_2(self) -> None:
        (wait,) = self.rows("pipelined_eviction")["waits"]
        told = {key: wait[key] for key in ("thread", "command", "since", "until", "for", "engine", "job", "buffer")}
        right = {"thread": 1, "command": 7, "since": 37, "until": 39, "for": "job", "engine": 0, "job": 2, "buffer": "a"}
        self.assertEqual(told, right)

    def test_younger_backs_off_and_both_wait_for_holders(self) -> None:
        rows = self.rows("younger_backs_off")
        self.assertEqual([(row["backoffs"], row["waits_for_holders"]) for row in rows["threads"]], [(0, 1), (1, 1)])
        self.assertEqual([(wait["thread"], wait["holder"], wait["buffer"]) for wait in rows["waits"]], [(1, 2, "b"), (2, 1, "a")])

    def test_a_wait_for_a_ghost_names_it(self) -> None:
        waits = self.rows("ghost_holds_tt_pages")["waits"]
        self.assertIn(("ghost", 1), [(wait["for"], wait["ghost"]) for wait in waits])

    def test_refusals_have_their_causes(self) -> None:
        (refusal,) = self.rows("four_causes_of_dry")["refusals"]
        self.assertEqual((refusal["entry"], refusal["command"], refusal["text"], refusal["refusal"]), (77, 14, "find x", "NoSpace"))
        blockers = [(one["buffer"], one["why"], one["stamp"]) for one in refusal["causes"][-1]["blockers"]]
        self.assertEqual(blockers, [("p", "pinned", 0), ("r", "reserved", 8), ("o", "outside", 0), ("s", "skipped", 0)])
        reasons = [(row["refusal"], row["buffer"]) for row in self.rows("refusals")["refusals"]]
        first = [("NoBuffer", "a"), ("Exists", "a"), ("NotPinned", "a"), ("Pinned", "a"), ("Pinned", "a"), ("Pinned", "a")]
        self.assertEqual(reasons, first + [("NoSpace", ""), ("NoPages", ""), ("NoSwap", "b")])

    def test_fragmentation_is_counted(self) -> None:
        journal = ["t1 new b0", "t1 result ok", "t1 ticket 1", "t1 reserve b0", "t1 take b0 vram 1-2"]
        accounts = [line.replace("free 4 live 0 target 0", "free 3 live 0 target 1") if line.startswith("vram") else line for line in samples.FREE]
        rows = summary(read_report(samples.written([["new b0", "find b0"]], journal, accounts)))
        vram = rows["memory"][0]
        self.assertEqual((vram["free"], vram["target"], vram["longest_free"], vram["holes"]), (3, 1, 2, 2))

    def test_a_journal_that_stops_in_a_command_is_counted(self) -> None:
        journal = ["t1 new b0", "t1 result ok", "t1 ticket 1"]
        rows = summary(read_report(samples.written([["new b0", "find b0"]], journal, samples.FREE, "unfinished 3")))
        self.assertEqual((rows["is_unfinished"], rows["threads"][0]["answered"], rows["threads"][0]["commands"]), (True, 1, 2))

    def test_an_empty_journal_is_counted(self) -> None:
        rows = summary(read_report(samples.written([], [], samples.FREE, buffers=0)))
        self.assertEqual((rows["entries"], rows["engines"][0]["busy_share"], rows["threads"]), (0, 0.0, []))
        self.assertIn("threads: none", text_of(rows))

    def test_keys_are_always_the_same_and_the_page_has_each(self) -> None:
        all_rows = [summary(report) for _name, report in samples.examples()]
        keys = set().union(*(keys_of(rows) for rows in all_rows))
        for rows in all_rows:
            self.assertEqual(set(rows), set(all_rows[0]))
            for key in keys - keys_of(rows):
                parents = [rows]
                for part in key.split(".")[1:-1]:
                    parents = [one for parent in parents for one in (parent[part] if isinstance(parent[part], list) else [parent[part]])]
                self.assertEqual(parents, [], key)
        words = set(re.findall(r"`(\w+)`", PAGE.read_text(encoding="utf-8")))
        self.assertEqual({key.split(".")[-1] for key in keys} - words, set())


if __name__ == "__main__":
    unittest.main()
