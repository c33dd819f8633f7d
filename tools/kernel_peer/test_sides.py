#!/usr/bin/env python3
"""Tests of what is read of both sides, and of how it is compared. usage: tools/kernel_peer/test_sides.py"""

from __future__ import annotations

import unittest

from kernel_side import peer_words, read_answers
from observed import Answer, Difference, Observed, first_difference
from orders import Order
from plain_memory import wrong_bytes
from project_side import Report, observe
from scripts import Script

SCRIPT = Script(
    ("engines 1", "buffer a 1 prio 1 group - align 1 want vram busy vram", "buffer b 1 prio 1 group - align 1 want vram busy vram"),
    (("new a", "write a 0 1122", "read a 1 1", "submit 1 probe a 0 2"),),
)
ACCOUNTS = {name: f"{name} size 4 free 3 live 1 target 0 ghost 0".split() for name in ("vram", "tt", "frames", "swap")}
JOURNAL = """t1 new a
t1 result ok
t1 ticket 1
t1 reserve a
t1 catch b vram
t1 take a vram 0-1
t1 take a tt 2-3
t1 bind a
t1 move a vram 1 1
e0 packet 1 0
e0 done 1
t1 result ok
r reap 1
t1 ticket 2
t1 reserve a
t1 refused NoPages"""
TOLD = """R 1 t1 ok
P 1 a=sys:-
D 1 0 0
G 1 0
R 2 t1 refused NoSpace
V 2 b:vram a:swap
X 2 short
P 2 a=vram:0-1
D 2 1 0
G 2 1
J 0 e1 1 11
J 0 e1 1 22
A 0 vram 1 tt 0 frames 1
W 0 3"""


def answer(result: str, places: str = "", ghosts: int = 0) -> Answer:
    return Answer(1, result, (), places, "0", ghosts)


class Sides(unittest.TestCase):
    def test_the_projects_report(self) -> None:
        entries = [line.split() for line in JOURNAL.splitlines()]
        entries.insert(0, ["t1", "new", "b"])
        seen = observe(SCRIPT, Report(entries, ACCOUNTS))
        self.assertEqual([one.result for one in seen.answers], ["ok", "ok", "refused NoPages"])
        self.assertEqual(seen.answers[1].victims, ("b:sys",))
        self.assertEqual(seen.answers[1].places, "a=vram:0-1 b=sys:-")
        self.assertEqual([(one.done, one.ghosts) for one in seen.answers], [("0 0", 0), ("1 0", 1), ("1 0", 0)])
        self.assertEqual(seen.accounts, "vram 1 tt 1 frames 1")

    def test_what_the_peer_tells(self) -> None:
        seen = read_answers([line.split(" ") for line in TOLD.splitlines()])
        self.assertEqual([one.is_refused for one in seen.answers], [False, True])
        self.assertEqual(seen.answers[1].victims, ("b:vram", "a:swap"))
        self.assertEqual((seen.answers[1].places, seen.answers[1].done, seen.answers[1].ghosts), ("a=vram:0-1", "1 0", 1))
        self.assertEqual((seen.probes, seen.accounts, seen.warnings), ({("e1", 1): "1122"}, "vram 1 tt 0 frames 1", 3))

    def test_the_first_difference(self) -> None:
        one = Observed([answer("ok"), answer("ok", "a=sys:-"), answer("ok")])
        other = Observed([answer("ok"), answer("ok", "a=tt:0-1"), answer("refused NoSpace")])
        self.assertEqual(first_difference(one, other), Difference(2, ("places",)))
        self.assertIsNone(first_difference(one, one))
        ghosts = Observed([answer("ok", ghosts=1)])
        self.assertIsNone(first_difference(Observed([answer("ok")]), ghosts))
        self.assertEqual(first_difference(Observed([answer("ok")]), ghosts, with_ghosts=True), Difference(1, ("ghosts",)))
        self.assertEqual(first_difference(one, Observed(one.answers, accounts="vram 1")), Difference(0, ("accounts",)))

    def test_the_words_of_the_peer(self) -> None:
        words = peer_words(Order(True, "12", ((3, None), (5, 2))), ((), ("tie", "skip")))
        self.assertEqual(words[1:], "--lagging --order 12 --drains 3,5:2 --swap none --swap tie,skip".split())

    def test_bytes_are_those_of_a_plain_memory(self) -> None:
        answers = [answer("ok"), answer("ok"), answer("read 22"), answer("ok")]
        self.assertEqual(wrong_bytes(SCRIPT, Observed(answers, {("e1", 1): "1122"})), (2, []))
        answers[2] = answer("read 11")
        self.assertEqual(wrong_bytes(SCRIPT, Observed(answers, {("e1", 1): "0000"})), (2, ["read a 1 1", "submit 1 probe a 0 2"]))


if __name__ == "__main__":
    unittest.main()
