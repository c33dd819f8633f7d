#!/usr/bin/env python3
"""Tests of orders: who takes which turn, given what the turns before have made. usage: tools/kernel_peer/test_orders.py"""

from __future__ import annotations

import unittest

from orders import Order, TurnTaker
from scripts import Script

HEAD = ("engines 1", "buffer a 1 prio 1 group - align 1 want vram busy vram")


def turns_taken(script: Script, order: Order, made: dict[str, list[str]], most: int = 200) -> list[str]:
    """The actors of the turns, where each actor makes the entries of its list, `-` for none, and then none."""
    left = {actor: list(entries) for actor, entries in made.items()}
    taker = TurnTaker(script, order).turns()
    taken = [next(taker)]
    while len(taken) < most:
        entries = left.get(taken[-1], [])
        entry = entries.pop(0) if entries else "-"
        try:
            taken.append(taker.send(None if entry == "-" else entry.split()))
        except StopIteration:
            return taken
    raise AssertionError(f"no end: {taken}")


class Orders(unittest.TestCase):
    def test_eager_jobs_run_after_each_entry(self) -> None:
        script = Script(HEAD, (("new a",),))
        taken = turns_taken(script, Order(False), {"t1": ["new a", "result ok"], "e1": ["packet 1 0"]})
        self.assertEqual(taken[:9], ["t1", "r", "e0", "e1", "r", "e0", "e1", "t1", "r"])

    def test_lagging_jobs_run_while_the_thread_waits(self) -> None:
        script = Script(HEAD, (("find a",),))
        made = {"t1": ["ticket 1", "reserve a", "take a vram 0-1", "-", "result find vram 0-1"], "e0": ["packet 1 0", "done 1"]}
        taken = turns_taken(script, Order(True), made)
        self.assertEqual(taken[:8], ["t1", "t1", "t1", "t1", "r", "e0", "e1", "t1"])

    def test_a_drain_takes_rounds_after_its_answer(self) -> None:
        script = Script(HEAD, (("new a", "touch 0"),))
        made = {"t1": ["new a", "result ok", "bulk 0", "result ok"], "e0": ["packet 1 0"] * 5}
        taken = turns_taken(script, Order(True, drains=((1, 2),)), made)
        self.assertEqual(taken[:9], ["t1", "t1", "r", "e0", "e1", "r", "e0", "e1", "t1"])

    def test_a_thread_that_waits_for_a_lock_loses_its_turn(self) -> None:
        script = Script(HEAD, (("find a",), ("find a",)))
        made = {
            "t1": ["ticket 1", "reserve a", "result find sys -"],
            "t2": ["ticket 2", "-", "reserve a", "result find sys -"],
        }
        taken = turns_taken(script, Order(True, "1122"), made)
        self.assertEqual(taken[:8], ["t1", "t1", "t2", "t2", "t1", "t2", "t2", "r"])

    def test_a_back_off_is_a_turn(self) -> None:
        script = Script(HEAD, (("touch 0",), ("submit 1 copy a 0 b 0 1",)))
        made = {
            "t1": ["bulk 0", "result ok"],
            "t2": ["ticket 2", "reserve a", "backoff b 1", "reserve b", "reserve a", "arm e1 1", "result ok"],
        }
        taken = turns_taken(script, Order(True, "222122222"), made)
        self.assertEqual(taken[:9], ["t2", "t2", "t2", "t1", "t1", "t2", "t2", "t2", "t2"])


if __name__ == "__main__":
    unittest.main()
