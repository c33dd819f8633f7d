#!/usr/bin/env python3
"""Tests of scripts and of those that are drawn. usage: tools/kernel_peer/test_scripts.py"""

from __future__ import annotations

import unittest

from families import FAMILIES
from scripts import Script, named_buffers
from trials import make_order, make_trial, turns_of

TEXT = """ttm 1
vram range 2
tt 4
frames 8
swap 0
engines 1
buffer a 1 prio 1 group - align 1 want vram busy vram
buffer b 2 prio 1 group 0 align 1 want tt busy tt
thread
new a
submit 1 copy a 0 b 0 4 ; fill a 0 1 11
thread
touch 0
schedule t1 t2
end
"""


class Scripts(unittest.TestCase):
    def test_a_script_is_read(self) -> None:
        script = Script.parse(TEXT)
        self.assertEqual([(declared.name, declared.pages) for declared in script.declarations], [("a", 1), ("b", 2)])
        self.assertEqual(script.engines, 2)
        self.assertEqual(script.threads[1], ("touch 0",))

    def test_the_text_has_the_schedule_that_is_given(self) -> None:
        self.assertEqual(Script.parse(TEXT).text(["t1", "t2"]), TEXT)
        long = Script.parse(TEXT).text(["e0"] * 65).splitlines()
        self.assertEqual([line.count("e0") for line in long if line.startswith("schedule ")], [64, 1])

    def test_buffers_are_named_once_in_order(self) -> None:
        self.assertEqual(named_buffers("submit 1 copy b 0 a 0 4 ; fill a 0 1 11 ; probe c 0 1"), ["b", "a", "c"])
        self.assertEqual(named_buffers("find a"), ["a"])
        self.assertEqual(named_buffers("touch 3"), [])

    def test_turns_of_a_command(self) -> None:
        self.assertEqual([turns_of(command) for command in ("new a", "touch 0", "find a", "submit 1 copy a 0 b 0 1")], [1, 1, 3, 4])


class Families(unittest.TestCase):
    def test_a_number_draws_the_same_script_again(self) -> None:
        for family in FAMILIES:
            self.assertEqual(make_trial(family, 7), make_trial(family, 7))
            self.assertNotEqual(make_trial(family, 7), make_trial(family, 8))

    def test_orders_have_drains_where_jobs_lag(self) -> None:
        trials = [(number, make_trial("mixed", number)) for number in range(1, 20)]
        eager = [make_order("mixed", number, trial, False) for number, trial in trials]
        lagging = [make_order("mixed", number, trial, True) for number, trial in trials]
        self.assertFalse(any(order.drains for order in eager))
        self.assertTrue(any(order.drains for order in lagging))

    def test_two_threads_name_no_dead_buffer(self) -> None:
        for number in range(1, 10):
            for commands in make_trial("two", number).script.threads[1:]:
                own = {command.split()[1] for command in commands if command.startswith("new ")}
                named = {name for command in commands for name in named_buffers(command)}
                self.assertTrue(all(int(name[1:]) % 3 == 2 or name in own for name in named), number)


if __name__ == "__main__":
    unittest.main()
