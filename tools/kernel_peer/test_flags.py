#!/usr/bin/env python3
"""Tests that scripts of version 2 are drawn as such. usage: tools/kernel_peer/test_flags.py"""

from __future__ import annotations

import re
import unittest

from families import FAMILIES
from trials import make_trial

PLACE = re.compile(r"(sys|(tt|vram)(@\d+-\d+)?(\+top)?(\+contig)?)(\+desired|\+fallback)?")


def lists_of(family: str, number: int) -> list[list[str]]:
    """The places of each buffer of a script."""
    lines = [line.split() for line in make_trial(family, number).script.head if line.startswith("buffer ")]
    return [words[10].split(",") for words in lines if words[9] == "place"]


class FlagLists(unittest.TestCase):
    def test_each_family_has_one_with_flags(self) -> None:
        plain = {name for name, family in FAMILIES.items() if not family.flags}
        self.assertEqual({f"flags-{name}" for name in plain}, {name for name, family in FAMILIES.items() if family.flags})

    def test_lists_are_right(self) -> None:
        for family in ("flags-plain", "flags-places", "flags-mixed"):
            for number in range(1, 40):
                for places in lists_of(family, number):
                    self.assertLessEqual(len(places), 8)
                    self.assertTrue(all(PLACE.fullmatch(place) for place in places), places)
                    self.assertFalse(all(place.endswith("+desired") for place in places), places)

    def test_the_head_says_the_version(self) -> None:
        self.assertEqual(make_trial("flags-mixed", 1).script.head[0], "ttm 2")
        self.assertEqual(make_trial("mixed", 1).script.head[0], "ttm 1")


if __name__ == "__main__":
    unittest.main()
