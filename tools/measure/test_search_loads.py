#!/usr/bin/env python3
"""Tests of search_loads.py: tools/measure/test_search_loads.py [PROGRAM]; with a program, that it accepts most drawn scripts."""
import random
import subprocess
import sys
import unittest

import search_loads

PROGRAM = sys.argv.pop() if len(sys.argv) > 1 and not sys.argv[-1].startswith("-") else None


class Searches(unittest.TestCase):
    def test_same_seed_same_script(self):
        shape = search_loads.drawn(random.Random(1))
        self.assertEqual(search_loads.written(shape, 1), search_loads.written(shape, 1))

    def test_change_draws_at_most_three_values(self):
        draw = random.Random(2)
        for _shape in range(100):
            shape = search_loads.drawn(draw)
            other = search_loads.changed(shape, draw)
            self.assertEqual(shape.keys(), other.keys())
            self.assertLessEqual(sum(shape[name] != other[name] for name in shape), 3)

    def test_scripts_begin_and_end_and_have_at_most_a_megabyte(self):
        draw = random.Random(3)
        for _shape in range(10):
            text = search_loads.written(search_loads.drawn(draw), 1)
            self.assertTrue(text.startswith("ttm 2\nvram ") and text.endswith("\nend\n"))
            self.assertLessEqual(len(text), search_loads.MOST_BYTES)

    @unittest.skipUnless(PROGRAM, "no program is named")
    def test_most_scripts_are_accepted(self):
        draw, refused = random.Random(4), 0
        for _shape in range(20):
            text = search_loads.written(search_loads.drawn(draw), 1)
            refused += subprocess.run([PROGRAM, "sim"], input=text.encode(), capture_output=True, check=False).returncode != 0
        self.assertLessEqual(refused, 4)


if __name__ == "__main__":
    unittest.main()
