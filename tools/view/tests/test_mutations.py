"""Compares the first broken line that `explain` finds with the program's, on mutations of the examples."""

from __future__ import annotations

import unittest
from collections import Counter
from concurrent.futures import ThreadPoolExecutor
from typing import Optional, Tuple

from view.comments import plain
from view.script_reader import BrokenScript, read_script
from view.tests.mutations import Mutations
from view.tests.program import examples, needs_program, refusal
from view.tests.random_scripts import RandomScript

COUNT = 400


def broken_script(seed: int) -> bytes:
    """Returns a script that may be broken: an example or a random one, with changes."""
    paths = examples()
    base = paths[seed % len(paths)].read_bytes() if seed % 2 else RandomScript(seed, 1 + seed % 4 // 2).text().encode()
    return Mutations(seed).broken(plain(base).data).replace(b"#", b"")


def found(data: bytes) -> Optional[Tuple[int, int]]:
    """Returns line and rule of the first fault, and checks its column."""
    try:
        read_script(data)
    except BrokenScript as broken:
        assert 1 <= broken.fault.column <= len(broken.shown_line) + 1, broken.fault
        return broken.plain_line, broken.fault.rule
    return None


@needs_program
class Mutated(unittest.TestCase):
    """Both readers find the same."""

    def test_line_and_rule_are_the_programs(self) -> None:
        rules: Counter = Counter()
        with ThreadPoolExecutor(4) as pool:
            scripts = [broken_script(seed) for seed in range(COUNT)]
            for seed, (data, answer) in enumerate(zip(scripts, pool.map(refusal, scripts))):
                self.assertEqual(found(data), answer, f"seed {seed}")
                rules[answer[1] if answer else 0] += 1
        self.assertGreater(len(rules), 8)


if __name__ == "__main__":
    unittest.main()
