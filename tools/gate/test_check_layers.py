#!/usr/bin/env python3
"""Tests check_layers.py with planted faults: a later module that is used, a module in no layer, and one that doesn't exist."""
from __future__ import annotations

import pathlib
import sys
import tempfile
import unittest
from typing import Dict, List

from check_layers import faults

PAGE = "# `laws`\n\n## Layers\n\n1. States: `low`, `middle`.\n2. Ends: `high`,\n   `top`.\n"


def faults_of(files: Dict[str, str], page: str = PAGE) -> List[str]:
    """Returns the faults of a tree with the four modules of `PAGE` and these files below the crate."""
    with tempfile.TemporaryDirectory() as folder:
        crate = pathlib.Path(folder, "crates/laws")
        sources = {f"src/{name}.rt": "" for name in ("lib", "low", "middle", "high", "top")}
        for path, text in {**sources, "README.md": page, **files}.items():
            (crate / path).parent.mkdir(parents=True, exist_ok=True)
            (crate / path).write_text(text)
        return list(faults(pathlib.Path(folder)))


class Layers(unittest.TestCase):
    def test_earlier_modules_and_its_own_may_be_used(self) -> None:
        self.assertEqual(faults_of({"proofs/top/Ends.antt": "use Rattle.laws.specs.low.A.{a}\nuse Rattle.laws.proofs.top.B.{b}\n"}), [])

    def test_a_later_module_may_not(self) -> None:
        found = faults_of({"specs/low.antt": "use Rattle.laws.specs.high.A.{a}\n"})
        self.assertEqual(found, ["crates/laws/specs/low.antt: uses high, which comes after low"])

    def test_nor_a_later_one_of_the_same_layer(self) -> None:
        self.assertEqual(len(faults_of({"proofs/high/A.antt": "use Rattle.laws.proofs.top.B.{b}\n"})), 1)

    def test_each_module_is_in_a_layer(self) -> None:
        self.assertEqual(faults_of({"src/more.rt": ""}), ["crates/laws/README.md: more is in no layer"])

    def test_each_name_is_a_module(self) -> None:
        self.assertEqual(faults_of({}, PAGE + "3. More: `gone`.\n"), ["crates/laws/README.md: gone is no module"])

    def test_each_module_stands_once(self) -> None:
        self.assertEqual(faults_of({}, PAGE + "3. More: `low`.\n"), ["crates/laws/README.md: low is in the layers twice"])


if __name__ == "__main__":
    sys.exit(0 if unittest.main(exit=False, verbosity=0).result.wasSuccessful() else 1)
