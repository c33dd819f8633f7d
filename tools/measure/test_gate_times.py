#!/usr/bin/env python3
"""Tests of gate_times.py: tools/measure/test_gate_times.py"""
import pathlib
import tempfile
import unittest

import gate_times

SOURCE = "fn one() {\n    1\n}\n"


class Edits(unittest.TestCase):
    def setUp(self):
        self.made = tempfile.TemporaryDirectory()
        self.addCleanup(self.made.cleanup)
        self.top = pathlib.Path(self.made.name)
        for folder in ("src", "must-fail"):
            (self.top / "crates" / "small" / folder).mkdir(parents=True)
        (self.top / "crates/small/src/lib.rt").write_text(SOURCE)
        (self.top / "crates/small/must-fail/one_is_two.edit").write_text("file: src/lib.rt\nold:     1\nnew:     2\n")
        (self.top / "crates/small/must-fail/nothing_is_one.edit").write_text("file: src/lib.rt\nold:     1\nnew:\n")
        self.edits = gate_times.edited_files(str(self.top))["small"]

    def copy(self, text):
        folder = self.top / "copy"
        (folder / "src").mkdir(parents=True)
        (folder / "src/lib.rt").write_text(text)
        return str(folder)

    def test_an_edit_says_what_its_file_comes_to_have(self):
        self.assertEqual(self.edits["one_is_two"], {"src/lib.rt": "fn one() {\n    2\n}\n"})

    def test_a_line_may_go(self):
        self.assertEqual(self.edits["nothing_is_one"], {"src/lib.rt": "fn one() {\n\n}\n"})

    def test_a_copy_with_an_edit_is_named_by_it(self):
        self.assertEqual(gate_times.edit_in(self.copy(SOURCE.replace("1", "2")), self.edits), "one_is_two")

    def test_a_copy_as_it_stands_has_none(self):
        self.assertEqual(gate_times.edit_in(self.copy(SOURCE), self.edits), "-")

    def test_a_copy_that_is_gone_has_none(self):
        self.assertEqual(gate_times.edit_in(str(self.top / "nowhere"), self.edits), "-")


if __name__ == "__main__":
    unittest.main()
