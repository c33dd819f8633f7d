#!/usr/bin/env python3
"""Tests check_kunit.py on made-up pages and sources. usage: tools/gate/test_check_kunit.py"""
import unittest

from check_kunit import cases_of_source, faults_of_cases, faults_of_page, rows_of_page

PAGE = """Of the 2 cases, 1 have a script and 1 have none.
| case | what it checks | script | in the report |
| `ttm_a` | one thing | [first](../examples/kernel/first.ttm) | line 1 |
| `ttm_b` | another | none | not here |
"""


class Rows(unittest.TestCase):
    def test_cases_of_a_source(self) -> None:
        text = "KUNIT_CASE(ttm_a),\n\tKUNIT_CASE_PARAM(ttm_b,\n\t\t\t ttm_gen_params),"
        self.assertEqual(cases_of_source(text), ["ttm_a", "ttm_b"])

    def test_a_right_page_has_no_fault(self) -> None:
        rows = rows_of_page(PAGE)
        self.assertEqual(list(faults_of_cases(rows, ["ttm_a", "ttm_b"])), [])
        self.assertEqual(list(faults_of_page(PAGE, rows, ["first"])), [])

    def test_a_missing_and_a_needless_case(self) -> None:
        faults = list(faults_of_cases(rows_of_page(PAGE), ["ttm_a", "ttm_c"]))
        self.assertEqual(faults, ["ttm_c has 0 rows", "ttm_b is no case of the source tree"])

    def test_a_case_that_stands_twice(self) -> None:
        rows = rows_of_page(PAGE + "| `ttm_a` | again | none | not here |\n")
        self.assertEqual(list(faults_of_cases(rows, ["ttm_a", "ttm_b"])), ["ttm_a has 2 rows"])

    def test_a_script_without_a_row_and_wrong_counts(self) -> None:
        page = PAGE.replace("Of the 2", "Of the 3")
        faults = list(faults_of_page(page, rows_of_page(page), ["first", "second"]))
        self.assertEqual(len(faults), 2)
        self.assertIn("second.ttm has no row", faults[0])


if __name__ == "__main__":
    unittest.main()
