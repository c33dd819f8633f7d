#!/usr/bin/env python3
"""The smallest scripts of each rule: where the two sides part, and that the rule alone explains it.

usage: cases.py show [NAME..]   what both sides answer
       cases.py check [NAME..]  whether they answer as cases/cases.json has it, agree where the rule is swapped, and differ where all others are
       cases.py write           writes the answers of both sides and the schedule lines of the scripts

A case is a script, cases/NAME.ttm, and an entry in cases/cases.json: its rule, its order, and the first answer in which the sides differ.
For kernel 6.12 the entries are those of cases/cases_6_12.json.
"""

from __future__ import annotations

import json
import sys
from dataclasses import dataclass
from pathlib import Path
from typing import Any

from kernel_side import has_flags, known_rules, run_kernel
from observed import Difference, Observed, first_difference
from orders import Order
from project_side import run_in_order, run_project
from scripts import Script

FOLDER = Path(__file__).resolve().parent / "cases"


def entries_file() -> Path:
    """The entries for the kernel at hand."""
    return FOLDER / ("cases_6_12.json" if has_flags() else "cases.json")


@dataclass(frozen=True)
class Case:
    name: str
    rule: str
    about: str
    order: Order
    answers: dict[str, Any]  # as they are stored

    @property
    def script(self) -> Script:
        return Script.parse((FOLDER / f"{self.name}.ttm").read_text())


def load_cases() -> list[Case]:
    return [read_case(row) for row in json.loads(entries_file().read_text())]


def read_case(row: dict[str, Any]) -> Case:
    drains = tuple((after, rounds) for after, rounds in row.get("drains", []))
    order = Order(row["engines"] == "lagging", row.get("turns", ""), drains)
    return Case(row["name"], row["rule"], row["about"], order, {key: row[key] for key in ("answer", "project", "kernel") if key in row})


def case_row(case: Case) -> dict[str, Any]:
    row: dict[str, Any] = {"name": case.name, "rule": case.rule, "about": case.about}
    row["engines"] = "lagging" if case.order.lagging else "eager"
    if case.order.drains:
        row["drains"] = [list(drain) for drain in case.order.drains]
    if case.order.threads:
        row["turns"] = case.order.threads
    return {**row, **case.answers}


def told(seen: Observed, difference: Difference) -> dict[str, str]:
    """What an answer, or the end, has of the parts in which the sides differ."""
    at = seen.answers[difference.answer - 1] if difference.answer else seen
    values = {part: getattr(at, part) for part in ("thread", "result", *difference.parts) if hasattr(at, part)}
    return {part: " ".join(value) if isinstance(value, tuple) else str(value) for part, value in values.items()}


def answers_of(case: Case) -> dict[str, Any]:
    project, kernel = run_project(case.script, case.order), run_kernel(case.script, case.order)
    difference = first_difference(project, kernel)
    if difference is None:
        return {}
    return {"answer": difference.answer, "project": told(project, difference), "kernel": told(kernel, difference)}


def faults_of(case: Case) -> list[str]:
    """What isn't as the case says."""
    script, order = case.script, case.order
    project = run_project(script, order)
    others = tuple(rule for rule in known_rules() if rule != case.rule)
    faults = [] if answers_of(case) == case.answers else [f"other answers than stored: {answers_of(case)}"]
    if first_difference(project, run_kernel(script, order, (case.rule,)), order.lagging):
        faults.append(f"differs though {case.rule} is swapped")
    if first_difference(project, run_kernel(script, order, known_rules()), order.lagging):
        faults.append("differs though all rules are swapped")
    if not first_difference(project, run_kernel(script, order, others)):
        faults.append(f"agrees with all rules but {case.rule} swapped")
    return faults


def check_cases(cases: list[Case]) -> bool:
    faults = {case.name: faults_of(case) for case in cases}
    for name, some in faults.items():
        print(f"{name}: {'; '.join(some) if some else 'right'}")
    missing = set(known_rules()) - {case.rule for case in load_cases()}
    if missing:
        print(f"no case for {', '.join(sorted(missing))}")
    return not missing and not any(faults.values())


def show_cases(cases: list[Case]) -> None:
    for case in cases:
        print(f"{case.name} ({case.rule}, {'lagging' if case.order.lagging else 'eager'} engines): {case.about}")
        for side in ("project", "kernel"):
            parts = "; ".join(f"{part} {value}" for part, value in case.answers[side].items())
            print(f"  answer {case.answers['answer']} of the {side}: {parts}")


def write_cases(cases: list[Case]) -> None:
    rows = []
    for case in cases:
        script = case.script
        ordered = case.order.lagging or case.order.threads
        schedule = [entry[0] for entry in run_in_order(script, case.order).entries] if ordered else []
        (FOLDER / f"{case.name}.ttm").write_text(script.text(schedule))
        rows.append(case_row(Case(case.name, case.rule, case.about, case.order, answers_of(case))))
    entries_file().write_text(json.dumps(rows, indent=1) + "\n")


def main(words: list[str]) -> int:
    if not words or words[0] not in ("show", "check", "write"):
        print(__doc__, file=sys.stderr)
        return 2
    if words[0] == "write":
        write_cases(load_cases())
        return 0
    cases = [case for case in load_cases() if case.rule in known_rules() and (not words[1:] or case.name in words[1:])]
    if words[0] == "check":
        return 0 if check_cases(cases) else 1
    show_cases(cases)
    return 0


if __name__ == "__main__":
    sys.exit(main(sys.argv[1:]))
