"""Compares the two sides on one script in one order, and finds the rules that explain how they differ."""

from __future__ import annotations

from dataclasses import dataclass

from kernel_side import known_rules, run_each, run_kernel
from observed import Difference, Observed, first_difference
from orders import Order
from plain_memory import wrong_bytes
from project_side import run_project
from scripts import Script


@dataclass
class Comparison:
    project: Observed
    kernel: Observed
    difference: Difference | None  # to the kernel as it is
    rules: tuple[str, ...] | None  # which make the two equal when they are swapped; None where some run with them doesn't agree
    shown: int  # reads and probes of both sides
    wrong: list[str]  # those that show other bytes than a plain memory


# the rules that are needed most often, in two lots
LIKELY = (("ghost", "stay", "tie", "block"), ("short", "busy", "skip", "partial", "notouch"))


def needed_rules(script: Script, order: Order, project: Observed) -> tuple[str, ...]:
    """Rules that make the two sides equal, none of which can be left out, where none of them doesn't and all of them do."""
    for lot in LIKELY:
        likely = [(rule,) for rule in lot if rule in known_rules() and (order.lagging or rule != "ghost")]
        for rules, kernel in zip(likely, run_each(script, order, likely)):
            if first_difference(project, kernel) is None:
                return rules

    def are_equal(rules: list[str]) -> bool:
        return first_difference(project, run_kernel(script, order, rules)) is None

    def needed_of(some: list[str], kept: list[str]) -> list[str]:
        """Which of `some` are needed beside `kept`, which aren't enough alone."""
        if len(some) == 1:
            return some
        half = len(some) // 2
        first, second = some[:half], some[half:]
        needed = [] if are_equal(kept + second) else needed_of(first, kept + second)
        return needed + ([] if are_equal(kept + needed) else needed_of(second, kept + needed))

    return tuple(needed_of(list(known_rules()), []))


def compare(script: Script, order: Order) -> Comparison:
    project = run_project(script, order)
    kernel, swapped = run_each(script, order, ((), known_rules()))
    difference = first_difference(project, kernel)
    rules: tuple[str, ...] | None = ()
    if first_difference(project, swapped, with_ghosts=order.lagging):
        rules = None
    elif difference:
        rules = needed_rules(script, order, project)
    checked = [wrong_bytes(script, seen) for seen in (project, kernel)]
    return Comparison(project, kernel, difference, rules, sum(n for n, _ in checked), [wrong for _, some in checked for wrong in some])


def describe(script: Script, comparison: Comparison) -> str:
    """Where the two sides part, and what explains it."""
    difference = comparison.difference
    if difference is None:
        return "equal"
    if not difference.answer:
        return f"at the end, in {', '.join(difference.parts)}: {explanation(comparison)}"
    answers = comparison.project.answers[: difference.answer]
    thread = answers[-1].thread
    command = script.threads[thread - 1][sum(answer.thread == thread for answer in answers) - 1]
    lines = [f"answer {difference.answer}, t{thread} {command}: {explanation(comparison)}"]
    for side, seen in (("project", comparison.project), ("kernel", comparison.kernel)):
        answer = seen.answers[difference.answer - 1]
        for part in (*difference.parts, *(("notes",) if answer.notes else ())):
            value = getattr(answer, part)
            lines.append(f"  {side:8} {part:8} {' '.join(value) if isinstance(value, tuple) else value}")
    return "\n".join(lines)


def explanation(comparison: Comparison) -> str:
    if comparison.rules is None:
        return "no rules explain it"
    return "equal with " + ", ".join(comparison.rules) + " swapped"
