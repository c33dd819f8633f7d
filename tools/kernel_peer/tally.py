"""What came of many comparisons: counts, as text and to be read again."""

from __future__ import annotations

import json
from collections import Counter
from dataclasses import dataclass, field

from comparison import Comparison

# rules that were chosen when the project began; the others came to light by this comparison
MARKED = {"tie", "sole", "contig", "block"}


@dataclass
class Tally:
    family: str
    counts: dict[str, Counter[str]] = field(default_factory=dict)  # by mode
    unexplained: list[str] = field(default_factory=list)

    def add(self, number: int, mode: str, comparison: Comparison) -> None:
        counts = self.counts.setdefault(mode, Counter())
        answers = comparison.project.answers
        difference, rules = comparison.difference, comparison.rules
        counts["scripts"] += 1
        counts["equal as it is"] += difference is None
        counts["equal with the marked"] += rules is not None and set(rules) <= MARKED
        counts["equal with all"] += rules is not None
        counts["commands"] += len(answers)
        counts["before"] += difference.answer - 1 if difference and difference.answer else len(answers)
        counts["victims"] += sum(len(answer.victims) for answer in answers)
        counts["refused"] += sum(answer.is_refused for answer in answers)
        counts["shown"] += comparison.shown
        for rule in rules or ():
            counts[f"needs {rule}"] += 1
        if rules is None or comparison.wrong or comparison.kernel.warnings:
            self.unexplained.append(f"{self.family} {number} {mode}: {difference}, wrong bytes {comparison.wrong}")

    @property
    def is_explained(self) -> bool:
        return not self.unexplained

    def text(self) -> str:
        lines = [json.dumps({"family": self.family, "mode": mode, **counts}) for mode, counts in self.counts.items()]
        return "\n".join(lines + self.unexplained)
