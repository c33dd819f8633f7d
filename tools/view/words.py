"""The table of words that the package answers to. A word's module is imported only when the word is asked for."""

from __future__ import annotations

from typing import NamedTuple, Tuple


class Word(NamedTuple):
    """A word: its module in this package, which has `main(args: List[str]) -> int`, what it reads, and one line of help."""

    name: str
    module: str
    reads: str
    help: str


SCRIPT = "a script"
REPORT = "a script and its report"

WORDS: Tuple[Word, ...] = (
    Word("explain", "explain", SCRIPT, "finds the first broken line of a script, and says what is wrong there"),
    Word("diagnose", "diagnose", SCRIPT, "says why the program refused a script or a report"),
    Word("plain", "plain", SCRIPT, "writes a script without its comments"),
    Word("picture", "picture", REPORT, "draws a report as an SVG"),
    Word("stats", "stats", REPORT, "adds up a report, as tables or with `json` as JSON"),
    Word("play", "play", REPORT, "writes a page for a browser, to go through a report entry by entry"),
    Word("trace", "trace", REPORT, "writes Chrome's trace events, which ui.perfetto.dev and chrome://tracing open"),
    Word("schedule", "schedule", REPORT, "writes the script with schedule lines that make sim write the report again"),
    Word("shuffle", "shuffle", SCRIPT, "shuffle N: writes the script with drawn interleaving number N as its schedule lines"),
    Word("outcomes", "outcomes", SCRIPT, "outcomes N: runs N drawn interleavings, and says how often what came of them"),
)
