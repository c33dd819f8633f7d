"""`play`: one HTML page, to go through a report entry by entry in a browser. It needs no network.

The page has the journal's lines and follows them itself; its parts stand in the folder `page`. That each entry can be followed is checked
here, and so is where threads wait.
"""

from __future__ import annotations

import html
import json
import sys
from pathlib import Path
from typing import Dict, List, Tuple

from .colours import letters_on, of_buffer
from .draw_pages import counted
from .observers import Observer, Wait
from .replay import Replay
from .report import Report, load
from .script import Buffer, Command, Script
from .state import AREAS
from .wait_text import wait_text

PAGE = Path(__file__).resolve().parent / "page"
CODE = (  # in the order in which they run
    "state.js", "apply.js", "timeline.js", "owners.js", "squares.js", "sentences.js", "kernel.js", "panels.js", "controls.js",
)  # fmt: skip


class Waiting(Observer):
    """Keeps where threads wait, by thread: after which entry a wait begins, after which it is over (0 for never), what is waited for."""

    def __init__(self, script: Script) -> None:
        self.script = script
        self.waits: Dict[int, List[Tuple[int, int, str]]] = {}

    def waited(self, wait: Wait) -> None:
        self.waits.setdefault(wait.thread, []).append((wait.since, wait.until or 0, wait_text(self.script, wait.need)))


def buffer_data(buffer: Buffer) -> Dict[str, object]:
    """Returns what the page has to know of a declared buffer."""
    colour = of_buffer(buffer.index)
    return {
        "index": buffer.index, "name": buffer.name, "pages": buffer.pages, "priority": buffer.priority, "group": buffer.group,
        "forced": sum(not place.desired for place in buffer.places), "colour": colour, "letters": letters_on(colour),
    }  # fmt: skip


def command_data(command: Command) -> Dict[str, object]:
    """Returns what the page has to know of a command."""
    writes = sorted({operation.buffer for operation in command.operations if operation.writes})
    packets = sum(operation.packets() for operation in command.operations)
    return {"verb": command.verb, "text": command.text, "buffers": command.buffers, "writes": writes, "packets": packets}


def about(script: Script) -> str:
    """Returns the sizes of a script in a line."""
    pages = f"VRAM {counted(script.vram, 'page')} by {script.manager}, TT {counted(script.tt, 'page')}"
    sizes = f"{pages}, {counted(script.frames, 'frame')}, {counted(script.swap, 'slot')}"
    actors = f"{counted(len(script.threads), 'thread')}, {counted(script.engines, 'engine')} and the move engine"
    return f"{sizes}; {actors}, {counted(len(script.buffers), 'buffer')}"


def data_of(report: Report) -> str:
    """Returns the page's data as JSON that may stand in a script element; raises ViewError where an entry can't be followed."""
    script, waiting = report.script, Waiting(report.script)
    Replay(report, waiting).run()
    data = {
        "about": about(script),
        "sizes": {area: script.size(area) for area in AREAS},
        "engines": script.engines,
        "buffers": [buffer_data(buffer) for buffer in script.buffers],
        "threads": [[command_data(command) for command in thread.commands] for thread in script.threads],
        "waits": waiting.waits,
        "journal": "\n".join(line.split(" ", 1)[1] for line in report.lines),
    }
    return json.dumps(data, separators=(",", ":")).replace("<", "\\u003c")


def part(name: str) -> str:
    """Returns a file of the page."""
    return (PAGE / name).read_text(encoding="utf-8").rstrip("\n")


def page_of(report: Report) -> str:
    """Returns the page of a report."""
    code = "\n".join(part(name) for name in CODE)
    parts = {"title": html.escape(report.name), "style": part("play.css"), "data": data_of(report), "code": code}
    pieces = part("play.html").split("{")
    filled = [pieces[0]]
    for piece in pieces[1:]:
        name, rest = piece.split("}", 1)
        filled += [parts[name], rest]
    return "".join(filled) + "\n"


def main(args: List[str]) -> int:
    """Writes the page of the report in the files `args`, or on standard input."""
    sys.stdout.write(page_of(load(args)))
    return 0
