"""Draws a lane for each engine, the reaper and each thread: what they do, and what they wait for."""

from __future__ import annotations

from typing import List, Sequence

from .past import Doing, Past, Pause, Sign, Work
from .scale import LEFT, Scale
from .script import Script
from .svg import Drawing, cut, width_of

ENGINE_HEIGHT = 17.0
THREAD_HEIGHT = 33.0
BETWEEN = 22.0
SMALL = 8.5


class Lanes:
    """The lanes of a picture from a place down to `bottom`."""

    def __init__(self, drawing: Drawing, script: Script, past: Past, scale: Scale, top: float) -> None:
        self.drawing = drawing
        self.script = script
        self.past = past
        self.scale = scale
        self.bottom = top

    def draw(self) -> None:
        """Draws all lanes."""
        self.drawing.text("head", LEFT, self.bottom + 12, "Engines (e0 does the moves) and the reaper")
        self.bottom += BETWEEN - 4
        for engine in range(self.script.engines + 1):
            self._engine(engine)
        self._reaper()
        busy = [thread.number for thread in self.script.threads if self._acts(thread.number)]
        idle = len(self.script.threads) - len(busy)
        others = f" ({idle} {'thread does' if idle == 1 else 'threads do'} nothing here)" if idle else ""
        self.drawing.text("head", LEFT, self.bottom + 12, f"Threads: commands, below them their entries, and real waits{others}")
        self.bottom += BETWEEN - 4
        for thread in busy:
            self._thread(thread)

    def _acts(self, thread: int) -> bool:
        """Tells whether a thread has a command at work in what is drawn."""
        return any(doing.thread == thread for doing in self.past.doings)

    def _lane(self, label: str, height: float) -> float:
        """Draws an empty lane, and returns where it begins."""
        top = self.bottom
        self.drawing.rect("free", LEFT, top, self.scale.width, height - 3)
        self.drawing.text("small end", LEFT - 5, top + height / 2 + 1.5, label)
        self.bottom = top + height
        return top

    def _engine(self, engine: int) -> None:
        """Draws the jobs of an engine."""
        self.drawing.open(f"e{engine}")
        y = self._lane(f"e{engine}", ENGINE_HEIGHT)
        for work in self.past.works:
            if work.engine == engine:
                self._work(work, y)
        self.drawing.close()

    def _work(self, work: Work, y: float) -> None:
        """Draws the time in which a job waits at the head of its engine, in which it is ready, and in which it runs."""
        name = f"e{work.engine} job {work.number} of t{work.thread}"
        if work.ready > work.head:
            title = f"{name} waits for {work.reason}, from entry {work.head} to {work.ready}"
            self._wait(work.head, work.ready, y, ENGINE_HEIGHT - 3, title, (work.reason,))
        x, right = self.scale.x(max(work.ready, work.head) + 1), self.scale.x(work.begun)
        if right > x:
            self.drawing.path("ready", f"M{x:.1f} {y + 7:.1f}H{right:.1f}", f"{name} may run, and others come first")
        x, right = right, self.scale.x(work.end + 1)
        self.drawing.rect("busy", x, y + 1.5, right - x, ENGINE_HEIGHT - 6, f"{name} runs from entry {work.begun} to {work.end}")
        label = str(work.number)
        if right - x >= width_of(label, SMALL) + 3:
            self.drawing.text("small mid light", (x + right) / 2, y + 10.2, label)

    def _wait(self, start: int, end: int, y: float, height: float, title: str, labels: Sequence[str]) -> None:
        """Draws a wait; the first label for which there is room stands in it."""
        x, right = self.scale.x(start + 1), self.scale.x(end + 1)
        self.drawing.rect("wait", x, y + 1.5, right - x, height - 3, title)
        label = next((label for label in labels if right - x >= width_of(label, SMALL) + 3), "")
        if label:
            self.drawing.text("small mid warm", (x + right) / 2, y + height / 2 + 3.2, label)

    def _reaper(self) -> None:
        """Draws when ghosts are reaped, and when the first one waits for its jobs."""
        self.drawing.open("r")
        y = self._lane("reaper", ENGINE_HEIGHT)
        for pause in self.past.pauses:
            if pause.actor == "r":
                self._wait(pause.start, pause.end, y, ENGINE_HEIGHT - 3, _title(pause), pause.labels)
        self._entries("r", y + 1.5, ENGINE_HEIGHT - 6)
        self.drawing.close()

    def _entries(self, actor: str, y: float, height: float) -> None:
        """Draws a box for each entry of an actor."""
        for entry in self.past.entries.get(actor, []):
            self.drawing.rect("entry", self.scale.x(entry) + 0.3, y, max(self.scale.unit - 0.6, 0.4), height)

    def _thread(self, thread: int) -> None:
        """Draws the commands of a thread, its entries, its waits, and where it backs off and is refused."""
        name = f"t{thread}"
        self.drawing.open(name)
        y = self._lane(name, THREAD_HEIGHT)
        for doing in self.past.doings:
            if doing.thread == thread:
                self._command(doing, y)
        for pause in self.past.pauses:
            if pause.actor == name:
                self._wait(pause.start, pause.end, y + 14, 16, _title(pause), pause.labels)
        marked = {sign.entry for sign in self.past.signs if sign.thread == thread}
        self.past.entries[name] = [entry for entry in self.past.entries.get(name, []) if entry not in marked]
        self._entries(name, y + 19.5, 5.5)
        for sign in self.past.signs:
            if sign.thread == thread:
                self._sign(sign, y + 17.5)
        self.drawing.close()

    def _command(self, doing: Doing, y: float) -> None:
        """Draws a command, with as much of its text as there is room for."""
        x, right = self.scale.x(doing.start), self.scale.x(doing.end + 1)
        answer = f"; refused {doing.answer}" if doing.answer else ""
        title = f"t{doing.thread} {doing.number}: {cut(doing.text, 80)}; from entry {doing.start} to {doing.end}{answer}"
        self.drawing.rect("command", x, y, right - x, 14, title)
        label = fitting(doing.text, right - x - 5)
        if label:
            self.drawing.text("", x + 3, y + 10.4, label)

    def _sign(self, sign: Sign, y: float) -> None:
        """Draws a triangle for a backoff, and a cross for a refusal."""
        x = self.scale.x(sign.entry) + self.scale.unit / 2
        size = min(4.5, max(self.scale.unit / 2, 2.5))
        title = f"{sign.text} at entry {sign.entry}"
        if sign.kind == "backoff":
            return self.drawing.polygon("backoff", [(x - size, y + 1), (x + size, y + 1), (x, y + 1 + 2 * size)], title)
        path = f"M{x - size:.1f} {y:.1f}l{2 * size:.1f} {2 * size:.1f}m0 {-2 * size:.1f}l{-2 * size:.1f} {2 * size:.1f}"
        self.drawing.path("refused", path, title)


def fitting(text: str, room: float) -> str:
    """Returns as many words of a command as there is room for; two points stand for the others."""
    words = cut(text).split(" ")
    for count in range(len(words), 0, -1):
        label = " ".join(words[:count]) + (" .." if count < len(words) else "")
        if width_of(label) <= room:
            return label
    return words[0] if width_of(words[0]) <= room else ""


def _title(pause: Pause) -> str:
    """Returns a wait in words."""
    return f"{pause.actor} waits for {pause.reason}, after entries {pause.start} to {pause.end - 1}"


def kinds_in(past: Past) -> List[str]:
    """Returns which kinds of marks there are, for the legend."""
    waits = past.pauses or any(work.ready > work.head for work in past.works)
    late = any(work.begun > max(work.ready, work.head) + 1 for work in past.works)
    signs = {sign.kind for sign in past.signs}
    return ["wait"] * bool(waits) + ["ready"] * late + [kind for kind in ("backoff", "refused") if kind in signs]
