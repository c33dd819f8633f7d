"""Draws scripts of both versions for tests. Each is a script; what its commands come to is left to the program."""

from __future__ import annotations

import random
from typing import Dict, List, Tuple

PAGE = 4096


class RandomScript:
    """A script drawn from a seed; `commands` is about how many lines each of its threads has."""

    def __init__(self, seed: int, version: int, commands: int = 24, buffers: int = 8, threads: int = 3) -> None:
        self.draw = random.Random(seed * 2 + version)
        self.version = version
        self.engines = self.draw.randint(0, 3)
        self.pages = [self.draw.randint(1, 6) for _ in range(self.draw.randint(1, buffers))]
        self.threads = self.draw.randint(1, threads)
        self.commands = commands
        self.vram, self.tt = self.draw.randint(0, 24), self.draw.randint(0, 24)

    def text(self) -> str:
        """Returns the script."""
        draw = self.draw
        lines = [f"ttm {self.version}", f"vram {draw.choice(('range', 'buddy'))} {self.vram}", f"tt {self.tt}"]
        lines += [f"frames {draw.randint(0, 32)}", f"swap {draw.choice((0, 4, 32))}", f"engines {self.engines}"]
        lines += [self._buffer(index) for index in range(len(self.pages))]
        for _ in range(self.threads):
            lines += ["thread", *_Thread(self).lines()]
        lines += ["schedule " + " ".join(self._actor() for _ in range(draw.randint(1, 64))) for _ in range(draw.randint(0, 4))]
        return "\n".join([*lines, "end", ""])

    def _actor(self) -> str:
        """Draws an actor."""
        kind = self.draw.choice("ttter")
        return "r" if kind == "r" else f"t{self.draw.randint(1, self.threads)}" if kind == "t" else f"e{self.draw.randint(0, self.engines)}"

    def _place(self, flag: str) -> str:
        """Draws a place."""
        memory = self.draw.choice(("sys", "tt", "vram", "vram"))
        word = memory
        if memory != "sys" and self.draw.random() < 0.3:
            first = self.draw.randint(0, 12)
            word += f"@{first}-{self.draw.choice((first + self.draw.randint(1, 12), 0 if first else first + 1))}"
        for mark in ("+top", "+contig"):
            word += mark if self.draw.random() < 0.2 else ""
        return word + flag

    def _buffer(self, index: int) -> str:
        """Draws a buffer line."""
        draw = self.draw
        priority, group, align = draw.randint(0, 3), draw.choice(("-", "0", "1", "15")), draw.choice((1, 1, 2, 4))
        head = f"buffer b{index} {self.pages[index]} prio {priority} group {group} align {align}"
        if self.version == 1:
            lists = [",".join(self._place("") for _ in range(draw.randint(1, 4))) for _ in range(2)]
            return f"{head} want {lists[0]} busy {lists[1]}"
        places = [self._place(draw.choice(("", "", "+desired", "+fallback"))) for _ in range(draw.randint(0, 7))]
        return f"{head} place {','.join([*places, self._place(draw.choice(('', '+fallback')))])}"


class _Thread:
    """The lines of one thread."""

    def __init__(self, script: RandomScript) -> None:
        self.script = script
        self.draw = script.draw
        self.mapped: List[int] = []
        self.space: Dict[int, Tuple[int, int]] = {}

    def lines(self) -> List[str]:
        """Draws the lines, which begin by making some buffers."""
        count = len(self.script.pages)
        lines = [f"new b{index}" for index in range(count) if self.draw.random() < 0.8]
        for _ in range(self.draw.randint(0, self.script.commands)):
            lines.append(self._command(self.draw.randrange(count)))
        return lines

    def _range(self, index: int, most: int) -> Tuple[int, int]:
        """Draws an offset and a length in a buffer."""
        size = self.script.pages[index] * PAGE
        length = self.draw.randint(1, most if self.draw.random() < 0.3 else 16)
        length = min(length, size)
        return self.draw.randint(0, size - length), length

    def _bytes(self) -> str:
        """Draws a byte."""
        return f"{self.draw.randrange(256):02x}"

    def _command(self, index: int) -> str:
        """Draws a command or a mark about a buffer."""
        draw, name = self.draw, f"b{index}"
        kinds = ["new", "free", "pin", "unpin", "find", "find", "find", "swapout", "write", "read", "read", "move", "move", "touch"]
        kinds += ["submit"] * 4 if self.script.engines else []
        kinds += ["map", "peek", "poke", "vmap", "vunmap"] + (["vsubmit"] * 2 if self.script.engines else []) if self.script.version == 2 else []
        kind = draw.choice(kinds)
        if kind in ("write", "read"):
            return self._access(kind, index)
        if kind == "move":
            return f"move {name} {draw.choice(('sys', 'tt', 'vram'))}"
        if kind == "touch":
            return f"touch {draw.randrange(16)}"
        if kind == "submit":
            return f"submit {draw.randint(1, self.script.engines)} {' ; '.join(self._operation() for _ in range(draw.randint(1, 4)))}"
        if kind in ("map", "peek", "poke"):
            return self._mapping(kind, index)
        if kind in ("vmap", "vunmap", "vsubmit"):
            return self._address(kind, index)
        return f"{kind} {name}"

    def _access(self, kind: str, index: int) -> str:
        """Draws a read or a write, or a peek or a poke."""
        offset, length = self._range(index, 256)
        return f"{kind} b{index} {offset} {length if kind in ('read', 'peek') else self._bytes() * length}"

    def _operation(self) -> str:
        """Draws an operation on buffers."""
        draw, count = self.draw, len(self.script.pages)
        index, other = draw.randrange(count), draw.randrange(count)
        verb = draw.choice(("fill", "copy", "xor", "probe"))
        if verb in ("copy", "xor") and index != other:
            length = min(draw.randint(1, 2 * PAGE), self.script.pages[index] * PAGE, self.script.pages[other] * PAGE)
            offset = draw.randint(0, self.script.pages[index] * PAGE - length)
            return f"{verb} b{index} {offset} b{other} {draw.randint(0, self.script.pages[other] * PAGE - length)} {length}"
        offset, length = self._range(index, 256)
        return f"probe b{index} {offset} {length}" if verb == "probe" else f"fill b{index} {offset} {length} {self._bytes()}"

    def _mapping(self, kind: str, index: int) -> str:
        """Draws a line on mappings by the CPU, which may become another one."""
        if index not in self.mapped:
            self.mapped.append(index)
            return f"map b{index}"
        if kind == "map":
            self.mapped.remove(index)
            return f"unmap b{index}"
        return self._access(kind, index)

    def _address(self, kind: str, index: int) -> str:
        """Draws a line on the address space, which may become another one."""
        draw = self.draw
        first = draw.randrange(16)
        mapped = [page for page in self.space if kind == "vsubmit"]
        if mapped:
            page = draw.choice(mapped)
            length = draw.randint(1, 64)
            verb = draw.choice((f"fill {page * PAGE} {length} {self._bytes()}", f"probe {page * PAGE + 8} {length}"))
            return f"vsubmit {draw.randint(1, self.script.engines)} {verb}"
        if kind == "vunmap":
            pages = draw.randint(1, 6)
            for page in range(first, first + pages):
                self.space.pop(page, None)
            return f"vunmap {first} {pages}"
        offset = draw.randrange(self.script.pages[index])
        pages = draw.randint(1, self.script.pages[index] - offset)
        for page in range(first, first + pages):
            self.space[page] = (index, offset + page - first)
        return f"vmap {first} {pages} b{index} {offset}"
