"""Breaks scripts at random, for tests that compare two readers."""

from __future__ import annotations

import random
from typing import Callable, List

WORDS = (
    "a b c r t1 t2 t17 e0 e1 e9 ; sys tt vram vram,tt vram@0-1 vram@1-0 vram@0-0 vram@4-2 tt+top tt+contig+top vram+desired tt+fallback "
    "sys@0-1 vram@00-1 vram@1-16385 0 1 2 3 4 7 8 15 16 255 256 257 4095 4096 4097 8191 8192 16384 16385 32768 65536 1048575 1048576 16777216 "
    "16777217 4294967295 4294967296 01 -1 x 00 ff 0g FF 000 - want busy place prio group align fill copy xor probe range buddy"
).split()
LINES = (
    "thread|end|schedule t1 e0 r|schedule t9|new a|new b|find b|map a|map b|unmap a|peek a 0 1|poke a 0 00|vmap 0 1 a 0|vmap 1048575 1 a 0|"
    "vunmap 0 1|vsubmit 1 fill 0 1 00|vsubmit 1 copy 0 4096 8|submit 1 fill a 0 1 00 ; probe a 0 1|read a 0 1|write a 0 00|touch 1|move a tt|pin a|ttm 2|tt 1"
).split("|")


class Mutations:
    """Draws broken scripts from a seed."""

    def __init__(self, seed: int) -> None:
        self.draw = random.Random(seed)
        self.kinds: List[Callable[[List[str], int], None]] = [
            self.word, self.word, self.word, self.word, self.drop_word, self.add_word, self.drop_line, self.twice, self.swap, self.line,
            self.character,
        ]  # fmt: skip

    def broken(self, script: bytes) -> bytes:
        """Returns a script with one to three changes, and at times without its end."""
        lines = script.decode("latin-1").split("\n")
        for _ in range(self.draw.choice((1, 1, 1, 2, 3))):
            self.draw.choice(self.kinds)(lines, self.draw.randrange(len(lines)))
        text = "\n".join(lines)
        if self.draw.random() < 0.05:
            text = text[: self.draw.randrange(len(text) + 1)]
        return text.encode("latin-1")

    def word(self, lines: List[str], at: int) -> None:
        """Puts another word in the place of one."""
        words = lines[at].split(" ")
        words[self.draw.randrange(len(words))] = self.draw.choice(WORDS)
        lines[at] = " ".join(words)

    def drop_word(self, lines: List[str], at: int) -> None:
        """Drops a word."""
        words = lines[at].split(" ")
        del words[self.draw.randrange(len(words))]
        lines[at] = " ".join(words)

    def add_word(self, lines: List[str], at: int) -> None:
        """Adds a word, or a space."""
        words = lines[at].split(" ")
        words.insert(self.draw.randrange(len(words) + 1), self.draw.choice([*WORDS, ""]))
        lines[at] = " ".join(words)

    def drop_line(self, lines: List[str], at: int) -> None:
        """Drops a line."""
        del lines[at]
        if not lines:
            lines.append("")

    def twice(self, lines: List[str], at: int) -> None:
        """Doubles a line."""
        lines.insert(at, lines[at])

    def swap(self, lines: List[str], at: int) -> None:
        """Swaps two lines."""
        other = self.draw.randrange(len(lines))
        lines[at], lines[other] = lines[other], lines[at]

    def line(self, lines: List[str], at: int) -> None:
        """Adds a line."""
        lines.insert(at, self.draw.choice(LINES))

    def character(self, lines: List[str], at: int) -> None:
        """Puts another byte in the place of one, or adds one."""
        text = lines[at]
        place = self.draw.randrange(len(text) + 1)
        lines[at] = text[:place] + self.draw.choice("09azAZ ;-+@,.\t\x7f\xe9") + text[place + self.draw.randrange(2) :]
