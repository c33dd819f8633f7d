"""Draws heads and commands of random scripts."""

from __future__ import annotations

import random
from collections.abc import Callable
from dataclasses import dataclass, field

from families import Family
from scripts import PAGE

SIMPLE_LISTS = [("vram", "vram"), ("vram", "vram"), ("vram", "vram tt")]
LISTS = SIMPLE_LISTS + [
    ("vram", "tt"),
    ("tt", "tt"),
    ("vram tt", "tt"),
    ("sys", "sys"),
    ("vram", "vram sys"),
    ("tt", "vram"),
    ("vram tt", "vram tt"),
]
FLAG_LISTS = ["vram", "vram tt+fallback", "vram+desired tt", "vram+desired tt+fallback", "vram+desired vram+fallback", "tt", "tt+fallback vram"]
FLAG_LISTS += ["sys", "vram sys+fallback", "vram+desired tt sys+fallback", "tt+desired vram", "vram tt", "tt vram+fallback"]
FLAGS = ["", "", "+desired", "+fallback"]
ANY_MEMORY = ["vram"] * 8 + ["tt"] * 5 + ["sys"]
FEATURES = ("groups", "pins", "ranges", "tight", "top", "align")


@dataclass
class Drawing:
    """A script that is being drawn."""

    family: Family
    rng: random.Random
    vram: int = 0
    tt: int = 0
    frames: int = 2048
    slots: int = 0
    pages: list[int] = field(default_factory=list)  # of each buffer
    features: set[str] = field(default_factory=set)
    alive: set[int] = field(default_factory=set)
    pins: dict[int, int] = field(default_factory=dict)
    usable: list[int] = field(default_factory=list)  # what the next command may name
    lasting: set[int] = field(default_factory=set)  # what isn't freed
    is_careful: bool = False  # no command names a dead buffer

    def chance(self, p: float) -> bool:
        return self.rng.random() < p


# ---- the head ----


def draw_sizes(d: Drawing) -> None:
    rng, family = d.rng, d.family
    d.features = {name for name in FEATURES if d.chance(getattr(family, name))}
    count = rng.randint(12, 40) if family.large else rng.randint(4, 12)
    d.vram = rng.randint(20, 120) if family.large else rng.randint(3, 20)
    most = max(1, min(8, d.vram // rng.choice([1, 1, 2, 2, 3])))
    d.pages = [rng.randint(1, most) if d.chance(0.7) else 1 for _ in range(count)]
    d.usable = list(range(count))
    if d.chance(family.too_long):
        d.pages[rng.randrange(count)] = d.vram + rng.randint(0, 2)
    total = sum(d.pages)
    d.tt = rng.randint(max(2, most), max(4, most, total // 2)) if "tight" in d.features else total * 3 + 8
    if d.chance(family.tiny):
        if d.chance(0.6):
            d.tt = rng.choice([0, 1])
        else:
            d.vram = rng.choice([0, 1])
    if family.few_frames:
        d.frames = rng.randint(max(d.pages) + 1, max(max(d.pages) + 2, total * 2 // 3))
        d.slots = rng.choice([total, total, total, rng.randint(0, total // 2)])


def draw_place(d: Drawing, memory: str) -> str:
    rng = d.rng
    if memory == "sys":
        return memory
    size = d.vram if memory == "vram" else d.tt
    place = memory
    if "ranges" in d.features and d.chance(0.5):
        first = rng.randint(0, max(0, size - 1)) if d.chance(0.6) else rng.choice([0, 0, 0, 0, size, size + 3])
        end = 0 if first and d.chance(0.3) else rng.randint(first + 1, max(first + 1, size + (2 if d.chance(0.1) else 0)))
        place += f"@{first}-{end}"
    if "top" in d.features and d.chance(0.4):
        place += "+top"
    if d.chance(d.family.contig):
        place += "+contig"
    return place


def draw_flagged(d: Drawing) -> str:
    """A list of places with flags, one of which at least isn't desired alone."""
    if d.family.long_lists:
        wishes = [d.rng.choice(ANY_MEMORY) + d.rng.choice(FLAGS) for _ in range(d.rng.choice([1, 2, 3, 4, 6, 8]))]
    else:
        wishes = d.rng.choice(FLAG_LISTS[:5] if d.family.simple_lists else FLAG_LISTS).split()
    if all(wish.endswith("+desired") for wish in wishes):
        wishes[-1] = wishes[-1].replace("+desired", "")
    drawn = []
    for wish in wishes:
        memory, plus, flag = wish.partition("+")
        drawn.append(draw_place(d, memory) + plus + flag)
    return ",".join(drawn)


def draw_lists(d: Drawing) -> str:
    """The end of a buffer's line: in version 1 the places that are wanted and those under pressure, in version 2 its one list."""
    if d.family.flags:
        return f"place {draw_flagged(d)}"
    if d.family.long_lists:
        lengths = d.rng.choice([1, 1, 2, 3, 4]), d.rng.choice([1, 2, 3, 4])
        lists = [[d.rng.choice(ANY_MEMORY) for _ in range(length)] for length in lengths]
    else:
        lists = [text.split() for text in d.rng.choice(SIMPLE_LISTS if d.family.simple_lists else LISTS)]
    wanted, busy = (",".join(draw_place(d, memory) for memory in memories) for memories in lists)
    return f"want {wanted} busy {busy}"


def draw_head(d: Drawing) -> tuple[str, ...]:
    manager = "buddy" if d.family.buddy else "range"
    lines = [f"ttm {2 if d.family.flags else 1}", f"vram {manager} {d.vram}", f"tt {d.tt}", f"frames {d.frames}", f"swap {d.slots}", "engines 2"]
    has_priorities = d.chance(0.6)
    alignments = [1, 2, 4] if d.family.buddy else [1, 2, 3, 4]
    for number, pages in enumerate(d.pages):
        places = draw_lists(d)
        priority = d.rng.randint(0, 3) if has_priorities else 1
        group = str(d.rng.randint(0, 1)) if "groups" in d.features and d.chance(0.7) else "-"
        align = d.rng.choice(alignments) if "align" in d.features and d.chance(0.5) else 1
        lines.append(f"buffer b{number} {pages} prio {priority} group {group} align {align} {places}")
    return tuple(lines)


# ---- commands ----


def draw_named(d: Drawing, other: int | None = None) -> int | None:
    """A buffer that the command may name, another one than `other`."""
    choices = [x for x in d.usable if x != other and (x in d.alive or not d.is_careful)]
    return d.rng.choice(choices) if choices else None


def draw_op(d: Drawing, x: int) -> str:
    """An operation of a job, on buffer `x` or another one."""
    rng = d.rng
    a = x if d.chance(0.5) else draw_named(d)
    b = draw_named(d, a)
    if a is None:
        a = x
    size = d.pages[a] * PAGE
    kind = rng.choice(["fill", "copy", "xor", "probe", "copy"])
    if kind in ("copy", "xor") and b is not None:
        other_size = d.pages[b] * PAGE
        length = rng.randint(1, min(size, other_size, 6000))
        return f"{kind} b{a} {rng.randint(0, size - length)} b{b} {rng.randint(0, other_size - length)} {length}"
    if kind == "probe":
        length = rng.randint(1, 16)
        return f"probe b{a} {rng.randint(0, size - length)} {length}"
    length = rng.randint(1, min(size, 5000))
    return f"fill b{a} {rng.randint(0, size - length)} {length} {rng.randrange(256):02x}"


def draw_submit(d: Drawing, x: int) -> str:
    ops = [draw_op(d, x) for _ in range(d.rng.randint(1, 3))]
    return f"submit {d.rng.randint(1, 2)} " + " ; ".join(ops)


def draw_free(d: Drawing, x: int) -> str:
    if x in d.lasting:
        return f"find b{x}"
    if not d.pins.get(x):
        d.alive.discard(x)
    return f"free b{x}"


def draw_pin(d: Drawing, x: int) -> str:
    if d.chance(0.55):
        d.pins[x] = d.pins.get(x, 0) + (x in d.alive)
        return f"pin b{x}"
    d.pins[x] = max(0, d.pins.get(x, 0) - 1)
    return f"unpin b{x}"


def draw_write(d: Drawing, x: int) -> str:
    return f"write b{x} {d.rng.randint(0, d.pages[x] * PAGE - 3)} {d.rng.randrange(1 << 24):06x}"


def draw_read(d: Drawing, x: int) -> str:
    return f"read b{x} {d.rng.randint(0, d.pages[x] * PAGE - 8)} 8"


Draw = Callable[[Drawing, int], str]


def kinds_of(d: Drawing) -> list[tuple[float, Draw]]:
    """The kinds of commands with their weights."""
    kinds: list[tuple[float, Draw]] = [
        (4, draw_free),
        (36, lambda d, x: f"find b{x}"),
        (10, lambda d, x: f"move b{x} {d.rng.choice(['sys', 'tt', 'vram'])}"),
        (10, draw_write),
        (8, draw_read),
        (40 if d.family.rival else 20, draw_submit),
    ]
    if d.family.few_frames:
        kinds.append((5, lambda d, x: f"swapout b{x}"))
    if "groups" in d.features:
        kinds.append((4, lambda d, x: f"touch {d.rng.randint(0, 1)}"))
    if "pins" in d.features:
        kinds.append((9, draw_pin))
    return kinds


def draw_command(d: Drawing) -> str:
    x = d.rng.choice(d.usable)
    if x not in d.alive and (d.is_careful or d.chance(0.9)):
        d.alive.add(x)
        return f"new b{x}"
    kinds = kinds_of(d)
    (draw,) = d.rng.choices([draw for _, draw in kinds], [weight for weight, _ in kinds])
    return draw(d, x)


def draw_length(d: Drawing) -> int:
    """How many commands there are between those that make the buffers and those that read them at the end."""
    return d.rng.randint(150, 350) if d.family.large else d.rng.randint(15, 70)


def draw_first(d: Drawing, among: list[int]) -> list[str]:
    """The commands that make buffers at the beginning."""
    made = [x for x in among if d.chance(0.8)]
    d.alive.update(made)
    return [f"new b{x}" for x in made]
