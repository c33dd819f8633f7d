"""Lists of places in buffer lines."""

from __future__ import annotations

from typing import List, Optional, Tuple

from .limits import MANAGER_PAGES
from .line_words import Words, is_plain, not_plain, short
from .script import MEMORY_TYPES, SYSTEM, Place

FORM = "sys, tt or vram, then @F-L, +top and +contig as wanted, in this order"
FORM_TWO = FORM + ", and last +desired or +fallback"


def read_list(line: Words, index: int, version: int) -> List[Place]:
    """Reads the list of places that is word number `index` of a line; what is wrong is noted in `line`."""
    places: List[Place] = []
    start = 0
    words = line.words[index].split(",")
    most = 4 if version == 1 else 8
    for number, word in enumerate(words):
        if number == most:
            line.fault(7, index, f"the list has {len(words)} places", f"a list of at most {most} places", start)
        place = _place(line, index, start, word, version)
        if place is not None:
            places.append(place)
        start += len(word) + 1
    if version == 2 and len(places) == len(words) and all(place.desired for place in places):
        line.fault(7, index, "all places of the list are +desired", "at least one place that may be tried under pressure, without +desired")
    return places


def _place(line: Words, index: int, start: int, word: str, version: int) -> Optional[Place]:
    """Reads one place."""
    base, *flags = word.split("+")
    memory, at, reach = base.partition("@")
    form = FORM if version == 1 else FORM_TWO
    if memory not in MEMORY_TYPES:
        cause = f"`{short(memory)}` is no memory type" if memory else "a place is missing"
        line.fault(7, index, cause, form, start, max(len(memory), 1))
        return None
    place = _flags(line, index, start + len(base) + 1, flags, version)
    if place is None:
        return None
    if not at:
        return place._replace(memory=memory)
    limits = _reach(line, index, start + len(memory), memory, reach)
    return None if limits is None else place._replace(memory=memory, first=limits[0], last=limits[1])


def _flags(line: Words, index: int, start: int, flags: List[str], version: int) -> Optional[Place]:
    """Reads the flags of a place, which stand in their order, each once."""
    order = ["top", "contig"] if version == 1 else ["top", "contig", "desired", "fallback"]
    given = {}
    left = list(order)
    for flag in flags:
        if flag not in left:
            cause = f"`+{short(flag)}` may not stand here" if flag in order else f"`+{short(flag)}` is no flag of a place in version {version}"
            line.fault(7, index, cause, FORM if version == 1 else FORM_TWO, start - 1, len(flag) + 1)
            return None
        del left[: left.index(flag) + 1]
        if flag == "desired":
            left = []
        given[flag] = True
        start += len(flag) + 1
    return Place("", 0, 0, **given)


def _reach(line: Words, index: int, start: int, memory: str, reach: str) -> Optional[Tuple[int, int]]:
    """Reads what follows the `@` of a place."""
    if memory == SYSTEM:
        line.fault(7, index, "sys has no pages to choose from", "sys without @F-L", start, len(reach) + 1)
        return None
    ends = reach.split("-")
    if len(ends) != 2 or not ends[0] or not ends[1]:
        right = "@F-L with two numbers, the first page and the one after the last"
        line.fault(7, index, f"`@{short(reach)}` isn't a span of pages", right, start, len(reach) + 1)
        return None
    values: List[int] = []
    at = start + 1
    for word in ends:
        if not is_plain(word) or len(word) > 12 or int(word) > MANAGER_PAGES:
            cause = f"the page {short(word)} is out of range" if is_plain(word) else not_plain("the page", word)
            line.fault(5, index, cause, f"a number from 0 to {MANAGER_PAGES}", at, len(word))
            return None
        values.append(int(word))
        at += len(word) + 1
    first, last = values
    if first < last or (last == 0 and first != 0):
        return first, last
    right = "@F-L with L greater than F, or L 0 for the manager's size; for all pages no @"
    line.fault(7, index, f"the span {first}-{last} has no pages", right, start, len(reach) + 1)
    return None
