"""The families of random scripts: what the scripts of each have."""

from __future__ import annotations

from dataclasses import dataclass, replace


@dataclass(frozen=True)
class Family:
    """Chances are drawn once for a script, but where another word is said."""

    groups: float = 0
    pins: float = 0
    ranges: float = 0
    tight: float = 0  # TT hardly holds what is evicted
    top: float = 0
    align: float = 0
    contig: float = 0  # drawn for each place
    too_long: float = 0  # a buffer about as long as VRAM
    tiny: float = 0  # TT or VRAM of hardly a page
    long_lists: bool = False  # lists of one to four places
    simple_lists: bool = False  # VRAM, and TT in need
    few_frames: bool = False  # with slots to swap to
    large: bool = False  # more and larger buffers, and more commands
    buddy: bool = False  # VRAM by blocks
    flags: bool = False  # version 2: one list, with flags
    holders: bool = False  # threads that hold one buffer after another
    rival: bool = False  # a second thread, with buffers of its own and common ones


FAMILIES = {
    "plain": Family(simple_lists=True),
    "tight": Family(tight=1),
    "pins": Family(pins=1, tight=1),
    "ranges": Family(ranges=1, too_long=0.2),
    "groups": Family(groups=1),
    "places": Family(ranges=1, tight=1, top=0.4, contig=0.15, long_lists=True),
    "held": Family(groups=0.5, pins=0.4, ranges=0.5, tight=0.5, holders=True),
    "mixed": Family(groups=0.5, pins=0.4, ranges=0.5, tight=0.5, top=0.4, align=0.3, too_long=0.2, tiny=0.08),
    "long": Family(groups=0.5, pins=0.4, ranges=0.5, tight=0.5, top=0.4, align=0.3, large=True),
    "swap": Family(groups=0.3, pins=0.3, tight=0.3, few_frames=True),
    "buddy": Family(groups=0.3, pins=0.3, ranges=0.5, tight=0.4, top=0.5, align=0.3, contig=0.3, too_long=0.1, buddy=True),
    "two": Family(groups=0.3, pins=0.3, ranges=0.3, tight=0.6, rival=True),
    "everything": Family(groups=0.5, pins=0.3, ranges=0.4, tight=0.6, top=0.3, align=0.2, contig=0.1, few_frames=True, buddy=True, rival=True),
}
FAMILIES.update({f"flags-{name}": replace(family, flags=True) for name, family in FAMILIES.items()})
