"""Colours of buffers: forty without a repeat, which differ also for people who don't tell red from green.

Eight were chosen; the others were searched so that the least distance of two is as great as it can be, under all three kinds of sight. The
test computes the distances.
"""

from __future__ import annotations

BUFFERS = (
    "#1f77b4 #e69f00 #009e73 #d55e00 #56b4e9 #cc79a7 #e8d84a #4b3f8f #842400 #84d8c0 "
    "#48606c #6c1848 #a84818 #6cc084 #7890f0 #b4e49c #78c0c0 #b4cc6c #d8843c #48306c "
    "#6c7854 #3060b4 #fcb4fc #48486c #605490 #7878d8 #906c84 #783c48 #780c24 #d86c78 "
    "#903c24 #00d8e4 #848448 #30a8c0 #e49c60 #fc9c9c #6090cc #84609c #3c6c48 #3c9c9c"
).split()
INK = "#1c2530"
PAPER = "#ffffff"
FREE = "#f4f5f7"
LIVE = "#5f8fbf"
GHOST = "#8a8f98"
WAIT = "#b4540a"
PALE = "#ffe2c2"
WARM = "#f0ad6e"
BUSY = "#3d4a5c"


def of_buffer(index: int) -> str:
    """Returns the colour of a buffer by its index from 0; from the forty-first on colours come again, with a pattern of `round_of`."""
    return BUFFERS[index % len(BUFFERS)]


def round_of(index: int) -> int:
    """Returns how often the colour of a buffer came before it."""
    return index // len(BUFFERS)


def parts(colour: str) -> "tuple[int, int, int]":
    """Returns red, green and blue of a colour, from 0 to 255."""
    return int(colour[1:3], 16), int(colour[3:5], 16), int(colour[5:7], 16)


def luminance(colour: str) -> float:
    """Returns how light a colour is, from 0 to 1, as contrast is reckoned with it."""
    red, green, blue = (linear(part) for part in parts(colour))
    return 0.2126 * red + 0.7152 * green + 0.0722 * blue


def linear(part: int) -> float:
    """Returns the light of a part of a colour that is written as a number from 0 to 255."""
    share = part / 255
    return share / 12.92 if share <= 0.04045 else ((share + 0.055) / 1.055) ** 2.4


def contrast(one: str, other: str) -> float:
    """Returns the contrast of two colours, from 1 to 21."""
    lesser, greater = sorted((luminance(one), luminance(other)))
    return (greater + 0.05) / (lesser + 0.05)


def letters_on(colour: str) -> str:
    """Returns the colour of letters that are read best on a colour."""
    return max(INK, PAPER, key=lambda letters: contrast(letters, colour))
