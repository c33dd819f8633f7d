"""Colours of buffers are told apart with and without a sense for red and green."""

import math
import unittest
from itertools import combinations
from typing import Sequence, Tuple

from view import colours

Triple = Tuple[float, float, float]
Rows = Sequence[Triple]
# How light looks without the cones for long waves, and without those for middle waves, by Machado, Oliveira and Fernandes, 2009.
PROTANOPIA: Rows = ((0.152286, 1.052583, -0.204868), (0.114503, 0.786281, 0.099216), (-0.003882, -0.048116, 1.051998))
DEUTERANOPIA: Rows = ((0.367322, 0.860646, -0.227968), (0.280085, 0.672501, 0.047413), (-0.011820, 0.042940, 0.968881))
ALL_CONES: Rows = ((1, 0, 0), (0, 1, 0), (0, 0, 1))
# From linear light to the cones of Oklab, and from their cube roots to lightness and two axes of colour, by Ottosson, 2020.
CONES: Rows = (
    (0.4122214708, 0.5363325363, 0.0514459929),
    (0.2119034982, 0.6806995451, 0.1073969566),
    (0.0883024619, 0.2817188376, 0.6299787005),
)
AXES: Rows = (
    (0.2104542553, 0.7936177850, -0.0040720468),
    (1.9779984951, -2.4285922050, 0.4505937099),
    (0.0259040371, 0.7827717662, -0.8086757660),
)
# The least difference in Oklab that is seen at all is about 0.02.
LEAST, LEAST_OF_EIGHT, LEAST_TO_FREE = 0.047, 0.075, 0.12


def times(rows: Rows, values: Triple) -> Triple:
    a, b, c = (sum(x * y for x, y in zip(row, values)) for row in rows)
    return a, b, c


def seen(colour: str, sight: Rows) -> Triple:
    """Returns a colour in Oklab as it looks to a kind of sight."""
    red, green, blue = (colours.linear(part) for part in colours.parts(colour))
    light = times(sight, (red, green, blue))
    long, middle, short = times(CONES, tuple(min(1.0, max(0.0, part)) for part in light))  # type: ignore[arg-type]
    return times(AXES, (long ** (1 / 3), middle ** (1 / 3), short ** (1 / 3)))


def distance(one: str, other: str) -> float:
    """Returns the least distance of two colours under the three kinds of sight."""
    return min(math.dist(seen(one, sight), seen(other, sight)) for sight in (ALL_CONES, PROTANOPIA, DEUTERANOPIA))


class Colours(unittest.TestCase):
    def test_sight_without_red_and_green_is_simulated(self) -> None:
        red, green = "#c04000", "#508000"
        for sight in (PROTANOPIA, DEUTERANOPIA):
            self.assertLess(math.dist(seen(red, sight), seen(green, sight)), 0.5 * math.dist(seen(red, ALL_CONES), seen(green, ALL_CONES)))

    def test_forty_colours_are_told_apart(self) -> None:
        self.assertEqual(len(set(colours.BUFFERS)), 40)
        for one, other in combinations(colours.BUFFERS, 2):
            self.assertGreaterEqual(distance(one, other), LEAST, f"{one} and {other}")

    def test_the_first_eight_are_told_apart_at_once(self) -> None:
        for one, other in combinations(colours.BUFFERS[:8], 2):
            self.assertGreaterEqual(distance(one, other), LEAST_OF_EIGHT, f"{one} and {other}")

    def test_no_colour_is_taken_for_free_pages(self) -> None:
        for one in colours.BUFFERS:
            self.assertGreaterEqual(distance(one, colours.FREE), LEAST_TO_FREE, one)

    def test_names_are_read_on_each_colour(self) -> None:
        for one in colours.BUFFERS:
            self.assertGreaterEqual(colours.contrast(one, colours.letters_on(one)), 3.8, one)

    def test_each_buffer_has_its_own_colour_and_pattern(self) -> None:
        looks = {(colours.of_buffer(index), colours.round_of(index)) for index in range(256)}
        self.assertEqual(len(looks), 256)


if __name__ == "__main__":
    unittest.main()
