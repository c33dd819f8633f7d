"""Writes shapes and labels as SVG, with every text of a script or report escaped."""

from __future__ import annotations

import re
from typing import Iterable, List, Sequence, Tuple

Point = Tuple[float, float]
# What XML 1.0 can't hold, not even escaped.
FORBIDDEN = re.compile("[^\t\n\x20-\ud7ff\ue000-\ufffd\U00010000-\U0010ffff]")
LONGEST = 160


def escaped(text: str) -> str:
    """Returns a text as XML has it; what XML can't hold becomes `?`."""
    text = FORBIDDEN.sub("?", text)
    return text.replace("&", "&amp;").replace("<", "&lt;").replace(">", "&gt;").replace('"', "&quot;")


def cut(text: str, most: int = LONGEST) -> str:
    """Returns a text of at most `most` characters, which ends in `..` where there were more."""
    return text if len(text) <= most else text[: most - 2] + ".."


def shown(value: float) -> str:
    """Returns a coordinate with at most one decimal."""
    text = f"{value:.1f}"
    return text[:-2] if text.endswith(".0") else text


NARROW, WIDE = frozenset(" .,:;'|!ijlftrI()[]-"), frozenset("mwMW%@")


def width_of(text: str, size: float = 10.0) -> float:
    """Returns about how wide a text is in letters of this size."""
    tenths = sum(3.6 if letter in NARROW else 8.9 if letter in WIDE else 6.0 for letter in text)
    return tenths * size / 10


def points(values: Iterable[Point]) -> str:
    """Returns corners as the attribute `points` has them."""
    return " ".join(f"{shown(x)},{shown(y)}" for x, y in values)


class Drawing:
    """A picture: shapes in the order in which they are put, and labels above all of them."""

    def __init__(self) -> None:
        self.shapes: List[str] = []
        self.labels: List[str] = []
        self.count = 0

    def _put(self, name: str, attributes: str, title: str) -> None:
        """Puts a shape, with a text that is shown when the pointer rests on it."""
        self.count += 1
        if title:
            self.shapes.append(f"<{name} {attributes}><title>{escaped(cut(title))}</title></{name}>\n")
        else:
            self.shapes.append(f"<{name} {attributes}/>\n")

    def open(self, name: str, kind: str = "") -> None:
        """Begins a group of shapes with this id, and a class where one is given."""
        self.shapes.append(f'<g id="{escaped(name)}"' + (f' class="{kind}">\n' if kind else ">\n"))

    def close(self) -> None:
        """Ends the last group."""
        self.shapes.append("</g>\n")

    def rect(self, kind: str, x: float, y: float, width: float, height: float, title: str = "") -> None:
        """Puts a box of a class. Boxes side by side have their edge in common also where it is rounded."""
        left, top = round(x, 1), round(y, 1)
        size = f'width="{shown(round(x + width, 1) - left)}" height="{shown(round(y + height, 1) - top)}"'
        self._put("rect", f'class="{kind}" x="{shown(left)}" y="{shown(top)}" {size}', title)

    def path(self, kind: str, path: str, title: str = "") -> None:
        """Puts a path of a class."""
        self._put("path", f'class="{kind}" d="{path}"', title)

    def polygon(self, kind: str, corners: Sequence[Point], title: str = "") -> None:
        """Puts a filled shape of a class with these corners."""
        self._put("polygon", f'class="{kind}" points="{points(corners)}"', title)

    def text(self, kind: str, x: float, y: float, text: str) -> None:
        """Puts a label of a class: `y` is its base line."""
        self.labels.append(f'<text class="{kind}" x="{shown(x)}" y="{shown(y)}">{escaped(cut(text))}</text>\n')

    def body(self) -> str:
        """Returns all shapes, and then all labels."""
        return "".join(self.shapes) + "".join(self.labels)


def document(width: float, height: float, title: str, description: str, style: str, patterns: str, body: str) -> str:
    """Returns the whole picture, with a title and a description for those who hear it read."""
    size = f'width="{shown(width)}" height="{shown(height)}" viewBox="0 0 {shown(width)} {shown(height)}"'
    return (
        f'<svg xmlns="http://www.w3.org/2000/svg" {size} role="img" aria-labelledby="title description">\n'
        f'<title id="title">{escaped(cut(title))}</title>\n<desc id="description">{escaped(cut(description, 2000))}</desc>\n'
        f"<style>\n{style}</style>\n<defs>\n{patterns}</defs>\n"
        f'<rect class="paper" width="{shown(width)}" height="{shown(height)}"/>\n{body}</svg>\n'
    )
