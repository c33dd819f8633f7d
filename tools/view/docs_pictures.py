#!/usr/bin/env python3
"""Compares the pictures in docs/pictures with what `picture` draws of the examples of these names.

usage: tools/view/docs_pictures.py            a line for each picture that differs; the status is 1 if there is one
       tools/view/docs_pictures.py --write    writes the pictures; look at them
"""

from __future__ import annotations

import sys
from pathlib import Path
from typing import List

if __package__ in (None, ""):
    sys.path.insert(0, str(Path(__file__).resolve().parent.parent))
    from view import picture, report  # type: ignore[no-redef]
else:
    from . import picture, report

TOP = Path(__file__).resolve().parent.parent.parent


def drawn(name: str) -> str:
    """Returns the picture of an example."""
    paths = [str(TOP / "examples" / f"{name}.{kind}") for kind in ("ttm", "report")]
    return picture.picture(report.load(paths), picture.read_words(paths))


def main(args: List[str]) -> int:
    """Compares the pictures, or writes them."""
    status = 0
    for path in sorted((TOP / "docs" / "pictures").glob("*.svg")):
        svg = drawn(path.stem)
        if args == ["--write"]:
            path.write_text(svg, encoding="utf-8")
        elif path.read_text(encoding="utf-8") != svg:
            print(f"pictures: docs/pictures/{path.name} isn't what is drawn of examples/{path.stem}; write it by tools/view/docs_pictures.py --write")
            status = 1
    return status


if __name__ == "__main__":
    sys.exit(main(sys.argv[1:]))
