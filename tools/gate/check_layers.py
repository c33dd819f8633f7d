#!/usr/bin/env python3
"""Checks that the modules of `laws` use only modules that come before them in the order that crates/laws/README.md states.

usage: tools/gate/check_layers.py [TOP]

The order is the numbered list below the heading `Layers`: a layer a row, its modules in backquotes, each once. A file of specs/ or proofs/ may name
its own module and those before it. Each fault is a line `file: what`; the exit status is 1 if there is one.
"""
from __future__ import annotations

import pathlib
import re
import sys
from typing import Dict, Iterator, List

CRATE = pathlib.Path("crates/laws")
USED = re.compile(r"\bRattle\.laws\.(?:specs|proofs)\.([a-z_]+)")


def stated_order(page: str) -> List[str]:
    """Returns the modules in the order of the rows below the heading `Layers`."""
    section = re.search(r"^## Layers\n(.*?)(?=^## |\Z)", page, re.M | re.S)
    rows = re.findall(r"^\d+\. .*(?:\n {3}.*)*", section[1] if section else "", re.M)
    return [name for row in rows for name in re.findall(r"`([a-z_]+)`", row)]


def module_of(path: pathlib.Path) -> str:
    """Returns the module in which a file of specs/ or proofs/ is."""
    return re.sub(r"\.antt$", "", path.parts[1])


def faults(top: pathlib.Path) -> Iterator[str]:
    """Yields a line for each module that the order lacks or has twice, and for each use of a later module."""
    crate = top / CRATE
    order = stated_order((crate / "README.md").read_text())
    place: Dict[str, int] = {name: at for at, name in enumerate(order)}
    modules = {path.stem for path in (crate / "src").glob("*.rt")} - {"lib"}
    for name in sorted(modules ^ set(order)):
        yield f"{CRATE}/README.md: {name} is " + ("in no layer" if name in modules else "no module")
    for name in sorted(name for name in set(order) if order.count(name) > 1):
        yield f"{CRATE}/README.md: {name} is in the layers twice"
    for path in sorted([*crate.glob("specs/**/*.antt"), *crate.glob("proofs/**/*.antt")]):
        own = module_of(path.relative_to(crate))
        for used in sorted(set(USED.findall(path.read_text()))):
            if own in place and used in place and place[own] < place[used]:
                yield f"{path.relative_to(top)}: uses {used}, which comes after {own}"


def main() -> int:
    top = pathlib.Path(sys.argv[1]) if len(sys.argv) > 1 else pathlib.Path(__file__).resolve().parent.parent.parent
    found = list(faults(top))
    print("\n".join(found) if found else "layers: each module of laws uses only those before it")
    return 1 if found else 0


if __name__ == "__main__":
    sys.exit(main())
