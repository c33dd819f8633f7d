#!/usr/bin/env python3
"""Counts the modules of libraries that the check of each crate loads, by what `rt ci` printed.

usage: tools/measure/loaded_modules.py OUTPUT [CRATE]

OUTPUT is what `rt ci` printed. A row for each crate, the most first: how many modules its statements lead to, and the three libraries that most of
them are of; with CRATE all libraries of that crate. A `pub` method of a library's type is some fourteen of them, in private modules too.
"""
import collections
import re
import sys


def loaded(text):
    """The modules by crate and library."""
    crate, found = "", collections.defaultdict(dict)
    for line in text.splitlines():
        if head := re.match(r"== (\w+)$", line):
            crate = head[1]
        elif row := re.match(r"statements (\w+): modules loaded=(\d+)", line):
            found[crate][row[1]] = int(row[2])
    return found


def main():
    if len(sys.argv) not in (2, 3):
        sys.exit(__doc__)
    with open(sys.argv[1]) as output:
        found = loaded(output.read())
    most = 3
    if len(sys.argv) == 3:
        found, most = {sys.argv[2]: found[sys.argv[2]]}, None
    for crate, rows in sorted(found.items(), key=lambda it: -sum(it[1].values())):
        first = sorted(rows.items(), key=lambda it: -it[1])[:most]
        print(f"{sum(rows.values()):7} {crate:24}", ", ".join(f"{name} {number}" for name, number in first if number))


if __name__ == "__main__":
    main()
