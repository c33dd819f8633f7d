#!/usr/bin/env python3
"""Tells which functions the check of a crate spent its time on, while it runs or once it has left its folder.

usage: tools/measure/proof_times.py FOLDER [N]

FOLDER is where a check by rattle keeps what it has proved: /tmp/rattle-logic-built-locked-PID-0 while process PID runs (under `rt ci` too), or the folder
`seed` of /tmp/rt-edits-*. A check at one job writes its modules one behind the other, so the time between two files is what the second took. Prints the
N functions (40) that took most, in seconds of wall clock, and the sum.
"""
import collections
import pathlib
import sys


def main():
    if len(sys.argv) not in (2, 3):
        sys.exit(__doc__)
    most = int(sys.argv[2]) if len(sys.argv) == 3 else 40
    files = [it for it in pathlib.Path(sys.argv[1]).rglob("Rattle-*.oantt")]
    # (what is a link to a library's module was there before)
    times = sorted((it.lstat().st_mtime, it.stem) for it in files if not it.is_symlink())
    spent = collections.Counter()
    for (before, _), (at, module) in zip(times, times[1:]):
        spent[module.removeprefix("Rattle-").rpartition(".")[0]] += at - before
    for function, seconds in spent.most_common(most):
        print(f"{seconds:7.1f} {function}")
    print(f"{sum(spent.values()):7.1f} in all, {len(times)} modules")


if __name__ == "__main__":
    main()
