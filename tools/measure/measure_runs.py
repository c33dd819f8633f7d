#!/usr/bin/env python3
"""Runs `ttm run` and `ttm sim` in turn on loads of tools/measure/loads.py, and compares what they take, on 1, 2 and 4 processors.

usage: tools/measure/measure_runs.py PROGRAM [--times N] [--processors N ..] [NAME ...]      all loads, without names

PROGRAM is as for tools/measure/measure_loads.py, and so are the loads, each at the greater of its sizes. For each number of processors stand the entries of
`sim` and of `run`, how often threads of `run` slept, and the medians of N pairs (5): seconds of `run` for those of `sim`, by the clock and by the
processors, and the latter for an entry. Each pair is run at once, so that other programs slow down both; but where they keep processors
from threads that were woken, little is seen of what it takes to change from one to another. It needs `taskset`.
"""
import argparse
import contextlib
import os
import re
import statistics
import subprocess
import tempfile
import time

import loads

ROW = "{:14}{:>11}{:>10}{:>10}{:>8}{:>8}{:>11}{:>10}"


def run(program, word, script, processors):
    """Runs a program on a script: entries, seconds by the clock and by the processors, and how often it slept."""
    words = ["taskset", "-c", f"0-{processors - 1}", program, word]
    with open(script) as given, tempfile.TemporaryFile() as taken:
        begin = time.monotonic()
        child = subprocess.Popen(words, stdin=given, stdout=taken)
        _pid, status, used = os.wait4(child.pid, 0)
        child.returncode = os.waitstatus_to_exitcode(status)
        seconds = time.monotonic() - begin
        taken.seek(0)
        said = taken.read().decode()
    if child.returncode:
        raise SystemExit(f"{program} {word} ended with {child.returncode}: {said[-200:]}")
    entries = int(re.search(r"^journal (\d+)$", said, re.M)[1])
    return entries, seconds, used.ru_utime + used.ru_stime, used.ru_nvcsw


def compare(program, script, processors, times):
    """Entries of both, sleeps, and the ratios."""
    pairs = [[run(program, word, script, processors) for word in ("sim", "run")] for _time in range(times)]
    middle = lambda of: statistics.median(of(sim, other) for sim, other in pairs)
    return (
        pairs[0][0][0],
        int(middle(lambda sim, other: other[0])),
        int(middle(lambda sim, other: other[3])),
        middle(lambda sim, other: other[1] / sim[1]),
        middle(lambda sim, other: other[2] / sim[2]),
        middle(lambda sim, other: other[2] / other[0] * sim[0] / sim[2]),
    )


def main():
    parser = argparse.ArgumentParser(usage=__doc__.split("usage: ")[1])
    parser.add_argument("program")
    parser.add_argument("--times", type=int, default=5)
    parser.add_argument("--processors", type=int, nargs="+", default=[1, 2, 4])
    parser.add_argument("names", nargs="*", default=list(loads.LOADS))
    words = parser.parse_intermixed_args()
    print(ROW.format("load", "processors", "sim", "run", "slept", "clock", "processor", "an entry"))
    for name in words.names:
        function, least = loads.LOADS[name]
        with tempfile.TemporaryDirectory() as folder:
            script = os.path.join(folder, "script")
            with open(script, "w") as it, contextlib.redirect_stdout(it):
                function(10 * least).print(is_bare=False)
            for processors in words.processors:
                found = compare(os.path.abspath(words.program), script, processors, words.times)
                ratios = (f"{ratio:.2f}" for ratio in found[3:])
                print(ROW.format(name, processors, *found[:3], *ratios), flush=True)


if __name__ == "__main__":
    main()
