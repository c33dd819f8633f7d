#!/usr/bin/env python3
"""Runs `ttm sim` on the loads of tools/measure/loads.py, each at two sizes of which the second is ten times the first.

usage: tools/measure/measure_loads.py PROGRAM [--seconds N] [--check] [NAME ...]      all loads, without names

PROGRAM is crates/ttm/out/ttm, which `./ttm --build` proves and builds, or what tools/build/build_unproved.sh writes. For each load and size stand
the entries of its work, the processor seconds that they take, entries a second, instructions an entry (counted by valgrind), and
the most memory that the run took. What only prepares a load (`--bare`) is subtracted, the start of the program too, but for
`stores`, which is about the start. Of a load whose script is refused all is counted, by the bytes of the script in place of entries.
At the second size stands how many times an entry takes the instructions that it takes at the first. Runs of more than N seconds (2)
aren't counted: then seconds stand for instructions there, marked by ~.

With --check stands what `ttm check` of the report takes beside what `sim` takes for it, both with what prepares the load, and the most
memory of each. Measure it with a proved program, or one that was built with --no-checks.
"""
import argparse
import contextlib
import os
import pathlib
import re
import subprocess
import tempfile

import loads

COUNT = "valgrind --tool=cachegrind --cache-sim=no --cachegrind-out-file=/dev/null".split()
CHECK_ROW = "{:14}{:>7}{:>9}{:>10}{:>10}{:>8}{:>8}{:>8}"
ROW = "{:14}{:>7}{:>9}{:>10}{:>11}{:>14}{:>8}{:>8}"


REFUSED = 3  # how the program ends at bytes that are no script


def run(words, script, word="sim", wanted=0):
    """Runs a program on a script: its output, processor seconds and most memory in MiB."""
    with open(script) as given, tempfile.TemporaryFile() as taken:
        child = subprocess.Popen([*words, word], stdin=given, stdout=taken, stderr=subprocess.STDOUT)
        _pid, status, used = os.wait4(child.pid, 0)
        child.returncode = os.waitstatus_to_exitcode(status)
        taken.seek(0)
        said = taken.read().decode()
    if child.returncode != wanted:
        raise SystemExit(f"{' '.join(words)} ended with {child.returncode}: {said[-200:]}")
    return said, used.ru_utime + used.ru_stime, used.ru_maxrss / 1024


def measure(program, load, is_bare, folder, most):
    """Entries, seconds, instructions (None where that would take too long) and memory of a load."""
    script = os.path.join(folder, "script")
    with open(script, "w") as it, contextlib.redirect_stdout(it):
        load.print(is_bare)
    wanted = REFUSED if load.is_refused else 0
    said, seconds, memory = run([program], script, wanted=wanted)
    entries = os.path.getsize(script) if load.is_refused else int(re.search(r"^journal (\d+)$", said, re.M)[1])
    if seconds < 0.3:
        seconds = min(seconds, *(run([program], script, wanted=wanted)[1] for _again in range(4)))
    counted = run([*COUNT, program], script, wanted=wanted)[0] if seconds <= most else ""
    found = re.search(r"I +refs: +([\d,]+)", counted)
    return entries, seconds, int(found[1].replace(",", "")) if found else None, memory


def work(program, load, folder, most):
    """The same of what a load does behind its preparation."""
    entries, seconds, count, memory = measure(program, load, False, folder, most)
    if not (load.is_start or load.is_refused):
        bare_entries, bare_seconds, bare_count, _memory = measure(program, load, True, folder, most)
        entries, seconds = entries - bare_entries, max(seconds - bare_seconds, 1e-6)
        count = count - bare_count if count and bare_count else None
    return entries, seconds, count, memory


def compare(program, load, folder):
    """Entries, and of `sim` and of the check of its report seconds and memory."""
    script, report = os.path.join(folder, "script"), os.path.join(folder, "report")
    with open(script, "w") as it, contextlib.redirect_stdout(it):
        load.print(False)
    said, *_costs = run([program], script)
    with open(report, "w") as it:
        it.write(pathlib.Path(script).read_text() + said)
    costs = [min(run([program], given, word)[1:] for _again in range(3)) for given, word in ((script, "sim"), (report, "check"))]
    return int(re.search(r"^journal (\d+)$", said, re.M)[1]), *costs


def measure_checks(program, names):
    print(CHECK_ROW.format("load", "size", "entries", "sim", "check", "times", "MiB", "MiB"))
    for name in names:
        function, least = loads.LOADS[name]
        if function(least).is_refused:
            continue
        for size in (least, 10 * least):
            with tempfile.TemporaryDirectory() as folder:
                entries, (sim, sim_memory), (check, check_memory) = compare(program, function(size), folder)
            times, memories = f"{check / sim:.2f}", (f"{sim_memory:.0f}", f"{check_memory:.0f}")
            print(CHECK_ROW.format(name, size, entries, f"{sim:.3f}", f"{check:.3f}", times, *memories), flush=True)


def main():
    parser = argparse.ArgumentParser(usage=__doc__.split("usage: ")[1])
    parser.add_argument("program")
    parser.add_argument("--seconds", type=float, default=2)
    parser.add_argument("--check", action="store_true")
    parser.add_argument("names", nargs="*", default=list(loads.LOADS))
    words = parser.parse_intermixed_args()
    if words.check:
        measure_checks(os.path.abspath(words.program), words.names)
        return
    print(ROW.format("load", "size", "entries", "seconds", "entries/s", "instr/entry", "ratio", "MiB"))
    for name in words.names:
        function, least = loads.LOADS[name]
        before = None
        for size in (least, 10 * least):
            with tempfile.TemporaryDirectory() as folder:
                entries, seconds, count, memory = work(os.path.abspath(words.program), function(size), folder, words.seconds)
            costs = count and count / entries, seconds / entries
            of_ten = "" if before is None else f"{costs[0] / before[0]:.2f}" if all((costs[0], before[0])) else f"~{costs[1] / before[1]:.1f}"
            count_word = f"{costs[0]:,.0f}" if costs[0] else "-"
            print(ROW.format(name, size, entries, f"{seconds:.3f}", f"{entries / seconds:,.0f}", count_word, of_ten, f"{memory:.0f}"), flush=True)
            before = costs


if __name__ == "__main__":
    main()
