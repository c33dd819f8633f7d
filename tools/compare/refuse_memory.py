#!/usr/bin/env python3
"""Refuses each call for memory in turn, and each read and each write, while the program runs four scripts.

usage: tools/compare/refuse_memory.py [--program FILE] [--compare FILE] [--gen N] [--every K] [--jobs N] [--seconds N]

The scripts: a read across a page border, an eviction, jobs that cross, a swap. `ttm sim` and `ttm run` take each, and `ttm gen N` (1) runs
its own. Where memory is refused the status must be 6, with nothing or a beginning of what is due on standard output, or the status
is 0, and all is there that is due; after a failed read it is 4 and `read fault`; after a failed write 5 and a beginning. What is due is
of `sim` the stored report; of `run` what `sim` writes where the script's schedule is that run's own; of `gen` what the specification says.
Standard error must stay empty, and each run must end, within N seconds (60).

Then the program test_device takes each script with the same call refused: a turn of the device that wants memory is asked again, and
goes on, and in the end entries, bytes and accounts must be those that the definitions say, as many entries as the report has.

Of the calls for memory that `gen` makes only each K-th is refused (100): they are 10,000 to 20,000. On threads the number of calls varies, so a
call that is to be refused may not come; then status 0 is right. FILEs are a built `ttm` and `test_device`; without them
tools/build/build_unproved.sh builds them, which takes some minutes each and proves nothing. The rest takes a minute. A C compiler ($CC, or else cc)
builds tools/compare/refuse_calls.c. Each of the first twenty faults is a line; the status is 1 if there is one.
"""
import argparse
import collections
import concurrent.futures
import os
import pathlib
import re
import subprocess
import sys
import tempfile

import compare_devices
from view import comments

TOP = pathlib.Path(__file__).resolve().parent.parent.parent
EXAMPLES = ("read_crosses_a_page", "one_page_eviction", "swap_out_and_in")
TESTED = "crossing_jobs_without_schedule"  # a case of crates/test_device
KINDS = {"memory": 6, "reads": 4, "writes": 5}  # the status where such a call fails
Row = collections.namedtuple("Row", "name script report")
Ended = collections.namedtuple("Ended", "status out err")


def rows():
    """The four scripts with their stored reports."""
    for name in EXAMPLES:
        script, report = ((TOP / "examples" / (name + kind)).read_bytes() for kind in (".ttm", ".report"))
        yield Row(name, comments.plain(script).data, report)
    given, wanted = ((TOP / "crates/test_device" / it).read_bytes() for it in ("stdin", "stdout"))
    script = re.search(rb"^case %s sim\ntext\n(.*?)^end case$" % TESTED.encode(), given, re.M | re.S)[1]
    head = re.search(rb"^case %s, status 0, (\d+) bytes\n" % TESTED.encode(), wanted, re.M)
    yield Row(TESTED, script, wanted[head.end() : head.end() + int(head[1])])


class Runner:
    """Runs programs under the library that refuses calls."""

    def __init__(self, folder, seconds):
        self.folder, self.seconds = folder, seconds
        self.library = f"{folder}/refuse_calls.so"
        compiler = os.environ.get("CC", "cc")
        subprocess.run([compiler, "-O2", "-shared", "-fPIC", "-o", self.library, TOP / "tools/compare/refuse_calls.c"], check=True)

    def run(self, words, given, kind=None, number=0, counts=None):
        """Runs a program with one call refused; none, without a number."""
        env = {"LD_PRELOAD": self.library}
        if kind:
            env["REFUSE_" + {"memory": "MEMORY", "reads": "READ", "writes": "WRITE"}[kind]] = str(number)
        if counts:
            env["REFUSE_COUNTS"] = counts
        try:
            done = subprocess.run(words, input=given, capture_output=True, env=env, timeout=self.seconds, check=False)
        except subprocess.TimeoutExpired:
            return Ended("none", b"", b"")
        return Ended(done.returncode, done.stdout, done.stderr)

    def count(self, words, given):
        """How many calls of each kind a program makes where none is refused. On threads the numbers vary: the most of five runs."""
        most = dict.fromkeys(KINDS, 0)
        for _run in range(5):
            path = f"{self.folder}/counts"
            self.run(words, given, counts=path)
            said = pathlib.Path(path).read_text().split()
            most = {kind: max(most[kind], int(number)) for kind, number in zip(said[::2], said[1::2])}
        return most


def schedule_of(report):
    """Who made the entries of a report, in order, as far as whole lines tell."""
    return re.findall(rb"^\d+ (t\d+|e\d+|r) .*\n", report.split(b"\nresults\n")[0] + b"\n", re.M)


def with_schedule(script, actors):
    """A script with this schedule."""
    lines = [line for line in script.rstrip(b"\n").split(b"\n") if not line.startswith(b"schedule ")]
    turns = [b"schedule " + b" ".join(actors[at : at + 50]) for at in range(0, len(actors), 50)]
    return b"\n".join([*lines[:-1], *turns, lines[-1]]) + b"\n"


def without_count(report):
    """A report without its second line, the number of entries."""
    first, end, rest = report.partition(b"\n")
    return first + end + rest.partition(b"\n")[2]


class Sweep:
    """Refuses calls one after the other, and judges what comes of each."""

    def __init__(self, runner, words):
        self.runner, self.jobs, self.faults = runner, words.jobs, 0
        self.ttm, self.compare = words.program, words.compare

    def fault(self, what, kind, number, ended, why):
        self.faults += 1
        if self.faults <= 20:
            print(f"{what}, {kind} {number}: {why}; status {ended.status}, {ended.out[-200:]!r} {ended.err[-200:]!r}", flush=True)

    def due(self, word, row, out):
        """What a run with this output had to write, and the same as far as a beginning is compared."""
        if word != "run":
            return row.report, row.report
        wanted = self.runner.run([self.ttm, "sim"], with_schedule(row.script, schedule_of(out))).out
        return wanted, without_count(wanted)

    def is_right(self, word, row, kind, ended):
        if ended.err:
            return False
        if ended.status == KINDS["reads"]:
            return kind == "reads" and ended.out == b"read fault\n"
        whole, front = self.due(word, row, ended.out)
        if ended.status == 0:
            return ended.out == whole and kind == "memory"
        out = without_count(ended.out) if word == "run" else ended.out
        return ended.status == KINDS[kind] and front.startswith(out) and len(out) < len(front)

    def each(self, numbers, judged):
        """Judges the runs of these numbers, some at once."""
        with concurrent.futures.ThreadPoolExecutor(self.jobs) as pool:
            return collections.Counter(pool.map(judged, numbers))

    def program(self, word, row, every):
        """All calls of the program with a word and a script."""
        words = [self.ttm, *word.split()]
        counts = self.runner.count(words, row.script)
        ended = self.runner.run(words, row.script)
        if ended != Ended(0, self.due(word, row, ended.out)[0], b"") or not counts["memory"] or not counts["writes"]:
            self.fault(f"{word} {row.name}", "calls refused", 0, ended, f"wrong, or without calls ({counts})")
        for kind, most in counts.items():
            def judged(number, kind=kind):
                ended = self.runner.run(words, row.script, kind, number)
                if not self.is_right(word, row, kind, ended):
                    self.fault(f"{word} {row.name}", kind, number, ended, "wrong")
                return ended.status

            numbers = range(1, most + 1, every if kind == "memory" else 1)
            found = self.each(numbers, judged)
            told = ", ".join(f"status {status}: {count}" for status, count in sorted(found.items(), key=str))
            print(f"{word:8} {row.name:32} {kind:7} {most:6} calls, {len(numbers):6} refused; {told}", flush=True)

    def device(self, row):
        """A device goes on behind a turn that wanted memory."""
        case = compare_devices.case_of(row.name.encode(), row.script, compare_devices.scheduled(row.script))
        entries = re.search(rb"^journal (\d+)$", row.report, re.M)[1]
        agrees = re.compile(rb"%s: agree, \d+ turns, %s entries(, refused memory: 1)?\n" % (row.name.encode(), entries))
        most = self.runner.count([self.compare], case)["memory"]
        ended = self.runner.run([self.compare], case)
        if ended.status != 0 or not agrees.fullmatch(ended.out) or not most:
            self.fault(f"device {row.name}", "calls refused", 0, ended, "wrong, or without calls")

        def judged(number):
            ended = self.runner.run([self.compare], case, "memory", number)
            found = agrees.fullmatch(ended.out)
            if ended.status == 0 and found:
                return "went on" if found[1] else "not in a turn of the device"
            if ended.status not in (0, "none") and b"differ" not in ended.out:
                return "ended for want of memory"
            self.fault(f"device {row.name}", "memory", number, ended, "doesn't go on")
            return "wrong"

        found = self.each(range(1, most + 1), judged)
        print(f"device   {row.name:32} memory  {most:6} calls, {most:6} refused; {', '.join(f'{what}: {count}' for what, count in sorted(found.items()))}", flush=True)


def main():
    parser = argparse.ArgumentParser(usage=__doc__.split("usage: ")[1])
    parser.add_argument("--program")
    parser.add_argument("--compare")
    parser.add_argument("--gen", type=int, default=1)
    parser.add_argument("--every", type=int, default=100)
    parser.add_argument("--jobs", type=int, default=1)
    parser.add_argument("--seconds", type=float, default=60)
    words = parser.parse_args()
    with tempfile.TemporaryDirectory() as folder:
        for name, crate in (("program", "ttm"), ("compare", "test_device")):
            if not getattr(words, name):
                setattr(words, name, f"{folder}/{crate}")
                subprocess.run([TOP / "tools/build/build_unproved.sh", "--crate", crate, f"{folder}/{crate}"], check=True)
        sweep = Sweep(Runner(folder, words.seconds), words)
        for row in rows():
            sweep.program("sim", row, 1)
            sweep.program("run", row, 1)
        counted = b"gen %d\nthreads 3\ncommands 648\nresults 648\nmismatches 0\n" % words.gen
        sweep.program(f"gen {words.gen}", Row("", b"", counted), words.every)
        for row in rows():
            sweep.device(row)
    print("no fault" if not sweep.faults else f"{sweep.faults} faults")
    sys.exit(bool(sweep.faults))


if __name__ == "__main__":
    main()
