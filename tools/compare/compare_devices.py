#!/usr/bin/env python3
"""Runs the device on its parts and the device by the definitions side by side on random scripts, and compares them turn by turn.

usage: tools/compare/compare_devices.py ORACLE [--program FILE] [--scripts N] [--interleavings N] [--seed N]

ORACLE (tools/definitions/model.py is one) is a program with the words `random SEED [--v2]`, which prints a valid script.
On N scripts (2,000) of each version the turns are those of the script's schedule and then the simulator's own; N times
(500) they are those of actors drawn at random, until about all is done, and then the simulator's own. The program test_device takes
them on both devices and compares the answer of each turn, the entry, whether all is over and how far each context is; and at the end all
entries, all bytes of VRAM, frames and slots, the accounts, and what parts tell that were given the plain device's entries. The first case
that differs is printed, with its line, and ends the comparison with status 1.

FILE is a built test_device; without it tools/build/build_unproved.sh builds one, which takes some minutes and proves nothing.
"""
import argparse
import concurrent.futures
import pathlib
import random
import re
import subprocess
import sys
import tempfile

TOP = pathlib.Path(__file__).resolve().parent.parent.parent
BATCH = 200  # how many cases go through one run of the program
AGREES = re.compile(rb"(\S+): agree, (\d+) turns, (\d+) entries\n")


def script_of(oracle, version, seed):
    """A random script."""
    words = [oracle, "random", str(seed), *["--v2"] * (version == 2)]
    return subprocess.run(words, stdout=subprocess.PIPE, check=True).stdout


def scheduled(text):
    """The actors of the schedule lines, in order."""
    lines = (line.split() for line in text.split(b"\n"))
    return [who for line in lines if line[:1] == [b"schedule"] for who in line[1:]]


def actors_of(text):
    """All actors of a script: its threads, the move engine and the others, the reaper."""
    threads = text.split(b"\n").count(b"thread")
    engines = int(re.search(rb"^engines (\d+)$", text, re.M)[1])
    return [b"t%d" % (i + 1) for i in range(threads)] + [b"e%d" % i for i in range(engines + 1)] + [b"r"]


def drawn(text, entries, seed):
    """Actors at random, several for each entry, some oftener than others, so that who is blocked is asked too."""
    source = random.Random(seed)
    actors = actors_of(text)
    weights = [source.choice((1, 1, 2, 8)) for _who in actors]
    return source.choices(actors, weights, k=4 * entries + 40)


def case_of(name, text, steps):
    """A case of the table that the program reads."""
    lines = [b"steps " + b" ".join(steps[at : at + 1000]) for at in range(0, len(steps), 1000)]
    return b"\n".join([b"case " + name, b"compare at the end", *lines, b"to the end", b"text", text.rstrip(b"\n"), b"end case"]) + b"\n"


def run(program, cases):
    """Runs cases, of which each is a name, a script and steps: turns and entries of each, in order."""
    table = b"".join(case_of(*case) for case in cases)
    done = subprocess.run([program], input=table, stdout=subprocess.PIPE, check=False)
    lines = done.stdout.splitlines(keepends=True)
    for case, line in zip(cases, [*lines, *[b"no line, status %d\n" % done.returncode] * (len(cases) - len(lines))]):
        found = AGREES.fullmatch(line)
        if not found or found[1] != case[0]:
            sys.stdout.buffer.write(line + case_of(*case))
            sys.exit(1)
        yield int(found[2]), int(found[3])


def compare(program, cases):
    """Runs cases in batches: their turns and entries."""
    cases = iter(cases)
    while batch := [case for _i, case in zip(range(BATCH), cases)]:
        yield from run(program, batch)


def scripts(oracle, version, count, seed):
    """So many random scripts, each with its name."""
    with concurrent.futures.ThreadPoolExecutor() as pool:
        seeds = range(seed, seed + count)
        for at, text in zip(seeds, pool.map(lambda at: script_of(oracle, version, at), seeds)):
            yield b"v%d_%d" % (version, at), text


def said(what, found):
    turns, entries = sum(it[0] for it in found), sum(it[1] for it in found)
    print(f"{len(found):,} {what} agree: {turns:,} turns, {entries:,} entries, {turns - entries:,} turns without one", flush=True)


def main():
    parser = argparse.ArgumentParser(usage=__doc__.split("usage: ")[1])
    parser.add_argument("oracle")
    parser.add_argument("--program")
    parser.add_argument("--scripts", type=int, default=2000)
    parser.add_argument("--interleavings", type=int, default=500)
    parser.add_argument("--seed", type=int, default=1)
    words = parser.parse_args()
    with tempfile.TemporaryDirectory() as folder:
        program = words.program or f"{folder}/test_device"
        if not words.program:
            subprocess.run([TOP / "tools/build/build_unproved.sh", "--crate", "test_device", program], check=True)
        kept = []
        for version in (1, 2):
            cases = [(name, text, scheduled(text)) for name, text in scripts(words.oracle, version, words.scripts, words.seed)]
            found = list(compare(program, cases))
            said(f"scripts of version {version}", found)
            kept += [(name, text, entries) for (name, text, _steps), (_turns, entries) in zip(cases, found)]
        source = random.Random(words.seed)
        kept = [case for case in kept if len(actors_of(case[1])) > 3 and case[2] > 20] or kept
        cases = []
        for i in range(words.interleavings):
            name, text, entries = source.choice(kept)
            cases.append((b"%s_drawn_%d" % (name, i), text, drawn(text, entries, i)))
        said("random interleavings", list(compare(program, cases)))


if __name__ == "__main__":
    main()
