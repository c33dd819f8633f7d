#!/usr/bin/env python3
"""Compares the program with another executable model, script by script.

usage: tools/compare/compare.py ORACLE COUNT [FIRST_SEED] [--program FILE]

ORACLE (tools/definitions/model.py, which runs the definitions, is one) is a program with the words `random SEED [--v2]` (prints a valid script), `mangle SEED` (breaks the script on its
standard input) and `sim` (runs a script as this program does). For each seed a script of each version, and the same
broken, go through `sim` of the program and of ORACLE; status and every byte of the output must agree. The first difference is
printed and ends the comparison with status 1. FILE is a built program; without it that is the one which `./ttm` runs, built unproved where there
is none.
"""
import argparse
import pathlib
import subprocess
import sys

TTM = pathlib.Path(__file__).resolve().parent.parent.parent / "ttm"


def run(words, text=b""):
    done = subprocess.run(words, input=text, stdout=subprocess.PIPE, stderr=subprocess.PIPE, check=False)
    return done.returncode, done.stdout


def scripts_of(oracle, seed):
    for flags in ([], ["--v2"]):
        _, text = run([oracle, "random", str(seed), *flags])
        yield text
        _, broken = run([oracle, "mangle", str(seed)], text)
        yield broken


def main():
    parser = argparse.ArgumentParser(usage=__doc__.split("usage: ")[1].split("\n")[0])
    parser.add_argument("oracle")
    parser.add_argument("count", type=int)
    parser.add_argument("first", type=int, nargs="?", default=1)
    parser.add_argument("--program", default="")
    asked = parser.parse_args()
    asked.program = asked.program or subprocess.check_output([TTM, "--program"], text=True).strip()
    agreed = 0
    seed = asked.first
    statuses = {}
    while agreed < asked.count:
        for text in scripts_of(asked.oracle, seed):
            ours, theirs = run([asked.program, "sim"], text), run([asked.oracle, "sim"], text)
            if ours != theirs:
                sys.stdout.buffer.write(b"--- script of seed %d\n" % seed + text)
                sys.stdout.buffer.write(b"--- ttm, status %d\n" % ours[0] + ours[1])
                sys.stdout.buffer.write(b"--- oracle, status %d\n" % theirs[0] + theirs[1])
                sys.exit(1)
            agreed += 1
            statuses[ours[0]] = statuses.get(ours[0], 0) + 1
        seed += 1
    print(f"{agreed} scripts agree; statuses {dict(sorted(statuses.items()))}")


if __name__ == "__main__":
    main()
