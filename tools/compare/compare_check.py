#!/usr/bin/env python3
"""Compares the program's verdicts on reports with another executable model's, report by report.

usage: tools/compare/compare_check.py ORACLE COUNT [FIRST_SEED] [--edits N] [--program FILE]

ORACLE (tools/definitions/model.py, which runs the definitions, is one) is a program with the words `random SEED [--v2]` (prints a valid script), `play SEED` (the report of a random interleaving of
the script on its standard input) and `check` (judges a script with a report behind it, as this program does). For each seed and each
version of scripts, the reports of `sim`, of `run` and of `play` must be valid, and N random edits of each (20 where none is named)
must get the same verdict from both, status and every byte: a byte changed, taken out or put in, a line less, a line twice, two lines
that stand beside each other swapped, a number one higher, another actor. The first difference is printed and ends the comparison with
status 1. FILE is a built program; without it that is the one which `./ttm` runs, built unproved where there is none.
"""
import argparse
import collections
import pathlib
import random
import re
import subprocess
import sys

TTM = pathlib.Path(__file__).resolve().parent.parent.parent / "ttm"


def run(words, text=b""):
    done = subprocess.run(words, input=text, stdout=subprocess.PIPE, stderr=subprocess.PIPE, check=False)
    return done.returncode, done.stdout


# ---- edits: each takes a text that isn't empty and gives another

def byte_changed(rng, text):
    at = rng.randrange(len(text))
    return text[:at] + bytes([rng.choice(b"0123456789abcdefrt -,:\n\xff")]) + text[at + 1:]


def byte_less(rng, text):
    at = rng.randrange(len(text))
    return text[:at] + text[at + 1:]


def byte_more(rng, text):
    at = rng.randrange(len(text) + 1)
    return text[:at] + bytes([rng.choice(b"019af -,:\n")]) + text[at:]


def by_lines(change):
    def changed(rng, text):
        lines = text.splitlines(keepends=True)
        change(rng, lines)
        return b"".join(lines)
    return changed


@by_lines
def line_less(rng, lines):
    del lines[rng.randrange(len(lines))]


@by_lines
def line_twice(rng, lines):
    at = rng.randrange(len(lines))
    lines.insert(at, lines[at])


@by_lines
def lines_swapped(rng, lines):
    if len(lines) > 1:
        at = rng.randrange(len(lines) - 1)
        lines[at], lines[at + 1] = lines[at + 1], lines[at]


def at_one_of(rng, text, pattern, change):
    found = list(re.finditer(pattern, text))
    if not found:
        return text
    place = rng.choice(found)
    return text[:place.start()] + change(place[0]) + text[place.end():]


def number_higher(rng, text):
    return at_one_of(rng, text, rb"(?<![0-9a-z])[0-9]+", lambda word: b"%d" % (int(word) + 1))


def count_other(rng, text):
    step = rng.choice((-1, 1, 2))
    return at_one_of(rng, text, rb"(?<=\njournal )[0-9]+", lambda word: b"%d" % max(0, int(word) + step))


def other_actor(rng, text):
    actors = re.findall(rb"(?<=[0-9] )(?:t[0-9]+|e[0-9]+|r)(?= )", text) + [b"t1", b"e1", b"r"]
    return at_one_of(rng, text, rb"(?<=[0-9] )(?:t[0-9]+|e[0-9]+|r)(?= )", lambda _: rng.choice(actors))


@by_lines
def entry_less(rng, lines):
    """An entry less, with the others numbered and counted anew: a legal journal that isn't complete, or one that isn't legal."""
    entries = [at for at, line in enumerate(lines) if re.match(rb"[0-9]+ (t[0-9]+|e[0-9]+|r) ", line)]
    if not entries:
        return
    gone = rng.choice((entries[-1], rng.choice(entries)))
    for at in entries:
        if at > gone:
            number, rest = lines[at].split(b" ", 1)
            lines[at] = b"%d %s" % (int(number) - 1, rest)
    del lines[gone]
    lines[1] = b"journal %d\n" % (len(entries) - 1)


EDITS = (byte_changed, byte_less, byte_more, line_less, line_twice, lines_swapped, number_higher, count_other, other_actor, entry_less)


# ---- the comparison

def differ(what, text, ours, theirs):
    sys.stdout.buffer.write(b"--- %s\n" % what.encode() + text)
    sys.stdout.buffer.write(b"--- program, status %d\n" % ours[0] + ours[1])
    sys.stdout.buffer.write(b"--- oracle, status %d\n" % theirs[0] + theirs[1])
    sys.exit(1)


def main():
    parser = argparse.ArgumentParser(usage=__doc__.split("usage: ")[1].split("\n")[0])
    parser.add_argument("oracle")
    parser.add_argument("count", type=int)
    parser.add_argument("first", type=int, nargs="?", default=1)
    parser.add_argument("--edits", type=int, default=20)
    parser.add_argument("--program", default="")
    asked = parser.parse_args()
    asked.program = asked.program or subprocess.check_output([TTM, "--program"], text=True).strip()
    verdicts = collections.Counter()
    scripts = reports = edited = 0
    for seed in range(asked.first, asked.first + asked.count):
        rng = random.Random(seed)
        for flags in ([], ["--v2"]):
            script = run([asked.oracle, "random", str(seed), *flags])[1]
            made = [run([asked.program, word], script) for word in ("sim", "run")] + [run([asked.oracle, "play", str(seed)], script)]
            scripts += 1
            for status, report in made:
                whole = script + report
                ours, theirs = run([asked.program, "check"], whole), run([asked.oracle, "check"], whole)
                if status != 0 or ours != (0, b"valid\n") or ours != theirs:
                    differ(f"report of seed {seed}", whole, ours, theirs)
                reports += 1
                for _ in range(asked.edits):
                    change = rng.choice(EDITS)
                    text = script + change(rng, report)
                    ours, theirs = run([asked.program, "check"], text), run([asked.oracle, "check"], text)
                    if ours != theirs:
                        differ(f"seed {seed}, {change.__name__}", text, ours, theirs)
                    verdicts[re.sub(rb".*rule ", b"rule ", ours[1]).decode().strip()] += 1
                    edited += 1
    print(f"{scripts} scripts; {reports} valid reports and {edited} edits agree: {dict(sorted(verdicts.items()))}")


if __name__ == "__main__":
    main()
