#!/usr/bin/env python3
"""Searches for scripts that take `ttm` long: draws scripts, changes the slowest ones, and keeps what is slower (hill climbing).

usage: tools/measure/search_loads.py PROGRAM [--minutes N] [--seed N] [--check] [--keep FOLDER]

PROGRAM is a proved program, or what tools/build/build_unproved.sh --no-checks writes. A script is made from a *shape*: sizes of the
memory types, buffers and their pages and places, threads, and how often each command comes. A script may take `sim` a second, and
a minute for each million entries; how slow it is is the share of this time that it takes. With --check the check of its report may take
three times as long as `sim`. The ten slowest shapes are printed at the end (10 minutes), and their scripts written to FOLDER, if one
is named.
"""
import argparse
import contextlib
import heapq
import io
import itertools
import os
import pathlib
import random
import re
import subprocess
import tempfile
import time

from loads import Script, numbered

MOST_BYTES = 1 << 20  # of a script
MOST_SECONDS = 60  # of a run
COMMANDS = "find touch read write submit swapout free pin move vsubmit peek".split()

# What a shape has, each with its values; a change draws one of them again.
SHAPE = {
    "vram": ["range 0", "range 64", "range 1024", "range 16384", "buddy 64", "buddy 1024", "buddy 16384"],
    "tt": [0, 64, 1024, 16384],
    "frames": [16, 256, 4096, 16384],
    "swap": [0, 256, 32768],
    "engines": [1, 2, 8],
    "buffers": [1, 4, 16, 64, 256],
    "pages": [1, 4, 64, 512, 4096],
    "align": [1, 2, 16, 4096],
    "places": ["sys", "tt", "vram", "vram+top", "vram+contig", "vram@1-2,vram", "vram@0-1,vram@1-2,vram@2-3,tt@0-1,tt@1-2,tt,sys,vram"],
    "group": ["-", 0],
    "threads": [1, 2, 4, 15],
    "commands": [4, 64, 512, 4095],
    "operations": [1, 4, 16, 64],
    "length": [1, 256, 4096, 65536],
    "scheduled": [0, 64, 4096, 65536],
    **{command: [0, 1, 4] for command in COMMANDS},
}


def drawn(draw):
    """Draws a shape."""
    return {name: draw.choice(values) for name, values in SHAPE.items()}


def changed(shape, draw):
    """Returns the shape with one to three of its values drawn again."""
    names = draw.sample(list(SHAPE), draw.randint(1, 3))
    return {**shape, **{name: draw.choice(SHAPE[name]) for name in names}}


def operation(shape, names, draw):
    """Writes an operation of a job."""
    size = 4096 * shape["pages"]
    length = min(shape["length"], size)
    start = draw.randrange(size - length + 1)
    if len(names) > 1 and draw.random() < 0.3:
        one, other = draw.sample(names, 2)
        return f"copy {one} {start} {other} {start} {length}"
    return f"fill {draw.choice(names)} {start} {length} 55"


def command(word, shape, names, draw):
    """Writes the lines of a command on one of the names."""
    name, place = draw.choice(names), draw.randrange(4096 * shape["pages"] - 15)
    engine = 1 + draw.randrange(shape["engines"])
    if word in ("submit", "vsubmit"):
        job = " ; ".join(operation(shape, names[:16], draw) for _operation in range(shape["operations"]))
        return [f"submit {engine} {job}"] if word == "submit" else [f"vmap 0 1 {name} 0", f"vsubmit {engine} fill 0 16 55"]
    if word == "free":
        return [f"free {name}", f"new {name}"]
    if word == "pin":
        return [f"pin {name}", f"unpin {name}"]
    if word == "peek":
        return [f"map {name}", f"peek {name} {place} 16", f"unmap {name}"]
    return [
        {
            "find": f"find {name}",
            "touch": "touch 0",
            "read": f"read {name} {place} 16",
            "write": f"write {name} {place} 55",
            "swapout": f"swapout {name}",
            "move": f"move {name} {draw.choice(('sys', 'tt', 'vram'))}",
        }[word]
    ]


def written(shape, seed):
    """Writes the script of a shape, of at most a megabyte."""
    draw = random.Random(seed)
    words, weights = zip(*((word, shape[word]) for word in COMMANDS))
    words = words if any(weights) else ("find",)
    script = Script(shape["vram"], shape["tt"], shape["frames"], shape["swap"], shape["engines"], version=2)
    names = numbered("b", shape["buffers"])
    for name in names:
        script.buffers.append(f"buffer {name} {shape['pages']} prio 1 group {shape['group']} align {shape['align']} place {shape['places']}")
    spent = 200 * len(names)
    for thread in range(shape["threads"]):
        lines = [f"new {name}" for name in names] if thread == 0 else []
        while len(lines) < shape["commands"] and spent < MOST_BYTES * 3 // 4:
            word = draw.choices(words, weights if any(weights) else None)[0]
            more = command(word, shape, names, draw)
            spent += sum(len(line) + 1 for line in more)
            lines += more
        script.threads.append(lines[:4096])
    script.schedule = [f"t{1 + draw.randrange(shape['threads'])}" for _turn in range(shape["scheduled"] if spent < MOST_BYTES * 3 // 4 else 0)]
    text = io.StringIO()
    with contextlib.redirect_stdout(text):
        script.print(False)
    return text.getvalue()


def seconds_of(program, word, given):
    """Runs the program: its output and processor seconds, or None where it refuses the script or takes more than a minute."""
    with tempfile.TemporaryFile() as taken, tempfile.TemporaryFile() as source:
        source.write(given)
        source.seek(0)
        child = subprocess.Popen([program, word], stdin=source, stdout=taken, stderr=subprocess.DEVNULL)
        stop = time.time() + 2 * MOST_SECONDS
        while True:
            pid, status, used = os.wait4(child.pid, os.WNOHANG)
            if pid:
                break
            if time.time() > stop:
                child.kill()
            time.sleep(0.002)
        child.returncode = os.waitstatus_to_exitcode(status)
        taken.seek(0)
        return (taken.read(), used.ru_utime + used.ru_stime) if child.returncode in (0, -9) else (None, 0.0)


def slowness(program, text, is_check):
    """Which share of the time that it may take a script takes: 0 for one that the program refuses."""
    said, seconds = seconds_of(program, "sim", text.encode())
    if said is None:
        return 0.0
    found = re.search(rb"^journal (\d+)$", said, re.M)
    if is_check and found:
        verdict, checked = seconds_of(program, "check", text.encode() + said)
        return checked / (3 * max(seconds, 0.05)) if verdict is not None else 0.0
    return seconds / (1 + MOST_SECONDS / 1e6 * (int(found[1]) if found else 0))


def search(program, minutes, seed, is_check):
    """The ten slowest shapes that were found, each with how slow it is and its script, the slowest first."""
    draw, stop, worst, number = random.Random(seed), time.time() + 60 * minutes, [], itertools.count()
    while time.time() < stop:
        shape = changed(draw.choice(worst)[2], draw) if worst and draw.random() < 0.8 else drawn(draw)
        if any(shape == other for *_, other, _text in worst):
            continue
        text = written(shape, seed)
        if len(text) <= MOST_BYTES:
            heapq.heappush(worst, (slowness(program, text, is_check), next(number), shape, text))
            worst = heapq.nlargest(10, worst)
            heapq.heapify(worst)
    return [(slow, shape, text) for slow, _number, shape, text in sorted(worst, key=lambda it: -it[0])]


def main():
    reader = argparse.ArgumentParser(usage=__doc__.split("usage: ")[1].split("\n")[0])
    reader.add_argument("program")
    reader.add_argument("--minutes", type=float, default=10)
    reader.add_argument("--seed", type=int, default=1)
    reader.add_argument("--check", action="store_true")
    reader.add_argument("--keep")
    given = reader.parse_args()
    for at, (slow, shape, text) in enumerate(search(given.program, given.minutes, given.seed, given.check), 1):
        print(f"{slow:10.2f}  {len(text):8} bytes  " + " ".join(f"{name}={value}" for name, value in shape.items() if value != 0))
        if given.keep:
            pathlib.Path(given.keep).mkdir(exist_ok=True)
            pathlib.Path(given.keep, f"{at}.ttm").write_text(text)


if __name__ == "__main__":
    main()
