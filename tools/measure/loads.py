#!/usr/bin/env python3
"""Writes a script for the program ttm in which one thing grows with SIZE (jobs, buffers, ghosts, free pieces ..) and all else stays.

usage: tools/measure/loads.py NAME SIZE [--bare]        the script, on standard output; --bare: what prepares it, without its work
       tools/measure/loads.py --list                    each name, the lesser of the two sizes at which tools/measure/measure_loads.py runs it, and
                                                what it is

The same words write the same script. Where the commands aren't what grows, there are as many of them at each size. The first
thread prepares; the simulator lets it end before the others begin, since it prefers threads of lower numbers.
"""
import random
import sys

LOADS = {}
MOST_COMMANDS = 4096  # of a thread


def load(least):
    """Lists a function as a load, with the lesser of the two sizes that it is measured at."""

    def put(function):
        LOADS[function.__name__] = function, least
        return function

    return put


def numbered(letter, count):
    return [f"{letter}{number}" for number in range(count)]


def each(names, *commands):
    """The commands for each name in turn, which stands in the place of *."""
    return [command.replace("*", name) for name in names for command in commands]


def around(names, count, *commands):
    """The same for so many names; behind the last comes the first again."""
    return each((names[at % len(names)] for at in range(count)), *commands)


def split(commands, count):
    """The commands, cut into so many threads."""
    longest = -(-len(commands) // count)
    return [commands[at * longest : (at + 1) * longest] for at in range(count)]


class Script:
    def __init__(self, vram="range 0", tt=0, frames=64, swap=0, engines=1, version=1):
        self.version = version
        self.sizes = [f"vram {vram}", f"tt {tt}", f"frames {frames}", f"swap {swap}", f"engines {engines}"]
        self.buffers = []
        self.first = []  # commands that prepare
        self.threads = []  # those of each thread that works
        self.schedule = []
        self.is_start = False  # a load that is about the program's start
        self.is_refused = False  # one whose script isn't read to its end: of it the bytes of the script are counted

    def declare(self, names, pages, places, group="-"):
        asked = f"want {places} busy {places}" if self.version == 1 else f"place {places}"
        for name in names:
            self.buffers.append(f"buffer {name} {pages} prio 1 group {group} align 1 {asked}")
        return names

    def print(self, is_bare):
        print(*[f"ttm {self.version}", *self.sizes, *self.buffers], sep="\n")
        first = split(self.first, -(-len(self.first) // MOST_COMMANDS)) if self.first else []
        for commands in [*first, *([] if is_bare and commands else commands for commands in self.threads)]:
            print("thread", *commands, sep="\n")
        turns = [] if is_bare else self.schedule
        for at in range(0, len(turns), 64):
            print("schedule", *turns[at : at + 64])
        print("end")


@load(400)
def armed(size):
    """SIZE jobs on one buffer, all armed by the schedule before the engine runs"""
    script = Script()
    script.declare(["a"], 1, "sys")
    script.first = ["new a", "write a 0 00"]
    script.threads = split(["submit 1 fill a 0 1 55"] * size, 4)
    script.schedule = ["t1"] * 8 + [f"t{thread}" for thread in range(2, 6) for _turn in range(size)]
    return script


@load(400)
def armed_apart(size):
    """SIZE jobs on 16 buffers in turn, all armed by the schedule before the engine runs"""
    script = Script()
    names = script.declare(numbered("a", 16), 1, "sys")
    script.first = each(names, "new *", "write * 0 00")
    script.threads = split(around(names, size, "submit 1 fill * 0 1 55"), 4)
    script.schedule = ["t1"] * 8 * len(names) + [f"t{thread}" for thread in range(2, 6) for _turn in range(size)]
    return script


@load(400)
def armed_in_turn(size):
    """SIZE jobs of two engines in turn on one buffer, all armed by the schedule before an engine runs"""
    script = Script(engines=2)
    script.declare(["a"], 1, "sys")
    script.first = ["new a", "write a 0 00"]
    script.threads = split([f"submit {1 + at % 2} fill a 0 1 55" for at in range(size)], 4)
    script.schedule = ["t1"] * 8 + [f"t{thread}" for thread in range(2, 6) for _turn in range(size)]
    return script


@load(4000)
def one_engine(size):
    """SIZE jobs on one engine, each done before the next is armed"""
    script = Script()
    script.declare(["a"], 1, "sys")
    script.first = ["new a", "write a 0 00"]
    script.threads = split(["submit 1 fill a 0 1 55"] * size, 12)
    return script


@load(25)
def evict(size):
    """evictions between SIZE buffers, of which VRAM holds half"""
    script = Script(f"range {size // 2}", tt=2 * size, frames=2 * size)
    names = script.declare(numbered("b", size), 1, "vram")
    script.first = each(names, "new *", "find *")
    script.threads = [around(names, 1000, "find *")]
    return script


@load(25)
def evict_blocks(size):
    """the same in VRAM by blocks, with four pages a buffer"""
    script = Script(f"buddy {4 * (size // 2)}", tt=8 * size, frames=8 * size)
    names = script.declare(numbered("b", size), 4, "vram")
    script.first = each(names, "new *", "find *")
    script.threads = [around(names, 500, "find *")]
    return script


@load(25)
def swap(size):
    """swap between SIZE buffers of four pages, of which the frames hold half"""
    script = Script(frames=4 * (size // 2), swap=4 * size)
    names = script.declare(numbered("b", size), 4, "sys")
    script.first = each(names, "new *", "write * 0 00")
    script.threads = [around(names, 1000, "write * 0 55")]
    return script


@load(24)
def swap_past(size):
    """swap between 16 buffers of four pages, behind SIZE in eviction order that have no frame"""
    script = Script(frames=32, swap=64)
    script.first = each(script.declare(numbered("z", size), 4, "sys"), "new *")
    names = script.declare(numbered("b", 16), 4, "sys")
    script.first += each(names, "new *", "write * 0 00")
    script.threads = [around(names, 500, "write * 0 55")]
    return script


@load(24)
def swap_beside(size):
    """swap between two buffers of 1,024 pages, beside SIZE of 4,096 pages that have no frame"""
    script = Script(frames=1024, swap=2048)
    script.first = each(script.declare(numbered("z", size), 4096, "sys"), "new *")
    names = script.declare(["a", "b"], 1024, "sys")
    script.first += each(names, "new *")
    script.threads = [around(names, 6, "write * 0 55")]
    return script


def regions(size, pages):
    """Regions of so many pages, in the order in which a buddy manager of this size gives its lowest pages: smaller blocks first."""
    for order in range(size.bit_length()):
        if size >> order & 1:
            base = size >> order + 1 << order + 1
            yield from range(base, base + (1 << order), pages)


def fragmented(size, pages, version=1):
    """VRAM by blocks, of which SIZE pieces of one page are free, beside so many pages of TT and frames"""
    width = 64  # of a region, which is filled by single pages; then two buffers take every other page of it
    script = Script(f"buddy {2 * size}", tt=max(width, pages), frames=max(width, pages), version=version)
    singles = script.declare(numbered("s", width), 1, "vram")
    for number, base in enumerate(regions(2 * size, width)):
        script.first += each(singles, "new *", "find *")
        for letter, half in (("x", singles[1::2]), ("y", singles[::2])):
            name = script.declare([f"{letter}{number}"], width // 2, f"vram@{base}-{base + width}")
            script.first += each(half, "free *") + each(name, "new *", "find *")
    script.first += each(numbered("y", 2 * size // width), "free *")
    return script


def coming_and_going(size, pages, rounds):
    """So many times a buffer of so many pages comes and goes in VRAM by blocks, where SIZE pieces of one page are free"""
    script = fragmented(size, pages)
    script.declare(["w"], pages, "vram")
    script.threads = [around(["w"], rounds, "new *", "find *", "free *")]
    return script


@load(160)
def blocks(size):
    """buffers of four pages come and go in VRAM by blocks, where SIZE pieces of one page are free"""
    return coming_and_going(size, 4, 300)


@load(64)
def spans(size):
    """a buffer of SIZE pages comes and goes in VRAM by blocks, where as many pieces of one page are free"""
    return coming_and_going(size, size, 3)


@load(12)
def holes(size):
    """buffers of a page come and go in VRAM by ranges, where SIZE pieces of one page are free"""
    script = Script(f"range {2 * size}", tt=64, frames=64)
    names = script.declare(numbered("b", 2 * size), 1, "vram")
    script.first = each(names, "new *", "find *") + each(names[::2], "free *")
    script.declare(["w"], 1, "vram")
    script.threads = [around(["w"], 500, "new *", "find *", "free *")]
    return script


@load(100)
def ghosts(size):
    """SIZE frees of a busy buffer, before the engine and the reaper run"""
    script = Script(frames=16384)
    script.declare(["a"], 1, "sys")
    script.threads = split(around(["a"], size, "new *", "submit 1 fill * 0 1 55", "free *"), 1)
    script.schedule = ["t1"] * 12 * size
    return script


@load(12)
def unaligned(size):
    """buffers of two aligned pages come and go in TT, since none of SIZE holes of two pages in VRAM by ranges is aligned"""
    script = Script(f"range {4 * size + 1}", tt=64, frames=64)
    names = script.declare(["o"], 1, "vram") + script.declare(numbered("b", 2 * size), 2, "vram")
    script.first = each(names, "new *", "find *") + each(names[1::2], "free *")
    script.buffers.append("buffer w 2 prio 1 group - align 2 want vram,tt busy vram,tt")
    script.threads = [around(["w"], 500, "new *", "find *", "free *")]
    return script


@load(25)
def skips(size):
    """searches in VRAM, which SIZE buffers fill that find no other place, so that each is caught and skipped"""
    script = Script(f"range {size}", tt=1, frames=size + 4)
    names = script.declare(numbered("b", size), 1, "vram")
    script.declare(["p"], 1, "tt")
    script.declare(["w"], 1, "vram")
    script.first = each(names, "new *", "find *") + ["new p", "find p", "pin p", "new w"]
    script.threads = [["find w"] * 8]
    return script


@load(100)
def ghosts_in_vain(size):
    """searches in VRAM without a page that can be had, beside SIZE ghosts of buffers elsewhere"""
    script = Script("range 1", tt=1, frames=16384)
    script.declare(["a"], 1, "sys")
    script.declare(["p", "w"], 1, "vram")
    script.first = ["new p", "find p", "pin p", "new w"]
    script.threads = [around(["a"], size, "new *", "submit 1 fill * 0 1 55", "free *"), ["find w"] * 3000]
    # p goes to VRAM first; then come the ghosts, and the searches before the engine runs
    script.schedule = ["t1"] * 40 + ["e0"] * 2 + ["t1"] * 40 + ["r"] + ["t2"] * 12 * size + ["t3"] * 6 * 3000
    return script


@load(1600)
def frames(size):
    """a buffer of four pages comes and goes, beside four that hold SIZE frames"""
    script = Script(frames=size + 16)
    names = script.declare(numbered("b", 4), size // 4, "sys")
    script.first = each(names, "new *", "write * 0 00")
    script.declare(["w"], 4, "sys")
    script.threads = [around(["w"], 500, "new *", "write * 0 55", "free *")]
    return script


@load(160)
def pages(size):
    """a buffer of SIZE pages comes, goes to VRAM and back to swap, and is freed"""
    script = Script(f"range {size}", tt=2 * size, frames=2 * size, swap=size)
    script.declare(["w"], size, "vram")
    script.threads = [around(["w"], 3, "new *", "write * 0 55", "find *", "swapout *", "read * 0 16", "free *")]
    return script


@load(1638)
def stores(size):
    """a few pages of stores that have SIZE pages each, and swap twice as many"""
    script = Script(f"range {size}", tt=size, frames=size, swap=2 * size)
    names = script.declare(numbered("b", 4), 4, "vram")
    script.threads = [each(names, "new *", "write * 0 55", "find *", "read * 0 16")]
    script.is_start = True
    return script


def by_threads(size, *commands):
    """So many commands for each of fifteen threads, each with a buffer of its own, in a group of its own"""
    script = Script(frames=16)
    names = numbered("b", 15)
    for group, name in enumerate(names):
        script.declare([name], 1, "sys", group)
    script.first = each(names, "new *", "write * 0 00")
    script.threads = [
        around([name], size, *(command.replace("#", str(group)) for command in commands)) for group, name in enumerate(names)
    ]
    return script


@load(100)
def finds(size):
    """SIZE finds of each of fifteen threads"""
    return by_threads(size, "find *")


@load(100)
def touches(size):
    """SIZE bulk moves of each of fifteen threads"""
    return by_threads(size, "touch #")


@load(100)
def reads(size):
    """SIZE reads of each of fifteen threads"""
    return by_threads(size, "read * 0 16")


@load(1)
def threads(size):
    """1,500 reads, by SIZE threads"""
    script = Script(frames=16)
    script.declare(["a"], 1, "sys")
    script.first = ["new a", "write a 0 00"]
    script.threads = split(["read a 0 16"] * 1500, size)
    return script


@load(24)
def bulk(size):
    """bulk moves of eight buffers, beside SIZE others"""
    script = Script()
    names = script.declare(numbered("a", 8), 1, "sys", 0) + script.declare(numbered("b", size), 1, "sys")
    script.first = each(names, "new *")
    script.threads = [["touch 0"] * 1000]
    return script


@load(130)
def mixed(size):
    """SIZE drawn commands of each of three threads, with eight buffers each; VRAM holds a third of them, and frames not all"""
    script = Script("buddy 64", tt=512, frames=192, swap=256, engines=2)
    draw = random.Random(1).randrange
    for thread in range(3):
        names = numbered("abc"[thread], 8)
        for name, pages in zip(names, (4, 4, 8, 8, 8, 12, 12, 16)):
            script.declare([name], pages, "vram", thread)
        script.first += each(names, "new *")
        commands = []
        for _command in range(size):
            one, other = (names[at] for at in random.Random(draw(1 << 30)).sample(range(8), 2))
            place, engine = 16 * draw(1024), 1 + draw(2)
            commands.append(
                (
                    f"write {one} {place} 55",
                    f"read {one} {place} 16",
                    f"submit {engine} copy {one} 0 {other} 0 16384",
                    f"submit {engine} xor {one} {place} {other} {place} 16",
                    f"submit {engine} fill {one} {place} 16 aa ; probe {one} {place} 16",
                    f"find {one}",
                    f"swapout {one}",
                    f"touch {thread}",
                )[draw(8)]
            )
        script.threads.append(commands)
    return script


EIGHT_PLACES = ",".join([*(f"vram@{first}-{first + 1}" for first in range(7)), "vram"])


@load(6)
def operations(size):
    """a job of SIZE operations on two buffers of 512 pages, each of eight places, of which the second is filled page by page"""
    script = Script("range 1024", tt=1024, frames=1024, swap=512, version=2)
    names = script.declare(["a", "b"], 512, EIGHT_PLACES)
    script.first = each(names, "new *", "find *") + ["swapout b"]
    script.threads = [["submit 1 " + " ; ".join(f"fill {names[at % 2]} {at} 1 55" for at in range(size))]]
    return script


@load(160)
def beside_spans(size):
    """a job on a buffer of SIZE pieces of VRAM, and on one of 512 pages that is filled page by page"""
    script = fragmented(size, size + 512, version=2)
    script.declare(["w"], size, EIGHT_PLACES)
    script.declare(["b"], 512, "sys")
    script.first += ["new w", "find w", "new b"]
    script.threads = [["submit 1 fill w 0 1 55 ; fill b 0 1 55"]]
    return script


@load(400)
def peeks(size):
    """SIZE peeks of a page by each of fifteen threads, which have it mapped"""
    script = by_threads(size, "peek * 0 16")
    script.version = 2
    script.buffers = [line.replace("want sys busy sys", "place sys") for line in script.buffers]
    for commands, name in zip(script.threads, numbered("b", 15)):
        commands.insert(0, f"map {name}")
    return script


@load(400)
def space_jobs(size):
    """a script that is refused at a job of SIZE operations, each over SIZE pages that are mapped one by one"""
    script = Script(version=2)
    script.declare(["a"], 1, "sys")
    job = " ; ".join([f"fill 0 {4096 * size} 00"] * size)
    script.threads = [[*(f"vmap {page} 1 a 0" for page in range(size)), f"vsubmit 1 {job}"]]
    script.is_refused = True
    return script


def main(words):
    if words == ["--list"]:
        for name, (function, least) in LOADS.items():
            print(f"{name:14}{least:6}  {function.__doc__}")
    elif len(words) in (2, 3) and words[0] in LOADS and words[1].isdigit() and words[2:] in ([], ["--bare"]):
        LOADS[words[0]][0](int(words[1])).print(is_bare=len(words) == 3)
    else:
        sys.exit(__doc__)


if __name__ == "__main__":
    main(sys.argv[1:])
