#!/usr/bin/env python3
"""The cases of the kernel's own tests of drm_mm and drm_buddy as lists of operations, done by the C library and compared.

usage: tools/gate/kernel_cases.py ARCHIVE [FLAG ..]     builds crates/mm_c/tests/operations.c with the archive and the FLAGs, and does each case
       tools/gate/kernel_cases.py --write FOLDER        writes each list as NAME, and the answers that it must have as NAME.stdout

A case is written from what the kernel's case is to show (KUnit's drm_mm_test and drm_buddy_test of 6.1 and 6.12), not from its
code: which requests get pages, where the case says so, and which get none. Each of these is asserted of a model, which knows only
which pages are free, and takes for each request the hole or the block that the rule says, by looking at all of them. The
answers of the lists are the model's. Each case is done twice, on few pages and on many (some have more than 65,536).

Left out are what isn't here: colours, scans for eviction, replaced nodes, the ONCE flag, clear tracking, blocks of a smallest size,
and reserving no page or pages past the size, which no line of a list can say (crates/mm_c/tests/random_calls.c does that).
"""
import argparse
import os
import pathlib
import random
import subprocess
import sys
import tempfile
from collections import Counter

TOP = pathlib.Path(__file__).resolve().parent.parent.parent
MODES = ["best", "low", "high"]


class Pages:
    """A manager's pages: which are free, and the lines so far with their answers."""

    def __init__(self, word, size):
        self.size, self.free = size, bytearray(b"\1" * size)
        self.lines, self.answers, self.spans = [f"{word} {size}"], [], {}
        self.spare, self.next_id = [], 0

    def id(self):
        if self.spare:
            return self.spare.pop()
        self.next_id += 1
        return self.next_id - 1

    def mark(self, start, end, free):
        assert all(page != free for page in self.free[start:end]), "a page is taken twice, or given back twice"
        self.free[start:end] = bytes([free]) * (end - start)

    def hole_from(self, page):
        """The first free pages from a page on."""
        start = self.free.find(1, page)
        if start < 0:
            return None
        end = self.free.find(0, start)
        return start, self.size if end < 0 else end

    def holes(self):
        hole = self.hole_from(0)
        while hole:
            yield hole
            hole = self.hole_from(hole[1])

    def say(self, line, answer):
        self.lines.append(line)
        self.answers.append(answer)

    def ask(self, line, number, spans, must):
        """A request of an ID, which got these spans, or none. `must` says whether the case wants some."""
        assert must is None or must == bool(spans), f"{line}: the model has {spans}"
        if not spans:
            self.say(line, "none")
            self.spare.append(number)
            return None
        self.say(line, ",".join(f"{start}-{end}" for start, end in spans))
        for start, end in spans:
            self.mark(start, end, 0)
        self.spans[number] = spans
        return number

    def give(self, word, number):
        self.say(f"{word} {number}", "ok")
        for start, end in self.spans.pop(number):
            self.mark(start, end, 1)
        self.spare.append(number)

    def free_pages(self):
        return self.free.count(1)


class Ranges(Pages):
    def __init__(self, size):
        super().__init__("mm", size)

    def fit(self, hole, pages, align, first, last, mode):
        start, end = max(hole[0], first), min(hole[1], last)
        at = (end - pages) // align * align if mode == "high" else -(-start // align) * align
        return (at, at + pages) if at >= start and at + pages <= end else None

    def choice(self, pages, align, first, last, mode):
        fits = [(hole, self.fit(hole, pages, align, first, last, mode)) for hole in self.holes()]
        fits = [(hole, fit) for hole, fit in fits if fit]
        if not fits:
            return None
        if mode == "best":
            return min(fits, key=lambda it: (it[0][1] - it[0][0], it[0][0]))[1]
        return fits[-1 if mode == "high" else 0][1]

    def insert(self, pages, mode, align=1, first=0, last=None, must=None):
        last = self.size if last is None else last
        number, span = self.id(), self.choice(pages, align, first, last, mode)
        return self.ask(f"insert {number} {pages} {align} {first} {last} {mode}", number, span and [span], must)

    def reserve(self, start, end, must=None):
        number, is_free = self.id(), self.free.find(0, start, end) < 0
        assert must is None or must == is_free, f"reserve {start} {end}"
        self.say(f"reserve {number} {start} {end}", "ok" if is_free else "none")
        if not is_free:
            self.spare.append(number)
            return None
        self.mark(start, end, 0)
        self.spans[number] = [(start, end)]
        return number

    def remove(self, number):
        self.give("remove", number)

    def show_holes(self, must=None):
        holes = list(self.holes())
        assert must is None or must == holes, f"the model has {holes}"
        self.say("holes", ",".join(f"{start}-{end}" for start, end in holes) or "-")

    def at(self, number):
        return self.spans[number][0]

    def must_be_whole(self):
        self.show_holes(must=[(0, self.size)])
        self.remove(self.insert(self.size, "best", must=True))


class Blocks(Pages):
    def __init__(self, size):
        super().__init__("buddy", size)
        self.whole = [bytearray(self.free)]
        while self.size >> len(self.whole):
            order = len(self.whole)
            self.whole.append(bytearray(b"\1" * (size >> order)))

    def is_whole(self, order, number):
        return order < len(self.whole) and number < len(self.whole[order]) and self.whole[order][number]

    def mark(self, start, end, free):
        super().mark(start, end, free)
        self.whole[0][start:end] = bytes([free]) * (end - start)
        for order in range(1, len(self.whole)):
            for number in range(start >> order, min((end - 1 >> order) + 1, len(self.whole[order]))):
                self.whole[order][number] = self.is_whole(order - 1, 2 * number) and self.is_whole(order - 1, 2 * number + 1)

    def around(self, order, number):
        """The order of the largest free block around a free one."""
        while self.is_whole(order + 1, number >> 1):
            order, number = order + 1, number >> 1
        return order

    def candidate(self, order, first, last, topdown):
        """Split from the smallest free block; of equals the lowest, or the highest."""
        if order >= len(self.whole):
            return None
        least, found = None, None
        for number in range(-(-first >> order), min(min(last, self.size) >> order, len(self.whole[order]))):
            if self.whole[order][number]:
                around = self.around(order, number)
                if least is None or around < least or topdown and around == least:
                    least, found = around, number
        return None if found is None else (found << order, found + 1 << order)

    def choice(self, pages, first, last, topdown, contig):
        if contig:
            block = self.candidate((pages - 1).bit_length(), first, last, topdown)
            return block and [(block[0], block[0] + pages)]
        left, blocks = pages, []
        while left:
            for order in reversed(range(left.bit_length())):
                block = self.candidate(order, first, last, topdown)
                if block:
                    break
            else:
                break
            self.mark(*block, 0)
            blocks.append(block)
            left -= block[1] - block[0]
        for block in blocks:
            self.mark(*block, 1)
        return None if left else blocks

    def alloc(self, pages, first=0, last=None, topdown=False, contig=False, must=None):
        last = self.size if last is None else last
        number, blocks = self.id(), self.choice(pages, first, last, topdown, contig)
        flags = f"{'topdown' if topdown else '-'} {'contig' if contig else '-'}"
        return self.ask(f"alloc {number} {pages} {first} {last} {flags}", number, blocks, must)

    def release(self, number):
        self.give("free", number)

    def show_blocks(self, must=None):
        """The free blocks that aren't part of a larger one."""
        blocks = []
        for order, free in enumerate(self.whole):
            at = free.find(1)
            while at >= 0:
                if not self.is_whole(order + 1, at >> 1):
                    blocks.append((at << order, at + 1 << order))
                at = free.find(1, at + 1)
        assert must is None or must == sorted(blocks), f"the model has {blocks}"
        spans = ",".join(f"{start}-{end}" for start, end in self.holes()) or "-"
        orders = Counter((end - start).bit_length() - 1 for start, end in blocks)
        self.say("blocks", spans + "".join(f" {order}:{orders[order]}" for order in sorted(orders)))

    def must_be_whole(self):
        assert self.free_pages() == self.size
        self.show_blocks()
        self.release(self.alloc(self.size, must=True))


def primes(most):
    return [n for n in range(2, most) if all(n % d for d in range(2, int(n**0.5) + 1))]


# ---- drm_mm ----


def mm_init(size, chance):
    """A new manager is one hole: all of it can be taken, and then nothing; given back, it is one hole again."""
    m = Ranges(size)
    for mode in MODES:
        node = m.insert(size, mode, must=True)
        m.insert(1, mode, must=False)
        m.show_holes(must=[])
        m.remove(node)
    m.must_be_whole()
    return m


def mm_debug(size, chance):
    """Two reserved spans, with holes before, between and behind them, which are printed."""
    m = Ranges(size)
    eighth = size // 8
    m.reserve(eighth, 3 * eighth, must=True)
    m.reserve(5 * eighth, 7 * eighth, must=True)
    m.show_holes(must=[(0, eighth), (3 * eighth, 5 * eighth), (7 * eighth, m.size)])
    for mode in MODES:
        m.insert(2 * eighth, mode, first=0, last=5 * eighth, must=mode == "best")
    return m


def mm_reserve(count, chance, unit=3):
    """Spans side by side are reserved in any order. What overlaps one is refused. Each can be removed and reserved again."""
    m = Ranges(count * unit)
    order = list(range(count))
    chance.shuffle(order)
    nodes = {n: m.reserve(n * unit, (n + 1) * unit, must=True) for n in order}
    for start, end in [(0, 1), (0, unit), (0, m.size), (m.size - 1, m.size), (m.size - unit, m.size), (unit, 2 * unit + 1), (1, 2)]:
        m.reserve(start, end, must=False)
    chance.shuffle(order)
    for n in order[: count // 2]:
        m.remove(nodes[n])
        if n:
            m.reserve(n * unit - 1, (n + 1) * unit, must=False)
        nodes[n] = m.reserve(n * unit, (n + 1) * unit, must=True)
    for batch in primes(count)[:4]:
        some = chance.sample(order, batch)
        for n in some:
            m.remove(nodes[n])
        for n in reversed(some):
            nodes[n] = m.reserve(n * unit, (n + 1) * unit, must=True)
    for n in order:
        m.remove(nodes[n])
    m.must_be_whole()
    return m


def mm_insert(count, chance, unit=2):
    """A manager is filled, by each mode. One removed from it is put back where it was, since there is no other hole."""
    m = Ranges(count * unit)
    for mode in MODES:
        nodes = [m.insert(unit, mode, must=True) for _ in range(count)]
        assert sorted(m.at(node)[0] for node in nodes) == list(range(0, m.size, unit))
        m.insert(1, mode, must=False)
        for at in chance.sample(range(count), min(count, 8)):
            place = m.at(nodes[at])
            m.remove(nodes[at])
            nodes[at] = m.insert(unit, mode, must=True)
            assert m.at(nodes[at]) == place
        for batch in primes(count)[:3]:
            some = chance.sample(range(count), batch)
            for at in some:
                m.remove(nodes[at])
            for at in some:
                nodes[at] = m.insert(unit, mode, must=True)
            m.insert(1, mode, must=False)
        for node in nodes:
            m.remove(node)
        m.must_be_whole()
    return m


def mm_insert_range(count, chance, unit=2):
    """The same within a range: what is taken fills it from end to end, and nothing outside it is touched."""
    size = count * unit
    m = Ranges(size)
    for first, last in [(0, size), (0, size - 1), (1, size), (0, size // 2), (size // 2, size), (size // 4 + 1, 3 * size // 4 - 1)]:
        for mode in MODES:
            nodes = [m.insert(unit, mode, first=first, last=last, must=True) for _ in range((last - first) // unit)]
            spans = sorted(m.at(node) for node in nodes)
            assert all(a[1] == b[0] for a, b in zip(spans, spans[1:]))
            assert spans[0][0] >= first and spans[-1][1] <= last
            m.insert(unit, mode, first=first, last=last, must=False)
            at = chance.randrange(len(nodes))
            place = m.at(nodes[at])
            m.remove(nodes[at])
            nodes[at] = m.insert(unit, mode, first=first, last=last, must=True)
            assert m.at(nodes[at]) == place
            for node in nodes:
                m.remove(node)
    for first, last in [(size, size), (size // 2, size // 2), (size // 2, 1), (0, 0)]:
        for mode in MODES:
            m.insert(1, mode, first=first, last=last, must=False)
    m.must_be_whole()
    return m


def mm_align(most, chance):
    """Each span begins at a multiple of its alignment: primes, with sizes of the next prime."""
    some = primes(most)
    m = Ranges(sum(2 * n for n in some))
    for mode in MODES:
        nodes = []
        for align, pages in zip(some, some[1:]):
            nodes.append(m.insert(pages, mode, align=align, must=True))
            assert m.at(nodes[-1])[0] % align == 0
        for node in nodes:
            m.remove(node)
    m.must_be_whole()
    return m


def mm_align_powers(bits, chance):
    """The same for powers of two, from the least on and from the greatest on (the kernel has two cases, of 32 and 64 bits)."""
    m = Ranges(2 << bits)
    for powers in ([1 << bit for bit in range(bits + 1)], [1 << bit for bit in reversed(range(bits + 1))]):
        for mode in MODES:
            nodes = [m.insert(1, mode, align=align, must=True) for align in powers]
            assert all(m.at(node)[0] % align == 0 for node, align in zip(nodes, powers))
            for node in nodes:
                m.remove(node)
    m.must_be_whole()
    return m


def mm_frag(count, chance, unit=4):
    """With every second span removed, what fits such a hole gets one, and what doesn't goes behind all of them."""
    m = Ranges(2 * count * unit)
    for mode in MODES:
        nodes = [m.insert(unit, "low", must=True) for _ in range(count)]
        for node in nodes[::2]:
            m.remove(node)
        m.show_holes()
        nodes = nodes[1::2]
        for n in range(count // 2):
            nodes.append(m.insert(2 * unit if n % 2 else unit, mode, align=2 if n % 3 else 1, must=None))
        for node in nodes:
            if node is not None:
                m.remove(node)
        m.must_be_whole()
    return m


def in_order(mode, count, unit, chance):
    """From the top, or from the bottom: each span gets the highest, or the lowest, place that there is, also after removals."""
    m = Ranges(count * unit)
    nodes = [m.insert(unit, mode, must=True) for _ in range(count)]
    places = [m.at(node)[0] for node in nodes]
    assert places == sorted(places, reverse=mode == "high")
    m.insert(unit, mode, must=False)
    for batch in primes(count)[:6]:
        some = chance.sample(range(count), batch)
        gone = sorted((m.at(nodes[at])[0] for at in some), reverse=mode == "high")
        for at in some:
            m.remove(nodes[at])
        for at, place in zip(some, gone):
            nodes[at] = m.insert(unit, mode, must=True)
            assert m.at(nodes[at])[0] == place
        m.insert(1, mode, must=False)
    for node in nodes:
        m.remove(node)
    m.must_be_whole()
    return m


def mm_topdown(count, chance):
    return in_order("high", count, 3, chance)


def mm_bottomup(count, chance):
    return in_order("low", count, 3, chance)


def once(mode, unit):
    """Of three holes the outer two are too small: the search goes on to the one between."""
    m = Ranges(7 * unit)
    m.reserve(unit, 2 * unit, must=True)
    m.reserve(5 * unit, 6 * unit, must=True)
    m.insert(2 * unit, mode, must=True)
    m.insert(2 * unit, mode, must=False)
    return m


def mm_lowest(unit, chance):
    return once("low", unit)


def mm_highest(unit, chance):
    return once("high", unit)


# ---- drm_buddy ----


def buddy_limit(order, chance):
    """One block of the greatest order is all of the pages."""
    b = Blocks(1 << order)
    block = b.alloc(1 << order, must=True)
    assert b.spans[block] == [(0, 1 << order)]
    b.alloc(1, must=False)
    b.release(block)
    return b


def buddy_range(size, chance):
    """Exact ranges of prime lengths, one behind the other: each gets just its pages, until all are held."""
    b = Blocks(size)
    first, numbers = 0, []
    for length in [*primes(size), size]:
        length = min(length, size - first)
        if not length:
            break
        number = b.alloc(length, first=first, last=first + length, must=True)
        spans = sorted(b.spans[number])
        assert spans[0][0] == first and spans[-1][1] == first + length and all(a[1] == z[0] for a, z in zip(spans, spans[1:]))
        b.alloc(1, first=first, last=first + length, must=False)
        numbers.append(number)
        first += length
    b.alloc(1, must=False)
    for number in numbers:
        b.release(number)
    b.must_be_whole()
    return b


def buddy_optimistic(order, chance):
    """A block of each order, from the least on: there are just so many pages."""
    b = Blocks((1 << order + 1) - 1)
    numbers = [b.alloc(1 << k, must=True) for k in range(order + 1)]
    assert all(len(b.spans[number]) == 1 for number in numbers)
    b.alloc(1, must=False)
    for number in numbers:
        b.release(number)
    b.must_be_whole()
    return b


def buddy_pessimistic(order, chance):
    """One block of each order leaves one page. Once that is held, no order has a block. Given back, each makes a larger one free."""
    b = Blocks(1 << order)
    numbers = [b.alloc(1 << k, must=True) for k in range(order)]
    b.show_blocks()
    last = b.alloc(1, must=True)
    b.show_blocks(must=[])
    for k in reversed(range(order)):
        b.alloc(1 << k, contig=True, must=False)
    b.release(last)
    for k, number in enumerate(numbers):
        b.release(number)
        b.release(b.alloc(2 << k, contig=True, must=True))
    block = b.alloc(1 << order, contig=True, must=True)
    assert b.spans[block] == [(0, 1 << order)]
    return b


def buddy_pathological(order, chance):
    """The largest block is whittled down again and again, until every second page is held: then no two pages are free together."""
    b = Blocks(1 << order)
    blocks, holes = [], []
    for top in reversed(range(1, order + 1)):
        if blocks:
            b.release(blocks.pop(0))
        blocks += [b.alloc(1 << k, contig=True, must=True) for k in reversed(range(top))]
        holes.append(b.alloc(1, must=True))
        b.alloc(1 << top, contig=True, must=False)
        b.alloc(1, must=False)
    for hole in holes:
        b.release(hole)
    b.show_blocks()
    for k in range(1, order + 1):
        b.alloc(1 << k, contig=True, must=False)
    return b


def buddy_smoke(size, chance):
    """Blocks of random orders until none is left, given back in any order, over and over."""
    b = Blocks(size)
    for _round in range(3):
        numbers = []
        while b.free_pages():
            pages = 1 << chance.randrange(max(1, size.bit_length() - 2))
            while pages > b.free_pages():
                pages //= 2
            numbers.append(b.alloc(pages, topdown=chance.random() < 0.3, must=True))
        b.alloc(1, must=False)
        chance.shuffle(numbers)
        for number in numbers:
            b.release(number)
        b.must_be_whole()
    return b


def buddy_contiguous(count, chance):
    """Single pages in turn of three lists. With one list given back no two pages lie together; with two, pairs do, and a pair is
    given only where it begins at a multiple of two; with all three there is room for three pages."""
    b = Blocks(3 * count)
    lists = [[], [], []]
    for n in range(3 * count):
        lists[n % 3].append(b.alloc(1, first=n, last=n + 1, must=True))
    b.alloc(3, contig=True, must=False)
    for number in lists[1]:
        b.release(number)
    b.alloc(3, contig=True, must=False)
    b.alloc(2, contig=True, must=False)
    for number in lists[2]:
        b.release(number)
    b.show_blocks()
    b.alloc(3, contig=True, must=False)
    for _pair in range(count // 2):
        b.alloc(2, contig=True, must=True)
    b.alloc(2, contig=True, must=False)
    for number in lists[0]:
        b.release(number)
    b.alloc(3, contig=True, must=count > 2)
    return b


def buddy_range_bias(windows, chance, window=64):
    """Requests within windows: what is larger than the window, or than what is left of it, is refused, and each block lies inside."""
    b = Blocks(windows * window)
    for n in chance.sample(range(windows), windows):
        first, last = n * window, (n + 1) * window
        b.alloc(window + 1, first=first, last=last, must=False)
        b.alloc(window, first=first + 1, last=last, must=False)
        b.alloc(window, first=first + 1, last=last - 1, must=False)
        b.alloc(window // 2, first=first + 1, last=last - 1, contig=True, must=False)
        for pages in (1, window // 2, window - 1, window):
            number = b.alloc(pages, first=first, last=last, must=True)
            assert all(first <= start and end <= last for start, end in b.spans[number])
            b.release(number)
        number = b.alloc(window - 2, first=first + 1, last=last - 1, must=True)
        b.alloc(1, first=first + 1, last=last - 1, must=False)
        b.release(number)
        left = window
        while left:
            pages = chance.randrange(1, left + 1)
            b.alloc(pages, first=first, last=last, topdown=chance.random() < 0.3, must=True)
            left -= pages
        b.alloc(1, first=first, last=last, must=False)
    b.alloc(1, must=False)
    return b


# the case, and its measure on few pages and on many
CASES = [
    (mm_init, 7, 100_003),
    (mm_debug, 16, 131_072),
    (mm_reserve, 5, 700),
    (mm_insert, 3, 700),
    (mm_insert_range, 4, 200),
    (mm_align, 8, 200),
    (mm_align_powers, 3, 12),
    (mm_frag, 4, 1000),
    (mm_topdown, 5, 1000),
    (mm_bottomup, 5, 1000),
    (mm_lowest, 1, 20_000),
    (mm_highest, 1, 20_000),
    (buddy_limit, 4, 20),
    (buddy_range, 13, 70_000),
    (buddy_optimistic, 3, 16),
    (buddy_pessimistic, 3, 17),
    (buddy_pathological, 3, 12),
    (buddy_smoke, 7, 2_000),
    (buddy_contiguous, 4, 1000),
    (buddy_range_bias, 2, 1_100),
]


# Two lists whose answers are written out: blocks that are split and merged, and ranges that are held and let go; and an ID that isn't held, or is already.
WORKED = [
    (
        "buddy_worked",
        ["buddy 12", "alloc 1 3 0 12 - -", "free 1", "alloc 2 4 0 12 - contig", "alloc 3 8 0 12 - contig", "alloc 4 1 0 12 - -", "free 1", "alloc 2 1 0 12 topdown -"]
        + ["free 3", "alloc 3 2 0 4 topdown -", "blocks"],
        ["8-10,10-11", "ok", "8-12", "0-8", "none", "bad", "bad", "ok", "2-4", "0-2,4-8 1:1 2:1"],
    ),
    (
        "mm_worked",
        ["mm 12", "insert 1 4 1 0 12 low", "insert 2 4 1 0 12 high", "remove 1", "reserve 3 1 2", "reserve 4 1 3", "insert 4 1 1 0 12 best"]
        + ["insert 5 6 2 0 12 best", "insert 6 1 1 0 12 low", "remove 9", "holes"],
        ["0-4", "8-12", "ok", "ok", "none", "0-1", "2-8", "none", "bad", "-"],
    ),
]


def lists():
    """Each list: its name, its lines, and their answers."""
    yield from WORKED
    for case, few, many in CASES:
        for name, measure in ((case.__name__, few), (f"{case.__name__}_large", many)):
            # (the same words write the same lists)
            pages = case(measure, random.Random(case.__name__))
            yield name, pages.lines, pages.answers


def write(folder):
    for name, lines, answers in lists():
        (folder / name).write_text("".join(it + "\n" for it in lines))
        (folder / f"{name}.stdout").write_text("".join(it + "\n" for it in answers))
        print(f"{name}: {len(answers)} operations on {lines[0].split()[1]} pages", file=sys.stderr)


def difference(name, lines, answers, ran):
    """The first answer that differs, or None."""
    if ran.returncode:
        return f"kernel cases: {name}: {ran.stderr.strip()}"
    given = ran.stdout.splitlines()
    for line, wanted, got in zip(lines[1:], answers, given):
        if wanted != got:
            return f"kernel cases: {name}: {line}: {got}, and not {wanted}"
    return None if len(given) == len(answers) else f"kernel cases: {name}: {len(given)} answers, and not {len(answers)}"


def check(archive, flags):
    with tempfile.TemporaryDirectory() as room:
        program, crate = f"{room}/operations", TOP / "crates" / "mm_c"
        words = [os.environ.get("CC", "cc"), "-std=c11", "-O2", "-Wall", "-Wextra", "-Werror", f"-I{crate}/include", f"{crate}/tests/operations.c", archive, *flags, "-o", program]
        if subprocess.run(words).returncode:
            sys.exit("kernel cases: operations.c wasn't built")
        count, faults = 0, []
        for name, lines, answers in lists():
            text = "".join(it + "\n" for it in lines)
            ran = subprocess.run([program], input=text, capture_output=True, text=True)
            faults.append(difference(name, lines, answers, ran))
            count += 1
    found = [it for it in faults if it]
    print(*found, f"kernel cases: {count - len(found)} of {count} lists are answered as they must be", sep="\n")
    sys.exit(1 if found else 0)


def main():
    parser = argparse.ArgumentParser(description=__doc__, formatter_class=argparse.RawDescriptionHelpFormatter)
    parser.add_argument("--write", type=pathlib.Path, metavar="FOLDER")
    parser.add_argument("archive", nargs="?")
    parser.add_argument("flags", nargs=argparse.REMAINDER)
    words = parser.parse_args()
    if words.write:
        os.makedirs(words.write, exist_ok=True)
        write(words.write)
    elif words.archive:
        check(words.archive, words.flags)
    else:
        parser.error("an archive, or --write")


if __name__ == "__main__":
    main()
