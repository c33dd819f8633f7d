"""Reads the lines of a journal into entries, a million of them in a few seconds."""

from __future__ import annotations

from typing import Callable, Dict, List, Tuple

from .entries import (
    REASONS, VERBS, Arm, Backoff, Bind, Bulk, Catch, Cause, Depopulate, Done, Dry, Entry, Free, Loose, Move, New, NoPages, Packet, Populate, Reap,
    Refused, Reserve, Result, Skip, SwapIn, SwapOut, Take, Ticket, Unbind, Untake, read_spans,
)  # fmt: skip
from .script import MEMORY_TYPES, SYSTEM, Actor, Script

Reader = Callable[[Actor, List[str]], Entry]


def memory_type(word: str) -> str:
    """Reads a memory type; raises ValueError."""
    if word not in MEMORY_TYPES:
        raise ValueError(f"`{word[:24]}` is no memory type")
    return word


class EntryReader:
    """Reads the words of entries of one script.

    The journal has no `first_odd_byte`. A reader gets the words of a line, of which the first two are the entry's number and the actor. It
    raises ValueError, KeyError or IndexError where they are no entry.
    """

    def __init__(self, script: Script) -> None:
        self.buffers = script.names
        self.engines = {f"e{engine}": engine for engine in range(1, script.engines + 1)}
        plain = (Reserve, New, Depopulate, Bind, Unbind, Loose, Skip, NoPages)
        thread: Dict[str, Reader] = {VERBS[kind]: self._of_buffer(kind) for kind in plain}
        thread.update(ticket=self.ticket, backoff=self.backoff, free=self.free, take=self.take, untake=self.untake, populate=self.populate)
        thread.update(swapin=self.swap_in, move=self.move, catch=self.catch, dry=self.dry, swapout=self.swap_out, arm=self.arm)
        thread.update(bulk=self.bulk, result=self.result, refused=self.refused)
        kinds: Dict[str, Dict[str, Reader]] = {"t": thread, "e": {"packet": self.packet, "done": self.done}, "r": {"reap": self.reap}}
        self.actors: Dict[str, Tuple[Actor, Dict[str, Reader]]] = {str(actor): (actor, kinds[actor.kind]) for actor in script.actors()}

    def _of_buffer(self, kind: Callable[[Actor, int], Entry]) -> Reader:
        """Returns the reader of a kind that names a buffer alone."""
        buffers = self.buffers

        def read(actor: Actor, words: List[str]) -> Entry:
            _, _, _, buffer = words
            return kind(actor, buffers[buffer])

        return read

    def ticket(self, actor: Actor, words: List[str]) -> Entry:
        _, _, _, stamp = words
        return Ticket(actor, int(stamp))

    def backoff(self, actor: Actor, words: List[str]) -> Entry:
        _, _, _, buffer, stamp = words
        return Backoff(actor, self.buffers[buffer], int(stamp))

    def free(self, actor: Actor, words: List[str]) -> Entry:
        _, _, _, buffer, ghost = words
        return Free(actor, self.buffers[buffer], int(ghost))

    def take(self, actor: Actor, words: List[str]) -> Entry:
        _, _, _, buffer, memory, spans = words
        found = read_spans(spans)
        if (memory_type(memory) == SYSTEM) != (not found):
            raise ValueError("a target in sys has no spans, and any other has some")
        return Take(actor, self.buffers[buffer], memory, found)

    def untake(self, actor: Actor, words: List[str]) -> Entry:
        _, _, _, buffer, memory = words
        return Untake(actor, self.buffers[buffer], memory_type(memory))

    def populate(self, actor: Actor, words: List[str]) -> Entry:
        _, _, _, buffer, page, frame = words
        return Populate(actor, self.buffers[buffer], int(page), int(frame))

    def swap_in(self, actor: Actor, words: List[str]) -> Entry:
        _, _, _, buffer, page, slot, frame = words
        return SwapIn(actor, self.buffers[buffer], int(page), int(slot), int(frame))

    def move(self, actor: Actor, words: List[str]) -> Entry:
        _, _, _, buffer, memory, job, ghost = words
        return Move(actor, self.buffers[buffer], memory_type(memory), int(job), None if ghost == "now" else int(ghost))

    def catch(self, actor: Actor, words: List[str]) -> Entry:
        _, _, _, buffer, why = words
        if why not in ("vram", "tt", "swap"):
            raise ValueError(f"nothing is caught for `{why[:24]}`")
        return Catch(actor, self.buffers[buffer], why)

    def dry(self, actor: Actor, words: List[str]) -> Entry:
        _, _, _, buffer, place, causes = words
        if causes in ("short", "-"):
            return Dry(actor, self.buffers[buffer], int(place), causes == "short", ())
        return Dry(actor, self.buffers[buffer], int(place), False, tuple(self._cause(item) for item in causes.split(",")))

    def _cause(self, item: str) -> Cause:
        """Reads one cause of a dry place."""
        parts = item.split(":")
        if len(parts) == 3 and parts[1] == "reserved":
            return Cause(self.buffers[parts[0]], "reserved", int(parts[2]))
        if len(parts) != 2 or parts[1] not in ("pinned", "outside", "skipped"):
            raise ValueError(f"`{item[:24]}` is no cause")
        return Cause(self.buffers[parts[0]], parts[1], 0)

    def swap_out(self, actor: Actor, words: List[str]) -> Entry:
        _, _, _, buffer, page, slot = words
        return SwapOut(actor, self.buffers[buffer], int(page), int(slot))

    def arm(self, actor: Actor, words: List[str]) -> Entry:
        _, _, _, engine, job = words
        return Arm(actor, self.engines[engine], int(job))

    def packet(self, actor: Actor, words: List[str]) -> Entry:
        if len(words) == 6:
            return Packet(actor, int(words[3]), int(words[4]), words[5])
        _, _, _, job, packet = words
        return Packet(actor, int(job), int(packet), "")

    def done(self, actor: Actor, words: List[str]) -> Entry:
        _, _, _, job = words
        return Done(actor, int(job))

    def reap(self, actor: Actor, words: List[str]) -> Entry:
        _, _, _, ghost = words
        return Reap(actor, int(ghost))

    def bulk(self, actor: Actor, words: List[str]) -> Entry:
        _, _, _, group = words
        return Bulk(actor, int(group))

    def result(self, actor: Actor, words: List[str]) -> Entry:
        kind = words[3]
        if kind == "ok" and len(words) == 4:
            return Result(actor, kind)
        if kind == "read" and len(words) == 5:
            return Result(actor, kind, words[4])
        if kind == "find" and len(words) == 6:
            return Result(actor, kind, "", memory_type(words[4]), read_spans(words[5]))
        raise ValueError("a result is `ok`, `read HEX` or `find MEMORY SPANS`")

    def refused(self, actor: Actor, words: List[str]) -> Entry:
        _, _, _, reason = words
        if reason not in REASONS:
            raise ValueError(f"`{reason[:24]}` is no refusal")
        return Refused(actor, reason)


def read_entries(script: Script, lines: List[str]) -> Tuple[List[Entry], str]:
    """Reads the lines `I ACTOR ENTRY` of a journal up to the first that isn't one; returns the entries, and what is wrong in the next."""
    reader = EntryReader(script)
    actors = reader.actors
    entries: List[Entry] = []
    add = entries.append
    try:
        for at, line in enumerate(lines, 1):
            words = line.split(" ")
            if words[0] != str(at):
                return entries, f"entry {at} is expected here"
            actor, readers = actors[words[1]]
            add(readers[words[2]](actor, words))
    except KeyError as error:
        return entries, _unknown(reader, words, str(error.args[0])[:24])
    except (ValueError, IndexError) as error:
        text = str(error)
        return entries, text if "`" in text or text.startswith("a ") else "these aren't the words of an entry"
    return entries, ""


def _unknown(reader: EntryReader, words: List[str], word: str) -> str:
    """Says what a word is not that a line names."""
    if words[1] not in reader.actors:
        return f"the script has no actor `{word}`"
    actor, readers = reader.actors[words[1]]
    if words[2] not in readers:
        return f"`{word}` is no entry of {'a thread' if actor.kind == 't' else 'an engine' if actor.kind == 'e' else 'the reaper'}"
    return f"the script has no {'engine' if words[2] == 'arm' else 'buffer'} `{word}`"
