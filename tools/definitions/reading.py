"""Reads lines of reports as entries. What is read is only a guess: whether the line is the entry's text is for the definitions to say."""

from __future__ import annotations

from typing import Callable, Dict, List, Optional

from values import Record, Value, Variant

MEMORIES = {"sys": "System", "tt": "Tt", "vram": "Vram"}
REASONS = {"vram": "Vram", "tt": "Tt", "swap": "Swap"}
CAUSES = {"pinned": "Pinned", "reserved": "Reserved", "outside": "Outside", "skipped": "Skipped"}
REFUSALS = {name: name for name in ("NoBuffer", "Exists", "Pinned", "NotPinned", "PinMax", "NoSpace", "NoPages", "NoSwap")}
# How the fields of each kind are read, after its word.
KINDS: Dict[str, str] = {
    "ticket": "Ticket stamp", "reserve": "Reserve buffer", "backoff": "Backoff buffer stamp", "new": "New buffer", "free": "Free buffer number",
    "take": "Take buffer memory spans", "untake": "Untake buffer memory", "populate": "Populate buffer number number",
    "swapin": "SwapIn buffer number number number", "depopulate": "Depopulate buffer", "bind": "Bind buffer", "unbind": "Unbind buffer",
    "move": "Move buffer memory number left", "catch": "Catch buffer why", "loose": "Loose buffer", "skip": "Skip buffer", "dry": "Dry buffer number dry",
    "swapout": "SwapOut buffer number number", "nopages": "NoPages buffer", "arm": "Arm engine number", "packet": "Packet number number",
    "done": "Done number", "reap": "Reap number", "bulk": "Bulk number", "refused": "Refused refusal",
}  # fmt: skip


def natural(word: str) -> int:
    """Returns a natural number; definitions know no others."""
    if not word.isdigit():
        raise ValueError(word)
    return int(word)


class EntryReader:
    """Reads the entries of a script whose buffers have these names."""

    def __init__(self, names: List[str]) -> None:
        self.names = names
        self.fields: Dict[str, Callable[[str], Value]] = {
            "number": natural,
            "stamp": lambda word: Record({"0": natural(word)}),
            "buffer": self.buffer,
            "memory": lambda word: Variant(MEMORIES[word]),
            "spans": self.spans,
            "left": lambda word: Variant("Now") if word == "now" else Variant("Ghost", (natural(word),)),
            "why": lambda word: Variant(REASONS[word]),
            "dry": self.dry,
            "engine": lambda word: natural(word[1:]),
            "refusal": lambda word: Variant(REFUSALS[word]),
        }

    def entry(self, line: str) -> Optional[Record]:
        """Returns the entry that a line may tell; None where it tells none."""
        words = line.split(" ")
        try:
            return Record({"who": self.actor(words[1]), "kind": self.kind(words[2], words[3:])})
        except (ValueError, IndexError, KeyError):
            return None

    def kind(self, word: str, rest: List[str]) -> Variant:
        if word == "result":
            return Variant("Result", (self.shown(rest),))
        name, *fields = KINDS[word].split()
        arguments = tuple(self.fields[field](rest[at]) for at, field in enumerate(fields))
        if word == "packet":
            return Variant(name, (*arguments, list(bytes.fromhex(rest[2])) if len(rest) > 2 else []))
        return Variant(name, arguments)

    def shown(self, rest: List[str]) -> Variant:
        if rest[0] == "read":
            return Variant("Read", (list(bytes.fromhex(rest[1])),))
        if rest[0] == "find":
            return Variant("Find", (Variant(MEMORIES[rest[1]]), self.spans(rest[2])))
        return Variant("Plain")

    @staticmethod
    def actor(word: str) -> Variant:
        if word == "r":
            return Variant("Reaper")
        return Variant({"t": "Thread", "e": "Engine"}[word[0]], (natural(word[1:]),))

    def buffer(self, word: str) -> Record:
        return Record({"0": self.names.index(word)})

    @staticmethod
    def spans(word: str) -> List[Value]:
        if word == "-":
            return []
        return [Record({"start": natural(start), "end": natural(end)}) for start, end in (span.split("-") for span in word.split(","))]

    def dry(self, word: str) -> Variant:
        if word == "short":
            return Variant("Short")
        return Variant("Of", ([] if word == "-" else [self.cause(row) for row in word.split(",")],))

    def cause(self, word: str) -> Record:
        name, cause, *stamp = word.split(":")
        arguments = (Record({"0": natural(stamp[0])}),) if CAUSES[cause] == "Reserved" else ()
        return Record({"b": self.buffer(name), "cause": Variant(CAUSES[cause], arguments)})
