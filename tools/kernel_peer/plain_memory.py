"""The bytes that a script's reads and probes have to show: those of a memory in which each buffer has a place of its own."""

from __future__ import annotations

from collections import Counter
from dataclasses import dataclass, field

from observed import Observed
from scripts import OPS_OF_TWO, PAGE, Script


@dataclass
class PlainMemory:
    pages: dict[str, int]
    bytes: dict[str, bytearray] = field(default_factory=dict)
    jobs: Counter[str] = field(default_factory=Counter)  # by engine

    def run_op(self, op: list[str]) -> str:
        """Does the operation, and answers what it shows."""
        to, at = self.bytes[op[1]], int(op[2])
        if op[0] == "probe":
            return to[at : at + int(op[3])].hex()
        if op[0] == "fill":
            to[at : at + int(op[3])] = bytes([int(op[4], 16)]) * int(op[3])
        if op[0] in OPS_OF_TWO:
            source, length = int(op[4]), int(op[5])
            piece = self.bytes[op[3]][source : source + length]
            if op[0] == "xor":
                mixed = int.from_bytes(piece, "big") ^ int.from_bytes(to[at : at + length], "big")
                piece = bytearray(mixed.to_bytes(length, "big"))
            to[at : at + length] = piece
        return ""


def wrong_bytes(script: Script, seen: Observed) -> tuple[int, list[str]]:
    """How many reads and probes there are, and the commands among them that show other bytes."""
    memory = PlainMemory({declared.name: declared.pages for declared in script.declarations})
    at = [0] * len(script.threads)
    shown, wrong = 0, []
    for answer in seen.answers:
        command = script.threads[answer.thread - 1][at[answer.thread - 1]]
        at[answer.thread - 1] += 1
        if answer.is_refused:
            continue
        expected = run_command(memory, command)
        if expected is None:
            continue
        shown += 1
        words = command.split()
        job = f"e{words[1]}", memory.jobs[words[1]]
        found = answer.result if words[0] == "read" else seen.probes.get(job)
        if found != expected:
            wrong.append(command)
    return shown, wrong


def run_command(memory: PlainMemory, command: str) -> str | None:
    """Does the command, and answers what it shows, if anything."""
    words = command.split()
    if words[0] == "new":
        memory.bytes[words[1]] = bytearray(memory.pages[words[1]] * PAGE)
    elif words[0] == "free":
        del memory.bytes[words[1]]
    elif words[0] == "write":
        piece, at = bytes.fromhex(words[3]), int(words[2])
        memory.bytes[words[1]][at : at + len(piece)] = piece
    elif words[0] == "read":
        at = int(words[2])
        return "read " + memory.bytes[words[1]][at : at + int(words[3])].hex()
    elif words[0] == "submit":
        memory.jobs[words[1]] += 1
        return "".join(memory.run_op(op.split()) for op in " ".join(words[2:]).split(" ; ")) or None
    return None
