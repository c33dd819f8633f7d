"""The rules of scripts and of reports in words, by their numbers: sections 2 and 7 of docs/SPECIFICATION.md."""

from __future__ import annotations

from typing import Dict

SCRIPT_RULES: Dict[int, str] = {
    1: "a script has at most 1048576 bytes",
    2: "a line has printable ASCII, at least one character, and a line feed at its end",
    3: "lines come in their order, and none is missing",
    4: "a line has the words of its form, with one space between each two",
    5: "a number is plain and in its range",
    6: "a buffer has a name that no other has, and is declared above",
    7: "a place is well formed, and a list has neither too many places nor only desired ones",
    8: "a range of bytes or pages isn't empty and stays inside of its buffer or space",
    9: "bytes are pairs of lower-case hexadecimal digits, 1 to 256 of them",
    10: "a copy or xor has two buffers, and a job at most 16 buffers and 64 operations",
    11: "an engine or an actor is one of the script",
    12: "there are at most 256 buffers, 16 threads, and 4096 lines in a thread",
    13: "the lengths of all operations are at most 67108864 bytes together",
    14: "a buffer is mapped before peek, poke and unmap, and once",
    15: "each page of a range of addresses is mapped above",
}

VERDICT_RULES: Dict[int, str] = {
    1: "a report begins with `report V` and `journal N`, and has at most 68157440 bytes",
    2: "each line of the journal is its number, an actor of the script, and an entry",
    3: "each entry is the one that its actor makes next",
    4: "each entry shows the bytes, the memory type and the pages that are there",
    5: "the journal goes on until each command is answered, each job is done and each ghost is reaped",
    6: "the results, the accounts and the other parts follow from the journal",
}
