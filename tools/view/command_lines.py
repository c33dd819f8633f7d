"""The lines of threads: commands, and the marks of version 2."""

from __future__ import annotations

from typing import Callable, Dict, List, Optional, Set

from .job_lines import JobLines
from .limits import ACCESS_BYTES, BUFFER_PAGES, GROUPS, SPACE_PAGES, THREAD_LINES
from .line_words import HEX, Words, short
from .script import MEMORY_TYPES, Command, Mark, Script
from .spaces import Space

PLAIN = ("new", "free", "pin", "unpin", "find", "swapout")
VERSION_ONE = PLAIN + ("write", "read", "move", "touch", "submit")
VERSION_TWO = ("map", "unmap", "peek", "poke", "vmap", "vunmap", "vsubmit")
FORMS: Dict[str, str] = {
    **{word: f"{word} BUFFER" for word in PLAIN + ("map", "unmap")},
    "write": "write BUFFER OFFSET BYTES",
    "poke": "poke BUFFER OFFSET BYTES",
    "read": "read BUFFER OFFSET LENGTH",
    "peek": "peek BUFFER OFFSET LENGTH",
    "move": "move BUFFER MEMORY",
    "touch": "touch GROUP",
    "submit": "submit ENGINE OPERATION ; OPERATION ..",
    "vsubmit": "vsubmit ENGINE OPERATION ; OPERATION ..",
    "vmap": "vmap FIRST PAGES BUFFER OFFSET",
    "vunmap": "vunmap FIRST PAGES",
}


def need_words(line: Words, form: str) -> None:
    """Stops where a line hasn't as many words as its form, which names each."""
    parts = form.split(" ")
    have = len(line.words)
    if have < len(parts):
        raise line.stop(have, f"{f'the word `{parts[have]}`' if parts[have].islower() else parts[have]} is missing", form)
    if have > len(parts):
        raise line.stop(len(parts), f"`{short(line.words[len(parts)])}` is one word too many", form)


class CommandLines:
    """Reads the lines of the thread at work into a script."""

    def __init__(self, script: Script) -> None:
        self.script = script
        self.mapped: Set[int] = set()
        self.space = Space()
        self.count = 0
        self.jobs = JobLines(script)
        self.file_line = 0
        readers: Dict[str, Callable[[Words, str], None]] = {word: self._plain for word in PLAIN}
        readers.update(write=self._write, poke=self._write, read=self._read, peek=self._read, move=self._move, touch=self._touch)
        readers.update(submit=self._submit, vsubmit=self._submit, map=self._map, unmap=self._map, vmap=self._vmap, vunmap=self._vmap)
        self.readers = readers

    def begin(self) -> None:
        """Begins the lines of a new thread, which has nothing mapped."""
        self.mapped, self.space, self.count = set(), Space(), 0

    def read(self, line: Words, file_line: int) -> None:
        """Reads a line whose first word may come here."""
        self.file_line = file_line
        word = line.words[0]
        self.readers[word](line, word)
        self.count += 1

    def _check(self, line: Words) -> None:
        """Stops at the least broken rule."""
        if self.count >= THREAD_LINES:
            cause = f"this is line {self.count + 1} of thread {len(self.script.threads)}"
            line.fault(12, 0, cause, f"at most {THREAD_LINES} lines in a thread")
        line.check()

    def _add(self, line: Words, verb: str, buffers: List[Optional[int]], **parts: object) -> None:
        """Adds a command to the thread at work."""
        thread = self.script.threads[-1]
        named = tuple(dict.fromkeys(buffer for buffer in buffers if buffer is not None))
        number = len(thread.commands) + 1
        command = Command(thread.number, number, verb, line.words[0], self.file_line, line.text, named)
        thread.commands.append(command._replace(**parts) if parts else command)

    def _mark(self, line: Words, verb: str, **parts: object) -> None:
        """Adds a mark to the thread at work."""
        thread = self.script.threads[-1]
        mark = Mark(thread.number, len(thread.commands), verb, self.file_line, line.text)
        thread.marks.append(mark._replace(**parts))

    def _plain(self, line: Words, word: str) -> None:
        need_words(line, FORMS[word])
        buffer = line.name(1)
        self._check(line)
        self._add(line, word, [buffer])

    def _needs_mapping(self, line: Words, word: str, buffer: Optional[int]) -> None:
        """Notes a `peek`, `poke` or `unmap` of a buffer that the thread hasn't mapped."""
        if buffer is not None and buffer not in self.mapped:
            name = line.words[1]
            right = f"`map {name}` on a line above, in the same thread, without `unmap {name}` since"
            line.fault(14, 1, f"the thread has not mapped {name} here", right)

    def _range(self, line: Words, buffer: Optional[int], offset: Optional[int], length: Optional[int], index: int) -> None:
        """Notes a range of bytes that is empty or passes its buffer."""
        if length == 0:
            line.fault(8, index, "the length is 0", "a length of at least 1 byte")
        elif buffer is not None and offset is not None and length is not None:
            size = self.script.buffers[buffer].byte_size
            if offset + length > size:
                name = self.script.buffers[buffer].name
                line.fault(8, index, f"bytes {offset} to {offset + length - 1} pass the end of {name}", f"{name} has {size} bytes, 0 to {size - 1}")

    def _write(self, line: Words, word: str) -> None:
        need_words(line, FORMS[word])
        buffer, offset, data = line.name(1), line.offset(2, "the offset"), line.words[3]
        if len(data) % 2 or not HEX.issuperset(data):
            bad = next((at for at, digit in enumerate(data) if digit not in HEX), None)
            cause = "the last byte has one digit only" if bad is None else f"`{data[bad]}` is no lower-case hexadecimal digit"
            line.fault(9, 3, cause, "two lower-case hexadecimal digits for each byte", len(data) - 1 if bad is None else bad, 1)
        else:
            self._range(line, buffer, offset, len(data) // 2, 2)
            if len(data) > 2 * ACCESS_BYTES:
                line.fault(9, 3, f"these are {len(data) // 2} bytes", f"1 to {ACCESS_BYTES} bytes", 2 * ACCESS_BYTES)
        if word == "poke":
            self._needs_mapping(line, word, buffer)
        self._check(line)
        self._add(line, "write", [buffer], offset=offset, length=len(data) // 2, data=data)

    def _read(self, line: Words, word: str) -> None:
        need_words(line, FORMS[word])
        buffer, offset, length = line.name(1), line.offset(2, "the offset"), line.offset(3, "the length")
        self._range(line, buffer, offset, length, 2 if length else 3)
        if length is not None and length > ACCESS_BYTES:
            line.fault(8, 3, f"{length} bytes are too many for one {word}", f"1 to {ACCESS_BYTES} bytes")
        if word == "peek":
            self._needs_mapping(line, word, buffer)
        self._check(line)
        self._add(line, "read", [buffer], offset=offset, length=length)

    def _move(self, line: Words, word: str) -> None:
        need_words(line, FORMS[word])
        if line.words[2] not in MEMORY_TYPES:
            raise line.stop(2, f"`{short(line.words[2])}` is no memory type", "sys, tt or vram")
        buffer = line.name(1)
        self._check(line)
        self._add(line, word, [buffer], memory=line.words[2])

    def _touch(self, line: Words, word: str) -> None:
        need_words(line, FORMS[word])
        group = line.number(1, 0, GROUPS - 1, "the group")
        self._check(line)
        self._add(line, word, [], group=group)

    def _submit(self, line: Words, word: str) -> None:
        job = self.jobs.read(line, self.space if word == "vsubmit" else None)
        self._check(line)
        self.jobs.total += job.length
        self._add(line, "submit", job.buffers, engine=job.engine, operations=tuple(job.operations))

    def _map(self, line: Words, word: str) -> None:
        need_words(line, FORMS[word])
        buffer = line.name(1)
        if word == "unmap":
            self._needs_mapping(line, word, buffer)
        elif buffer in self.mapped:
            line.fault(14, 1, f"the thread has mapped {line.words[1]} already", f"one `map {line.words[1]}`, until its `unmap`")
        self._check(line)
        self._mark(line, word, buffer=buffer)
        if buffer is not None:
            (self.mapped.add if word == "map" else self.mapped.discard)(buffer)

    def _vmap(self, line: Words, word: str) -> None:
        need_words(line, FORMS[word])
        first, pages = line.number(1, 0, SPACE_PAGES - 1, "the first page"), line.number(2, 1, BUFFER_PAGES, "the number of pages")
        buffer = offset = None
        if word == "vmap":
            buffer, offset = line.name(3), line.number(4, 0, BUFFER_PAGES - 1, "the buffer's page")
            if buffer is not None and offset is not None and pages is not None:
                has = self.script.buffers[buffer].pages
                if offset + pages > has:
                    cause = f"pages {offset} to {offset + pages - 1} pass the end of {line.words[3]}"
                    line.fault(8, 4, cause, f"{line.words[3]} has the pages 0 to {has - 1}")
        if first is not None and pages is not None and first + pages > SPACE_PAGES:
            cause = f"pages {first} to {first + pages - 1} pass the end of the address space"
            line.fault(8, 1, cause, f"pages 0 to {SPACE_PAGES - 1}")
        self._check(line)
        assert first is not None and pages is not None
        if word == "vmap":
            assert buffer is not None and offset is not None
            self.space.map(first, pages, buffer, offset)
        else:
            self.space.unmap(first, pages)
        self._mark(line, word, buffer=buffer, first=first, pages=pages, offset=offset or 0)
