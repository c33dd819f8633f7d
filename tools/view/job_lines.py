"""Lines `submit` and `vsubmit`: their operations, by name or with addresses."""

from __future__ import annotations

from typing import Dict, List, NamedTuple, Optional, Tuple

from .limits import ACCESS_BYTES, ALL_OPERATION_BYTES, JOB_BUFFERS, JOB_OPERATIONS, SPACE_BYTES
from .line_words import Words, is_plain, not_plain, short
from .script import Operation, Script
from .spaces import Address, Space, by_name

BY_NAME: Dict[str, str] = {
    "fill": "fill BUFFER OFFSET LENGTH BYTE",
    "copy": "copy BUFFER OFFSET BUFFER OFFSET LENGTH",
    "xor": "xor BUFFER OFFSET BUFFER OFFSET LENGTH",
    "probe": "probe BUFFER OFFSET LENGTH",
}
BY_ADDRESS: Dict[str, str] = {
    "fill": "fill ADDRESS LENGTH BYTE",
    "copy": "copy ADDRESS ADDRESS LENGTH",
    "xor": "xor ADDRESS ADDRESS LENGTH",
    "probe": "probe ADDRESS LENGTH",
}


class Job(NamedTuple):
    """What a line says: the engine, the operations by name, the buffers as they are mentioned, and the lengths as written, in all."""

    engine: int
    operations: List[Operation]
    buffers: List[Optional[int]]
    length: int


class Part(NamedTuple):
    """An operation as read: at which word it begins, and its value, None where a part of it is wrong."""

    index: int
    verb: str
    named: Optional[Operation]
    address: Optional[Address]
    length: int


class JobLines:
    """Reads the jobs of a script, and counts the lengths of all operations so far."""

    def __init__(self, script: Script) -> None:
        self.script = script
        self.total = 0

    def read(self, line: Words, space: Optional[Space]) -> Job:
        """Reads a job; `space` is that of the thread for a `vsubmit`. Faults are noted in `line`."""
        if len(line.words) < 2:
            raise line.stop(1, "ENGINE is missing", f"{line.words[0]} ENGINE OPERATION ; OPERATION ..")
        shapes = _shapes(line, BY_NAME if space is None else BY_ADDRESS)
        engine = self._engine(line)
        if space is None:
            parts = [self._named(line, index, verb) for index, verb in shapes]
            operations = [part.named for part in parts if part.named is not None]
            self._job_faults(line, parts)
        else:
            parts = [_addressed(line, index, verb) for index, verb in shapes]
            operations = self._by_name(line, parts, space)
        length = sum(part.length for part in parts)
        if self.total + length > ALL_OPERATION_BYTES:
            right = f"at most {ALL_OPERATION_BYTES} bytes in the operations of all jobs of a script"
            line.fault(13, 0, f"the operations so far have {self.total + length} bytes", right)
        return Job(engine, operations, mentions(operations), length)

    def _engine(self, line: Words) -> int:
        """Reads the number of an engine."""
        word, engines = line.words[1], self.script.engines
        if not is_plain(word):
            line.fault(5, 1, not_plain("the engine", word), "the number of an engine")
            return 0
        if len(word) > 12 or not 1 <= int(word) <= engines:
            right = f"an engine from 1 to {engines}, as line 6 has it" if engines else "no job, or more engines: line 6 says `engines 0`"
            line.fault(11, 1, f"there is no engine {short(word)} for jobs", right)
            return 0
        return int(word)

    def _named(self, line: Words, index: int, verb: str) -> Part:
        """Reads an operation on buffers, whose words begin at `index`."""
        buffer, offset = line.name(index + 1), line.offset(index + 2, "the offset")
        source: Optional[int] = None
        source_offset: Optional[int] = 0
        at = index + 3
        if verb in ("copy", "xor"):
            source, source_offset = line.name(index + 3), line.offset(index + 4, "the offset")
            at = index + 5
        length = line.offset(at, "the length")
        byte = line.byte(at + 1) if verb == "fill" else 0
        self._in_buffer(line, index + 2, buffer, offset, length)
        _check_length(line, at, verb, length)
        if verb in ("copy", "xor"):
            self._in_buffer(line, index + 4, source, source_offset, length)
            if buffer is not None and buffer == source:
                line.fault(10, index + 3, f"{line.words[index + 3]} stands on both sides of the {verb}", f"two buffers in a {verb}")
        op = None
        if buffer is not None and offset is not None and length is not None and source_offset is not None:
            op = Operation(verb, buffer, offset, length, byte, source, source_offset)
        return Part(index, verb, op, None, length or 0)

    def _in_buffer(self, line: Words, index: int, buffer: Optional[int], offset: Optional[int], length: Optional[int]) -> None:
        """Notes a range that passes its buffer."""
        if buffer is None or offset is None or not length:
            return
        one = self.script.buffers[buffer]
        if offset + length > one.byte_size:
            cause = f"bytes {offset} to {offset + length - 1} pass the end of {one.name}"
            line.fault(8, index, cause, f"{one.name} has {one.byte_size} bytes, 0 to {one.byte_size - 1}")

    def _job_faults(self, line: Words, parts: List[Part]) -> None:
        """Notes a job of too many operations or buffers."""
        if len(parts) > JOB_OPERATIONS:
            line.fault(10, parts[JOB_OPERATIONS].index, f"the job has {len(parts)} operations", f"at most {JOB_OPERATIONS} operations in a job")
        seen: List[int] = []
        for part in parts:
            for index in (part.index + 1, part.index + 3) if part.verb in ("copy", "xor") else (part.index + 1,):
                buffer = self.script.names.get(line.words[index])
                if buffer is None or buffer in seen:
                    continue
                seen.append(buffer)
                if len(seen) == JOB_BUFFERS + 1:
                    cause = f"{line.words[index]} is buffer number {JOB_BUFFERS + 1} of the job"
                    line.fault(10, index, cause, f"at most {JOB_BUFFERS} buffers in a job")

    def _by_name(self, line: Words, parts: List[Part], space: Space) -> List[Operation]:
        """Returns the operations by name of a job with addresses; notes what can't be."""
        if line.least is not None and line.least.rule < 10:
            return []
        if not all([self._is_mapped(line, part, space) for part in parts]):
            any(self._twice(line, part, space) for part in parts)  # The first one counts.
            return []
        operations: List[Operation] = []
        for part in parts:
            assert part.address is not None
            self._twice(line, part, space)
            operations += by_name(space, part.address) or []
            if self._is_large(line, part, operations):
                break
        return operations

    def _is_mapped(self, line: Words, part: Part, space: Space) -> bool:
        """Tells whether each page of an operation is mapped, and notes the first that isn't."""
        assert part.address is not None
        for index, address in ((part.index + 1, part.address.address), (part.index + 2, part.address.source)):
            page = None if address is None else space.unmapped(address, part.length)
            if page is not None:
                right = f"a `vmap` above, in the same thread, that maps page {page}"
                line.fault(15, index, f"page {page} of the address space isn't mapped here", right)
                return False
        return True

    def _twice(self, line: Words, part: Part, space: Space) -> bool:
        """Tells whether a buffer stands in both ranges of a copy or xor, and notes it."""
        op = part.address
        if op is None or op.source is None:
            return False
        both = {one.buffer for one in space.met(op.address, op.length)} & {one.buffer for one in space.met(op.source, op.length)}
        if both:
            name = self.script.buffers[min(both)].name
            cause = f"pages of {name} are mapped in both ranges of the {op.verb}"
            line.fault(10, part.index + 2, cause, f"ranges of a {op.verb} without a common buffer")
        return bool(both)

    def _is_large(self, line: Words, part: Part, operations: List[Operation]) -> bool:
        """Notes a job by name of too many operations or buffers."""
        if len(operations) > JOB_OPERATIONS:
            right = f"at most {JOB_OPERATIONS}, where each operation counts once for each mapping that it crosses"
            line.fault(10, part.index, f"cut at the borders of mappings, the job has more than {JOB_OPERATIONS} operations", right)
            return True
        if len(set(mentions(operations))) > JOB_BUFFERS:
            line.fault(10, part.index, f"the job has more than {JOB_BUFFERS} buffers", f"at most {JOB_BUFFERS} buffers in a job")
            return True
        return False


def mentions(operations: List[Operation]) -> List[Optional[int]]:
    """Returns the buffers of operations as they are mentioned."""
    named: List[Optional[int]] = []
    for op in operations:
        named.append(op.buffer)
        if op.source is not None:
            named.append(op.source)
    return named


def _shapes(line: Words, forms: Dict[str, str]) -> List[Tuple[int, str]]:
    """Returns where each operation begins and its word; stops where one has not the words of its form."""
    shapes: List[Tuple[int, str]] = []
    words, index = line.words, 2
    while True:
        end = index
        while end < len(words) and words[end] != ";":
            end += 1
        if index == end:
            raise line.stop(index, "an operation is missing", " or ".join(f"`{form}`" for form in forms.values()))
        verb = words[index]
        if verb not in forms:
            raise line.stop(index, f"`{short(verb)}` is no operation", "fill, copy, xor or probe")
        parts = forms[verb].split(" ")
        if end - index < len(parts):
            raise line.stop(end, f"{parts[end - index]} of the {verb} is missing", forms[verb])
        if end - index > len(parts):
            cause = f"`{short(words[index + len(parts)])}` is one word too many for the {verb}"
            raise line.stop(index + len(parts), cause, f"{forms[verb]}, then ` ; ` before another")
        shapes.append((index, verb))
        if end == len(words):
            return shapes
        index = end + 1


def _addressed(line: Words, index: int, verb: str) -> Part:
    """Reads an operation with addresses, whose words begin at `index`."""
    address = line.number(index + 1, 0, SPACE_BYTES - 1, "the address")
    source: Optional[int] = None
    at = index + 2
    if verb in ("copy", "xor"):
        source = line.number(index + 2, 0, SPACE_BYTES - 1, "the address")
        at = index + 3
    length = line.offset(at, "the length")
    byte = line.byte(at + 1) if verb == "fill" else 0
    _check_length(line, at, verb, length)
    for place, start in ((index + 1, address), (index + 2, source)):
        if start is not None and length and start + length > SPACE_BYTES:
            line.fault(8, place, f"bytes {start} to {start + length - 1} pass the end of the address space", f"addresses 0 to {SPACE_BYTES - 1}")
    op = None if address is None or length is None else Address(verb, address, length, byte, source)
    return Part(index, verb, None, op, length or 0)


def _check_length(line: Words, index: int, verb: str, length: Optional[int]) -> None:
    """Notes a length of 0, and one of a probe that is too long."""
    if length == 0:
        line.fault(8, index, "the length is 0", "a length of at least 1 byte")
    elif verb == "probe" and length is not None and length > ACCESS_BYTES:
        line.fault(8, index, f"{length} bytes are too many for a probe", f"1 to {ACCESS_BYTES} bytes")
