"""Reads scripts, with comments or without, and finds the first broken line."""

from __future__ import annotations

from typing import List, Optional, Tuple

from .command_lines import VERSION_ONE, VERSION_TWO, CommandLines, need_words
from .comments import plain
from .errors import ViewError
from .limits import BUFFER_PAGES, BUFFERS, ENGINES, GROUPS, MANAGER_PAGES, PRIORITIES, SCHEDULE_ACTORS, SCRIPT_BYTES, SLOTS, THREADS
from .line_words import NAME_RIGHT, BrokenLine, Fault, Words, is_name, is_plain, not_plain, short
from .place_words import read_list
from .script import Actor, Buffer, Place, Schedule, Script, Thread

HEAD = ("ttm", "vram", "tt", "frames", "swap", "engines")
HEAD_FORMS = {
    "ttm": "ttm 1` or `ttm 2",
    "vram": "vram range PAGES` or `vram buddy PAGES",
    "tt": "tt PAGES",
    "frames": "frames COUNT",
    "swap": "swap SLOTS",
    "engines": "engines COUNT",
}
EXPECTED = {
    **{word: f"the line `{form}`" for word, form in HEAD_FORMS.items()},
    "buffers": "a line `buffer ..`, `thread`, `schedule ..` or `end`",
    "threads": "a command, or a line `thread`, `schedule ..` or `end`",
    "schedule": "a line `schedule ..` or `end`",
    "after": "nothing after `end`",
}
MOST = {"tt": MANAGER_PAGES, "frames": MANAGER_PAGES, "swap": SLOTS, "engines": ENGINES}
BUFFER_FORMS = {
    1: "buffer NAME PAGES prio P group G align A want LIST busy LIST",
    2: "buffer NAME PAGES prio P group G align A place LIST",
}


class BrokenScript(ViewError):
    """The first broken line of a script: `line` counts in the file, `plain_line` without comments; `shown_line` is its text."""

    def __init__(self, line: int, plain_line: int, fault: Fault, text: str) -> None:
        super().__init__(fault.cause, line)
        self.plain_line = plain_line
        self.fault = fault
        self.shown_line = text


class ScriptReader:
    """Reads a script line by line. `place` tells which lines may come next, a key of `EXPECTED`."""

    def __init__(self) -> None:
        self.script = Script()
        self.place = "ttm"
        self.commands = CommandLines(self.script)

    def read(self, text: str, file_line: int) -> None:
        """Reads one line without its line feed; raises BrokenLine."""
        line = Words(text, self.script.names)
        word = line.words[0]
        if not self._may_come(word):
            raise line.stop(0, self._why_not(word), EXPECTED[self.place], 3)
        if "" in line.words:
            raise self._wrong_space(line, line.words.index(""))
        if self.place in HEAD:
            self._head(line, word)
        elif word == "buffer":
            self._buffer(line, file_line)
        elif word == "thread":
            self._thread(line, file_line)
        elif word == "schedule":
            self._schedule(line, file_line)
        elif word == "end":
            need_words(line, "end")
            self.place = "after"
        else:
            self.commands.read(line, file_line)

    def _may_come(self, word: str) -> bool:
        """Tells whether a line with this first word may come next."""
        if self.place in HEAD:
            return word == self.place
        if self.place == "threads" and (word in VERSION_ONE or (word in VERSION_TWO and self.script.version == 2)):
            return True
        allowed = {"buffers": ("buffer", "thread", "schedule", "end"), "threads": ("thread", "schedule", "end"), "schedule": ("schedule", "end")}
        return word in allowed.get(self.place, ())

    def _why_not(self, word: str) -> str:
        """Says why a line with this first word may not come next."""
        if not word:
            return "the line begins with a space"
        if self.place == "threads" and word in VERSION_TWO:
            return f"`{word}` stands in scripts of version 2 only, and this one is of version 1"
        if self.place == "after":
            return "a line follows `end`"
        if word in HEAD or word in ("buffer", "thread", "schedule", "end") + VERSION_ONE + VERSION_TWO:
            return f"`{word}` may not stand here"
        return f"`{short(word)}` begins no line of a script"

    def _wrong_space(self, line: Words, index: int) -> BrokenLine:
        """Returns what stops at a wrong space, where an empty word stands."""
        is_last = index == len(line.words) - 1
        cause = "a space at the end of the line" if is_last else "more than one space"
        fault = line.stop(index, cause, "exactly one space between two words").fault
        return BrokenLine(fault._replace(column=fault.column - is_last, width=1))

    def _head(self, line: Words, word: str) -> None:
        """Reads one of the first six lines."""
        script = self.script
        need_words(line, {"ttm": "ttm VERSION", "vram": "vram MANAGER PAGES"}.get(word, f"{word} COUNT"))
        if word == "ttm":
            if line.words[1] not in ("1", "2"):
                raise line.stop(1, f"there is no version `{short(line.words[1])}`", "1 or 2")
            script.version = int(line.words[1])
        elif word == "vram":
            if line.words[1] not in ("range", "buddy"):
                raise line.stop(1, f"`{short(line.words[1])}` is no manager of VRAM", "range or buddy")
            size = line.number(2, 0, MANAGER_PAGES, "the number of pages")
            line.check()
            script.manager, script.vram = line.words[1], size or 0
        else:
            size = line.number(1, 0, MOST[word], "the number")
            line.check()
            setattr(script, word, size)
        self.place = HEAD[HEAD.index(word) + 1] if word != "engines" else "buffers"

    def _buffer(self, line: Words, file_line: int) -> None:
        """Reads a buffer line."""
        script, form = self.script, BUFFER_FORMS[self.script.version]
        other = "place" if script.version == 1 else "want"
        if line.words[9:10] == [other]:
            raise line.stop(9, f"`{other}` stands in scripts of version {3 - script.version}, and this one is of version {script.version}", form)
        need_words(line, form)
        for index, part in enumerate(form.split(" ")):
            if part.islower() and line.words[index] != part:
                raise line.stop(index, f"`{short(line.words[index])}` stands where the word `{part}` must stand", form)
        name = line.words[1]
        if not is_name(name):
            line.fault(6, 1, f"`{short(name)}` can't be a name", NAME_RIGHT)
        elif name in script.names:
            line.fault(6, 1, f"the name {name} is declared twice", f"a name that line {script.buffers[script.names[name]].line} doesn't declare")
        pages = line.number(2, 1, BUFFER_PAGES, "the number of pages")
        priority = line.number(4, 0, PRIORITIES - 1, "the priority")
        group = None if line.words[6] == "-" else line.number(6, 0, GROUPS - 1, "the group")
        align = line.number(8, 1, BUFFER_PAGES, "the alignment")
        places = self._places(line)
        if len(script.buffers) == BUFFERS:
            line.fault(12, 0, f"this is buffer line {BUFFERS + 1}", f"at most {BUFFERS} buffers in a script")
        line.check()
        assert pages is not None and priority is not None and align is not None
        index = len(script.buffers)
        script.buffers.append(Buffer(index, name, pages, priority, group, align, tuple(places), file_line, line.text))
        script.names[name] = index

    def _places(self, line: Words) -> List[Place]:
        """Reads the lists of places of a buffer line."""
        if self.script.version == 2:
            return read_list(line, 10, 2)
        want = [place._replace(desired=True) for place in read_list(line, 10, 1)]
        return want + [place._replace(fallback=True) for place in read_list(line, 12, 1)]

    def _thread(self, line: Words, file_line: int) -> None:
        """Reads a line `thread`."""
        need_words(line, "thread")
        if len(self.script.threads) == THREADS:
            line.fault(12, 0, f"this is thread {THREADS + 1}", f"at most {THREADS} threads in a script")
        line.check()
        self.script.threads.append(Thread(len(self.script.threads) + 1, file_line))
        self.commands.begin()
        self.place = "threads"

    def _schedule(self, line: Words, file_line: int) -> None:
        """Reads a schedule line."""
        if len(line.words) == 1:
            raise line.stop(1, "an actor is missing", "schedule ACTOR ACTOR .., each tN, eN or r")
        for index, word in enumerate(line.words[1:], 1):
            if word != "r" and not (len(word) > 1 and word[0] in "te"):
                raise line.stop(index, f"`{short(word)}` is no actor", "tN for a thread, eN for an engine, or r for the reaper")
        if len(line.words) > SCHEDULE_ACTORS + 1:
            raise line.stop(SCHEDULE_ACTORS + 1, f"the line has {len(line.words) - 1} actors", f"at most {SCHEDULE_ACTORS} actors in a line")
        actors = [self._actor(line, index) for index in range(1, len(line.words))]
        line.check()
        self.script.schedule.append(Schedule(file_line, tuple(actors)))
        self.place = "schedule"

    def _actor(self, line: Words, index: int) -> Actor:
        """Reads an actor."""
        word = line.words[index]
        if word == "r":
            return Actor("r", 0)
        low, high, what = (1, len(self.script.threads), "thread") if word[0] == "t" else (0, self.script.engines, "engine")
        if not is_plain(word[1:]):
            line.fault(5, index, not_plain(f"the {what}", word[1:]), f"{word[0]} and the number of the {what}", 1)
        elif len(word) > 12 or not low <= int(word[1:]) <= high:
            right = f"{word[0]}{low} to {word[0]}{high}" if high > low else f"{word[0]}{low}" if high == low else "an actor of the script"
            line.fault(11, index, f"there is no {what} {short(word[1:])}", right)
        else:
            return Actor(word[0], int(word[1:]))
        return Actor("r", 0)


PRINTABLE = bytes(range(0x20, 0x7F))


def _breaks_text(data: bytes) -> Optional[Fault]:
    """Returns what is wrong in the bytes of a line with its line feed, before its words are looked at."""
    text = data[:-1] if data.endswith(b"\n") else data
    if text and len(text) < len(data) and not text.translate(None, PRINTABLE):
        return None
    for column, byte in enumerate(text, 1):
        if not 0x20 <= byte <= 0x7E:
            return Fault(2, column, 1, f"the byte 0x{byte:02x} may not stand in a script", "printable ASCII, 0x20 to 0x7e")
    if not text:
        return Fault(2, 1, 1, "the line is empty", "no empty lines")
    if len(text) == len(data):
        return Fault(2, len(text) + 1, 1, "the last line lacks its line feed", "a line feed at the end of each line, the last one too")
    return None


def read_script(data: bytes, start: int = 1) -> Script:
    """Reads a script, with comments or without; raises BrokenScript. `start` is the number of its first line in the file."""
    bare = plain(data)
    if len(bare.data) > SCRIPT_BYTES:
        fault = Fault(1, 1, 1, f"the script has {len(bare.data)} bytes", f"at most {SCRIPT_BYTES} bytes")
        raise BrokenScript(0, 0, fault, "")
    reader = ScriptReader()
    lines = bare.data.split(b"\n")
    pieces = [line + b"\n" for line in lines[:-1]] + ([lines[-1]] if lines[-1] else [])
    for number, piece in enumerate(pieces, 1):
        line = bare.file_line(number) + start - 1
        text = piece.rstrip(b"\n").decode("latin-1")
        fault = _breaks_text(piece)
        if fault is None:
            try:
                reader.read(text, line)
                continue
            except BrokenLine as broken:
                fault = broken.fault
        raise BrokenScript(line, number, fault, text)
    if reader.place != "after":
        end = bare.file_line(len(pieces) + 1) + start - 1
        raise BrokenScript(end, len(pieces) + 1, Fault(3, 1, 1, "the script ends here", EXPECTED[reader.place]), "")
    reader.script.lines = [piece[:-1].decode("latin-1") for piece in pieces]
    reader.script.file_lines = [line + start - 1 for line in bare.lines]
    return reader.script


def split_input(data: bytes) -> Tuple[bytes, bytes]:
    """Cuts an input into the script, which ends with the first line `end`, and what follows."""
    at = 0
    while at < len(data):
        stop = data.find(b"\n", at)
        if stop < 0:
            break
        line = data[at:stop]
        if line == b"end" or (line.startswith(b"end ") and line[4:].lstrip(b" ").startswith(b"#")):
            return data[: stop + 1], data[stop + 1 :]
        at = stop + 1
    return data, b""
