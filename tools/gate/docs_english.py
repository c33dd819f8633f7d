"""Turns of phrase that the documents avoid, since readers stumble over them. Used by check_docs.py.

Text in backquotes, blocks of code, blocks that are made from the sources and links' targets aren't looked at, and neither are EXCEPTIONS.
"""
from __future__ import annotations

import re
from dataclasses import dataclass
from typing import Iterator, Pattern, Tuple


@dataclass(frozen=True)
class Phrase:
    """A pattern to avoid, and what to write in its place. In a pattern, a space is any white space, also the end of a line."""
    pattern: str
    better: str
    ignore_case: bool = True

    def regex(self) -> Pattern[str]:
        flags = re.IGNORECASE if self.ignore_case else 0
        return re.compile(self.pattern.replace(" ", r"\s+"), flags | re.MULTILINE)


PHRASES = (
    Phrase(r"\bbehind\b", "after, or following"),
    Phrase(r"\bso many\b", "a number, or: that many"),
    Phrase(r"\bwant of\b|\bwants memory\b", "lack of, or: memory runs out"),
    Phrase(r"(?:^|[.;|>*-] )Who\b(?:[^?.|\n]|\n(?!\n))*[.|]", "a subject: the thread that ..", ignore_case=False),
    Phrase(r"\b(?:that|if|where|of) who\b", "a subject: the thread that .."),
    Phrase(r"\b(?:stands?|stood|standing) (?:on|in|at)\b", "is in, uses, depends on"),
    Phrase(r"\bto be had\b", "available"),
    Phrase(r"\b(?:its|their) like\b", "similar ones"),
    Phrase(r"\beld(?:er|est)\b", "older, oldest"),
    Phrase(r"\bdear(?:er|est)?\b", "costly, expensive"),
    Phrase(r"\bby hand\b", "manually"),
    Phrase(r"\banew\b", "again"),
    Phrase(r"(?<!because\s)(?<!comes\s)\bof it\b", "its"),
    Phrase(r"\b(?:is|are) one(?=\s*[.;|])", "is equal, are equal"),
    Phrase(r"\bThe same, (?:where|for|of|with)\b", "say what it is or does", ignore_case=False),
    Phrase(r"\bexactly where\b|\bwhere memory (?:is|was) refused\b", "exactly if, if memory is refused"),
    Phrase(r"[.|] Where\b[^?.|,]*, ", "If ..", ignore_case=False),
    Phrase(r"\bbut for\b", "except, apart from"),
    Phrase(r"\basks that\b", "requires that"),
)

# Names that have no backquotes, and quoted text of the kernel: left alone where they are written as here. (Now there are none.)
EXCEPTIONS: Tuple[str, ...] = ()

# A row that docs_made.py makes of a file: its lines, and what its head says.
ROW_OF_FILE = r"^\| \[?`crates/[^`]+`(?:\]\([^)]*\))? \| \d+ \|.*$"


def blanked(text: str) -> str:
    """Returns a document's text with code, links' targets and exceptions blanked out; lines and columns stay where they are."""
    def blank(found: "re.Match[str]") -> str:
        return re.sub(r"[^\n]", "`", found[0])

    text = re.sub(r"<!-- made: .*?<!-- end -->", blank, text, flags=re.S)
    text = re.sub(ROW_OF_FILE, blank, text, flags=re.M)
    text = re.sub(r"^```.*?^```", blank, text, flags=re.M | re.S)
    text = re.sub(r"^    .*$", blank, text, flags=re.M)
    text = re.sub(r"`[^`\n]+`", blank, text)
    text = re.sub(r"\]\([^)]*\)", blank, text)
    for words in EXCEPTIONS:
        text = re.sub(re.escape(words), blank, text)
    return text


def faults_of_text(text: str) -> Iterator[Tuple[int, str]]:
    """Returns the line of each phrase to avoid, and what is wrong there."""
    plain = blanked(text)
    for phrase in PHRASES:
        for found in phrase.regex().finditer(plain):
            words = " ".join(found[0].split())
            start = found.start() + len(found[0]) - len(found[0].lstrip())
            yield plain.count("\n", 0, start) + 1, f'"{words[:40]}" is hard to read; better: {phrase.better}'


def first_sentence(text: str) -> str:
    """Returns the first sentence of a paragraph, in one line and without its end."""
    words = " ".join(text.split())
    found = re.match(r"(.*?[^.])[.:](?=\s[A-Z`\[]|$)", words)
    return (found[1] if found else words).rstrip(".:")


def words_of_text(text: str) -> int:
    """Returns how many words a document has: those with a letter, outside of code, names in backquotes, targets of links, blocks and
    rows of files that are made from the sources, and rules of tables."""
    text = re.sub(r"<!-- made: .*?<!-- end -->", "", text, flags=re.S)
    text = re.sub(ROW_OF_FILE, "", text, flags=re.M)
    text = re.sub(r"^```.*?^```", "", text, flags=re.M | re.S)
    text = re.sub(r"^    .*$", "", text, flags=re.M)
    text = re.sub(r"\]\([^)]*\)", "]", text)
    text = re.sub(r"`[^`\n]*`", "", text)
    return sum(1 for word in text.split() if re.search(r"[A-Za-z]", word))
