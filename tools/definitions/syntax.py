"""Reads the part of antt in which definitions that compute are written: expressions and patterns."""

from __future__ import annotations

import re
from dataclasses import dataclass
from typing import List, Optional, Tuple, Union

TOKEN = re.compile(
    r"""(?P<space>\s+)|(?P<text>"[^"]*")|(?P<number>\d+)|(?P<name>[A-Za-zℕ_⊥][A-Za-z0-9_']*)"""
    r"""|(?P<mark>\+\+|==|&&|\|\||∷|≡|×|→|↦|λ|[-+*/%^.,;()\[\]{}|=:<⊎≤])"""
)
PART = re.compile(r"[A-Za-z_][A-Za-z0-9_]*|\d+")
# How tightly an operator binds, and whether it groups to the right.
OPERATORS = {
    "||": (1, True), "&&": (2, True), "==": (3, False), "∷": (4, True), "++": (4, True), "+": (5, False), "-": (5, False),
    "*": (6, False), "/": (6, False), "%": (6, False), "^": (7, True),
}  # fmt: skip
WORDS = ("then", "else", "in", "where", "let", "if", "elim")


@dataclass(frozen=True)
class Token:
    """A token, with its sort: text, number, name, mark, part (of a projection) or end."""

    sort: str
    text: str


@dataclass(frozen=True)
class Number:
    value: int


@dataclass(frozen=True)
class Text:
    text: str


@dataclass(frozen=True)
class Name:
    name: str


@dataclass(frozen=True)
class Empty:
    """The empty list."""


@dataclass(frozen=True)
class Group:
    """A tuple."""

    items: Tuple["Expression", ...]


@dataclass(frozen=True)
class Part:
    """A field of a record or of a tuple, or a variant of a type that has a name here."""

    whole: "Expression"
    field: str


@dataclass(frozen=True)
class Fields:
    """A record by its fields, or one with some fields changed."""

    base: Optional["Expression"]
    fields: Tuple[Tuple[str, "Expression"], ...]


@dataclass(frozen=True)
class Function:
    names: Tuple[str, ...]
    body: "Expression"


@dataclass(frozen=True)
class Let:
    name: str
    value: "Expression"
    body: "Expression"


@dataclass(frozen=True)
class If:
    condition: "Expression"
    then: "Expression"
    otherwise: "Expression"


@dataclass(frozen=True)
class Elim:
    """A case distinction."""

    value: "Expression"
    rows: Tuple[Tuple["Pattern", "Expression"], ...]


@dataclass(frozen=True)
class Call:
    function: "Expression"
    arguments: Tuple["Expression", ...]


@dataclass(frozen=True)
class Binary:
    operator: str
    left: "Expression"
    right: "Expression"


Expression = Union[Number, Text, Name, Empty, Group, Part, Fields, Function, Let, If, Elim, Call, Binary]


@dataclass(frozen=True)
class Cons:
    """A list by its first item and the others."""

    first: "Pattern"
    others: "Pattern"


@dataclass(frozen=True)
class Variant:
    """A variant with its arguments; one without any is a `Name`."""

    name: str
    arguments: Tuple["Pattern", ...]


@dataclass(frozen=True)
class Items:
    """A tuple by its items."""

    items: Tuple["Pattern", ...]


Pattern = Union[Number, Name, Empty, Cons, Variant, Items]


def tokens_of(text: str) -> List[Token]:
    """Returns the tokens of a definition. A dot between two words, without spaces, makes the second a part of the first."""
    tokens, at = [], 0
    while at < len(text):
        found = TOKEN.match(text, at)
        if not found:
            raise SyntaxError(f"no token at {text[at:at + 30]!r}")
        after = PART.match(text, at + 1) if found["mark"] == "." and at > 0 and not text[at - 1].isspace() else None
        if after:
            tokens.append(Token("part", after[0]))
            at = after.end()
            continue
        if not found["space"]:
            tokens.append(Token(str(found.lastgroup), found[0]))
        at = found.end()
    return [*tokens, Token("end", "")]


class Parser:
    """Reads expressions and patterns of a list of tokens, from its front."""

    def __init__(self, tokens: List[Token]) -> None:
        self.tokens = tokens
        self.at = 0

    def peek(self) -> Token:
        return self.tokens[self.at]

    def take(self) -> Token:
        self.at += 1
        return self.tokens[self.at - 1]

    def is_mark(self, text: str) -> bool:
        return self.peek() == Token("mark", text)

    def is_word(self, text: str) -> bool:
        return self.peek() == Token("name", text)

    def expect(self, text: str) -> None:
        """Takes a mark or word."""
        if self.peek().text != text or self.peek().sort not in ("mark", "name"):
            raise SyntaxError(f"{text!r} is missing before {' '.join(t.text for t in self.tokens[self.at:self.at + 6])!r}")
        self.at += 1

    def skipped(self, text: str) -> bool:
        """Takes a mark, if it is next."""
        there = self.is_mark(text)
        self.at += there
        return there

    # ---- expressions

    def expression(self, least: int = 0) -> Expression:
        """Reads an expression whose operators bind at least as tightly as `least`."""
        left = self.operand()
        while self.peek().sort == "mark" and OPERATORS.get(self.peek().text, (-1,))[0] >= least:
            operator = self.take().text
            strength, to_the_right = OPERATORS[operator]
            left = Binary(operator, left, self.expression(strength if to_the_right else strength + 1))
        return left

    def operand(self) -> Expression:
        if self.is_mark("λ"):
            return self.function()
        if self.is_word("let"):
            return self.let()
        if self.is_word("if"):
            return self.choice()
        if self.is_word("elim"):
            return self.elim()
        function, arguments = self.atom(), []
        while self.begins_atom():
            arguments.append(self.atom())
        return Call(function, tuple(arguments)) if arguments else function

    def function(self) -> Function:
        self.expect("λ")
        names = []
        while not self.is_mark("."):
            names.append(self.take().text)
        self.expect(".")
        return Function(tuple(names), self.expression())

    def let(self) -> Let:
        self.expect("let")
        name = self.take().text
        self.expect("=")
        value = self.expression()
        self.expect("in")
        return Let(name, value, self.expression())

    def choice(self) -> If:
        self.expect("if")
        condition = self.expression()
        self.expect("then")
        then = self.expression()
        self.expect("else")
        return If(condition, then, self.expression())

    def elim(self) -> Elim:
        self.expect("elim")
        value, rows = self.atom(), []
        self.expect("[")
        self.skipped("|")
        while not self.is_mark("]"):
            pattern = self.pattern()
            self.expect("↦")
            rows.append((pattern, self.expression()))
            self.skipped("|")
        self.expect("]")
        return Elim(value, tuple(rows))

    def begins_atom(self) -> bool:
        token = self.peek()
        if token.sort == "mark":
            return token.text == "(" or (token.text == "[" and self.tokens[self.at + 1] == Token("mark", "]"))
        return token.sort in ("number", "text") or (token.sort == "name" and token.text not in WORDS)

    def atom(self) -> Expression:
        token = self.take()
        whole: Expression
        if token.sort == "number":
            whole = Number(int(token.text))
        elif token.sort == "text":
            whole = Text(token.text[1:-1])
        elif token == Token("mark", "("):
            whole = self.group()
        elif token == Token("mark", "["):
            self.expect("]")
            whole = Empty()
        elif token == Token("name", "record"):
            whole = self.record()
        elif token.sort == "name":
            whole = Name(token.text)
        else:
            raise SyntaxError(f"no expression begins with {token.text!r}")
        while self.peek().sort == "part":
            whole = Part(whole, self.take().text)
        return whole

    def group(self) -> Expression:
        """Reads what is in parentheses, after the first of them."""
        items = [self.expression()]
        while self.skipped(","):
            items.append(self.expression())
        self.expect(")")
        return items[0] if len(items) == 1 else Group(tuple(items))

    def record(self) -> Fields:
        """Reads a record, after its word."""
        base = None if self.is_mark("{") else self.atom()
        fields = []
        self.expect("{")
        while not self.is_mark("}"):
            name = self.take().text
            self.expect("=")
            fields.append((name, self.expression()))
            self.skipped(";")
        self.expect("}")
        return Fields(base, tuple(fields))

    # ---- patterns

    def pattern(self) -> Pattern:
        first = self.variant()
        return Cons(first, self.pattern()) if self.skipped("∷") else first

    def variant(self) -> Pattern:
        if self.peek().sort != "name":
            return self.simple_pattern()
        name, arguments = self.dotted(), []
        while self.peek().sort in ("name", "number") or self.is_mark("(") or self.is_mark("["):
            arguments.append(self.simple_pattern())
        return Variant(name, tuple(arguments)) if arguments else Name(name)

    def dotted(self) -> str:
        name = self.take().text
        while self.peek().sort == "part":
            name += "." + self.take().text
        return name

    def simple_pattern(self) -> Pattern:
        if self.peek().sort == "number":
            return Number(int(self.take().text))
        if self.peek().sort == "name":
            return Name(self.dotted())
        if self.skipped("["):
            self.expect("]")
            return Empty()
        self.expect("(")
        items = [self.pattern()]
        while self.skipped(","):
            items.append(self.pattern())
        self.expect(")")
        return items[0] if len(items) == 1 else Items(tuple(items))
