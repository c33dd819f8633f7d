"""Values of definitions in Python, and the words of the standard library that definitions use.

Numbers, booleans, lists and tuples are Python's; bytes are lists of numbers; functions take one argument at a time.
"""

from __future__ import annotations

from typing import Any, Callable, Dict, List, Tuple

Value = Any


class Record:
    """A record: its fields by name."""

    __slots__ = ("fields",)

    def __init__(self, fields: Dict[str, Value]) -> None:
        self.fields = fields

    def __eq__(self, other: object) -> bool:
        return isinstance(other, Record) and self.fields == other.fields

    def __hash__(self) -> int:
        return hash(str(self.fields))

    def __getattr__(self, name: str) -> Value:
        if name == "fields" or name not in self.fields:
            raise AttributeError(name)
        return self.fields[name]

    def __repr__(self) -> str:
        return "{" + ", ".join(f"{name}={value!r}" for name, value in self.fields.items()) + "}"


class Variant:
    """A variant of a type, with its arguments. One that isn't given its arguments yet takes them by a call."""

    __slots__ = ("name", "arguments")

    def __init__(self, name: str, arguments: Tuple[Value, ...] = ()) -> None:
        self.name = name
        self.arguments = arguments

    def __call__(self, argument: Value) -> "Variant":
        return Variant(self.name, (*self.arguments, argument))

    def __eq__(self, other: object) -> bool:
        return isinstance(other, Variant) and self.name == other.name and self.arguments == other.arguments

    def __hash__(self) -> int:
        return hash((self.name, str(self.arguments)))

    def __repr__(self) -> str:
        return self.name if not self.arguments else f"({self.name} {' '.join(map(repr, self.arguments))})"


NONE = Variant("None")


def some(value: Value) -> Variant:
    return Variant("Some", (value,))


def part_of(whole: Value, name: str) -> Value:
    """Returns a field of a record, or an item of a tuple."""
    return whole.fields[name] if isinstance(whole, Record) else whole[int(name)]


def changed(record: Record, fields: Dict[str, Value]) -> Record:
    """Returns a record with other values in some fields."""
    return Record({**record.fields, **fields})


def curried(function: Callable[..., Value], count: int) -> Value:
    """Returns a function of `count` arguments as one that takes them one at a time."""
    if count == 0:
        return function()

    def taking(given: Tuple[Value, ...]) -> Callable[[Value], Value]:
        def one(argument: Value) -> Value:
            arguments = (*given, argument)
            return function(*arguments) if len(arguments) == count else taking(arguments)

        return one

    return function if count == 1 else taking(())


def applied(function: Value, *arguments: Value) -> Value:
    """Applies a function to arguments, one at a time."""
    for argument in arguments:
        function = function(argument)
    return function


def no_row(*arguments: Value) -> Value:
    """Stands for the row that a definition hasn't."""
    raise LookupError(f"no row for {arguments!r}")


def _find(passes: Callable[[Value], bool], items: List[Value]) -> Variant:
    return next((some(item) for item in items if passes(item)), NONE)


def _position(passes: Callable[[Value], bool], items: List[Value]) -> Variant:
    return next((some(at) for at, item in enumerate(items) if passes(item)), NONE)


def _fold(step: Callable[[Value], Callable[[Value], Value]], start: Value, items: List[Value]) -> Value:
    for item in items:
        start = step(start)(item)
    return start


def _joined(separator: int, texts: List[List[int]]) -> List[int]:
    return [byte for at, text in enumerate(texts) for byte in ([separator] * (at > 0) + text)]


def _get(items: List[Value], at: int) -> Variant:
    return some(items[at]) if at < len(items) else NONE


# Each word with the number of its arguments.
WORDS: Dict[str, Tuple[int, Callable[..., Value]]] = {
    "not": (1, lambda b: not b),
    "nat_lt": (2, lambda a, b: a < b),
    "nat_le": (2, lambda a, b: a <= b),
    "nat_eq": (2, lambda a, b: a == b),
    "min": (2, min),
    "max": (2, max),
    "bit_xor": (2, lambda a, b: a ^ b),
    "decimal": (1, lambda n: list(str(n).encode())),
    "digit_char": (1, lambda d: 48 + d if d < 10 else 87 + d),
    "bytes_eq": (2, lambda a, b: a == b),
    "is_none": (1, lambda o: o.name == "None"),
    "is_some": (1, lambda o: o.name == "Some"),
    "is_ok": (1, lambda r: r.name == "Ok"),
    "option_map": (2, lambda f, o: o if o.name == "None" else some(f(o.arguments[0]))),
    "option_and_then": (2, lambda f, o: o if o.name == "None" else f(o.arguments[0])),
    "option_to_list": (1, lambda o: list(o.arguments)),
    "unwrap_or": (2, lambda o, other: other if o.name == "None" else o.arguments[0]),
    "length": (1, len),
    "map": (2, lambda f, items: [f(item) for item in items]),
    "filter": (2, lambda f, items: [item for item in items if f(item)]),
    "filter_map": (2, lambda f, items: [found.arguments[0] for found in map(f, items) if found.name == "Some"]),
    "flat_map": (2, lambda f, items: [one for item in items for one in f(item)]),
    "find": (2, _find),
    "position": (2, _position),
    "fold": (3, _fold),
    "list_any": (2, lambda f, items: any(f(item) for item in items)),
    "list_all": (2, lambda f, items: all(f(item) for item in items)),
    "sum_by": (2, lambda f, items: sum(f(item) for item in items)),
    "count_by": (2, lambda f, items: sum(1 for item in items if f(item))),
    "take": (2, lambda n, items: items[:n]),
    "drop": (2, lambda n, items: items[n:]),
    "reverse": (1, lambda items: items[::-1]),
    "insert": (3, lambda items, at, item: [*items[:at], item, *items[at:]]),
    "replicate": (2, lambda n, item: [item] * n),
    "zip": (2, lambda one, other: list(zip(one, other))),
    "enumerate_from": (2, lambda start, items: list(enumerate(items, start))),
    "join_with_byte": (2, _joined),
    "slice_get": (2, _get),
    "slice_set": (3, lambda items, at, item: [*items[:at], item, *items[at + 1 :]] if at < len(items) else items),
    "slice_index": (2, lambda items, at: items[at] if at < len(items) else 0),
}
