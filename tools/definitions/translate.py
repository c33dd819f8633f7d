"""Makes Python functions of definitions, each row by row, so that what runs is the text of the definitions."""

from __future__ import annotations

import itertools
import pathlib
from typing import Any, Callable, Dict, Iterable, List, Optional, Tuple

import values
from modules import Definition, Key, Library, Module
from syntax import Binary, Call, Cons, Elim, Empty, Expression, Fields, Function, Group, If, Items, Let, Name, Number, Part, Pattern, Text, Variant

Names = Dict[str, str]
PLAIN = {"++": "+", "&&": "and", "||": "or", "/": "//", "^": "**", "+": "+", "*": "*", "%": "%", "==": "=="}
KNOWN = ("Some", "None", "Ok", "Err")


def python_name(key: Key) -> str:
    module, name = key
    return f"{module.replace('.', '_')}__{name}".replace("'", "_q")


class Translator:
    """Translates the expressions of one module."""

    def __init__(self, library: Library, module: Module) -> None:
        self.library = library
        self.module = module
        self.count = itertools.count()

    def function(self, definition: Definition) -> str:
        """Returns a function's text."""
        arguments = [f"a{i}" for i in range(definition.arity())]
        lines = [f"def {python_name((self.module.name, definition.name))}({', '.join(arguments)}):"]
        for patterns, body in definition.rows:
            names: Names = {}
            tests = [test for pattern, argument in zip(patterns, arguments) for test in self.tests(pattern, argument, names)]
            lines.append(f"    if {' and '.join(tests) or 'True'}: return {self.text(body, names)}")
        return "\n".join([*lines, f"    return no_row({', '.join(arguments)})"])

    # ---- patterns: the tests that a value must pass; what its parts are called is added to `names`

    def tests(self, pattern: Pattern, value: str, names: Names) -> List[str]:
        if isinstance(pattern, Name):
            return self.tests_of_name(pattern.name, value, names)
        if isinstance(pattern, Number):
            return [f"{value} == {pattern.value}"]
        if isinstance(pattern, Empty):
            return [f"not {value}"]
        if isinstance(pattern, Cons):
            return [f"len({value}) > 0", *self.tests(pattern.first, f"{value}[0]", names), *self.tests(pattern.others, f"{value}[1:]", names)]
        if isinstance(pattern, Items):
            return [test for at, item in enumerate(pattern.items) for test in self.tests(item, f"{value}[{at}]", names)]
        if pattern.name == "suc":
            return [f"{value} > 0", *self.tests(pattern.arguments[0], f"({value} - 1)", names)]
        parts = [test for at, part in enumerate(pattern.arguments) for test in self.tests(part, f"{value}.arguments[{at}]", names)]
        return [f"{value}.name == {self.variant(pattern.name)!r}", *parts]

    def tests_of_name(self, name: str, value: str, names: Names) -> List[str]:
        if name in ("true", "false"):
            return [f"{value} is {name == 'true'}"]
        if name == "zero":
            return [f"{value} == 0"]
        if self.is_variant(name):
            return [f"{value}.name == {self.variant(name)!r}"]
        if name != "_":
            names[name] = value
        return []

    def is_variant(self, name: str) -> bool:
        return name.split(".")[0] in self.module.types if "." in name else name in self.module.variants or name in KNOWN

    def variant(self, name: str) -> str:
        if not self.is_variant(name):
            raise SyntaxError(f"{name} is no variant in {self.module.name}")
        return name.split(".")[-1]

    # ---- expressions

    def text(self, it: Expression, names: Names) -> str:
        """Returns an expression's text in Python."""
        if isinstance(it, Number):
            return str(it.value)
        if isinstance(it, Empty):
            return "[]"
        if isinstance(it, Group):
            return "(" + "".join(f"{self.text(item, names)}, " for item in it.items) + ")"
        if isinstance(it, Name):
            return self.name(it.name, names)
        if isinstance(it, Part):
            return self.part(it, names)
        if isinstance(it, Fields):
            return self.record(it, names)
        if isinstance(it, If):
            return f"({self.text(it.then, names)} if {self.text(it.condition, names)} else {self.text(it.otherwise, names)})"
        if isinstance(it, Binary):
            return self.binary(it, names)
        if isinstance(it, Call):
            return self.call(it.function, list(it.arguments), names)
        if isinstance(it, Function):
            return self.made_function(it, names)
        if isinstance(it, Let):
            return self.bound(it, names)
        if isinstance(it, Elim):
            return self.elim(it, names)
        raise SyntaxError(f"{it} isn't computed")

    def fresh(self, name: str) -> str:
        return f"v{next(self.count)}_{name}".replace("'", "_q")

    def made_function(self, it: Function, names: Names) -> str:
        inner, made = dict(names), []
        for name in it.names:
            inner[name] = self.fresh(name)
            made.append(f"lambda {inner[name]}: ")
        return f"({''.join(made)}{self.text(it.body, inner)})"

    def bound(self, it: Let, names: Names) -> str:
        made = self.fresh(it.name)
        return f"(lambda {made}: {self.text(it.body, {**names, it.name: made})})({self.text(it.value, names)})"

    def elim(self, it: Elim, names: Names) -> str:
        value, rest = self.fresh("value"), "no_row()"
        for pattern, body in reversed(it.rows):
            inner = dict(names)
            tests = self.tests(pattern, value, inner)
            rest = f"({self.text(body, inner)} if {' and '.join(tests) or 'True'} else {rest})"
        return f"(lambda {value}: {rest})({self.text(it.value, names)})"

    def record(self, it: Fields, names: Names) -> str:
        fields = "{" + ", ".join(f"{name!r}: {self.text(value, names)}" for name, value in it.fields) + "}"
        return f"Record({fields})" if it.base is None else f"changed({self.text(it.base, names)}, {fields})"

    def binary(self, it: Binary, names: Names) -> str:
        left, right = self.text(it.left, names), self.text(it.right, names)
        if it.operator == "∷":
            return f"[{left}, *{right}]"
        if it.operator == "-":
            return f"max(0, {left} - {right})"
        return f"({left} {PLAIN[it.operator]} {right})"

    def part(self, it: Part, names: Names) -> str:
        if self.names_type(it.whole, names):
            return f"Variant({it.field!r})"
        return f"part_of({self.text(it.whole, names)}, {it.field!r})"

    def names_type(self, it: Expression, names: Names) -> bool:
        return isinstance(it, Name) and it.name not in names and it.name in self.module.types

    def name(self, name: str, names: Names) -> str:
        if name in names:
            return names[name]
        if name in ("true", "false"):
            return name.capitalize()
        if name == "zero":
            return "0"
        if self.is_variant(name):
            return f"Variant({name!r})"
        python, arity = self.meant(name)
        return f"{python}()" if arity == 0 else f"curried({python}, {arity})"

    def meant(self, name: str) -> Tuple[str, int]:
        """Returns the Python function that a name means, and the number of its arguments."""
        key = self.module.names.get(name)
        if key and key[0] == "std" and name in values.WORDS:
            return f"word_{name}", values.WORDS[name][0]
        if key in self.library.definitions:
            return python_name(key), self.library.definitions[key].arity()
        raise SyntaxError(f"{self.module.name} has no {name} that computes")

    def call(self, function: Expression, arguments: List[Expression], names: Names) -> str:
        if isinstance(function, Name) and function.name == "codes" and isinstance(arguments[0], Text):
            return repr(list(arguments[0].text.encode()))
        given = [self.text(argument, names) for argument in arguments]
        if isinstance(function, Part) and self.names_type(function.whole, names):
            return f"Variant({function.field!r}, ({', '.join(given)},))"
        if not isinstance(function, Name) or function.name in names:
            return f"applied({', '.join([self.text(function, names), *given])})"
        if function.name == "suc":
            return f"({given[0]} + 1)"
        if self.is_variant(function.name):
            return f"Variant({function.name!r}, ({', '.join(given)},))"
        return self.call_of(*self.meant(function.name), given)

    @staticmethod
    def call_of(python: str, arity: int, given: List[str]) -> str:
        if len(given) < arity:
            return f"applied({', '.join([f'curried({python}, {arity})', *given])})"
        called = f"{python}({', '.join(given[:arity])})"
        return called if len(given) == arity else f"applied({', '.join([called, *given[arity:]])})"


class Program:
    """Definitions as Python functions."""

    def __init__(self, crates: pathlib.Path, modules: Iterable[str]) -> None:
        self.library = Library(crates)
        for module in modules:
            self.library.load(module)
        self.space: Dict[str, Any] = {
            name: getattr(values, name) for name in ("Record", "Variant", "part_of", "changed", "curried", "applied", "no_row")
        }  # fmt: skip
        self.space.update({f"word_{name}": function for name, (_, function) in values.WORDS.items()})
        self.not_translated: List[str] = []
        texts = [self._translated(definition) for definition in self.library.definitions.values()]
        exec(compile("\n".join(text for text in texts if text), "<definitions>", "exec"), self.space)  # pylint: disable=exec-used

    def _translated(self, definition: Definition) -> Optional[str]:
        try:
            return Translator(self.library, definition.module).function(definition)
        except SyntaxError as fault:
            self.not_translated.append(f"{definition.module.name}.{definition.name}: {fault}")
            return None

    def key(self, name: str) -> Key:
        """Returns the key of `Module.name`: the module's last word and the function's name."""
        module, function = name.split(".")
        found = [key for key in self.library.definitions if key[1] == function and key[0].split(".")[-1] == module]
        if len(found) != 1:
            raise LookupError(f"{len(found)} definitions are {name}")
        return found[0]

    def __getitem__(self, name: str) -> Callable[..., Any]:
        """Returns the function of `Module.name`."""
        return self.space[python_name(self.key(name))]

    def replace(self, name: str, function: Callable[..., Any]) -> None:
        """Puts a function in place of `Module.name`, for those that call it, too."""
        self.space[python_name(self.key(name))] = function
