"""Expressions behind `#if` in all configurations at once, where variables alone decide them.

A value is told by conditions: each number that the expression comes to, with the configurations in
which it does. So a sum of thirty variables has thirty-one numbers, and no configuration is
enumerated. What is not evaluated raises `Unknown`: options that are texts, unsigned and character
constants, other names, and what has no value in some configuration that asks for it.
"""
from __future__ import annotations

import re
from collections.abc import Callable, Collection, Iterable, Iterator, Mapping

from .diagrams import ALWAYS, NEVER, Diagrams
from .space import Space, is_text

# The numbers, each with the configurations that have it.
Values = dict[int, int]

SYMBOL = re.compile(
    r"(?:\s|/\*.*?\*/)*(?:(?://.*)?$|([0-9][0-9A-Za-z_.]*)|(\w+)"
    r"|(<<|>>|&&|\|\||[=!<>]=|[()?:!<>*/%+~&^|-]))",
    re.DOTALL,
)
NUMBER = re.compile(r"(?:0[xX]([0-9a-fA-F]+)|0[bB]([01]+)|(0[0-7]*)|([1-9][0-9]*))(?:[lL]|ll|LL)?")
BASES = (16, 2, 8, 10)
LEVELS = (
    ("||",),
    ("&&",),
    ("|",),
    ("^",),
    ("&",),
    ("==", "!="),
    ("<", ">", "<=", ">="),
    ("<<", ">>"),
    ("+", "-"),
    ("*", "/", "%"),
)
LOGICAL = ("||", "&&")
LEAST, GREATEST = -(2**63), 2**63 - 1
VALUES_AT_MOST = 4096
# The macros that are defined where no file is read yet, with their values; texts have none.
PREDEFINED: dict[str, int | None] = {
    "__FILE__": None,
    "__LINE__": 1,
    "__DATE__": None,
    "__TIME__": None,
    "__STDC__": 1,
    "__STDC_VERSION__": 201112,
    "__STDC_HOSTED__": 1,
}


class Unknown(Exception):
    """An expression that is not evaluated."""


def _divided(left: int, right: int) -> int:
    if right == 0 or (left, right) == (LEAST, -1):
        raise Unknown
    return abs(left) // abs(right) * (1 if (left < 0) == (right < 0) else -1)


def _shifted(left: int, right: int, act: Callable[[int, int], int]) -> int:
    if left < 0 or not 0 <= right < 64:
        raise Unknown
    return act(left, right)


OPERATORS: dict[str, Callable[[int, int], int]] = {
    "|": lambda left, right: left | right,
    "^": lambda left, right: left ^ right,
    "&": lambda left, right: left & right,
    "==": lambda left, right: int(left == right),
    "!=": lambda left, right: int(left != right),
    "<": lambda left, right: int(left < right),
    ">": lambda left, right: int(left > right),
    "<=": lambda left, right: int(left <= right),
    ">=": lambda left, right: int(left >= right),
    "<<": lambda left, right: _shifted(left, right, int.__lshift__),
    ">>": lambda left, right: _shifted(left, right, int.__rshift__),
    "+": lambda left, right: left + right,
    "-": lambda left, right: left - right,
    "*": lambda left, right: left * right,
    "/": _divided,
    "%": lambda left, right: left - _divided(left, right) * right,
}
SIGNS: dict[str, Callable[[int], int]] = {
    "!": lambda value: int(not value),
    "~": lambda value: ~value,
    "-": lambda value: -value,
    "+": lambda value: value,
}


def symbols_of(text: str) -> list[tuple[str, str]]:
    """The symbols of an expression, each with its kind: number, name or sign."""
    return list(_symbols(text.replace("\\\n", "")))


def _symbols(text: str) -> Iterator[tuple[str, str]]:
    at = 0
    if "??" in text:
        raise Unknown
    while found := SYMBOL.match(text, at):
        at = found.end()
        if not found.lastindex:
            return
        yield ("number", "name", "sign")[found.lastindex - 1], found[found.lastindex]
    raise Unknown


def number_of(text: str) -> int:
    """The value of a constant."""
    found = NUMBER.fullmatch(text)
    if found is None:
        raise Unknown
    value = next(int(found[n], base) for n, base in enumerate(BASES, 1) if found[n])
    if value > GREATEST:
        raise Unknown
    return value


def listed(diagrams: Diagrams, space: Space) -> int | None:
    """The valid configurations of a space, whose variables the store has, if they are evaluated."""
    if space.valid is None:
        return ALWAYS
    try:
        return Evaluation(diagrams, symbols_of(space.valid), space.variables, PREDEFINED).holds()
    except Unknown:
        return None


class Evaluation:
    """The symbols of an expression, read once. `names` are the variables that stand for their
    options. Of other names nothing is known, or that these macros are all that there are.
    """

    def __init__(
        self,
        diagrams: Diagrams,
        symbols: list[tuple[str, str]],
        names: Collection[str],
        macros: Mapping[str, int | None] | None = None,
    ) -> None:
        self._diagrams = diagrams
        self._symbols = symbols
        self._names = names
        self._macros = macros
        self._at = 0

    def holds(self) -> int:
        """The configurations in which the whole is another number than 0."""
        values = self._choice(ALWAYS)
        if self._at < len(self._symbols):
            raise Unknown
        return self._true(values)

    # ---- values

    def _true(self, values: Values) -> int:
        found = NEVER
        for value, condition in values.items():
            if value:
                found = self._diagrams.disjunction(found, condition)
        return found

    def _gathered(self, pairs: Iterable[tuple[int, int]]) -> Values:
        values: Values = {}
        for value, condition in pairs:
            if condition == NEVER:
                continue
            if not LEAST <= value <= GREATEST:
                raise Unknown
            values[value] = self._diagrams.disjunction(values.get(value, NEVER), condition)
            if len(values) > VALUES_AT_MOST:
                raise Unknown
        return values

    def _each(self, act: Callable[[int, int], int], left: Values, right: Values) -> Values:
        def pairs() -> Iterator[tuple[int, int]]:
            for one, here in left.items():
                for other, there in right.items():
                    both = self._diagrams.conjunction(here, there)
                    if both != NEVER:
                        yield act(one, other), both

        return self._gathered(pairs())

    def _truth(self, holds: int, among: int) -> Values:
        parts = ((1, holds), (0, self._diagrams.difference(among, holds)))
        return self._gathered(parts)

    # ---- symbols, in the configurations that ask for their value

    def _sign(self) -> str:
        return self._symbols[self._at][1] if self._at < len(self._symbols) else ""

    def _next(self) -> tuple[str, str]:
        if self._at == len(self._symbols):
            raise Unknown
        self._at += 1
        return self._symbols[self._at - 1]

    def _needs(self, sign: str) -> None:
        if self._next()[1] != sign:
            raise Unknown

    def _choice(self, among: int) -> Values:
        values = self._binary(0, among)
        if self._sign() != "?":
            return values
        self._at += 1
        holds = self._true(values)
        first = self._choice(holds)
        self._needs(":")
        other = self._choice(self._diagrams.difference(among, holds))
        return self._gathered((one for side in (first, other) for one in side.items()))

    def _binary(self, level: int, among: int) -> Values:
        if level == len(LEVELS):
            return self._unary(among)
        values = self._binary(level + 1, among)
        while self._sign() in LEVELS[level]:
            sign = self._next()[1]
            if sign in LOGICAL:
                values = self._logical(sign, level, values, among)
            else:
                values = self._each(OPERATORS[sign], values, self._binary(level + 1, among))
        return values

    def _logical(self, sign: str, level: int, values: Values, among: int) -> Values:
        left = self._true(values)
        asked = left if sign == "&&" else self._diagrams.difference(among, left)
        right = self._true(self._binary(level + 1, asked))
        holds = right if sign == "&&" else self._diagrams.disjunction(left, right)
        return self._truth(holds, among)

    def _unary(self, among: int) -> Values:
        kind, text = self._next()
        if kind == "number":
            return self._gathered([(number_of(text), among)])
        if kind == "name":
            return self._defined(among) if text == "defined" else self._name(text, among)
        if text in SIGNS:
            values = self._unary(among)
            return self._gathered((SIGNS[text](one), when) for one, when in values.items())
        if text != "(":
            raise Unknown
        values = self._choice(among)
        self._needs(")")
        return values

    def _name(self, name: str, among: int) -> Values:
        if name not in self._names:
            return self._gathered([(self._value_of_other(name), among)])
        options = self._diagrams.variables[name]
        if any(map(is_text, options)):
            raise Unknown
        values = [0 if option == "undef" else int(option) for option in options]
        parts = [self._diagrams.conjunction(among, one) for one in self._by_option(name)]
        return self._gathered(zip(values, parts))

    def _value_of_other(self, name: str) -> int:
        value = None if self._macros is None else self._macros.get(name, 0)
        if value is None:
            raise Unknown
        return value

    def _by_option(self, name: str) -> Iterator[int]:
        places = range(len(self._diagrams.variables[name]))
        for chosen in places:
            yield self._diagrams.make(name, [ALWAYS if one == chosen else NEVER for one in places])

    def _defined(self, among: int) -> Values:
        kind, name = self._next()
        if name == "(":
            kind, name = self._next()
            self._needs(")")
        if kind != "name":
            raise Unknown
        if name not in self._names:
            if self._macros is None:
                raise Unknown
            return self._truth(among if name in self._macros else NEVER, among)
        children = [option != "undef" for option in self._diagrams.variables[name]]
        holds = self._diagrams.make(name, [ALWAYS if one else NEVER for one in children])
        return self._truth(self._diagrams.conjunction(among, holds), among)
