"""What the lines of a text tell."""
from __future__ import annotations

from typing import NamedTuple, Union

CAUSES = (
    "NotFound",
    "FileTooLarge",
    "UnterminatedComment",
    "BadNesting",
    "BadDirective",
    "BadDefine",
    "Redefined",
    "ProtectedName",
    "BadIf",
    "IfDivision",
    "IfOverflow",
    "IfShift",
    "DefinedFromMacro",
    "BadInclude",
    "IncludeDepth",
    "ErrorDirective",
    "UnterminatedCall",
    "WrongArguments",
    "BadPaste",
    "BadStringize",
    "BadToken",
    "Syntax",
    "BadPragma",
)


class Place(NamedTuple):
    """Where a token or a fault stands; lines and columns count from 1, columns in bytes."""

    file: str
    line: int
    column: int


class Token(NamedTuple):
    """A preprocessed token under a condition."""

    condition: int
    place: Place
    spelling: bytes


class Fault(NamedTuple):
    """Why the configurations of a condition are refused."""

    condition: int
    code: int
    name: str
    place: Place


class Leaf(NamedTuple):
    """A token in a tree."""

    number: int
    place: Place
    spelling: bytes


class Node(NamedTuple):
    """A production with its children in a tree."""

    number: int
    production: int
    children: tuple[int, ...]


class Choice(NamedTuple):
    """A place in a tree where configurations differ: conditions, each with the part that stands
    there.
    """

    number: int
    branches: tuple[tuple[int, int], ...]


class Root(NamedTuple):
    """The whole tree, or None where every configuration is refused."""

    number: int | None


class Conflict(NamedTuple):
    """A conflict of the parser's tables: one action was kept and one lost."""

    state: int
    terminal: str
    kept: str
    lost: str


Part = Union[Leaf, Node, Choice]
Item = Union[Token, Fault, Leaf, Node, Choice, Root, Conflict]
