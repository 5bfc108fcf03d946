"""A whole text in memory."""
from __future__ import annotations

from collections.abc import Iterable, Iterator
from functools import cached_property

from .diagrams import ALWAYS, NEVER, Diagrams
from .items import Choice, Conflict, Fault, Leaf, Node, Part, Place, Root, Token
from .joining import joined
from .layout import Conditions
from .reader import Reader
from .space import Space


class Document:
    """What a text tells: its conditions, and its tokens or its tree, and its faults."""

    def __init__(self) -> None:
        self.kind = "tokens"
        self.diagrams = Diagrams()
        # The configurations that are not valid, where the space tells.
        self.unlisted = NEVER
        self.files: list[str] = []
        self.tokens: list[Token] = []
        self.parts: list[Part] = []
        self.root: int | None = None
        self.faults: list[Fault] = []
        self.conflicts: list[Conflict] = []
        self.number_of: dict[int, int] = {}

    @classmethod
    def read(cls, lines: Iterable[bytes], space: Space | None = None) -> Document:
        """The text that has these lines. Where the space is given, it names no other variables."""
        document, reader = cls(), Reader(lines, space)
        for item in reader:
            document._add(item)
        document.kind = reader.kind or "tokens"
        document.diagrams, document.files, document.number_of, document.unlisted = (
            reader.diagrams,
            reader.files,
            reader.number_of,
            reader.unlisted,
        )
        return document

    def _add(self, item: Token | Fault | Part | Root | Conflict) -> None:
        match item:
            case Token():
                self.tokens.append(item)
            case Fault():
                self.faults.append(item)
            case Root():
                self.root = item.number
            case Conflict():
                self.conflicts.append(item)
            case _:
                self.parts.append(item)

    def refused(self) -> int:
        """The configurations that have a fault."""
        refused = NEVER
        for fault in self.faults:
            refused = self.diagrams.disjunction(refused, fault.condition)
        return refused

    def conditions(self, is_exact: bool = False) -> Conditions:
        """How conditions are shown, where configurations that are refused or not valid may have
        them or not.
        """
        if is_exact:
            return Conditions(self.diagrams, self.number_of)
        return Conditions(self.diagrams, self.number_of, self.refused(), self.unlisted)

    @cached_property
    def sizes(self) -> list[int]:
        """For each part of the tree how many leaves it has, of all branches together."""
        sizes: list[int] = []
        for part in self.parts:
            leaf = isinstance(part, Leaf)
            sizes.append(1 if leaf else sum(sizes[child] for _, child in branches_of(part)))
        return sizes

    def shown_tokens(self) -> Iterator[Token]:
        """The tokens in order. Those of a tree are its leaves as often as they occur, each under
        the conditions of the choices above it.
        """
        return leaves(self) if self.kind == "tree" else iter(self.tokens)

    def part_conditions(self) -> list[int]:
        """For each part of the tree the configurations that have it."""
        conditions = [NEVER] * len(self.parts)
        if self.root is not None:
            conditions[self.root] = ALWAYS
        for part in reversed(self.parts):
            own = conditions[part.number]
            for condition, child in branches_of(part):
                reached = self.diagrams.conjunction(own, condition)
                conditions[child] = self.diagrams.disjunction(conditions[child], reached)
        return conditions


def leaves(document: Document) -> Iterator[Token]:
    """The leaves of a tree as tokens, from left to right. What the branches of a choice share may
    be told once.
    """
    diagrams = document.diagrams
    waiting = [] if document.root is None else [(document.root, ALWAYS)]
    while waiting:
        number, condition = waiting.pop()
        part = document.parts[number]
        if isinstance(part, Leaf):
            yield Token(condition, part.place, part.spelling)
        elif isinstance(part, Node):
            waiting.extend((child, condition) for child in reversed(part.children))
        else:
            for child, when in reversed(joined(document, part)):
                met = diagrams.conjunction(condition, when)
                waiting.extend([(child, met)] if met != NEVER else [])


def branches_of(part: Part) -> tuple[tuple[int, int], ...]:
    """The children of a part of a tree, each with its condition."""
    match part:
        case Node():
            return tuple((ALWAYS, child) for child in part.children)
        case Choice():
            return part.branches
        case _:
            return ()


def plain_place(place: Place) -> str:
    """A place as compilers write it."""
    return f"{place.file}:{place.line}:{place.column}"
