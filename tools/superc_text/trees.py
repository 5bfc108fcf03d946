"""The tree of a text as indented lines."""
from __future__ import annotations

import re
from collections.abc import Iterator
from typing import NamedTuple

from .document import Document, branches_of
from .grammar import productions
from .items import Choice, Leaf, Node, Place
from .layout import Conditions, shown
from .projection import Configuration, tree_at

NUMBER = re.compile(r"[1-9][0-9]*")


class PlaceError(Exception):
    """Words that are no place, or a place at which no part begins."""


class Wanted(NamedTuple):
    """A place that was asked for; what is left out may be any."""

    file: str | None
    line: int
    column: int | None

    def has(self, place: Place) -> bool:
        """Whether a place is one of these."""
        is_file = (
            self.file is None or place.file == self.file or place.file.endswith(f"/{self.file}")
        )
        return is_file and place.line == self.line and self.column in (None, place.column)


def wanted(word: str) -> Wanted:
    """The place that a word LINE, LINE:COLUMN, FILE:LINE or FILE:LINE:COLUMN asks for."""
    *names, last = word.split(":")
    numbers = [last] if NUMBER.fullmatch(last) else []
    if numbers and names and NUMBER.fullmatch(names[-1]):
        numbers.insert(0, names.pop())
    if not numbers:
        raise PlaceError(f"{word} is no place")
    column = int(numbers[1]) if len(numbers) > 1 else None
    return Wanted(":".join(names) or None, int(numbers[0]), column)


def document_at(document: Document, configuration: Configuration) -> Document:
    """The tree of one configuration, without choices."""
    alone = Document()
    alone.kind = document.kind
    alone.diagrams, alone.files, alone.number_of = (
        document.diagrams,
        document.files,
        document.number_of,
    )
    alone.parts = list(tree_at(document, configuration))
    alone.root = len(alone.parts) - 1 if alone.parts else None
    return alone


def left_of(node: Node) -> str:
    """The name of a node."""
    return productions()[node.production].left


def is_list(document: Document, node: Node) -> bool:
    """Whether a node is a list, which begins with a shorter one."""
    return productions()[node.production].right[0] == left_of(node)


def firsts(document: Document) -> list[tuple[int, ...]]:
    """For each part the leaves with which it may begin."""
    begins: list[tuple[int, ...]] = []
    for part in document.parts:
        if isinstance(part, Leaf):
            begins.append((part.number,))
        elif isinstance(part, Choice):
            begins.append(
                tuple(dict.fromkeys(one for _, child in part.branches for one in begins[child]))
            )
        else:
            begins.append(begins[part.children[0]] if part.children else ())
    return begins


def parts_at(document: Document, place: Wanted) -> list[int]:
    """The largest parts that begin at a place; lists and the whole unit are none."""
    begins = firsts(document)
    leaves = {
        part.number for part in document.parts if isinstance(part, Leaf) and place.has(part.place)
    }
    if document.root is None or not leaves:
        return []
    found: list[int] = []
    seen: set[int] = set()
    waiting = [document.root]
    while waiting:
        number = waiting.pop()
        if number in seen:
            continue
        seen.add(number)
        part = document.parts[number]
        is_whole = number == document.root or isinstance(part, Node) and is_list(document, part)
        if not is_whole and not isinstance(part, Choice) and leaves.intersection(begins[number]):
            found.append(number)
        else:
            waiting.extend(child for _, child in reversed(branches_of(part)))
    return found


class TreeView:
    """The lines of a tree, or of some of its parts. A list is shown flat, and a part that several
    others have is shown once, with its number.
    """

    def __init__(
        self, document: Document, conditions: Conditions, deepest: int | None = None
    ) -> None:
        self._document = document
        self._conditions = conditions
        self._deepest = deepest
        self._reached = document.part_conditions()
        self._parents = [0] * len(document.parts)
        for part in document.parts:
            for _, child in branches_of(part):
                self._parents[child] += 1
        self._done: set[int] = set()
        self._file: str | None = None

    def lines(self, top: int) -> Iterator[str]:
        """The lines of a part."""
        waiting = [(top, 0, "")]
        while waiting:
            number, depth, when = waiting.pop()
            margin = "  " * depth + when
            if number in self._done:
                yield f"{margin}[{number}] above"
                continue
            self._done.add(number)
            part = self._document.parts[number]
            label = f" [{number}]" if self._parents[number] > 1 else ""
            if isinstance(part, Leaf):
                yield f"{margin}{shown(part.spelling)}  {self._place(part.place)}{label}"
                continue
            name = "choice" if isinstance(part, Choice) else f"{left_of(part)} {part.production}"
            if self._deepest is not None and depth >= self._deepest:
                yield f"{margin}{name}{label} .."
                continue
            yield f"{margin}{name}{label}"
            waiting.extend((child, depth + 1, text) for child, text in reversed(self._below(part)))

    def _place(self, place: Place) -> str:
        """A place, with its file where that is another one than before."""
        changes = place.file != self._file
        self._file = place.file
        return (
            f"{place.file}:{place.line}:{place.column}"
            if changes
            else f"{place.line}:{place.column}"
        )

    def _below(self, part: Node | Choice) -> list[tuple[int, str]]:
        if isinstance(part, Node):
            return [(child, "") for child in self._flat(part)]
        among = self._reached[part.number]
        return [
            (child, f"when {self._conditions.text(condition, among)}: ")
            for condition, child in part.branches
        ]

    def _flat(self, node: Node) -> list[int]:
        """The children of a node; where the first one is a list of the same name, its children
        stand in its place.
        """
        children: list[int] = []
        while True:
            children.extend(reversed(node.children))
            if not node.children:
                break
            first = self._document.parts[node.children[0]]
            is_same = isinstance(first, Node) and left_of(first) == left_of(node)
            if not is_same or self._parents[first.number] > 1:
                break
            children.pop()
            assert isinstance(first, Node)
            node = first
        return children[::-1]
