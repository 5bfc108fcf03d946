"""Writes texts as superc prints them."""
from __future__ import annotations

from collections.abc import Iterable, Iterator

from .diagrams import ALWAYS, NEVER, Diagrams
from .document import Document
from .items import Choice, Conflict, Fault, Item, Leaf, Node, Place, Root, Token
from .projection import Configuration, fault_at, tokens_at, tree_at


class Writer:
    """The lines of items, each after the lines of the conditions and the file that it needs."""

    def __init__(self, diagrams: Diagrams) -> None:
        self._diagrams = diagrams
        self._conditions: dict[int, int] = {NEVER: NEVER, ALWAYS: ALWAYS}
        self._files: dict[str, int] = {}
        self._new: list[bytes] = []

    def lines(self, items: Iterable[Item]) -> Iterator[bytes]:
        """The lines of a whole text."""
        for item in items:
            line = self._line(item)
            yield from self._new
            self._new.clear()
            yield line + b"\n"
        yield b"end\n"

    def _line(self, item: Item) -> bytes:
        match item:
            case Token(condition, place, spelling):
                return b"t %d %s %s" % (self._condition(condition), self._place(place), spelling)
            case Fault(condition, code, name, place):
                return b"f %d %d %s %s" % (
                    self._condition(condition),
                    code,
                    name.encode(),
                    self._place(place),
                )
            case Leaf(number, place, spelling):
                return b"l %d %s %s" % (number, self._place(place), spelling)
            case Node(number, production, children):
                return b" ".join([b"n", *map(_decimal, (number, production, *children))])
            case Choice(number, branches):
                fields = [
                    b"%d:%d" % (self._condition(condition), child) for condition, child in branches
                ]
                return b" ".join([b"x", _decimal(number), *fields])
            case Root(number):
                return b"root -" if number is None else b"root %d" % number
            case Conflict():
                return f"k {item.state} {item.terminal} {item.kept} {item.lost}".encode()
        raise TypeError(item)

    def _condition(self, condition: int) -> int:
        for one in (
            self._diagrams.reachable((condition,)) if condition not in self._conditions else ()
        ):
            if one not in self._conditions:
                self._conditions[one] = len(self._conditions)
                name = self._diagrams.top(one)
                pairs = zip(self._diagrams.variables[name], self._diagrams.children(one))
                fields = [f"{option}:{self._conditions[child]}" for option, child in pairs]
                self._new.append(f"c {self._conditions[one]} {name} {' '.join(fields)}\n".encode())
        return self._conditions[condition]

    def _place(self, place: Place) -> bytes:
        if place.file not in self._files:
            self._files[place.file] = len(self._files)
            self._new.append(f"s {self._files[place.file]} {place.file}\n".encode())
        return b"%d:%d:%d" % (self._files[place.file], place.line, place.column)


def _decimal(number: int) -> bytes:
    return b"%d" % number


def text_of(document: Document) -> bytes:
    """The text of a document."""
    roots = [Root(document.root)] if document.kind == "tree" else []
    items: list[Item] = [
        *document.conflicts,
        *document.tokens,
        *document.parts,
        *roots,
        *document.faults,
    ]
    return b"".join(Writer(document.diagrams).lines(items))


def text_at(document: Document, configuration: Configuration) -> bytes:
    """The text of one configuration alone: of a tree that which `superc project` prints."""
    fault = fault_at(document, configuration)
    items: list[Item] = []
    if document.kind == "tree":
        items = [] if fault else list(tree_at(document, configuration))
        items.append(Root(None if fault else len(items) - 1))
    elif not fault:
        items = list(tokens_at(document, configuration))
    items.extend([fault._replace(condition=ALWAYS)] if fault else [])
    return b"".join(Writer(document.diagrams).lines(items))
