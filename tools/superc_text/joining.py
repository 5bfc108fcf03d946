"""The branches of a choice as one list of parts: what they share stands once, if it is large.

A branch is taken apart until its pieces are parts that another branch has too, or that no node
holds. Lists of a file grow to the left, so what two branches share is mostly their first part.
"""
from __future__ import annotations

from difflib import SequenceMatcher
from typing import TYPE_CHECKING

from .items import Choice, Node

if TYPE_CHECKING:
    from .document import Document

# How many leaves a part has that is told once between others.
LARGE = 12

# A part with the condition under which it stands.
Piece = tuple[int, int]


def joined(document: Document, choice: Choice) -> list[Piece]:
    """The parts of a choice in order, each with the configurations of its branches."""
    first = _shared_front(document, [child for _, child in choice.branches])
    rests = [
        ([child], condition) if first is None else (_behind(document, child, first), condition)
        for condition, child in choice.branches
    ]
    pieces: list[Piece] = []
    if first is not None:
        every = [condition for condition, _ in choice.branches]
        pieces.append((first, _union(document, every)))
    return pieces + _merged(document, rests)


def _union(document: Document, conditions: list[int]) -> int:
    whole = conditions[0]
    for condition in conditions[1:]:
        whole = document.diagrams.disjunction(whole, condition)
    return whole


def _first_child(document: Document, number: int) -> int | None:
    part = document.parts[number]
    return part.children[0] if isinstance(part, Node) and part.children else None


def _shared_front(document: Document, branches: list[int]) -> int | None:
    """The largest part with which all branches begin."""
    seen: dict[int, int] = {}
    heads: list[int | None] = list(branches)
    while any(head is not None for head in heads):
        for place, head in enumerate(heads):
            if head is not None:
                seen[head] = seen.get(head, 0) + 1
                if seen[head] == len(branches):
                    return head
                heads[place] = _first_child(document, head)
    return None


def _behind(document: Document, number: int, front: int) -> list[int]:
    """The parts of a branch behind the one with which it begins."""
    rests: list[int] = []
    while number != front:
        part = document.parts[number]
        assert isinstance(part, Node)
        rests.extend(reversed(part.children[1:]))
        number = part.children[0]
    return rests[::-1]


def _merged(document: Document, rests: list[tuple[list[int], int]]) -> list[Piece]:
    """Lists of parts, each under its condition, as one list."""
    rests = [rest for rest in rests if rest[0]]
    if len(rests) < 2:
        return [(number, condition) for numbers, condition in rests for number in numbers]
    held: dict[int, int] = {}
    for numbers, _ in rests:
        for number in _below(document, numbers):
            held[number] = held.get(number, 0) + 1
    merged: list[Piece] = []
    for numbers, condition in rests:
        apart = [(number, condition) for number in _apart(document, numbers, held)]
        merged = _aligned(document, merged, apart)
    return merged


def _below(document: Document, numbers: list[int]) -> set[int]:
    """The parts with those below them, but for what choices hold."""
    seen: set[int] = set()
    waiting = list(numbers)
    while waiting:
        number = waiting.pop()
        if number not in seen:
            seen.add(number)
            part = document.parts[number]
            waiting.extend(part.children if isinstance(part, Node) else ())
    return seen


def _apart(document: Document, numbers: list[int], held: dict[int, int]) -> list[int]:
    """The parts, each node that no other branch has replaced by its children."""
    pieces: list[int] = []
    waiting = list(reversed(numbers))
    while waiting:
        number = waiting.pop()
        part = document.parts[number]
        if isinstance(part, Node) and held[number] < 2:
            waiting.extend(reversed(part.children))
        else:
            pieces.append(number)
    return pieces


def _aligned(document: Document, left: list[Piece], right: list[Piece]) -> list[Piece]:
    """Two lists as one, in which what both have stands once: at the ends, and between them where
    it is large.
    """
    front = _equal(left, right)
    left, rest_left = left[:front], left[front:]
    shared, rest_right = right[:front], right[front:]
    back = _equal(rest_left[::-1], rest_right[::-1])
    middle = len(rest_left) - back, len(rest_right) - back
    return [
        *_both(document, left, shared),
        *_aligned_middle(document, rest_left[: middle[0]], rest_right[: middle[1]]),
        *_both(document, rest_left[middle[0] :], rest_right[middle[1] :]),
    ]


def _equal(left: list[Piece], right: list[Piece]) -> int:
    """How many parts are the same from the first one on."""
    count = 0
    for (one, _), (other, _) in zip(left, right):
        if one != other:
            break
        count += 1
    return count


def _both(document: Document, left: list[Piece], right: list[Piece]) -> list[Piece]:
    disjunction = document.diagrams.disjunction
    return [(one, disjunction(when, other)) for (one, when), (_, other) in zip(left, right)]


def _aligned_middle(document: Document, left: list[Piece], right: list[Piece]) -> list[Piece]:
    keys: list[list[object]] = [
        [
            number if document.sizes[number] >= LARGE else (side, place)
            for place, (number, _) in enumerate(pieces)
        ]
        for side, pieces in enumerate((left, right))
    ]
    pieces: list[Piece] = []
    for name, a, b, c, d in SequenceMatcher(None, keys[0], keys[1], False).get_opcodes():
        if name == "equal":
            pieces.extend(_both(document, left[a:b], right[c:d]))
        else:
            pieces.extend([*left[a:b], *right[c:d]])
    return pieces
