"""The productions of C11 by number, with the names of their left sides and how many children their
nodes have.
"""
from __future__ import annotations

from functools import cache
from pathlib import Path
from typing import NamedTuple

# These terminals have no leaf.
WITHOUT_LEAF = {"TYPE", "VARIABLE", "END"}


class Production(NamedTuple):
    """One production. One with a single symbol has no node, but for that of an empty unit."""

    left: str
    right: tuple[str, ...]

    @property
    def children(self) -> int:
        return sum(symbol not in WITHOUT_LEAF for symbol in self.right)

    @property
    def has_node(self) -> bool:
        return len(self.right) > 1 or self.right == ("END",)


@cache
def productions() -> dict[int, Production]:
    """The productions by number. They count from 1."""
    found: dict[int, Production] = {}
    left = ""
    for line in (Path(__file__).parent / "productions.txt").read_text().splitlines():
        if ":" in line:
            left, _, right = line.partition(":")
        else:
            right = line.partition("|")[2]
        found[len(found) + 1] = Production(left, tuple(right.split()))
    return found
