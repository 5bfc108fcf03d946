"""Which files a file may include, as a compiler searches for them."""
from __future__ import annotations

import os
from collections.abc import Iterator
from dataclasses import dataclass
from functools import cache

from .sources import Include, Source, source_of

# How a file is found that stands beside the one that includes it, or that was named: behind it the
# search goes on at the first directory.
BESIDE = -1


@dataclass(frozen=True)
class Found:
    """A file, and in which directory of the search it was found."""

    path: str
    at: int


@dataclass(frozen=True)
class Edge:
    """An `#include` of a file with the file that it finds, if there is one."""

    include: Include
    found: Found | None


class Search:
    """The directories in which headers are looked for, in order."""

    def __init__(self, quoted: list[str], directories: list[str]) -> None:
        self.quoted = quoted
        self.directories = directories
        self.all = [*quoted, *directories]

    def find(self, name: str, is_quoted: bool, beside: str | None) -> Found | None:
        """The file that a header's name stands for."""
        if os.path.isabs(name):
            return Found(name, BESIDE) if is_file(name) else None
        if is_quoted and beside is not None and is_file(path := os.path.join(beside, name)):
            return Found(path, BESIDE)
        return self._from(name, 0 if is_quoted else len(self.quoted))

    def find_next(self, name: str, here: Found) -> Found | None:
        """The file behind a header in the search."""
        return self._from(name, here.at + 1)

    def _from(self, name: str, first: int) -> Found | None:
        for at in range(first, len(self.all)):
            if is_file(path := os.path.join(self.all[at], name)):
                return Found(path, at)
        return None


@cache
def is_file(path: str) -> bool:
    """Whether a file has this name."""
    return os.path.isfile(path)


class Reach:
    """The files that may be included with one order of the search. Each is looked at once."""

    def __init__(self, search: Search) -> None:
        self.search = search
        self._edges: dict[Found, list[Edge]] = {}

    def edges(self, here: Found) -> list[Edge]:
        """What the directives of a file find."""
        if here not in self._edges:
            self._edges[here] = [
                Edge(include, self._target(include, here))
                for include in source_of(here.path).includes
            ]
        return self._edges[here]

    def _target(self, include: Include, here: Found) -> Found | None:
        if include.is_next:
            return self.search.find_next(include.name, here)
        return self.search.find(include.name, include.is_quoted, os.path.dirname(here.path))

    def below(self, firsts: list[Found]) -> dict[Found, Source]:
        """The files that may be read where these are, themselves included."""
        reached: dict[Found, Source] = {}
        waiting = list(reversed(firsts))
        while waiting:
            here = waiting.pop()
            if here not in reached:
                reached[here] = source_of(here.path)
                waiting.extend(edge.found for edge in self.edges(here) if edge.found)
            if not waiting:
                waiting.extend(one for one in self._by_macros(reached) if one not in reached)
        return reached

    def _by_macros(self, reached: dict[Found, Source]) -> Iterator[Found]:
        """The files that an `#include` of a macro may find."""
        names = {name for source in reached.values() for name in source.named}
        for here, source in reached.items() if names else ():
            for macro, name, is_quoted in source.named_headers:
                if macro in names:
                    beside = os.path.dirname(here.path)
                    found = self.search.find(name, is_quoted, beside)
                    yield from [found] if found else []
