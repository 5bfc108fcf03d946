"""Copies of headers that superc reads in the place of the project's own ones and the system's.

A copy stands under the overlay's folder by the whole name of its file, so the directory of the
overlay before each directory of the search has the copies of that directory alone. Lines keep their
numbers, but for those of settings.
"""
from __future__ import annotations

import hashlib
import os
from collections.abc import Callable, Iterable
from dataclasses import dataclass, field

from .reach import BESIDE, Edge, Found, Reach
from .sources import source_of

# Texts for spans of a file.
Edits = dict[tuple[int, int], str]
EditsOf = Callable[[Found], Edits]


@dataclass
class Overlay:
    """The copies that the files below some first ones need."""

    root: str
    reach: Reach
    copies: dict[Found, Edits]
    # The files that are read once in a unit: a copy includes the file where it was not read before.
    once: set[Found] = field(default_factory=set)

    @classmethod
    def of(
        cls,
        root: str,
        reach: Reach,
        reached: Iterable[Found],
        edits_of: EditsOf,
        is_once: Callable[[Found], bool] = lambda here: False,
    ) -> Overlay:
        """The files with edits of their own, and those that find one of these beside them."""
        files = list(reached)
        once = {here for here in files if is_once(here)}
        edited = {here: edits_of(here) for here in files}
        copies = {here: edits for here, edits in edited.items() if edits or here in once}
        overlay = cls(root, reach, copies, once)
        includers: dict[Found, list[Found]] = {}
        for here in files:
            for edge in reach.edges(here):
                if edge.found and not overlay._is_searched(edge):
                    includers.setdefault(edge.found, []).append(here)
        waiting = list(overlay.copies)
        while waiting:
            for here in includers.get(waiting.pop(), ()):
                if here not in overlay.copies:
                    overlay.copies[here] = {}
                    waiting.append(here)
        return overlay

    @staticmethod
    def _is_searched(edge: Edge) -> bool:
        """Whether a copy is found by the search, without another name."""
        return edge.found is not None and edge.found.at != BESIDE and not edge.include.is_next

    def path_of(self, here: Found) -> str:
        """The name of a file, or of its copy."""
        if here not in self.copies:
            return here.path
        goes_on = here.at == BESIDE and any(one.is_next for one in source_of(here.path).includes)
        return f"{self.root}{'/beside' if goes_on else ''}{here.path}"

    def directories(self, directories: list[str]) -> list[str]:
        """The directories of a search, each behind that of its copies."""
        used = {(here.at, here.path) for here in self.copies if here.at != BESIDE}
        places = {at for at, _ in used}
        listed: list[str] = []
        for at, directory in enumerate(directories):
            listed += [self.root + directory, directory] if at in places else [directory]
        return listed

    def text_of(self, here: Found) -> str:
        """The text of a copy."""
        source = source_of(here.path)
        edits = dict(self.copies[here])
        for edge in self.reach.edges(here):
            if edge.found and not self._is_searched(edge):
                edits[edge.include.span] = f'"{self.path_of(edge.found)}"'
                if edge.include.is_next:
                    edits[edge.include.word] = "include"
        pieces, at = [], 0
        for (begin, end), text in sorted(edits.items()):
            if begin >= at:
                pieces += [source.text[at:begin], text]
                at = end
        return "".join([*pieces, source.text[at:]])

    def guard_of(self, here: Found) -> tuple[str, str]:
        """What is read in the place of a file that is read once, and the name of that file, or of
        its copy.
        """
        edges = self.reach.edges(here)
        needs_copy = self.copies[here] or any(
            edge.found in self.copies and not self._is_searched(edge) for edge in edges
        )
        path = f"{self.root}/once{here.path}" if needs_copy else here.path
        name = (
            f"SUPERC_ONCE_{hashlib.sha256(os.path.realpath(here.path).encode()).hexdigest()[:16]}"
        )
        return f'#ifndef {name}\n#define {name}\n#include "{path}"\n#endif\n', path

    def write(self) -> None:
        """Writes the copies that are not there as they should be."""
        for here in self.copies:
            path = self.path_of(here)
            if here in self.once:
                guard, inner = self.guard_of(here)
                write_if_new(path, guard)
                path = inner
            if path != here.path:
                write_if_new(path, self.text_of(here))


def write_if_new(path: str, text: str) -> None:
    """Writes a file unless it has this text."""
    try:
        with open(path, encoding="latin-1", newline="") as file:
            if file.read() == text:
                return
    except OSError:
        os.makedirs(os.path.dirname(path), exist_ok=True)
    with open(path, "w", encoding="latin-1", newline="") as file:
        file.write(text)
