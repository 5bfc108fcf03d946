"""In which configurations a conditional line takes its branch, where variables alone decide it."""
from __future__ import annotations

import re
from collections.abc import Collection

from .diagrams import ALWAYS, Diagrams
from .evaluation import Evaluation, Unknown, symbols_of


class Heads:
    """Conditional lines, by the variables that nothing defines or takes back."""

    def __init__(self, diagrams: Diagrams, names: Collection[str]) -> None:
        self._diagrams = diagrams
        self._names = names
        self._known: dict[tuple[str, str], int | None] = {}

    def taken(self, word: str, rest: str) -> int | None:
        """The configurations in which a line with this word and this rest takes its branch, if
        variables alone decide it.
        """
        pair = word, rest.strip()
        if pair not in self._known:
            try:
                self._known[pair] = self._taken(*pair)
            except Unknown:
                self._known[pair] = None
        return self._known[pair]

    def _taken(self, word: str, rest: str) -> int:
        if word == "else":
            return ALWAYS
        if word in ("ifdef", "ifndef"):
            name = re.match(r"\w+", rest)
            rest = f"{'!' if word == 'ifndef' else ''}defined({name[0] if name else ''})"
        return Evaluation(self._diagrams, symbols_of(rest), self._names).holds()
