"""Conditions as reduced ordered decision diagrams.

A condition is a number: 0 has no configuration, 1 has all, and each other one is a node that asks
for the option of one variable. Variables are ordered by the bytes of their names, and two
conditions with the same configurations are one number.
"""
from __future__ import annotations

from collections.abc import Container, Iterable, Mapping

NEVER = 0
ALWAYS = 1

# The name on which 0 and 1 depend: it comes after each name of a variable.
NO_VARIABLE = "\x7f"


class Diagrams:
    """A store of conditions that only grows."""

    def __init__(self) -> None:
        self.variables: dict[str, tuple[str, ...]] = {}
        self._tops: list[str] = [NO_VARIABLE, NO_VARIABLE]
        self._children: list[tuple[int, ...]] = [(), ()]
        self._numbers: dict[tuple[str, tuple[int, ...]], int] = {}
        self._conjunctions: dict[tuple[int, int], int] = {}
        self._negations: dict[int, int] = {NEVER: ALWAYS, ALWAYS: NEVER}

    def __len__(self) -> int:
        return len(self._tops)

    def top(self, condition: int) -> str:
        """The first variable on which a condition depends."""
        return self._tops[condition]

    def children(self, condition: int) -> tuple[int, ...]:
        """What remains of a condition for each option of its first variable."""
        return self._children[condition]

    def find(self, name: str, children: tuple[int, ...]) -> int | None:
        """The node with these children, where it is in the store."""
        return self._numbers.get((name, children))

    def make(self, name: str, children: Iterable[int]) -> int:
        """The condition that remains as `children` say for the options of a variable."""
        parts = tuple(children)
        if all(part == parts[0] for part in parts):
            return parts[0]
        number = self._numbers.setdefault((name, parts), len(self._tops))
        if number == len(self._tops):
            self._tops.append(name)
            self._children.append(parts)
        return number

    def parts(self, condition: int, name: str) -> tuple[int, ...]:
        """What remains for each option of a variable that is the first one of the condition, or
        before it.
        """
        if self._tops[condition] == name:
            return self._children[condition]
        return (condition,) * len(self.variables[name])

    def conjunction(self, left: int, right: int) -> int:
        """The configurations of both."""
        if left == right or right == ALWAYS:
            return left
        if left == ALWAYS:
            return right
        if NEVER in (left, right):
            return NEVER
        pair = (left, right) if left < right else (right, left)
        if pair not in self._conjunctions:
            name = min(self._tops[left], self._tops[right])
            pairs = zip(self.parts(left, name), self.parts(right, name))
            self._conjunctions[pair] = self.make(name, [self.conjunction(a, b) for a, b in pairs])
        return self._conjunctions[pair]

    def negation(self, condition: int) -> int:
        """The configurations that a condition doesn't have."""
        if condition not in self._negations:
            parts = [self.negation(part) for part in self._children[condition]]
            other = self.make(self._tops[condition], parts)
            self._negations[condition] = other
            self._negations[other] = condition
        return self._negations[condition]

    def disjunction(self, left: int, right: int) -> int:
        """The configurations of one or both."""
        return self.negation(self.conjunction(self.negation(left), self.negation(right)))

    def difference(self, left: int, right: int) -> int:
        """The configurations of the left one alone."""
        return self.conjunction(left, self.negation(right))

    def meet(self, left: int, right: int) -> bool:
        """Whether two conditions have a configuration in common; no node is made for the answer."""
        seen: set[tuple[int, int]] = set()
        waiting = [(left, right)]
        while waiting:
            pair = waiting.pop()
            if pair in seen or NEVER in pair:
                continue
            seen.add(pair)
            if ALWAYS in pair or pair[0] == pair[1]:
                return True
            name = min(self._tops[pair[0]], self._tops[pair[1]])
            waiting.extend(zip(self.parts(pair[0], name), self.parts(pair[1], name)))
        return False

    def holds(self, condition: int, configuration: Mapping[str, str]) -> bool:
        """Whether a configuration has the condition. A variable that it does not name takes its
        first option.
        """
        while condition > ALWAYS:
            name = self._tops[condition]
            options = self.variables[name]
            option = configuration.get(name, options[0])
            condition = self._children[condition][options.index(option)]
        return condition == ALWAYS

    def reachable(
        self, conditions: Iterable[int], among: Container[int] | None = None
    ) -> list[int]:
        """The nodes below some conditions with themselves, each after its children; where `among`
        is given, those of it that are reached through it alone.
        """
        done: set[int] = {NEVER, ALWAYS}
        order: list[int] = []
        waiting = [(condition, False) for condition in reversed(list(conditions))]
        while waiting:
            condition, is_finished = waiting.pop()
            if condition in done or (among is not None and condition not in among):
                continue
            if is_finished:
                done.add(condition)
                order.append(condition)
                continue
            waiting.append((condition, True))
            waiting.extend((part, False) for part in reversed(self._children[condition]))
        return order
