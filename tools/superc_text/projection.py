"""What a text says of one configuration."""
from __future__ import annotations

from collections.abc import Iterable, Iterator

from .diagrams import ALWAYS, NEVER, Diagrams
from .document import Document
from .items import Choice, Fault, Leaf, Node, Token

Configuration = dict[str, str]


class ConfigurationError(Exception):
    """Words that name no configuration."""


def configuration_of(words: Iterable[str]) -> Configuration:
    """The options of words NAME=OPTION."""
    chosen: Configuration = {}
    for word in words:
        name, equals, option = word.partition("=")
        if not equals:
            raise ConfigurationError(f"UnknownVariable {word}")
        if name in chosen:
            raise ConfigurationError(f"RepeatedVariable {name}")
        chosen[name] = option
    return chosen


class Projection:
    """The conditions of a text at one configuration. A variable that is not named takes its first
    option.
    """

    def __init__(self, diagrams: Diagrams, configuration: Configuration) -> None:
        self._diagrams = diagrams
        self._configuration = configuration
        self._known: dict[int, bool] = {NEVER: False, ALWAYS: True}

    def has(self, condition: int) -> bool:
        """Whether the configuration has a condition."""
        if condition not in self._known:
            self.check()
            self._known[condition] = self._diagrams.holds(condition, self._configuration)
        return self._known[condition]

    def check(self) -> list[str]:
        """Refuses an option that its variable doesn't have. Answers the names on which no condition
        depends so far.
        """
        variables = self._diagrams.variables
        for name, option in self._configuration.items():
            if name in variables and option not in variables[name]:
                raise ConfigurationError(f"UnknownOption {name}")
        return [name for name in self._configuration if name not in variables]


def need_valid(diagrams: Diagrams, unlisted: int, configuration: Configuration) -> None:
    """Refuses a configuration that is not valid."""
    if Projection(diagrams, configuration).has(unlisted):
        raise ConfigurationError("Invalid")


def fault_at(document: Document, configuration: Configuration) -> Fault | None:
    """The fault for which a configuration is refused."""
    projection = Projection(document.diagrams, configuration)
    return next((fault for fault in document.faults if projection.has(fault.condition)), None)


def tokens_at(document: Document, configuration: Configuration) -> Iterator[Token]:
    """The tokens of a configuration, in order. Where it is refused they mean nothing."""
    projection = Projection(document.diagrams, configuration)
    if document.kind == "tree":
        for part in tree_at(document, configuration):
            if isinstance(part, Leaf):
                yield Token(ALWAYS, part.place, part.spelling)
    else:
        for token in document.tokens:
            if projection.has(token.condition):
                yield token._replace(condition=ALWAYS)


def tree_at(document: Document, configuration: Configuration) -> Iterator[Leaf | Node]:
    """The tree of a configuration without choices, children first. Parts and children are numbered
    anew.
    """
    projection = Projection(document.diagrams, configuration)
    waiting = [] if document.root is None else [(document.root, False)]
    finished: list[int] = []
    count = 0
    while waiting:
        number, are_children_done = waiting.pop()
        part = document.parts[number]
        if isinstance(part, Choice):
            chosen = [child for condition, child in part.branches if projection.has(condition)]
            if not chosen:
                raise ConfigurationError(f"no part of choice {number} stands there")
            waiting.extend((child, False) for child in chosen)
            continue
        if isinstance(part, Node) and not are_children_done:
            waiting.append((number, True))
            waiting.extend((child, False) for child in reversed(part.children))
            continue
        if isinstance(part, Node):
            first = len(finished) - len(part.children)
            yield Node(count, part.production, tuple(finished[first:]))
            del finished[first:]
        else:
            yield Leaf(count, part.place, part.spelling)
        finished.append(count)
        count += 1
