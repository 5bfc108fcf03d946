"""What texts need of a space file: its variables, and which configurations are valid."""

from __future__ import annotations

import tomllib
from typing import NamedTuple

Variables = dict[str, tuple[str, ...]]


class SpaceError(Exception):
    """A space file that names no variables with their options, or whose rule is no text."""


class Space(NamedTuple):
    """The variables with their options, and the text that says which configurations are valid, if
    not all are.
    """

    variables: Variables
    valid: str | None = None


def space_of(space: bytes) -> Space:
    """The space of a file."""
    try:
        table = tomllib.loads(space.decode("utf-8"))
    except ValueError:
        raise SpaceError("NotToml") from None
    variables, valid = table.get("variables"), table.get("valid")
    if not isinstance(variables, dict):
        raise SpaceError("NoVariables")
    named = {name: _options(name, variables[name]) for name in sorted(variables)}
    if valid is not None and not (isinstance(valid, str) and min(valid, default=" ") >= " "):
        raise SpaceError("BadValid BadIf")
    return Space(named, valid)


def variables_of(space: bytes) -> Variables:
    """The variables of a space file with their options as they stand in texts."""
    return space_of(space).variables


def _options(name: str, options: object) -> tuple[str, ...]:
    if not isinstance(options, list) or not options or not all(map(_is_option, options)):
        raise SpaceError(f"BadOption {name}")
    return tuple(map(_word, range(len(options)), options))


def _is_option(option: object) -> bool:
    return isinstance(option, str) or type(option) is int


def _word(index: int, option: object) -> str:
    """How texts write the option of this index."""
    return f"t{index}" if isinstance(option, str) and option != "undef" else str(option)


def is_text(word: str) -> bool:
    """Whether the word of an option stands for a text."""
    return word[0] == "t"
