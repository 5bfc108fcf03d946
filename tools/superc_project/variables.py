"""The variables of a run and their options, by words, files, sources and Kconfig."""
from __future__ import annotations

import re
from collections import Counter
from collections.abc import Iterable
from pathlib import Path

from superc_text.space import SpaceError, space_of

from . import kconfig
from .compiler import PROTECTED
from .kconfig import Option
from .sources import Source

Variables = dict[str, list[str]]

NAME = re.compile(r"[A-Za-z_]\w*")
OPTION = re.compile(r"undef|0|[1-9][0-9]{0,18}")
RESERVED = re.compile(r"_[A-Z_]")
LARGEST_OPTION = 2**63 - 1
OPTIONS_AT_MOST, VARIABLES_AT_MOST = 64, 1024


class VariableError(Exception):
    """A variable that a space file can't have."""


def by_words(words: Iterable[str], options: dict[str, Option]) -> Variables:
    """The variables of words NAME=OPTION,.. or NAME. One without options is undefined or 1, or has
    the values of Kconfig's option of this name.
    """
    found: Variables = {}
    for word in words:
        name, equals, listed = word.partition("=")
        option = options.get(name) or options.get(name.removeprefix("CONFIG_"))
        if equals:
            found[name] = listed.split(",")
        elif option:
            macro = name if name.startswith("CONFIG_") else f"CONFIG_{name}"
            found.update(kconfig.variables_of(macro, option))
        elif options:
            raise VariableError(f"Kconfig has no option {name}")
        else:
            found[name] = ["undef", "1"]
    return found


def rules_of(variables: Variables, options: dict[str, Option]) -> list[str]:
    """That no option of Kconfig is both built in and a module."""
    return [
        f"!(defined({name}) && defined({name}_MODULE))"
        for name in variables
        if (option := options.get(name.removeprefix("CONFIG_"))) and option.type == "tristate"
        if f"{name}_MODULE" in variables
    ]


def by_file(path: str) -> tuple[Variables, str | None]:
    """The variables of a file that is written as a space file is, and its rule."""
    try:
        space = space_of(Path(path).read_bytes())
        return {name: list(listed) for name, listed in space.variables.items()}, space.valid
    except OSError as fault:
        raise VariableError(f"{path}: {fault.strerror}") from None
    except SpaceError as fault:
        raise VariableError(f"{path}: {fault}") from None


def joined(rules: Iterable[str | None]) -> str | None:
    """The rule that all of these hold."""
    given = [rule for rule in rules if rule is not None]
    return given[0] if len(given) == 1 else " && ".join(f"({rule})" for rule in given) or None


def tested(sources: Iterable[Source], defined: Iterable[str]) -> Counter[str]:
    """The names that conditional lines test and that nothing defines, with how often. Names that
    the language reserves are the compiler's.
    """
    counts: Counter[str] = Counter()
    nowhere = set(defined)
    for source in sources:
        counts += source.tested
        nowhere.update(one.name for one in source.defines if not one.is_undef)
    return Counter(
        {
            name: count
            for name, count in counts.items()
            if name not in nowhere and not RESERVED.match(name)
        }
    )


def most(counts: Counter[str], number: int) -> Variables:
    """The names that are tested most."""
    ordered = sorted(counts, key=lambda name: (-counts[name], name))
    return {name: ["undef", "1"] for name in ordered[:number]}


def check(variables: Variables) -> None:
    """Refuses what a space file can't have."""
    if len(variables) > VARIABLES_AT_MOST:
        raise VariableError(f"there are more than {VARIABLES_AT_MOST} variables")
    for name, options in variables.items():
        if not NAME.fullmatch(name) or name in PROTECTED:
            raise VariableError(f"{name} is no name of a variable")
        if len(set(options)) != len(options) or not 1 <= len(options) <= OPTIONS_AT_MOST:
            raise VariableError(
                f"{name} has no option, or one twice, or more than {OPTIONS_AT_MOST}"
            )
        for option in options:
            if not OPTION.fullmatch(option) or option != "undef" and int(option) > LARGEST_OPTION:
                raise VariableError(
                    f"{name} has the option {option}: it is neither undef nor a number"
                )
