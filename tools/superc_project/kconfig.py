"""Names and types of a Kconfig tree."""
from __future__ import annotations

import glob
import os
import re
from collections.abc import Iterator
from dataclasses import dataclass
from pathlib import Path

ENTRY = re.compile(r"\s*(?:menu)?config\s+(\w+)\s*$")
TYPE = re.compile(r"\s*(?:def_)?(bool|boolean|tristate|int|hex|string)\b")
RANGE = re.compile(r"\s*range\s+(0[xX][0-9a-fA-F]+|\d+)\s+(0[xX][0-9a-fA-F]+|\d+)")
SOURCE = re.compile(r"\s*(o?r?source)\s+\"?([^\"\s]+)\"?\s*$")
OTHER = re.compile(r"\s*(?:menu|endmenu|choice|endchoice|comment|if|endif|mainmenu|source)\b")
NAMED = re.compile(r"\$\((\w+)\)|\$\{(\w+)\}|\$(\w+)")


class KconfigError(Exception):
    """A Kconfig file that is not there, or an option that has no values to choose from."""


@dataclass
class Option:
    """An option: its type, and the ends of its range."""

    type: str = ""
    ends: tuple[int, int] | None = None


def read(paths: list[str]) -> dict[str, Option]:
    """The options of these files and of those that they name, by their names."""
    options: dict[str, Option] = {}
    for path in paths:
        _read(path, os.path.dirname(path) or ".", options, set())
    return options


def _read(path: str, root: str, options: dict[str, Option], seen: set[str]) -> None:
    if path in seen:
        return
    seen.add(path)
    current: Option | None = None
    for line in _lines(path):
        if entry := ENTRY.match(line):
            current = options.setdefault(entry[1], Option())
        elif found := SOURCE.match(line):
            for name in _named(found[1], found[2], path, root):
                _read(name, root, options, seen)
            current = None
        elif OTHER.match(line):
            current = None
        elif current is not None and (kind := TYPE.match(line)):
            current.type = current.type or kind[1].replace("boolean", "bool")
        elif current is not None and (ends := RANGE.match(line)):
            low, high = int(ends[1], 0), int(ends[2], 0)
            current.ends = (
                (min(low, current.ends[0]), max(high, current.ends[1]))
                if current.ends
                else (low, high)
            )


def _lines(path: str) -> Iterator[str]:
    """The lines of a file without its help texts."""
    try:
        lines = Path(path).read_text(errors="replace").replace("\\\n", "").splitlines()
    except OSError as fault:
        raise KconfigError(f"{path}: {fault.strerror}") from None
    margin: int | None = None
    is_help = False
    for line in lines:
        depth = len(line.expandtabs()) - len(line.expandtabs().lstrip())
        if is_help and line.strip():
            margin = depth if margin is None else margin
            is_help = depth >= margin and depth > 0
        if not is_help and not line.lstrip().startswith("#"):
            if line.strip() in ("help", "---help---"):
                is_help, margin = True, None
            else:
                yield line


def _named(word: str, name: str, path: str, root: str) -> list[str]:
    """The files that a line `source` names. A name of the environment stands for its value."""
    text = NAMED.sub(lambda found: os.environ.get(found[1] or found[2] or found[3], found[0]), name)
    base = os.path.dirname(path) if "rsource" in word else root
    files = sorted(glob.glob(os.path.join(base, text)))
    if not files and not word.startswith("o") and not glob.has_magic(text):
        raise KconfigError(f"{path}: {name} is not there")
    return files


def variables_of(name: str, option: Option) -> dict[str, list[str]]:
    """The variables of an option of Kconfig, whose macro has this name."""
    if option.type in ("bool", ""):
        return {name: ["undef", "1"]}
    if option.type == "tristate":
        return {name: ["undef", "1"], f"{name}_MODULE": ["undef", "1"]}
    if option.type in ("int", "hex") and option.ends:
        low, high = option.ends
        return {name: [str(low)] if low == high else [str(low), str(high)]}
    raise KconfigError(
        f"{name} is of type {option.type} and has no range: give its options, as {name}=1,2"
    )
