"""Headers of settings, as configure scripts and Kconfig write them: what they say of a variable is
left to the variable, and macros of a setting follow it.
"""
from __future__ import annotations

from collections.abc import Collection

from .overlay import Edits
from .sources import Define, Source

PREFIX = "CONFIG_"
OPPOSITES = {"0": "1", "1": "0", "": "__VA_ARGS__"}


def settings_of(source: Source, names: Collection[str]) -> Edits:
    """The edits of a header that sets some of these names, outside of conditionals but a guard."""
    state = {
        one.name: not one.is_undef for one in source.defines if one.is_on_top and one.name in names
    }
    if not state:
        return {}
    bare = {one.name.removeprefix(PREFIX) for one in source.defines if one.name.startswith(PREFIX)}
    edits: Edits = {}
    for one in source.defines:
        line = source.text[one.span[0] : one.span[1]]
        if one.name in state and one.is_on_top:
            edits[one.span] = "\n" * line.count("\n")
        elif (
            not one.is_undef
            and (variable := _followed(one.name, bare)) in state
            and (opposite := _opposite(one)) is not None
        ):
            when = f"defined({variable})" if state[variable] else f"!defined({variable})"
            other = f"#define {one.name}{one.parameters or ''} {opposite}".rstrip()
            edits[one.span] = f"\n#if {when}\n#{line}\n#else\n{other}\n#endif"
    return edits


def _followed(name: str, bare: Collection[str]) -> str:
    """The setting that a macro such as ENABLE_X or IF_NOT_X follows, by its longest end that is the
    name of one.
    """
    parts = name.split("_")
    ends = ("_".join(parts[place:]) for place in range(1, len(parts)))
    end = next((end for end in ends if end in bare), None)
    return "" if end is None or name.startswith(PREFIX) else PREFIX + end


def _opposite(one: Define) -> str | None:
    """The replacement of a macro of two where the setting is the other one."""
    text = one.text.strip()
    if one.parameters is None:
        return OPPOSITES.get(text) if text else None
    return "" if text.startswith("__VA_ARGS__") else OPPOSITES.get(text) if not text else None
