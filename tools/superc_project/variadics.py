"""GNU's forms of variadic macros, written as C11 has them.

GNU's C has a name for the rest of the arguments, `args...`, and `, ## args` drops the comma where
there are none. Only a space of gnu11 has these. For another one a definition is rewritten where
each of its calls gives the same tokens. Where none is known, the definition is rewritten so that
superc refuses each call (BadPaste).
"""
from __future__ import annotations

import re

PARAMETERS = re.compile(r"(define(?:[ \t]|\\\n)+\w+)\(([^)]*)\)")
GAP = r"(?:\s|\\\n)*"
REST = "__VA_ARGS__"


def rewritten(line: str) -> tuple[str, bool] | None:
    """The line of a `#define` from its word on as C11 has it, and whether its calls stay; None
    where C11 has it already.
    """
    found = PARAMETERS.match(line)
    if not found or not found[2].rstrip().endswith("..."):
        return None
    *named, last = [one.strip() for one in found[2].split(",")]
    rest = last[: -len("...")].strip()
    text = line[found.end() :]
    comma = re.compile(rf",{GAP}##{GAP}{rest or REST}\b")
    if not rest and not comma.search(text):
        return None
    if rest and re.search(rf"\b{REST}\b", text):
        return None
    if comma.search(text):
        folded = _folded(named, rest or REST, text)
        if folded is None:
            return (
                f"{found[1]}({', '.join([*named, '...'])}){_renamed(comma.sub(', ## ,', text), rest)}",
                False,
            )
        named, text = folded
    return f"{found[1]}({', '.join([*named, '...'])}){_renamed(text, rest)}", True


def _renamed(text: str, rest: str) -> str:
    return re.sub(rf"\b{rest}\b", REST, text) if rest else text


def _folded(named: list[str], rest: str, text: str) -> tuple[list[str], str] | None:
    """The last parameter with a name becomes part of the rest, where it stands before `, ## rest`
    and nowhere else, and the rest stands nowhere else.
    """
    if not named:
        return None
    pair = re.compile(rf"\b{named[-1]}{GAP},{GAP}##{GAP}{rest}\b")
    left = pair.sub("", text)
    if re.search(rf"\b(?:{named[-1]}|{rest})\b", left) or re.search(rf"#{GAP}{named[-1]}\b", text):
        return None
    return named[:-1], pair.sub(REST, text)
