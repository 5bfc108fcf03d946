"""What the tests share."""
from __future__ import annotations

import io
import itertools
import re
from collections.abc import Iterator

from superc_text import Diagrams, Document

README_TEXT = b"""c 2 A undef:0 1:1
s 0 main.c
t 2 0:2:1 x
c 3 A undef:1 1:0
f 3 5 BadDirective 0:4:1
end
"""

# A declaration whose first word differs.
TREE_TEXT = b"""s 0 m.c
l 0 0:2:1 int
l 1 0:4:1 long
c 2 A undef:0 1:1
c 3 A undef:1 1:0
x 2 2:0 3:1
l 3 0:6:1 x
n 4 288 3
l 5 0:6:2 ;
n 6 19 2 4 5
n 7 1 6
root 7
end
"""


# `#define L a , b , c` and `enum { L };`: both commas stand at one place, and are one leaf.
SHARED_TEXT = b"""s 0 m.c
l 0 0:2:1 enum
l 1 0:2:6 {
l 2 0:2:8 a
n 3 288 2
l 4 0:2:8 ,
l 5 0:2:8 b
n 6 288 5
n 7 153 3 4 6
l 8 0:2:8 c
n 9 288 8
n 10 153 7 4 9
l 11 0:2:10 }
n 12 147 0 1 10 11
l 13 0:2:11 ;
n 14 18 12 13
n 15 1 14
root 15
end
"""


def document(text: bytes) -> Document:
    return Document.read(io.BytesIO(text))


def configurations(diagrams: Diagrams) -> Iterator[dict[str, str]]:
    """All configurations of the variables of a text."""
    names = sorted(diagrams.variables)
    for options in itertools.product(*(diagrams.variables[name] for name in names)):
        yield dict(zip(names, options))


def holds(expression: str, configuration: dict[str, str]) -> bool:
    """The value of an expression after `#if`."""

    def defined(found: re.Match[str]) -> str:
        return str(configuration[found[1]] != "undef")

    def value(found: re.Match[str]) -> str:
        option = configuration[found[0]]
        return "0" if option == "undef" else option

    python = re.sub(r"defined\((\w+)\)", defined, expression)
    python = re.sub(r"\b(?!True\b|False\b)[A-Za-z_]\w*", value, python)
    python = re.sub(r"!(?!=)", " not ", python).replace("&&", " and ").replace("||", " or ")
    return bool(eval(python.strip()))
