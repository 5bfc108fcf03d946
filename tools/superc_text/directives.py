"""Directives and comments of a file of C, found without preprocessing it."""
from __future__ import annotations

import re

COMMENT = re.compile(
    r"//(?:[^\n\\]|\\\n|\\.)*|/\*.*?\*/|(?P<kept>\"(?:\\.|[^\"\\\n])*\"|'(?:\\.|[^'\\\n])*')", re.S
)
LITERAL = re.compile(r"\"(?:\\.|[^\"\\\n])*\"|'(?:\\.|[^'\\\n])*'", re.S)
# A directive: its word, and the rest of its line.
DIRECTIVE = re.compile(r"^[ \t\f\v]*(?:#|%:)(?:[ \t]|\\\n)*(\w+)((?:[^\n\\]|\\.)*)", re.M | re.S)


def without_comments(text: str) -> str:
    """A text with blanks in the place of its comments, each other character where it stood."""
    return COMMENT.sub(
        lambda found: found[0] if found["kept"] else re.sub(r"[^\n]", " ", found[0]), text
    )
