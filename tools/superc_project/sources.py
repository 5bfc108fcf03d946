"""What a file of C has for the preprocessor: its directives, the files that it includes, the names
that its conditionals test, and what superc does not read.

A file is not preprocessed here. Every branch of its conditionals counts.
"""
from __future__ import annotations

import re
from bisect import bisect_right
from collections import Counter
from collections.abc import Collection
from dataclasses import dataclass, field
from functools import cached_property, lru_cache

from superc_text.directives import DIRECTIVE, LITERAL, without_comments

from .compiler import ASKING, ASKING_OTHERWISE

HEADER = re.compile(r"\s*(?:<([^>\n]+)>|\"([^\"\n]+)\")")
NAME = re.compile(r"(?<![\w.])[A-Za-z_]\w*")
ASKED = re.compile(r"\b(\w+)[ \t]*\([ \t]*(\w+(?:::\w+)?)[ \t]*\)")
ASKED_HEADER = re.compile(
    r"\b(__has_include(?:_next)?)[ \t]*\([ \t]*(?:<([^>\n]+)>|\"([^\"\n]+)\")[ \t]*\)"
)
MACRO = re.compile(r"\s*(\w+)(\([^)]*\))?((?:.|\n)*)")
LARGE_CHARACTER = re.compile(r"'\\(?:[2-3][0-7]{2}|x[0-9a-fA-F]*[89a-fA-F][0-9a-fA-F])'")
TRIGRAPH = re.compile(r"\?\?[=/'()!<>-]")
ALONE = ("__COUNTER__", "__INCLUDE_LEVEL__", "__TIMESTAMP__", "__VA_OPT__")
# Directives that gcc has and superc does not.
REFUSED = ("import", "assert", "unassert", "ident", "sccs")
CONDITIONS = ("if", "ifdef", "ifndef", "elif")
# How deep macros may stand for the operators that ask.
WRAPPED_AT_MOST = 4
OPERATORS = {"defined", *ASKING, *ASKING_OTHERWISE}


@dataclass(frozen=True)
class Include:
    """A header that a directive names, and where its name stands with its delimiters."""

    name: str
    is_quoted: bool
    is_next: bool
    # The span of the word behind `#`, and of the header's name.
    word: tuple[int, int]
    span: tuple[int, int]


@dataclass(frozen=True)
class Define:
    """A `#define` or `#undef` of a name: its span from the word to the end of the line."""

    name: str
    parameters: str | None
    text: str
    is_undef: bool
    is_on_top: bool
    span: tuple[int, int]


@dataclass
class Source:
    """One file."""

    path: str
    text: str
    includes: list[Include] = field(default_factory=list)
    # The macros that an #include names, and those whose whole replacement is a header.
    named: set[str] = field(default_factory=set)
    named_headers: list[tuple[str, str, bool]] = field(default_factory=list)
    defines: list[Define] = field(default_factory=list)
    tested: Counter[str] = field(default_factory=Counter)
    # Where conditionals have a character above 127.
    characters: list[tuple[int, int]] = field(default_factory=list)
    # Whether it has #pragma once outside of conditionals.
    is_once: bool = False
    # What is not carried, and the line of the first trigraph sequence.
    lost: list[str] = field(default_factory=list)
    trigraph: int | None = None

    @cached_property
    def calls(self) -> dict[str, set[str]]:
        """The names that stand alone in parentheses, by the name before these."""
        found: dict[str, set[str]] = {}
        for name, argument in ASKED.findall(self.text):
            found.setdefault(name, set()).add(argument)
        return found

    @cached_property
    def wrappers(self) -> list[Define]:
        """The function-like macros whose replacement may ask what a compiler has."""
        return [one for one in self.defines if one.parameters and "has" in one.text]

    @cached_property
    def asked_headers(self) -> list[re.Match[str]]:
        """Where a conditional asks whether a header is there."""
        return list(ASKED_HEADER.finditer(self.text)) if "__has_include" in self.text else []

    @cached_property
    def _lines(self) -> list[int]:
        return [0, *(found.end() for found in re.finditer("\n", self.text))]

    def line_of(self, offset: int) -> int:
        """The number of the line in which a place of the text is."""
        return bisect_right(self._lines, offset)


def asked_of(sources: Collection[Source]) -> set[str]:
    """The names of which sources ask whether the compiler has them, by its operators or by macros
    that stand for these.
    """
    operators = set(ASKING)
    for _ in range(WRAPPED_AT_MOST):
        found = {
            one.name
            for source in sources
            for one in source.wrappers
            if any(word in operators for word in NAME.findall(one.text))
        }
        if found <= operators:
            break
        operators |= found
    return {
        name
        for source in sources
        for operator in operators & source.calls.keys()
        for name in source.calls[operator]
    }


@lru_cache(maxsize=None)
def source_of(path: str) -> Source:
    """The file with this name."""
    with open(path, encoding="latin-1", newline="") as file:
        text = file.read()
    return read(path, text.replace("\r\n", " \n"))


def read(path: str, text: str) -> Source:
    """The file with this text."""
    source = Source(path, text)
    # Without comments, each character in its place.
    plain = without_comments(text)
    directives = list(DIRECTIVE.finditer(plain))
    depth, top = 0, 1 if _has_guard(directives) else 0
    for found in directives:
        word = found[1]
        if word in CONDITIONS:
            depth += word != "elif"
            _condition(source, found)
        elif word == "endif":
            depth -= 1
        elif word in ("include", "include_next"):
            _include(source, found)
        elif word in ("define", "undef"):
            _define(source, found, depth == top)
        elif word in REFUSED:
            _lose(source, found.start(), f"#{word}: superc refuses it")
        elif word == "pragma" and found[2].split() == ["once"]:
            source.is_once |= depth == 0
    for name in ALONE:
        if name in plain and (at := re.search(rf"\b{name}\b", plain)):
            _lose(source, at.start(), f"superc has no {name}")
    if "??" in plain and (at := TRIGRAPH.search(plain)):
        source.trigraph = source.line_of(at.start())
    return source


def _lose(source: Source, offset: int, why: str) -> None:
    source.lost.append(f"{why} ({source.path}:{source.line_of(offset)})")


def _has_guard(directives: list[re.Match[str]]) -> bool:
    """Whether a whole file stands between #ifndef and #endif, as guards against a second reading
    do.
    """
    words = [found[1] for found in directives[:2]]
    if words not in (["ifndef", "define"], ["if", "define"]):
        return False
    if directives[1][2].split()[:1] != NAME.findall(directives[0][2])[-1:]:
        return False
    depth = 0
    for place, one in enumerate(directives):
        depth += (one[1] in ("if", "ifdef", "ifndef")) - (one[1] == "endif")
        if depth == 0:
            return place == len(directives) - 1
    return False


def _condition(source: Source, found: re.Match[str]) -> None:
    """What a conditional line tests."""
    names = NAME.findall(LITERAL.sub(" ", found[2]))
    source.tested.update(name for name in names if name not in OPERATORS)
    source.characters.extend(
        (found.start(2) + one.start(), found.start(2) + one.end())
        for one in LARGE_CHARACTER.finditer(found[2])
    )


def _include(source: Source, found: re.Match[str]) -> None:
    header = HEADER.match(found[2])
    if not header:
        source.named.update(NAME.findall(found[2])[:1])
    else:
        begin = found.start(2) + header.end() - len(header[0].lstrip())
        end = found.start(2) + header.end()
        source.includes.append(
            Include(
                header[1] or header[2],
                header[1] is None,
                found[1] == "include_next",
                found.span(1),
                (begin, end),
            )
        )


def _define(source: Source, found: re.Match[str], is_on_top: bool) -> None:
    macro = MACRO.match(found[2])
    if not macro:
        return
    name, parameters, text = macro[1], macro[2], macro[3]
    source.defines.append(
        Define(
            name, parameters, text, found[1] == "undef", is_on_top, (found.start(1), found.end())
        )
    )
    header = HEADER.fullmatch(text.rstrip())
    if header and parameters is None:
        source.named_headers.append((name, header[1] or header[2], header[1] is None))
