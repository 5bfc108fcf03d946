"""Lays tokens out as lines of source."""
from __future__ import annotations

import re
from collections import deque
from collections.abc import Callable, Iterable, Iterator, Mapping
from typing import NamedTuple

from .diagrams import ALWAYS, NEVER, Diagrams
from .expressions import Expressions
from .faults import SENTENCES
from .items import Fault, Place, Token

GAP_AT_MOST = 80
# How many pieces are looked at to find what one conditional can hold.
AHEAD = 2_000
PUNCTUATORS = {
    b"->",
    b"++",
    b"--",
    b"<<",
    b">>",
    b"<=",
    b">=",
    b"==",
    b"!=",
    b"&&",
    b"||",
    b"...",
    b"*=",
    b"/=",
    b"%=",
    b"+=",
    b"-=",
    b"<<=",
    b">>=",
    b"&=",
    b"^=",
    b"|=",
    b"##",
    b"<:",
    b":>",
    b"<%",
    b"%>",
    b"%:",
    b"%:%:",
    b"//",
    b"/*",
    b"..",
}
NUMBER = re.compile(rb"\.?[0-9]")
WORD = re.compile(rb"[\w\\\x80-\xff]")


class Piece(NamedTuple):
    """Tokens of one line of a file under one condition, that follow each other."""

    condition: int
    place: Place
    text: str


def pieces(tokens: Iterable[Token]) -> Iterator[Piece]:
    """The tokens in order as pieces, with the white space that their columns tell."""
    first: Token | None = None
    last: Token | None = None
    texts: list[bytes] = []
    for token in tokens:
        if first is None or last is None or not _is_one_piece(first, token):
            if first is not None:
                yield _piece(first, texts)
            first, texts = token, []
        else:
            texts.append(gap_between(last, token))
        texts.append(token.spelling)
        last = token
    if first is not None:
        yield _piece(first, texts)


def _is_one_piece(first: Token, token: Token) -> bool:
    return (
        first.condition == token.condition
        and first.place.line == token.place.line
        and first.place.file == token.place.file
    )


def _piece(first: Token, texts: list[bytes]) -> Piece:
    return Piece(first.condition, first.place, shown(b"".join(texts)))


def shown(spelling: bytes) -> str:
    """Bytes as text; those that are no UTF-8 are kept so that they can be written again."""
    return spelling.decode("utf-8", "surrogateescape")


def indentation(place: Place) -> str:
    """The white space before a place at the beginning of a line."""
    return " " * min(place.column - 1, GAP_AT_MOST)


def gap_between(last: Token, token: Token) -> bytes:
    """The white space between two tokens of a line."""
    gap = token.place.column - last.place.column - len(last.spelling)
    if gap > 0:
        return b" " * gap if gap <= GAP_AT_MOST else b" "
    if gap < 0 or would_join(last.spelling, token.spelling):
        return b" "
    return b""


def would_join(left: bytes, right: bytes) -> bool:
    """Whether two tokens without white space between them could be read as others."""
    if NUMBER.match(left):
        return bool(WORD.match(right)) or right[:1] in b".+-"
    if WORD.match(left) and left[-1:] not in b"'\"":
        return bool(WORD.match(right)) or right[:1] in b"'\""
    return (
        left + right[:1] in PUNCTUATORS
        or left + right in PUNCTUATORS
        or (left == b"." and bool(NUMBER.match(right)))
    )


class Conditions:
    """Conditions as they are shown: configurations that are refused or not valid may have them or
    not.
    """

    def __init__(
        self,
        diagrams: Diagrams,
        number_of: Mapping[int, int] | None = None,
        refused: int = NEVER,
        unlisted: int = NEVER,
    ) -> None:
        self.diagrams = diagrams
        self.unlisted = unlisted
        self.refused = diagrams.disjunction(refused, unlisted)
        self.accepted = diagrams.negation(self.refused)
        self._expressions = Expressions(diagrams, number_of)
        self._inside: dict[tuple[int, int], bool] = {}

    def live(self, condition: int) -> int:
        """The configurations of a condition that are valid and not refused."""
        return self.diagrams.difference(condition, self.refused)

    def is_inside(self, inner: int, outer: int) -> bool:
        """Whether the outer condition has all configurations of the inner one."""
        if inner == outer or outer == ALWAYS:
            return True
        pair = inner, outer
        if pair not in self._inside:
            others = self.diagrams.negation(outer)
            self._inside[pair] = not self.diagrams.meet(inner, others)
        return self._inside[pair]

    def text(self, condition: int, among: int = ALWAYS) -> str:
        """The expression of a condition, where only some configurations are asked."""
        free = self.diagrams.disjunction(self.refused, self.diagrams.negation(among))
        return self._expressions.text(condition, free)

    def exact(self, condition: int) -> str:
        """The expression of a condition itself, which may have what is not valid or not."""
        return self._expressions.text(condition, self.unlisted)


def source(tokens: Iterable[Token], conditions: Conditions) -> Iterator[str]:
    """Lines of source, with nested `#if` around what is conditional. Tokens of refused
    configurations alone are left out.
    """
    nest = _Nest(conditions)
    file: str | None = None
    at: tuple[str, int] | None = None
    line = ""
    ahead = _Ahead(conditions, pieces(tokens))
    while ahead.window:
        condition, piece = ahead.window[0]
        directives = list(nest.enter(ahead)) if condition != nest.top else []
        if line and (directives or at != piece.place[:2]):
            yield line
            line = ""
        yield from directives
        if piece.place.file != file:
            if file is not None:
                yield f"/* {piece.place.file.replace('*/', '* /')} */"
            file = piece.place.file
        line = line + " " + piece.text if line else indentation(piece.place) + piece.text
        at = piece.place[:2]
        ahead.drop()
    if line:
        yield line
    yield from nest.leave()


class _Ahead:
    """Pieces with their live conditions, and some that follow."""

    def __init__(self, conditions: Conditions, rest: Iterator[Piece]) -> None:
        self._conditions = conditions
        self._rest = rest
        self.window: deque[tuple[int, Piece]] = deque()
        self._fill()

    def _fill(self) -> None:
        while len(self.window) <= AHEAD and (piece := next(self._rest, None)) is not None:
            live = self._conditions.live(piece.condition)
            if live != NEVER:
                self.window.append((live, piece))

    def drop(self) -> None:
        """Goes to the next piece."""
        self.window.popleft()
        if len(self.window) <= AHEAD // 2:
            self._fill()

    def widest(self, outer: int) -> tuple[int, Piece]:
        """Of the pieces from here on, as long as one condition has all others: that one. It is
        narrower than the outer one.
        """
        found = self.window[0]
        for one in self.window:
            if self._conditions.is_inside(found[0], one[0]):
                if one[0] == outer:
                    break
                found = one if self._conditions.is_inside(one[0], outer) else found
                if found is not one:
                    break
            elif not self._conditions.is_inside(one[0], found[0]):
                break
        return found


class _Nest:
    """The conditionals that are open, each with its condition and what its branches have so far."""

    def __init__(self, conditions: Conditions) -> None:
        self._conditions = conditions
        self._open: list[tuple[int, int]] = []

    @property
    def top(self) -> int:
        """The configurations that come here."""
        return self._open[-1][0] if self._open else self._conditions.accepted

    def enter(self, ahead: _Ahead) -> Iterator[str]:
        """The directives before the next piece."""
        condition = ahead.window[0][0]
        while self._open and not self._conditions.is_inside(condition, self.top):
            branch, earlier = self._open.pop()
            outer = self.top
            left = self._conditions.diagrams.difference(outer, earlier)
            if self._conditions.is_inside(condition, left):
                live, piece = ahead.widest(outer)
                live, piece = (
                    (live, piece) if self._conditions.is_inside(live, left) else ahead.window[0]
                )
                yield "#else" if live == left else f"#elif {self._conditions.text(piece.condition, left)}"
                self._open.append((live, self._conditions.diagrams.disjunction(earlier, live)))
            else:
                yield "#endif"
        while condition != self.top:
            outer = self.top
            live, piece = ahead.widest(outer)
            yield f"#if {self._conditions.text(piece.condition, outer)}"
            self._open.append((live, live))

    def leave(self) -> Iterator[str]:
        """The directives behind the last piece."""
        yield from ["#endif"] * len(self._open)
        self._open.clear()


def fault_text(fault: Fault, text_of: Callable[[int], str]) -> str:
    """A fault as compilers write it, with its sentence."""
    text = text_of(fault.condition)
    when = "" if text == str(ALWAYS) else f" [when {text}]"
    place = f"{fault.place.file}:{fault.place.line}:{fault.place.column}"
    return f"{place}: error: {fault.name}: {SENTENCES[fault.name]}{when}"
