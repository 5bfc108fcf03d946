"""What superc doesn't have of GNU's preprocessor, carried by edits where that is exact."""
from __future__ import annotations

from dataclasses import dataclass, field

from .overlay import Edits
from .reach import Found, Search
from .sources import source_of
from .variadics import rewritten


@dataclass
class Forms:
    """The edits of files that one order of the search finds, and what is not carried."""

    search: Search
    is_char_unsigned: bool
    # Whether superc reads GNU's forms of variadic macros by the standard of the space.
    has_rests: bool
    lost: dict[Found, list[str]] = field(default_factory=dict)

    def edits_of(self, here: Found) -> Edits:
        """The edits of a file."""
        source = source_of(here.path)
        edits: Edits = {}
        for one in source.defines:
            line = source.text[one.span[0] : one.span[1]]
            is_variadic = one.parameters and "..." in one.parameters
            if not self.has_rests and is_variadic and (form := rewritten(line)):
                edits[one.span], keeps_calls = form
                if not keeps_calls:
                    where = f"({here.path}:{source.line_of(one.span[0])})"
                    self.lost.setdefault(here, []).append(
                        f"`, ##` of GNU in {one.name}: its calls are refused {where}"
                    )
        for asked in source.asked_headers:
            edits[asked.span()] = str(int(self._has_header(here, asked[1], asked[2], asked[3])))
        for begin, end in source.characters:
            edits[begin, end] = str(self._character(source.text[begin + 2 : end - 1]))
        for include in source.includes:
            if include.is_next and (found := self.search.find_next(include.name, here)):
                edits[include.span] = f'"{found.path}"'
        return edits

    def _has_header(
        self, here: Found, operator: str, angle: str | None, quoted: str | None
    ) -> bool:
        name = angle or quoted or ""
        if operator == "__has_include_next":
            return self.search.find_next(name, here) is not None
        beside = here.path.rpartition("/")[0]
        return self.search.find(name, angle is None, beside) is not None

    def _character(self, digits: str) -> int:
        value = int(digits[1:], 16) if digits[0] == "x" else int(digits, 8)
        return value if self.is_char_unsigned or value < 128 else value - 256
