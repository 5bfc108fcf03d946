"""The lines of a page: those of the source as it stands in files, or those that the tokens make."""
from __future__ import annotations

import os
import re
from collections.abc import Callable, Iterator, Mapping
from dataclasses import dataclass, field
from functools import cached_property
from itertools import groupby, islice

from .diagrams import ALWAYS, NEVER
from .directives import DIRECTIVE, without_comments
from .document import Document
from .heads import Heads
from .items import Fault
from .layout import Conditions, Piece, indentation, pieces
from .page_text import escaped

# The number of a condition on the page, which names its class.
NumberOf = Callable[[int], int]
FaultLine = Callable[[int, Fault], str]

HEADER = re.compile(r"\s*[<\"]([^>\"\n]+)[>\"]")
LINES_OF_BLOCK = 100
HEADS = ("if", "ifdef", "ifndef", "elif", "else")
# The copies that superc-project makes stand by the whole names of their files.
COPY = re.compile(r"^/.*/(?:overlay|settings)/[0-9a-f]{8}(?:/beside|/once)?(?=/)")


class TokenLines:
    """The lines that the tokens make, where they stand in their files."""

    def __init__(self, document: Document, conditions: Conditions) -> None:
        self._document = document
        self._conditions = conditions
        found = (
            (conditions.live(piece.condition), piece) for piece in pieces(document.shown_tokens())
        )
        self._pieces = [(live, piece) for live, piece in found if live != NEVER]
        self.main = self._pieces[-1][1].place.file if self._pieces else None

    @property
    def shown(self) -> Iterator[tuple[int, int]]:
        """The conditions that the lines show, each by its configurations that are not refused."""
        return ((live, piece.condition) for live, piece in self._pieces)

    def html(
        self, number_of: NumberOf, fault_line: FaultLine, texts: Mapping[int, str]
    ) -> Iterator[str]:
        """The lines of source, each fault before the first line of its file that is not above
        it.
        """
        return blocks(self._html(number_of, fault_line))

    def _html(self, number_of: NumberOf, fault_line: FaultLine) -> Iterator[str]:
        waiting = list(enumerate(self._document.faults))
        file: str | None = None
        known: set[str] = set()
        for (name, line), group in groupby(self._pieces, key=lambda one: one[1].place[:2]):
            if name != file:
                above = [one for one in waiting if one[1].place.file == file]
                waiting = [one for one in waiting if one[1].place.file != file]
                yield from (fault_line(*one) for one in above)
                yield f"<h2>{escaped(name)}</h2>\n"
            file = name
            if waiting:
                above = [
                    one
                    for one in waiting
                    if one[1].place.file == name and one[1].place.line <= line
                ]
                waiting = [one for one in waiting if one not in above]
                yield from (fault_line(*one) for one in above)
            key = f"L{line}" if name == self.main else ""
            yield self._line(line, list(group), "" if key in known else key, number_of)
            known.add(key)
        yield from (fault_line(*one) for one in waiting)

    def _line(
        self, line: int, group: list[tuple[int, Piece]], key: str, number_of: NumberOf
    ) -> str:
        texts = " ".join(piece_html(piece.text, number_of(live)) for live, piece in group)
        identity = f' id="{key}"' if key else ""
        return f"<div{identity}><i>{line}</i>{indentation(group[0][1].place)}{texts}</div>\n"


def blocks(lines: Iterator[str]) -> Iterator[str]:
    """Lines in blocks, which a browser lays out when they come into sight."""
    while block := "".join(islice(lines, LINES_OF_BLOCK)):
        yield f'<section class="block">\n{block}</section>\n'


def piece_html(text: str, number: int) -> str:
    """A piece of a line, coloured by the number of its condition."""
    if number == ALWAYS:
        return escaped(text)
    return f'<b class="c{number}" data-c="{number}" tabindex="-1">{escaped(text)}</b>'


@dataclass
class Branch:
    """A branch of a conditional: what its head says, the head of the branch around it, those of the
    branches before it, and the line that ends it.
    """

    word: str
    rest: str
    outer: int
    earlier: list[int]
    end: int | None = None


@dataclass
class SourceFile:
    """A file as it stands, with what the text tells of its lines."""

    name: str
    text: str
    # By line: the pieces of its tokens, each with its live condition.
    tokens: dict[int, list[tuple[int, str]]] = field(default_factory=dict)
    # By line: the live configurations that have it, as far as is known.
    conditions: dict[int, int] = field(default_factory=dict)
    # The heads of branches that no configuration takes, and their lines.
    dead: set[int] = field(default_factory=set)
    dead_lines: set[int] = field(default_factory=set)

    @cached_property
    def lines(self) -> list[str]:
        """The lines of the file."""
        lines = self.text.split("\n")
        return lines[:-1] if lines[-1:] == [""] else lines

    @cached_property
    def plain(self) -> list[str]:
        """The lines without comments and blanks."""
        return [re.sub(r"\s+", "", line) for line in without_comments(self.text).split("\n")]

    def directives(self) -> Iterator[tuple[str, int, int, str]]:
        """The word of each directive, its first and last line, and its rest."""
        plain = without_comments(self.text)
        line, at = 1, 0
        for found in DIRECTIVE.finditer(plain):
            line += plain.count("\n", at, found.start())
            at = found.start()
            yield found[1], line, line + found[0].count("\n"), found[2]

    def branches(self) -> tuple[list[int], dict[int, Branch]]:
        """For each line the head of its innermost branch, or 0; and the branches by their heads."""
        heads = [0] * (len(self.lines) + 2)
        branches: dict[int, Branch] = {}
        stack: list[int] = []
        last = 1
        for word, first, end, rest in self.directives():
            if word not in HEADS and word != "endif":
                continue
            inside = stack[-1] if stack else 0
            heads[last:first] = [inside] * (first - last)
            closed = stack.pop() if stack and word in ("elif", "else", "endif") else 0
            if closed:
                branches[closed].end = first
            outer = stack[-1] if stack else 0
            heads[first : end + 1] = [outer] * (end + 1 - first)
            if word in HEADS:
                earlier = [*branches[closed].earlier, closed] if closed else []
                branches[end] = Branch(word, rest, outer, earlier)
                stack.append(end)
            last = end + 1
        heads[last:] = [stack[-1] if stack else 0] * (len(heads) - last)
        return heads, branches

    def names(self) -> Iterator[str]:
        """The names that the file defines or takes back."""
        for word, _, _, rest in self.directives():
            if word in ("define", "undef"):
                yield from re.findall(r"^\s*(\w+)", rest)


class SourceLines:
    """The lines of the files below a folder, as they stand there."""

    def __init__(self, document: Document, conditions: Conditions, root: str) -> None:
        self._document = document
        self._conditions = conditions
        self._root = os.path.realpath(root)
        self._joins: dict[tuple[int, int], int] = {}
        self.files: dict[str, SourceFile] = {}
        self.outside: dict[str, int] = {}
        last: str | None = None
        for piece in pieces(document.shown_tokens()):
            live = conditions.live(piece.condition)
            if live != NEVER:
                last = self._add(piece, live) or last
        for fault in document.faults:
            self._file(plain_name(fault.place.file))
        changed = {name for file in self.files.values() for name in file.names()}
        self._heads = Heads(document.diagrams, set(document.diagrams.variables) - changed)
        for file in self.files.values():
            self._fill(file)
        names = sorted(self.files, key=lambda name: name != last)
        self.main = last
        self._number = {name: number for number, name in enumerate(names)}
        self._texts: Mapping[int, str] = {}
        self.expansions: list[list[tuple[int, str]]] = []

    def _add(self, piece: Piece, live: int) -> str | None:
        name = plain_name(piece.place.file)
        file = self._file(name)
        if file is None:
            self.outside[name] = self.outside.get(name, 0) + 1
            return None
        line = piece.place.line
        file.tokens.setdefault(line, []).append((live, piece.text))
        file.conditions[line] = self._join(file.conditions.get(line, NEVER), live)
        return name

    def _file(self, name: str) -> SourceFile | None:
        """The file of this name, if it is below the folder."""
        if name in self.files or name in self.outside:
            return self.files.get(name)
        path = os.path.realpath(os.path.join(self._root, name))
        if path.startswith(self._root.rstrip("/") + "/") and os.path.isfile(path):
            with open(path, encoding="utf-8", errors="replace") as text:
                self.files[name] = SourceFile(name, text.read())
        else:
            self.outside[name] = 0
        return self.files.get(name)

    def _join(self, left: int, right: int) -> int:
        if (left, right) not in self._joins:
            self._joins[left, right] = self._conditions.diagrams.disjunction(left, right)
        return self._joins[left, right]

    def _fill(self, file: SourceFile) -> None:
        """Lines without tokens have the condition of their branch: that of its tokens, or else what
        its head asks of variables.
        """
        heads, branches = file.branches()
        found: dict[int, int] = {}
        for line, condition in file.conditions.items():
            head = heads[line] if line < len(heads) else 0
            found[head] = self._join(found.get(head, NEVER), condition)
        for head in branches:
            if head not in found:
                self._ask(file, head, branches, found)
        for line in range(1, len(file.lines) + 1):
            condition = found.get(heads[line], NEVER)
            if line not in file.conditions and condition != NEVER:
                file.conditions[line] = condition
            elif heads[line] in file.dead:
                file.dead_lines.add(line)

    def _ask(
        self, file: SourceFile, head: int, branches: dict[int, Branch], found: dict[int, int]
    ) -> None:
        """Finds the live configurations in which a branch is taken, among those of the branch
        around it, where variables decide it.
        """
        diagrams, branch = self._conditions.diagrams, branches[head]
        heads = [branch, *(branches[one] for one in branch.earlier)]
        asked = [self._heads.taken(one.word, one.rest) for one in heads]
        taken = ALWAYS if asked[0] is None else asked[0]
        for condition in asked[1:]:
            taken = diagrams.difference(taken, condition or NEVER)
        outer = branch.outer
        if taken == NEVER or outer in file.dead:
            file.dead.add(head)
        elif None not in asked:
            while outer and outer not in found:
                outer = branches[outer].outer
            live = found.get(outer, self._conditions.accepted)
            found[head] = diagrams.conjunction(live, taken)

    @property
    def shown(self) -> Iterator[tuple[int, int]]:
        """The conditions that the lines show, each by its configurations that are not refused."""
        for file in self.files.values():
            yield from ((live, live) for live in file.conditions.values())
            yield from ((live, live) for line in file.tokens.values() for live, _ in line)

    def key_of(self, name: str, line: int) -> str | None:
        """The name of a line on the page."""
        number = self._number.get(plain_name(name))
        return None if number is None else f"L{line}" if number == 0 else f"F{number}L{line}"

    def html(
        self, number_of: NumberOf, fault_line: FaultLine, texts: Mapping[int, str]
    ) -> Iterator[str]:
        """The files, the main one first. The texts are those of conditions, by their numbers."""
        self._texts = texts
        faults: dict[tuple[str, int], list[tuple[int, Fault]]] = {}
        for numbered in enumerate(self._document.faults):
            place = numbered[1].place
            faults.setdefault((plain_name(place.file), place.line), []).append(numbered)
        for name, number in self._number.items():
            yield f'<section id="F{number}"><h2>{escaped(self.title(name))}</h2>\n'
            lines = self._lines(self.files[name], number, number_of, fault_line, faults)
            yield from blocks(lines)
            yield "</section>\n"
        elsewhere = [name for name, _ in faults if name not in self.files]
        for name in dict.fromkeys(elsewhere):
            yield f"<section><h2>{escaped(name)}</h2>\n"
            for (file, _), numbered_faults in sorted(faults.items()):
                if file == name:
                    yield from (fault_line(*one) for one in numbered_faults)
            yield "</section>\n"

    def title(self, name: str) -> str:
        """A name of a file, from the folder on."""
        path = os.path.realpath(os.path.join(self._root, name))
        return os.path.relpath(path, self._root)

    def links(self) -> Iterator[tuple[str, str]]:
        """The files of the page, each with its name there."""
        return ((self.title(name), f"F{number}") for name, number in self._number.items())

    def _lines(
        self,
        file: SourceFile,
        number: int,
        number_of: NumberOf,
        fault_line: FaultLine,
        faults: dict[tuple[str, int], list[tuple[int, Fault]]],
    ) -> Iterator[str]:
        _, branches = file.branches()
        ends = {head: branch.end for head, branch in branches.items() if branch.end}
        included = {first: rest for word, first, _, rest in file.directives() if word == "include"}
        prefix = "L" if number == 0 else f"F{number}L"
        before = ALWAYS
        for line, text in enumerate(file.lines, 1):
            live = file.conditions.get(line, NEVER)
            condition = ALWAYS if live == NEVER else number_of(live)
            marks = f' class="c{condition}" data-c="{condition}"' if condition != ALWAYS else ""
            marks = ' class="dead"' if line in file.dead_lines else marks
            fold = f'<s data-e="{prefix}{ends[line]}" tabindex="0"></s>' if line in ends else ""
            gutter = "<u></u>" if condition == before else f"<u>{self._mark(condition)}</u>"
            before = condition
            shown = self._include(text, included[line]) if line in included else escaped(text)
            more = self._more(file, line, number_of)
            yield f'<div id="{prefix}{line}"{marks}><i>{line}</i>{gutter}<code>{fold}{shown}</code>{more}</div>\n'
            yield from (fault_line(*one) for one in faults.get((file.name, line), ()))

    def _mark(self, condition: int) -> str:
        return "" if condition == ALWAYS else escaped(self._texts[condition])

    def _include(self, text: str, rest: str) -> str:
        """A line of an `#include`, with a link where its file is on the page."""
        header = HEADER.match(rest)
        ends = f"/{header[1]}" if header else ""
        found = [
            number for name, number in self._number.items() if header and f"/{name}".endswith(ends)
        ]
        return f'<a href="#F{found[0]}">{escaped(text)}</a>' if found else escaped(text)

    def _more(self, file: SourceFile, line: int, number_of: NumberOf) -> str:
        """A mark where the tokens of a line are not those that stand in it."""
        tokens = file.tokens.get(line)
        if (
            not tokens
            or re.sub(r"\s+", "", "".join(text for _, text in tokens)) == file.plain[line - 1]
        ):
            return ""
        self.expansions.append([(number_of(live), text) for live, text in tokens])
        return f'<em data-x="{len(self.expansions) - 1}" tabindex="0"></em>'


def plain_name(name: str) -> str:
    """The name of the file of which superc-project made a copy; any other name as it is."""
    return COPY.sub("", name)
