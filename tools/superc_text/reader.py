"""A strict reader of the texts that superc prints.

It goes through a text once and keeps the conditions, the names of the files and, of a tree, the
numbers of the children; the tokens pass by. The first wrong line ends it with a `TextError`.
"""
from __future__ import annotations

import re
from array import array
from collections.abc import Callable, Iterable, Iterator

from .diagrams import ALWAYS, NEVER, Diagrams
from .evaluation import listed
from .grammar import productions
from .items import CAUSES, Choice, Conflict, Fault, Item, Leaf, Node, Place, Root, Token
from .space import Space, is_text

NUMBER = rb"(0|[1-9][0-9]{0,18})"
COUNT = rb"([1-9][0-9]{0,18})"
PLACE = NUMBER + rb":" + COUNT + rb":" + COUNT
SPELLING = rb"([^\s](?:[^\n]*[^\s])?)"
OPTION = rb"(?:undef|t?(?:0|[1-9][0-9]{0,18}))"
FORMS = {
    b"c": re.compile(
        rb"c "
        + NUMBER
        + rb" ([A-Za-z_][A-Za-z_0-9]*)((?: "
        + OPTION
        + rb":(?:0|[1-9][0-9]{0,18}))+)\n"
    ),
    b"s": re.compile(rb"s " + NUMBER + rb" ([^\n]+)\n"),
    b"t": re.compile(rb"t " + NUMBER + b" " + PLACE + b" " + SPELLING + b"\n"),
    b"l": re.compile(rb"l " + NUMBER + b" " + PLACE + b" " + SPELLING + b"\n"),
    b"n": re.compile(rb"n " + NUMBER + b" " + COUNT + rb"((?: (?:0|[1-9][0-9]{0,18}))*)\n"),
    b"x": re.compile(rb"x " + NUMBER + rb"((?: (?:0|[1-9][0-9]{0,18}):(?:0|[1-9][0-9]{0,18}))+)\n"),
    b"root": re.compile(rb"root (-|0|[1-9][0-9]{0,18})\n"),
    b"f": re.compile(rb"f " + NUMBER + b" " + COUNT + rb" ([A-Za-z]+) " + PLACE + b"\n"),
    b"k": re.compile(rb"k " + NUMBER + rb" ([^ \n]+) (s|r[1-9][0-9]{0,8}) (r[1-9][0-9]{0,8})\n"),
    b"end": re.compile(rb"end\n"),
}
LARGEST_OPTION = 2**63 - 1
OPTIONS_AT_MOST = 64
OF_PARSING = (21, 22)


class TextError(Exception):
    """A line that a text can't have: its number, counted from 1, and the rule that it breaks."""

    def __init__(self, line: int, rule: str) -> None:
        super().__init__(f"line {line}: {rule}")
        self.line = line
        self.rule = rule


class _Wrong(Exception):
    """The rule that the line breaks which is being read."""


class Reader:
    """Reads lines, and gives their items one by one. Where the space is known, a text names no
    other variables, and `unlisted` are the configurations that are not valid.
    """

    def __init__(self, lines: Iterable[bytes], space: Space | None = None) -> None:
        self._lines = lines
        self.has_space = space is not None
        self.line = 0
        self.diagrams = Diagrams()
        self.diagrams.variables.update(space.variables if space else {})
        self._listed = listed(self.diagrams, space) if space else None
        self.unlisted = NEVER if self._listed is None else self.diagrams.negation(self._listed)
        self.conditions: list[int] = [NEVER, ALWAYS]
        self.number_of: dict[int, int] = {NEVER: NEVER, ALWAYS: ALWAYS}
        self.files: list[str] = []
        self.kind: str | None = None
        self.is_ended = False
        self._new_conditions: list[int] = []
        self._has_new_file = False
        self._has_root = False
        self._is_rootless = False
        self._refused = NEVER
        self._last_fault: tuple[bytes, int, int, int] | None = None
        self._starts = array("Q", [0])
        self._children = array("Q")
        self._last_conflict: tuple[int, bytes, int] | None = None
        self._read: dict[bytes, Callable[[re.Match[bytes]], Item | None]] = {
            b"c": self._condition,
            b"s": self._file,
            b"t": self._token,
            b"l": self._leaf,
            b"n": self._node,
            b"x": self._choice,
            b"root": self._root,
            b"f": self._fault,
            b"k": self._conflict,
            b"end": self._end,
        }

    def __iter__(self) -> Iterator[Item]:
        try:
            for self.line, line in enumerate(self._lines, 1):
                item = self._item(line)
                if item is not None:
                    yield item
            self.line += 1
            _need(self.is_ended, "the text stops before its line `end`")
        except _Wrong as wrong:
            raise TextError(self.line, str(wrong)) from None

    def _item(self, line: bytes) -> Item | None:
        if self.is_ended:
            raise _Wrong("nothing stands after `end`")
        word = line.partition(b" ")[0].rstrip(b"\n")
        form = FORMS.get(word)
        if form is None:
            raise _Wrong("no line begins so")
        found = form.fullmatch(line)
        if found is None:
            _need(line.endswith(b"\n"), "the last line has no newline")
            raise _Wrong(f"a line `{word.decode()}` is not written so")
        return self._read[word](found)

    # ---- the lines that others need

    def _condition(self, found: re.Match[bytes]) -> None:
        number, name = int(found[1]), found[2].decode()
        _need(not self._has_new_file, "lines of conditions stand before the line of the file")
        _need(
            number == len(self.conditions),
            f"the next condition has the number {len(self.conditions)}",
        )
        fields = [field.partition(b":") for field in found[3].split()]
        self._check_options(name, tuple(option.decode() for option, _, _ in fields))
        children = tuple(self._known_condition(int(child)) for _, _, child in fields)
        _need(
            all(name < self.diagrams.top(child) for child in children),
            "variables rise from a condition to its children",
        )
        _need(
            any(child != children[0] for child in children),
            "a condition with equal children has no line",
        )
        condition = self.diagrams.make(name, children)
        _need(condition not in self.number_of, "a condition has one line")
        self.number_of[condition] = number
        self.conditions.append(condition)
        self._new_conditions.append(condition)

    def _check_options(self, name: str, options: tuple[str, ...]) -> None:
        known = self.diagrams.variables.get(name)
        if known is None:
            _need(not self.has_space, f"the space has no variable {name}")
            _need(len(set(options)) == len(options), "an option stands once")
            _need(
                len(options) <= OPTIONS_AT_MOST, f"a variable has at most {OPTIONS_AT_MOST} options"
            )
            _need(
                all(int(option) <= LARGEST_OPTION for option in options if option.isdecimal()),
                "an option is at most 2^63-1",
            )
            _need(
                all(option == f"t{k}" for k, option in enumerate(options) if is_text(option)),
                "an option that is a text has the number of its place",
            )
            self.diagrams.variables[name] = options
        else:
            _need(options == known, f"the options of {name} stand as before")

    def _file(self, found: re.Match[bytes]) -> None:
        _need(not self._has_new_file, "a line needs one file")
        _need(int(found[1]) == len(self.files), f"the next file has the number {len(self.files)}")
        try:
            name = found[2].decode("utf-8")
        except UnicodeDecodeError:
            raise _Wrong("the name of a file is UTF-8") from None
        _need(name not in self.files, "a file has one line")
        self.files.append(name)
        self._has_new_file = True

    def _known_condition(self, number: int) -> int:
        if number >= len(self.conditions):
            raise _Wrong(f"condition {number} has no line yet")
        return self.conditions[number]

    def _needs(self, conditions: Iterable[int]) -> None:
        """Refuses new lines of conditions that are not exactly those that these need, in order."""
        if self._new_conditions:
            needed = self.diagrams.reachable(conditions, set(self._new_conditions))
            _need(
                needed == self._new_conditions,
                "the lines of conditions before this line are not those that it needs",
            )
            self._new_conditions = []

    def _place(self, file: bytes, line: bytes, column: bytes) -> Place:
        number = int(file)
        if number >= len(self.files):
            raise _Wrong(f"file {number} has no line yet")
        if self._has_new_file:
            _need(
                number == len(self.files) - 1,
                "the line of a file stands before a line that doesn't need it",
            )
            self._has_new_file = False
        return Place(self.files[number], int(line), int(column))

    def _no_place(self) -> None:
        _need(
            not self._has_new_file, "the line of a file stands before a line that doesn't need it"
        )

    def _be(self, kind: str) -> None:
        if self.kind is None:
            self.kind = kind
        _need(self.kind == kind, f"this line is not one of a text of {self.kind}")

    # ---- tokens and faults

    def _token(self, found: re.Match[bytes]) -> Token:
        condition, file, line, column, spelling = found.groups()
        if self.kind != "tokens" or self._last_fault is not None:
            self._be("tokens")
            _need(self._last_fault is None, "tokens stand before the faults")
        known = self._known_condition(int(condition))
        _need(known != NEVER, "a token stands under a condition that holds somewhere")
        if self._new_conditions:
            self._needs((known,))
        return Token(known, self._place(file, line, column), spelling)

    def _fault(self, found: re.Match[bytes]) -> Fault:
        condition = self._known_condition(int(found[1]))
        code, name = int(found[2]), found[3].decode()
        if self.kind is None:
            self.kind = "tokens"
        _need(self.kind == "tokens" or self._has_root, "faults stand after the root")
        _need(condition != NEVER, "a fault stands under a condition that holds somewhere")
        self._needs((condition,))
        _need(
            code <= len(CAUSES) and CAUSES[code - 1] == name, f"code {code} is not that of {name}"
        )
        _need(self.kind == "tree" or code not in OF_PARSING, f"code {code} is one of parsing")
        place = self._place(found[4], found[5], found[6])
        order = (place.file.encode(), place.line, place.column, code)
        _need(
            self._last_fault is None or self._last_fault < order,
            "faults stand by file, line, column and code, each once",
        )
        _need(not self.diagrams.meet(self._refused, condition), "a configuration has one fault")
        self._refused = self.diagrams.disjunction(self._refused, condition)
        self._last_fault = order
        return Fault(condition, code, name, place)

    # ---- the tree

    def _part(self, number: bytes, children: Iterable[int]) -> int:
        """The number of a part of the tree, which is the next one, and whose children have
        lines."""
        self._be("tree")
        _need(not self._has_root, "the root comes after all parts of the tree")
        one = len(self._starts) - 1
        _need(int(number) == one, f"the next part of the tree has the number {one}")
        for child in children:
            _need(child < one, f"part {child} of the tree has no line yet")
            self._children.append(child)
        self._starts.append(len(self._children))
        return one

    def _leaf(self, found: re.Match[bytes]) -> Leaf:
        self._needs(())
        number = self._part(found[1], ())
        return Leaf(number, self._place(found[2], found[3], found[4]), found[5])

    def _node(self, found: re.Match[bytes]) -> Node:
        self._needs(())
        self._no_place()
        children = tuple(map(int, found[3].split()))
        number, production = self._part(found[1], children), int(found[2])
        rule = productions().get(production)
        if rule is None:
            raise _Wrong(f"there is no production {production}")
        _need(rule.has_node, f"production {production} has no node")
        _need(
            len(children) == rule.children, f"production {production} has {rule.children} children"
        )
        return Node(number, production, children)

    def _choice(self, found: re.Match[bytes]) -> Choice:
        self._no_place()
        pairs = [tuple(map(int, field.split(b":"))) for field in found[2].split()]
        branches = tuple((self._known_condition(condition), child) for condition, child in pairs)
        self._needs(condition for condition, _ in branches)
        number = self._part(found[1], (child for _, child in branches))
        _need(len(branches) > 1, "a choice has two children or more")
        _need(all(condition != NEVER for condition, _ in branches), "a choice has no child under 0")
        for place, (condition, _) in enumerate(branches):
            is_apart = not any(
                self.diagrams.meet(condition, other) for other, _ in branches[:place]
            )
            _need(is_apart, "the conditions of a choice are apart")
        return Choice(number, branches)

    def _root(self, found: re.Match[bytes]) -> Root:
        self._be("tree")
        self._needs(())
        self._no_place()
        _need(not self._has_root, "a text has one root")
        self._has_root = True
        count = len(self._starts) - 1
        if found[1] == b"-":
            _need(count == 0, "where there is no root, there is no tree")
            self._is_rootless = True
            return Root(None)
        _need(int(found[1]) + 1 == count, "the root is the last part of the tree")
        _need(self._is_in_order(count), "parts stand once, children first, from left to right")
        self._is_rootless = False
        return Root(int(found[1]))

    def _is_in_order(self, count: int) -> bool:
        """Whether a walk from the root finishes the parts of the tree in the order of their
        numbers.
        """
        starts, children = self._starts, self._children
        finished = 0
        waiting = [(count - 1, starts[count - 1])]
        while waiting:
            part, place = waiting.pop()
            while place < starts[part + 1] and children[place] < finished:
                place += 1
            if place < starts[part + 1]:
                waiting.append((part, place + 1))
                child = children[place]
                waiting.append((child, starts[child]))
            elif part == finished:
                finished += 1
            else:
                return False
        return finished == count

    # ---- conflicts and the end

    def _conflict(self, found: re.Match[bytes]) -> Conflict:
        self._be("conflicts")
        self._needs(())
        self._no_place()
        state, lost = int(found[1]), int(found[4][1:])
        last = self._last_conflict
        _need(
            last is None or last[0] <= state,
            "conflicts stand by state, terminal and lost production",
        )
        is_after = last is None or last[:2] != (state, found[2]) or last[2] < lost
        _need(
            found[3] == b"s" or int(found[3][1:]) < lost,
            "shift is kept, or else the lower production",
        )
        _need(is_after, "conflicts stand by state, terminal and lost production")
        self._last_conflict = (state, found[2], lost)
        return Conflict(
            state, found[2].decode("utf-8", "replace"), found[3].decode(), found[4].decode()
        )

    def _end(self, found: re.Match[bytes]) -> None:
        self._needs(())
        self._no_place()
        if self.kind == "tree":
            _need(self._has_root, "a tree has a root")
            _need(
                self._is_rootless == self._refuses_all(),
                "there is no root exactly where every configuration is refused",
            )
        self.is_ended = True

    def _refuses_all(self) -> bool:
        """Whether each valid configuration is refused. Where it is not known which are valid, a
        text without a root is believed that has a fault.
        """
        if self._listed is None and self._is_rootless:
            return self._refused != NEVER
        return self.diagrams.disjunction(self._refused, self.unlisted) == ALWAYS


class Scan:
    """What a text refuses, by a look at its lines that checks none of them."""

    def __init__(self) -> None:
        self._lines: list[bytes] = []

    def add(self, line: bytes) -> None:
        """Takes the next line."""
        if line.startswith((b"c ", b"f ")):
            self._lines.append(line)

    def refused(self, reader: Reader) -> int:
        """The configurations that have a fault, in the store of a reader of this text that has read
        nothing yet; none where lines are wrong.
        """
        variables = reader.diagrams.variables
        before = dict(variables)
        conditions = [NEVER, ALWAYS]
        refused = NEVER
        try:
            for line in self._lines:
                form = FORMS[line[:1]].fullmatch(line)
                if form is None:
                    raise LookupError
                if line[:1] == b"f":
                    refused = reader.diagrams.disjunction(refused, conditions[int(form[1])])
                    continue
                fields = [field.decode().partition(":") for field in form[3].split()]
                name, options = form[2].decode(), tuple(option for option, _, _ in fields)
                if name not in variables and reader.has_space:
                    raise LookupError
                if variables.setdefault(name, options) != options:
                    raise LookupError
                children = [conditions[int(child)] for _, _, child in fields]
                conditions.append(reader.diagrams.make(name, children))
        except LookupError:
            variables.clear()
            variables.update(before)
            return NEVER
        return refused


def _need(holds: bool, rule: str) -> None:
    if not holds:
        raise _Wrong(rule)
