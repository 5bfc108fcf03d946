"""One page of HTML, without outside parts, that shows a text: source coloured by presence
condition.
"""
from __future__ import annotations

import json
from collections.abc import Iterator
from pathlib import Path
from typing import Any

from .diagrams import ALWAYS, NEVER
from .document import Document, plain_place
from .faults import SENTENCES
from .items import Choice, Fault, Leaf
from .layout import shown
from .page_lines import SourceLines, TokenLines
from .page_text import escaped
from .trees import is_list, left_of

HERE = Path(__file__).parent
GOLDEN_ANGLE = 137.508
BUTTONS_AT_MOST = 6
GUTTER_AT_MOST = 26


class Page:
    """The parts of the page of one document. Where a folder is given, the page has the files that
    are below it.
    """

    def __init__(self, document: Document, title: str, root: str | None = None) -> None:
        self._document = document
        self._title = title
        self._diagrams = document.diagrams
        self._conditions = document.conditions()
        self._lines: TokenLines | SourceLines = (
            TokenLines(document, self._conditions)
            if root is None
            else SourceLines(document, self._conditions, root)
        )
        self._number_conditions()

    def _number_conditions(self) -> None:
        """Conditions that differ in refused configurations alone have one number, and so has one
        that all others have.
        """
        accepted = self._conditions.accepted
        example_of = {live: condition for live, condition in self._lines.shown if live != accepted}
        self._shown = list(example_of.values())
        faults = [fault.condition for fault in self._document.faults if fault.condition > ALWAYS]
        self._valid = self._diagrams.negation(self._document.unlisted)
        self._nodes = self._diagrams.reachable([*self._shown, *faults, self._valid])
        self._numbers = {NEVER: 0, ALWAYS: 1} | {
            node: number for number, node in enumerate(self._nodes, 2)
        }
        self._number_of = {accepted: ALWAYS} | {
            live: self._numbers[condition] for live, condition in example_of.items()
        }
        self._variables = sorted({self._diagrams.top(node) for node in self._nodes})

    def text(self) -> Iterator[str]:
        """The page, piece by piece."""
        yield '<!DOCTYPE html>\n<html lang="en">\n<head>\n<meta charset="utf-8">\n'
        yield '<meta name="viewport" content="width=device-width, initial-scale=1">\n'
        yield f"<title>{escaped(self._title)}</title>\n<style>\n{(HERE / 'page.css').read_text()}"
        yield from self._hues()
        yield '</style>\n<style id="away"></style>\n</head>\n<body>\n<aside>\n'
        yield f"<h1>{escaped(self._title)}</h1>\n"
        yield from self._controls()
        yield from self._fault_list()
        yield from self._file_list()
        yield from self._condition_list()
        kind = "tokens" if isinstance(self._lines, TokenLines) else "source"
        yield f'</aside>\n<main>\n<div id="lines" class="{kind}">\n'
        texts = {self._numbers[one]: self._conditions.text(one) for one in self._shown}
        yield from self._lines.html(self._number_of.__getitem__, self._fault_line, texts)
        yield '</div>\n<div id="foot"><output id="told" aria-live="polite"></output>\n'
        yield '<div id="tree"></div></div>\n</main>\n'
        data = json.dumps(self._data(), separators=(",", ":")).replace("<", "\\u003c")
        yield f'<script type="application/json" id="data">{data}</script>\n'
        yield f"<script>\n{(HERE / 'page.js').read_text()}</script>\n</body>\n</html>\n"

    def _hues(self) -> Iterator[str]:
        widest = max((len(self._conditions.text(one)) for one in self._shown), default=0)
        yield f":root {{ --gutter: {min(widest + 2, GUTTER_AT_MOST)}ch; }}\n"
        for place, condition in enumerate(self._shown):
            yield f".c{self._numbers[condition]}{{--hue:{place * GOLDEN_ANGLE % 360:.0f}}}\n"

    def _controls(self) -> Iterator[str]:
        yield '<p id="verdict" aria-live="polite"></p>\n<form autocomplete="off">\n'
        for number, name in enumerate(self._variables):
            yield _control(f"v{number}", name, ["any", *self._diagrams.variables[name]])
        yield '<button type="button" id="reset">All configurations</button>\n</form>\n'
        yield '<p><input type="search" id="search" placeholder="a name, or: when CONDITION">'
        yield ' <output id="found"></output></p>\n'
        yield '<p class="hint"><kbd>/</kbd> searches, <kbd>Enter</kbd> goes on; <kbd>n</kbd> and '
        yield "<kbd>p</kbd> go to the next and previous conditional part, <kbd>f</kbd> and "
        yield "<kbd>F</kbd> to faults. A click on a line's number chooses it.</p>\n"

    def _fault_list(self) -> Iterator[str]:
        if self._document.faults:
            yield '<h2>Faults</h2>\n<ul id="faults">\n'
            for number, fault in enumerate(self._document.faults):
                link = f'<a href="#fault{number}">{escaped(self._fault(fault))}</a>'
                yield f'<li class="c{self._numbers[fault.condition]}">{link}</li>\n'
            yield "</ul>\n"

    def _file_list(self) -> Iterator[str]:
        if isinstance(self._lines, TokenLines):
            return
        yield '<h2>Files</h2>\n<ul id="files">\n'
        for name, key in self._lines.links():
            yield f'<li><a href="#{key}">{escaped(name)}</a></li>\n'
        yield "</ul>\n"
        if self._lines.outside:
            yield f"<details><summary>Outside ({len(self._lines.outside)})</summary>\n<ul>\n"
            for name in self._lines.outside:
                yield f"<li>{escaped(name)}</li>\n"
            yield "</ul>\n</details>\n"

    def _condition_list(self) -> Iterator[str]:
        yield f"<details><summary>Conditions ({len(self._shown)})</summary>\n<ul>\n"
        for condition in self._shown:
            text = escaped(self._conditions.text(condition))
            yield f'<li class="condition c{self._numbers[condition]}">{text}</li>\n'
        yield "</ul>\n</details>\n"

    def _fault(self, fault: Fault) -> str:
        text = self._conditions.exact(fault.condition)
        when = "" if text == str(ALWAYS) else f" [when {text}]"
        return f"{plain_place(fault.place)}: {fault.name}{when}"

    def _fault_line(self, number: int, fault: Fault) -> str:
        condition = self._numbers[fault.condition]
        text = escaped(f"{self._fault(fault)}: {SENTENCES[fault.name]}")
        return f'<div class="fault c{condition}" id="fault{number}"><i>{fault.place.line}</i>{text}</div>\n'

    def _data(self) -> dict[str, Any]:
        place_of = {name: place for place, name in enumerate(self._variables)}
        nodes = [
            [
                place_of[self._diagrams.top(node)],
                [self._numbers[child] for child in self._diagrams.children(node)],
            ]
            for node in self._nodes
        ]
        return {
            "nodes": nodes,
            "variables": [[name, *self._diagrams.variables[name]] for name in self._variables],
            "expressions": {
                self._numbers[condition]: self._conditions.text(condition)
                for condition in self._shown
            },
            "valid": self._numbers[self._valid],
            "faults": [
                [self._numbers[fault.condition], self._fault(fault)]
                for fault in self._document.faults
            ],
            "expansions": getattr(self._lines, "expansions", []),
            "tree": self._tree(),
        }

    def _tree(self) -> dict[str, Any] | None:
        """The parts of a tree: leaves as texts, nodes and choices as lists, and the largest parts
        that begin on each line.
        """
        if self._document.kind != "tree" or isinstance(self._lines, TokenLines):
            return None
        names: dict[str, int] = {}
        parts: list[Any] = []
        firsts: list[str | None] = []
        for part in self._document.parts:
            if isinstance(part, Leaf):
                parts.append(shown(part.spelling).encode("utf-8", "replace").decode())
                firsts.append(self._lines.key_of(part.place.file, part.place.line))
            elif isinstance(part, Choice):
                parts.append([-1, *([self._when(one), child] for one, child in part.branches)])
                firsts.append(firsts[part.branches[0][1]])
            else:
                parts.append([names.setdefault(left_of(part), len(names)), *part.children])
                firsts.append(firsts[part.children[0]] if part.children else None)
        return {"names": list(names), "parts": parts, "at": self._begins(firsts)}

    def _when(self, condition: int) -> str:
        return self._conditions.text(condition)

    def _begins(self, firsts: list[str | None]) -> dict[str, list[int]]:
        at: dict[str, list[int]] = {}
        root = self._document.root
        waiting: list[tuple[int, str | None]] = [] if root is None else [(root, None)]
        seen: set[int] = set()
        while waiting:
            number, above = waiting.pop()
            if number in seen:
                continue
            seen.add(number)
            part = self._document.parts[number]
            if isinstance(part, Leaf):
                continue
            key = firsts[number]
            if isinstance(part, Choice):
                waiting.extend((child, above) for _, child in reversed(part.branches))
                continue
            if number != root and not is_list(self._document, part) and key != above and key:
                at.setdefault(key, []).append(number)
                above = key
            waiting.extend((child, above) for child in reversed(part.children))
        return at


def _control(key: str, name: str, options: list[str]) -> str:
    """Buttons for the options of a variable, or a list where they are many. The first one has the
    value -1.
    """
    if len(options) > BUTTONS_AT_MOST:
        choices = "".join(
            f'<option value="{value}">{option}</option>' for value, option in enumerate(options, -1)
        )
        return (
            f'<fieldset><legend>{name}</legend><select name="{key}">{choices}</select></fieldset>\n'
        )
    buttons = [
        f"<label><input type=\"radio\" name=\"{key}\" value=\"{value}\"{' checked' if value < 0 else ''}>{option}</label>"
        for value, option in enumerate(options, -1)
    ]
    return f"<fieldset><legend>{name}</legend>{''.join(buttons)}</fieldset>\n"
