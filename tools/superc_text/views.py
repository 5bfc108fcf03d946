"""The views of a text as lines."""
from __future__ import annotations

from collections.abc import Iterable, Iterator
from difflib import unified_diff

from .diagrams import ALWAYS, NEVER, Diagrams
from .document import Document, branches_of
from .items import Choice, Fault, Leaf, Node, Token
from .layout import Conditions, fault_text, shown, source
from .projection import Configuration, tokens_at
from .reader import Reader
from .trees import left_of


def tokens_view(reader: Reader, refused: int, is_exact: bool = False) -> Iterator[str]:
    """The tokens as source with `#if`; at the end what refuses configurations, as `#error`. The
    refused configurations are known before, and conditions may have them or not.
    """
    faults: list[Fault] = []

    def tokens() -> Iterator[Token]:
        for item in reader:
            if isinstance(item, Token):
                yield item
            elif isinstance(item, Fault):
                faults.append(item)

    free = (NEVER, NEVER) if is_exact else (refused, reader.unlisted)
    conditions = Conditions(reader.diagrams, reader.number_of, *free)
    yield from source(tokens(), conditions)
    yield from _errors(faults, conditions)


def tokens_of_document(document: Document, is_exact: bool = False) -> Iterator[str]:
    """The same of a document, that may have a tree."""
    conditions = document.conditions(is_exact)
    yield from source(document.shown_tokens(), conditions)
    yield from _errors(document.faults, conditions)


def _errors(faults: Iterable[Fault], conditions: Conditions) -> Iterator[str]:
    for fault in faults:
        yield f"#if {conditions.exact(fault.condition)}"
        name = fault.place.file.replace("\\", "\\\\").replace('"', '\\"')
        yield f'#error "{name}:{fault.place.line}:{fault.place.column}: {fault.name}"'
        yield "#endif"


def faults_view(reader: Reader) -> Iterator[str]:
    """Each fault on a line, as compilers write it."""
    text_of = Conditions(reader.diagrams, reader.number_of, unlisted=reader.unlisted).exact
    for item in reader:
        if isinstance(item, Fault):
            yield fault_text(item, text_of)


def diff_view(document: Document, left: Configuration, right: Configuration) -> Iterator[str]:
    """What differs between the sources of two configurations, as `diff -u` writes it."""
    before, after = (
        list(source(tokens_at(document, one), Conditions(document.diagrams)))
        for one in (left, right)
    )
    names = [" ".join(f"{name}={option}" for name, option in one.items()) for one in (left, right)]
    return unified_diff(before, after, names[0], names[1], lineterm="")


def conditions_dot(diagrams: Diagrams, number_of: dict[int, int]) -> Iterator[str]:
    """The conditions of a text as a graph for Graphviz."""
    yield "digraph conditions {"
    yield "  0 [shape=box]; 1 [shape=box];"
    for condition in range(ALWAYS + 1, len(diagrams)):
        if condition not in number_of:
            continue
        name = diagrams.top(condition)
        yield f'  {number_of[condition]} [label="{number_of[condition]}: {name}"];'
        for option, child in zip(diagrams.variables[name], diagrams.children(condition)):
            if child != NEVER:
                yield f'  {number_of[condition]} -> {number_of[child]} [label="{option}"];'
    yield "}"


def tree_dot(document: Document, top: int) -> Iterator[str]:
    """A part of the tree with all below it as a graph for Graphviz."""
    text_of = document.conditions().exact
    yield "digraph tree {"
    seen = {top}
    waiting = [top]
    while waiting:
        part = document.parts[waiting.pop()]
        yield f"  {part.number} [label={_quoted(_name(part))}{', shape=diamond' if isinstance(part, Choice) else ''}];"
        for condition, child in branches_of(part):
            label = "" if condition == ALWAYS else f" [label={_quoted(text_of(condition))}]"
            yield f"  {part.number} -> {child}{label};"
            if child not in seen:
                seen.add(child)
                waiting.append(child)
    yield "}"


def _name(part: Leaf | Node | Choice) -> str:
    match part:
        case Leaf():
            return shown(part.spelling)
        case Node():
            return f"{left_of(part)} {part.production}"
        case _:
            return "choice"


def _quoted(text: str) -> str:
    return '"' + text.replace("\\", "\\\\").replace('"', '\\"') + '"'
