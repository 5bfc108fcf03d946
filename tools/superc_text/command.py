"""The command superc-view."""
from __future__ import annotations

import argparse
import os
import sys
from collections.abc import Iterable, Iterator
from tempfile import SpooledTemporaryFile
from typing import IO, Any

from . import VERSION
from .diagrams import ALWAYS, Diagrams
from .document import Document
from .items import Fault, Token
from .layout import Conditions, fault_text, source
from .page import Page
from .projection import (
    Configuration,
    ConfigurationError,
    Projection,
    configuration_of,
    fault_at,
    need_valid,
    tokens_at,
)
from .reader import Reader, Scan, TextError
from .space import Space, SpaceError, space_of
from .trees import PlaceError, TreeView, document_at, parts_at, wanted
from .views import (
    conditions_dot,
    diff_view,
    faults_view,
    tokens_of_document,
    tokens_view,
    tree_dot,
)
from .writer import text_at

ACCEPTED, REFUSED, MISUSED, WRONG_TEXT, UNREADABLE, UNWRITTEN = 0, 1, 2, 3, 6, 7

IN_MEMORY = 1 << 20


HELPS = {
    "tokens": "the tokens as source, with #if around what is conditional",
    "at": "the source of one configuration",
    "diff": "what differs between two configurations; status 1 where anything does",
    "faults": "the faults, as compilers write them; status 1 where there are any",
    "tree": "the tree, indented",
    "dot": "the conditions, or a part of the tree, for Graphviz",
    "html": "one page that shows the source by conditions",
}


Option = tuple[tuple[str, ...], dict[str, Any]]
CONFIGURATION = "NAME=OPTION[,..]"
EVERYWHERE: tuple[Option, ...] = (
    (
        ("--input", "-i"),
        {"metavar": "FILE", "help": "the text; otherwise it is read from the standard input"},
    ),
    (
        ("--space",),
        {
            "metavar": "FILE",
            "help": "the space file: the variables of the text, and which configurations are valid",
        },
    ),
)
OPTIONS: dict[str, tuple[Option, ...]] = {
    "tokens": (
        (
            ("--exact",),
            {"action": "store_true", "help": "write conditions with all that is refused of them"},
        ),
    ),
    "at": (
        (
            ("options",),
            {
                "nargs": "*",
                "metavar": "NAME=OPTION",
                "help": "a variable that is not named takes its first option",
            },
        ),
        (
            ("--text",),
            {"action": "store_true", "help": "print the text of the configuration, not its source"},
        ),
    ),
    "diff": tuple(
        (
            (side,),
            {
                "metavar": CONFIGURATION,
                "help": "a variable that is not named takes its first option; - names none",
            },
        )
        for side in ("left", "right")
    ),
    "tree": (
        (
            ("--at",),
            {
                "metavar": CONFIGURATION,
                "help": "the tree of one configuration; - names no variable",
            },
        ),
        (
            ("--part",),
            {
                "metavar": "PLACE",
                "help": "the largest parts that begin at LINE, LINE:COLUMN or FILE:LINE[:COLUMN]",
            },
        ),
        (("--depth",), {"type": int, "metavar": "N", "help": "so many levels alone"}),
    ),
    "dot": (
        (
            ("--part",),
            {
                "type": int,
                "metavar": "ID",
                "help": "the part of the tree with this number, and all below it",
            },
        ),
    ),
    "html": (
        (("--title",), {"default": "superc", "help": "the title of the page"}),
        (
            ("--root",),
            {"metavar": "DIR", "help": "show the files below this folder as they stand there"},
        ),
    ),
}


class Unwritten(Exception):
    """The output takes no more. There are no words for a reader that has gone."""


class Output:
    """The standard output, whose failures are apart from those of the input."""

    def __init__(self, stream: IO[bytes]) -> None:
        self._stream = stream

    def write(self, piece: bytes) -> None:
        """Writes a piece."""
        try:
            self._stream.write(piece)
        except BrokenPipeError:
            raise Unwritten from None
        except OSError as fault:
            raise Unwritten(fault.strerror) from None

    def flush(self) -> None:
        """Writes what is left."""
        try:
            self._stream.flush()
        except BrokenPipeError:
            raise Unwritten from None
        except OSError as fault:
            raise Unwritten(fault.strerror) from None


def parser() -> argparse.ArgumentParser:
    """The words of the command."""
    whole = argparse.ArgumentParser(
        prog="superc-view", description="Shows a text that superc printed."
    )
    whole.add_argument("--version", action="version", version=f"%(prog)s {VERSION}")
    commands = whole.add_subparsers(dest="command", required=True, metavar="COMMAND")
    for name, words in HELPS.items():
        one = commands.add_parser(name, help=words, description=words[0].upper() + words[1:] + ".")
        for option, how in (*EVERYWHERE, *OPTIONS.get(name, ())):
            one.add_argument(*option, **how)
    return whole


def main(words: list[str] | None = None) -> int:
    """Runs the command, and answers its status."""
    asked = parser().parse_args(words)
    out = Output(sys.stdout.buffer)
    try:
        asked.known = _space(asked.space)
        text: IO[bytes] = open(asked.input, "rb") if asked.input else sys.stdin.buffer
    except SpaceError as fault:
        return _stop(WRONG_TEXT, f"space: {fault}")
    except OSError as fault:
        return _stop(UNREADABLE, f"{fault.filename}: {fault.strerror}")
    try:
        with text:
            status = COMMANDS[asked.command](asked, text, out)
        out.flush()
        return status
    except TextError as fault:
        return _stop(WRONG_TEXT, f"{asked.input or 'standard input'}: {fault}")
    except (ConfigurationError, PlaceError) as fault:
        return _stop(MISUSED, str(fault))
    except Unwritten as fault:
        os.dup2(os.open(os.devnull, os.O_WRONLY), sys.stdout.fileno())
        return _stop(UNWRITTEN, str(fault)) if str(fault) else UNWRITTEN
    except OSError as fault:
        return _stop(UNREADABLE, str(fault.strerror))


def _space(path: str | None) -> Space | None:
    if path is None:
        return None
    with open(path, "rb") as file:
        return space_of(file.read())


def _stop(status: int, words: str) -> int:
    print(f"superc-view: {words}", file=sys.stderr)
    return status


def _write(out: Output | IO[bytes], lines: Iterable[str]) -> int:
    """Writes lines, and answers how many."""
    count = 0
    for line in lines:
        out.write(line.encode("utf-8", "surrogateescape") + b"\n")
        count += 1
    return count


def _is_tree(text: IO[bytes]) -> tuple[bool, Iterator[bytes]]:
    """Whether a text has a tree, by its first lines; and all of its lines."""
    front: list[bytes] = []
    for line in text:
        front.append(line)
        if not line.startswith((b"c ", b"s ")):
            break

    def lines() -> Iterator[bytes]:
        yield from front
        yield from text

    return bool(front) and front[-1].startswith((b"l ", b"n ", b"x ", b"root ")), lines()


def _tokens(asked: argparse.Namespace, text: IO[bytes], out: Output) -> int:
    has_tree, lines = _is_tree(text)
    if has_tree:
        _write(out, tokens_of_document(Document.read(lines, asked.known), asked.exact))
        return ACCEPTED
    with SpooledTemporaryFile(IN_MEMORY) as kept:
        # The faults come last, and the conditions are shown by what they refuse.
        scan = Scan()
        for line in lines:
            scan.add(line)
            kept.write(line)
        kept.seek(0)
        reader = Reader(kept, asked.known)
        _write(out, tokens_view(reader, scan.refused(reader), asked.exact))
    return ACCEPTED


def _faults(asked: argparse.Namespace, text: IO[bytes], out: Output) -> int:
    return REFUSED if _write(out, faults_view(Reader(text, asked.known))) else ACCEPTED


def _at(asked: argparse.Namespace, text: IO[bytes], out: Output) -> int:
    configuration = configuration_of(asked.options)
    has_tree, lines = _is_tree(text)
    if has_tree or asked.text:
        document = Document.read(lines, asked.known)
        _check(asked, document, configuration)
        fault = fault_at(document, configuration)
        if asked.text:
            out.write(text_at(document, configuration))
        elif not fault:
            _write(out, source(tokens_at(document, configuration), document.conditions()))
        return _refusal(fault)
    return _at_in_one_pass(asked, configuration, lines, out)


def _at_in_one_pass(
    asked: argparse.Namespace, configuration: Configuration, lines: Iterable[bytes], out: Output
) -> int:
    """The source of a configuration. It is written when the whole text was read, since the faults
    come last.
    """
    reader = Reader(lines, asked.known)
    projection = Projection(reader.diagrams, configuration)
    faults: list[Fault] = []

    def tokens() -> Iterator[Token]:
        for item in reader:
            if isinstance(item, Token) and projection.has(item.condition):
                yield item._replace(condition=ALWAYS)
            elif isinstance(item, Fault) and projection.has(item.condition):
                faults.append(item)

    with SpooledTemporaryFile(IN_MEMORY) as kept:
        _write(kept, source(tokens(), Conditions(Diagrams())))
        _check(asked, reader, configuration)
        kept.seek(0)
        if not faults:
            for piece in iter(lambda: kept.read(IN_MEMORY), b""):
                out.write(piece)
    return _refusal(faults[0] if faults else None)


def _check(asked: argparse.Namespace, text: Reader | Document, chosen: Configuration) -> None:
    """Refuses what is no valid configuration of the space, if that is known."""
    names = Projection(text.diagrams, chosen).check()
    if names and asked.known is not None:
        raise ConfigurationError(f"UnknownVariable {names[0]}")
    for name in names:
        print(f"superc-view: no condition of the text depends on {name}", file=sys.stderr)
    need_valid(text.diagrams, text.unlisted, chosen)


def _refusal(fault: Fault | None) -> int:
    if fault is None:
        return ACCEPTED
    print(fault_text(fault._replace(condition=ALWAYS), str), file=sys.stderr)
    return REFUSED


def _diff(asked: argparse.Namespace, text: IO[bytes], out: Output) -> int:
    sides = [_configuration(word) for word in (asked.left, asked.right)]
    document = Document.read(text, asked.known)
    for side in sides:
        _check(asked, document, side)
    faults = [fault for side in sides if (fault := fault_at(document, side))]
    for fault in faults:
        _refusal(fault)
    return REFUSED if faults or _write(out, diff_view(document, *sides)) else ACCEPTED


def _configuration(word: str) -> Configuration:
    """The configuration that one word NAME=OPTION,.. names."""
    return configuration_of([] if word == "-" else word.split(","))


def _tree(asked: argparse.Namespace, text: IO[bytes], out: Output) -> int:
    document = Document.read(text, asked.known)
    if document.kind != "tree":
        return _stop(MISUSED, "the text has no tree: superc parse prints one")
    conditions = document.conditions()
    if asked.at is not None:
        configuration = _configuration(asked.at)
        _check(asked, document, configuration)
        fault = fault_at(document, configuration)
        if fault:
            return _refusal(fault)
        document = document_at(document, configuration)
    tops = [] if document.root is None else [document.root]
    if asked.part is not None:
        tops = parts_at(document, wanted(asked.part))
        if not tops:
            raise PlaceError(f"no part begins at {asked.part}")
    view = TreeView(document, conditions, asked.depth)
    for top in tops:
        _write(out, view.lines(top))
    return ACCEPTED


def _dot(asked: argparse.Namespace, text: IO[bytes], out: Output) -> int:
    if asked.part is None:
        reader = Reader(text, asked.known)
        for _ in reader:
            pass
        _write(out, conditions_dot(reader.diagrams, reader.number_of))
        return ACCEPTED
    document = Document.read(text, asked.known)
    if not 0 <= asked.part < len(document.parts):
        return _stop(MISUSED, f"the text has no part {asked.part}")
    _write(out, tree_dot(document, asked.part))
    return ACCEPTED


def _html(asked: argparse.Namespace, text: IO[bytes], out: Output) -> int:
    for piece in Page(Document.read(text, asked.known), asked.title, asked.root).text():
        out.write(piece.encode("utf-8"))
    return ACCEPTED


COMMANDS = {
    "tokens": _tokens,
    "at": _at,
    "diff": _diff,
    "faults": _faults,
    "tree": _tree,
    "dot": _dot,
    "html": _html,
}
