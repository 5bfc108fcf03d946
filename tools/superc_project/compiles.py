"""How the files of a project are compiled: the words of its compiler, from compile_commands.json or
from a command line.
"""
from __future__ import annotations

import json
import os
import re
import shlex
from collections.abc import Iterable, Iterator
from dataclasses import dataclass, field
from pathlib import Path

# Options whose value is the next word where it is not in the same one.
WITH_VALUE = {
    "-D": "define",
    "-U": "undefine",
    "-I": "directory",
    "-iquote": "directory",
    "-isystem": "directory",
    "-idirafter": "directory",
    "-isysroot": "mode",
    "--sysroot": "mode",
    "-include": "include",
    "-imacros": "macros",
    "-o": "",
    "-x": "language",
    "-MF": "",
    "-MT": "",
    "-MQ": "",
    "-target": "mode",
    "-Xlinker": "",
    "-Xassembler": "",
    "-Xpreprocessor": "",
    "-T": "",
    "-u": "",
    "-L": "",
    "-l": "",
}
JOINED = (
    "-D",
    "-U",
    "-I",
    "-iquote",
    "-isystem",
    "-idirafter",
    "-isysroot",
    "-include",
    "-imacros",
    "-o",
    "-x",
    "-L",
    "-l",
)
# Words that do not change what the preprocessor does.
WITHOUT_EFFECT = (
    "-c",
    "-S",
    "-E",
    "-M",
    "-W",
    "-g",
    "-pipe",
    "-w",
    "-v",
    "-P",
    "-save-temps",
    "-ffile-prefix-map",
    "-fdebug-prefix-map",
)
FILES_OF_C = (".c", ".i")
COMPILER_OF_OTHERS = re.compile(r"\+\+")


class CompileError(Exception):
    """Words of a compiler, or a list of them, that can't be read."""


@dataclass
class Compile:
    """One compile of one file. Directories and files are absolute."""

    compiler: str
    directory: str
    file: str
    # The words that decide the predefined macros and the system's directories.
    mode: list[str] = field(default_factory=list)
    # The words -I, -iquote, -isystem and -idirafter, each with its directory.
    directories: list[tuple[str, str]] = field(default_factory=list)
    # -D and -U, in order, as names with their definitions, or None.
    macros: list[tuple[str, str | None]] = field(default_factory=list)
    includes: list[str] = field(default_factory=list)
    standard: str = ""
    # What could not be carried, in words.
    lost: list[str] = field(default_factory=list)


def read_database(path: str) -> list[tuple[str, list[str], str | None]]:
    """The entries of compile_commands.json: directory, words and file."""
    try:
        entries = json.loads(Path(path).read_text())
    except OSError as fault:
        raise CompileError(f"{path}: {fault.strerror}") from None
    except ValueError as fault:
        raise CompileError(f"{path}: {fault}") from None
    if not isinstance(entries, list):
        raise CompileError(f"{path}: it is no list of compiles")
    found = []
    for number, entry in enumerate(entries):
        words = entry.get("arguments") or shlex.split(entry.get("command", ""))
        if not words or "directory" not in entry:
            raise CompileError(f"{path}: entry {number} has no words or no directory")
        found.append(
            (
                os.path.join(os.path.dirname(os.path.abspath(path)), entry["directory"]),
                words,
                entry.get("file"),
            )
        )
    return found


def compile_of(directory: str, words: list[str], file: str | None = None) -> Compile:
    """What the words of a compiler ask for."""
    words = list(_spread(words, directory))
    if not words:
        raise CompileError("there are no words of a compiler")
    one = Compile(_compiler(words[0], directory), directory, "")
    inputs: list[str] = []
    language = "c++" if COMPILER_OF_OTHERS.search(os.path.basename(words[0])) else ""
    for option, value in _options(words[1:]):
        if option == "input":
            inputs.append(value)
        elif option == "-x":
            language = value
        else:
            _take(one, option, value)
    is_other = language not in ("", "c")
    of_c = [word for word in inputs if not is_other and (language or word.endswith(FILES_OF_C))]
    if not of_c:
        raise CompileError(f"{file or (inputs or ['?'])[0]}: no file of C is compiled")
    one.file = absolute(directory, file if file and len(of_c) > 1 else of_c[0])
    return one


def _take(one: Compile, option: str, value: str) -> None:
    """Notes what an option asks for."""
    kind = WITH_VALUE.get(option)
    if kind == "define":
        one.macros.append(_definition(value))
    elif kind == "undefine":
        one.macros.append((value, None))
    elif kind == "directory":
        one.directories.append((option, absolute(one.directory, value)))
    elif kind == "include":
        one.includes.append(value)
    elif kind == "macros":
        one.lost.append(f"-imacros {value}: superc has no file of which only the macros count")
    elif kind == "mode":
        one.mode += [f"{option}={value}"] if option == "--sysroot" else [option, value]
    elif option.startswith("-std="):
        one.standard = option[len("-std=") :]
    elif option == "-ansi":
        one.standard = "c90"
    elif kind is None and not option.startswith(WITHOUT_EFFECT):
        one.mode.append(option)


def _spread(words: list[str], directory: str) -> Iterator[str]:
    """Words, those of each file @FILE in its place."""
    for word in words:
        path = os.path.join(directory, word[1:])
        if word.startswith("@") and os.path.isfile(path):
            yield from _spread(shlex.split(Path(path).read_text()), directory)
        elif word.startswith("-Wp,"):
            yield from _for_preprocessor(word.split(",")[1:])
        else:
            yield word


def _for_preprocessor(words: list[str]) -> Iterator[str]:
    """Words that are passed to the preprocessor; with -MD a file's name follows there."""
    waits = False
    for word in words:
        if not waits:
            yield from [] if word.startswith("-M") else [word]
        waits = not waits and word in ("-MD", "-MMD")


def _compiler(word: str, directory: str) -> str:
    return absolute(directory, word) if "/" in word else word


def _options(words: Iterable[str]) -> Iterator[tuple[str, str]]:
    """Each option with its value, which may be the next word; a file is an `input`."""
    rest = iter(words)
    for word in rest:
        if not word.startswith("-") or word == "-":
            yield "input", word
        elif word in WITH_VALUE:
            yield word, next(rest, "")
        elif word.startswith("--sysroot="):
            yield "--sysroot", word.partition("=")[2]
        else:
            longest = max((one for one in JOINED if word.startswith(one)), key=len, default=None)
            yield (longest, word[len(longest) :]) if longest else (word, "")


def _definition(word: str) -> tuple[str, str]:
    """What -D defines: the name, with parameters where it has them, and its replacement."""
    name, equals, text = word.partition("=")
    return name, text if equals else "1"


def absolute(directory: str, path: str) -> str:
    """An absolute path, without `.` and `..` where that is the same file."""
    plain = os.path.join(directory, path)
    short = os.path.normpath(plain)
    return short if os.path.realpath(short) == os.path.realpath(plain) else plain


def macro_name(head: str) -> str:
    """The name of a macro, without its parameters."""
    return head.partition("(")[0].strip()
