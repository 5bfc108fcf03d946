"""The command superc-project."""
from __future__ import annotations

import argparse
import os
import subprocess
import sys
from collections import Counter
from collections.abc import Iterator
from pathlib import Path
from typing import Any

from superc_text import VERSION

from . import kconfig, runs
from .compiler import CompilerError
from .compiles import Compile, CompileError, absolute, compile_of, read_database
from .folder import Folder, Notes, Unit
from .kconfig import KconfigError
from .makefiles import Job, makefile, ninja
from .overlay import write_if_new
from .variables import (
    VariableError,
    Variables,
    by_file,
    by_words,
    check,
    joined,
    most,
    rules_of,
    tested,
)

TOOL = Path(__file__).resolve().parent.parent / "superc-project"
TOP = TOOL.parent.parent
DONE, FAILED, MISUSED = 0, 1, 2
DATABASE = "compile_commands.json"
NOTES_SHOWN = 20


class Misuse(Exception):
    """Words that ask for nothing that the command does."""


HELPS = {
    "unit": "the folder of one unit, by the words of its compiler after -- or by compile_commands.json",
    "all": "the folders of all units, a Makefile, its run, and a summary",
    "variables": "the names that conditional lines test and that nothing defines, with how often",
    "run": "superc on the folder of one unit",
    "summary": "what came of all units",
}


Option = tuple[tuple[str, ...], dict[str, Any]]
BUILD: tuple[Option, ...] = (
    (
        ("--database", "-p"),
        {"metavar": "FILE", "help": "compile_commands.json, or the folder that has it"},
    ),
    (
        ("--no-system",),
        {
            "action": "store_true",
            "help": "ask no compiler: no directories and no macros but those of the words",
        },
    ),
    (
        ("files",),
        {
            "nargs": "*",
            "metavar": "FILE",
            "help": "the files of which the database has the compiles; otherwise all",
        },
    ),
)
VARIABLES: tuple[Option, ...] = (
    (
        ("--variable",),
        {
            "action": "append",
            "default": [],
            "metavar": "NAME[=OPTION,..]",
            "help": "a variable; without options undef and 1, or Kconfig's",
        },
    ),
    (
        ("--variables",),
        {
            "action": "append",
            "default": [],
            "metavar": "FILE",
            "help": "a TOML file with a table of variables, and a rule `valid` if they have one",
        },
    ),
    (
        ("--from-source",),
        {
            "type": int,
            "metavar": "N",
            "default": 0,
            "help": "the N names that are tested most and that nothing defines",
        },
    ),
    (
        ("--kconfig",),
        {
            "action": "append",
            "default": [],
            "metavar": "FILE",
            "help": "a Kconfig file, which has the options of a --variable",
        },
    ),
    (
        ("--out", "-o"),
        {
            "metavar": "DIR",
            "default": "superc-out",
            "help": "where the folders are made (superc-out)",
        },
    ),
)
RUN: tuple[Option, ...] = (
    (
        ("--superc",),
        {
            "metavar": "FILE",
            "help": "the program; otherwise SUPERC, that of this repository, or of the path",
        },
    ),
    (
        ("--read",),
        {"choices": ("tokens", "parse"), "default": "tokens", "help": "superc's command (tokens)"},
    ),
)
ENGINE: tuple[Option, ...] = (
    (
        ("--ninja",),
        {"action": "store_true", "help": "write build.ninja too, and let ninja run it"},
    ),
    (
        ("--jobs", "-j"),
        {
            "type": int,
            "metavar": "N",
            "default": os.cpu_count() or 1,
            "help": "so many units at a time",
        },
    ),
    (
        ("--no-run",),
        {"action": "store_true", "help": "write the folders and the Makefile alone"},
    ),
)
FOLDER: tuple[Option, ...] = ((("folder",), {"metavar": "DIR"}),)
OPTIONS = {
    "unit": (*BUILD, *VARIABLES),
    "all": (*BUILD, *VARIABLES, *RUN, *ENGINE),
    "variables": BUILD,
    "run": (*FOLDER, *RUN),
    "summary": FOLDER,
}


def parser() -> argparse.ArgumentParser:
    """The words of the command."""
    whole = argparse.ArgumentParser(
        prog="superc-project", description="Makes runs of superc from the build of a project."
    )
    whole.add_argument("--version", action="version", version=f"%(prog)s {VERSION}")
    commands = whole.add_subparsers(dest="command", required=True, metavar="COMMAND")
    for name, words in HELPS.items():
        one = commands.add_parser(name, help=words, description=words[0].upper() + words[1:] + ".")
        for option, how in OPTIONS[name]:
            one.add_argument(*option, **how)
    return whole


def main(words: list[str] | None = None) -> int:
    """Runs the command, and answers its status."""
    words = sys.argv[1:] if words is None else words
    own, dashes, compiler = _split(words)
    asked = parser().parse_args(own)
    asked.compiler = compiler if dashes else None
    try:
        status = COMMANDS[asked.command](asked)
        sys.stdout.flush()
        return status
    except BrokenPipeError:
        os.dup2(os.open(os.devnull, os.O_WRONLY), sys.stdout.fileno())
        return FAILED
    except (Misuse, CompileError, CompilerError, KconfigError, VariableError) as fault:
        print(f"superc-project: {fault}", file=sys.stderr)
        return MISUSED


def _split(words: list[str]) -> tuple[list[str], bool, list[str]]:
    if "--" not in words:
        return words, False, []
    place = words.index("--")
    return words[:place], True, words[place + 1 :]


def _compiles(asked: argparse.Namespace) -> Iterator[Compile]:
    """The compiles that the words ask for. One that is not of C is told and left out."""
    if asked.compiler is not None:
        yield compile_of(os.getcwd(), asked.compiler)
        return
    path = asked.database or DATABASE
    path = os.path.join(path, DATABASE) if os.path.isdir(path) else path
    wanted = {os.path.realpath(file) for file in asked.files}
    seen: set[str] = set()
    others = 0
    for directory, words, file in read_database(path):
        try:
            one = compile_of(directory, words, file)
        except CompileError:
            others += 1
            continue
        if not os.path.isfile(one.file):
            _tell(f"{one.file} is not there")
        elif not wanted or os.path.realpath(one.file) in wanted:
            seen.add(os.path.realpath(one.file))
            yield one
    if others:
        _tell(f"{others} compiles are not of C, and left out")
    if missing := sorted(wanted - seen):
        raise Misuse(f"{path} has no compile of {missing[0]}")


def _units(asked: argparse.Namespace) -> dict[str, Unit]:
    """The units by name: the name of the file below the folder that all have in common, with a
    number where a file is compiled in several ways.
    """
    compiles = list(_compiles(asked))
    if not compiles:
        raise Misuse("there is no compile of a file of C")
    root = os.path.commonpath([os.path.dirname(one.file) for one in compiles])
    units: dict[str, Unit] = {}
    known: set[str] = set()
    for number, one in enumerate(compiles, 1):
        same = repr(
            (
                one.compiler,
                one.file,
                one.mode,
                one.directories,
                one.macros,
                one.includes,
                one.standard,
            )
        )
        if same in known:
            continue
        known.add(same)
        base = name = os.path.relpath(one.file, root)
        count = 1
        while name in units:
            count += 1
            name = f"{base}.{count}"
        units[name] = Unit(one, not asked.no_system)
        _progress(f"{number} of {len(compiles)}: {name}")
    _progress("")
    return units


def _variables(
    asked: argparse.Namespace, units: dict[str, Unit]
) -> tuple[Variables, str | None]:
    """The variables, and which of their configurations are valid, if not all are."""
    variables: Variables = {}
    rules: list[str | None] = []
    for path in asked.variables:
        listed, rule = by_file(path)
        variables.update(listed)
        rules.append(rule)
    options = kconfig.read(asked.kconfig)
    variables.update(by_words(asked.variable, options))
    rules += rules_of(variables, options)
    if asked.from_source:
        counts = _tested(units)
        for name in variables:
            counts.pop(name, None)
        variables.update(most(counts, asked.from_source))
    check(variables)
    return variables, joined(rules)


def _tested(units: dict[str, Unit]) -> Counter[str]:
    """The names that are tested in the project's files, each file counted once."""
    sources = {source.path: source for unit in units.values() for source in unit.own_sources()}
    every = {source.path: source for unit in units.values() for source in unit.reached.values()}
    defined = {name for unit in units.values() for name in unit.macros()[1]}
    defined |= {one.name for source in every.values() for one in source.defines if not one.is_undef}
    return tested(sources.values(), defined)


def _make_unit(asked: argparse.Namespace) -> int:
    units = _units(asked)
    variables, valid = _variables(asked, units)
    notes = Notes()
    for name, unit in units.items():
        folder = Folder(asked.out, name, unit, variables, valid)
        folder.write()
        notes.add(folder.notes())
        print(os.path.relpath(folder.path))
    _tell_notes(notes, asked.out)
    return DONE


def _make_all(asked: argparse.Namespace) -> int:
    units = _units(asked)
    variables, valid = _variables(asked, units)
    notes = Notes()
    jobs = []
    for number, (name, unit) in enumerate(units.items(), 1):
        folder = Folder(asked.out, name, unit, variables, valid)
        folder.write()
        notes.add(folder.notes())
        jobs.append(Job(name, sorted({source.path for source in unit.own_sources()})))
        _progress(f"{number} of {len(units)} folders: {name}")
    _progress("")
    superc = _superc(asked)
    write_if_new(f"{asked.out}/Makefile", makefile(jobs, str(TOOL), superc, asked.read))
    if asked.ninja:
        write_if_new(f"{asked.out}/build.ninja", ninja(jobs, str(TOOL), superc, asked.read))
    _tell_notes(notes, asked.out)
    return DONE if asked.no_run else _run_all(asked)


def _run_all(asked: argparse.Namespace) -> int:
    """Lets make or ninja run the units, and shows the summary; answers the engine's status."""
    engine = ["ninja", "-k", "0"] if asked.ninja else ["make", "-k", "--no-print-directory"]
    try:
        status = subprocess.run(
            [*engine, "-C", asked.out, f"-j{asked.jobs}"],
            stdout=None if sys.stdout.isatty() else subprocess.DEVNULL,
        ).returncode
    except OSError as fault:
        raise Misuse(f"{engine[0]}: {fault.strerror}") from None
    print("\n".join(runs.summary(asked.out)))
    return status


def _list_variables(asked: argparse.Namespace) -> int:
    counts = _tested(_units(asked))
    for name in sorted(counts, key=lambda name: (-counts[name], name)):
        print(f"{counts[name]:6} {name}")
    return DONE


def _run(asked: argparse.Namespace) -> int:
    if sys.stderr.isatty():
        _tell(asked.folder)
    status = runs.run(asked.folder, _superc(asked), asked.read)
    if status in (runs.ACCEPTED, runs.REFUSED):
        return DONE
    _tell(f"{asked.folder}: superc ended with status {status}")
    return FAILED


def _summary(asked: argparse.Namespace) -> int:
    print("\n".join(runs.summary(asked.folder)))
    return DONE


def _superc(asked: argparse.Namespace) -> str:
    """The program: that of the words, or the script at the top of this repository."""
    named: str | None = asked.superc or os.environ.get("SUPERC")
    if named:
        return absolute(os.getcwd(), named) if "/" in named else named
    return str(TOP / "superc") if (TOP / "superc").is_file() else "superc"


def _tell(text: str) -> None:
    print(f"superc-project: {text}", file=sys.stderr)


def _tell_notes(notes: Notes, out: str) -> None:
    """What is not carried, each once, with the number of units where these are several."""
    ordered = sorted(notes.counts.items(), key=lambda pair: -pair[1])
    lines = [f"{note}{f', in {count} units' if count > 1 else ''}" for note, count in ordered]
    write_if_new(f"{out}/notes", "".join(f"{line}\n" for line in lines))
    for line in lines[:NOTES_SHOWN]:
        _tell(line)
    if len(lines) > NOTES_SHOWN:
        _tell(f"and {len(lines) - NOTES_SHOWN} more, in {out}/notes")


def _progress(text: str) -> None:
    """Shows a line on a terminal, in the place of the one before."""
    if sys.stderr.isatty():
        sys.stderr.write(f"\r\x1b[K{text[:78]}")
        sys.stderr.flush()


COMMANDS = {
    "unit": _make_unit,
    "all": _make_all,
    "variables": _list_variables,
    "run": _run,
    "summary": _summary,
}
