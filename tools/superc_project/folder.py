"""The folder of a unit: a space file, a prelude, and a file that includes the unit."""
from __future__ import annotations

import hashlib
import json
import math
import os
from collections.abc import Iterable
from dataclasses import dataclass, field

from .compiler import (
    ASKING,
    ASKING_OTHERWISE,
    EDITIONS,
    OWN,
    PROTECTED,
    Compiler,
    edition_of,
)
from .compiles import Compile, macro_name
from .forms import Forms
from .overlay import Edits, Overlay, write_if_new
from .reach import BESIDE, Found, Reach, Search
from .settings import settings_of
from .sources import Source, asked_of, source_of
from .variables import Variables

DEEPEST = 200
ANSWER = "__superc_"


@dataclass
class Notes:
    """What can't be carried, each once, with how many units it concerns."""

    counts: dict[str, int] = field(default_factory=dict)

    def add(self, notes: Iterable[str]) -> None:
        """Takes the notes of one unit."""
        for note in dict.fromkeys(notes):
            self.counts[note] = self.counts.get(note, 0) + 1


class Unit:
    """A translation unit: its compile, and the files that it may read."""

    def __init__(self, one: Compile, has_system: bool = True) -> None:
        self.compile = one
        self.compiler = Compiler.of(one) if has_system else None
        quoted, directories = self._directories()
        self.reach = _reach(tuple(quoted), tuple(directories))
        self.lost = list(one.lost)
        self.first = [found for name in one.includes if (found := self._included(name))]
        self.main = Found(one.file, BESIDE)
        self.reached = self.reach.below([*self.first, self.main])
        self.system = self._system()

    def _directories(self) -> tuple[list[str], list[str]]:
        if self.compiler:
            return self.compiler.directories(self.compile.directories)
        by_option: dict[str, list[str]] = {}
        for option, directory in self.compile.directories:
            by_option.setdefault(option, []).append(directory)
        listed = [
            one for option in ("-I", "-isystem", "-idirafter") for one in by_option.get(option, [])
        ]
        return by_option.get("-iquote", []), listed

    def _included(self, name: str) -> Found | None:
        found = self.reach.search.find(name, True, self.compile.directory)
        if not found:
            self.lost.append(f"-include {name}: it is not there")
        return found

    def _system(self) -> set[str]:
        """The compiler's own directories."""
        if not self.compiler:
            return set()
        quoted, directories = self.compiler.directories([])
        return {*quoted, *directories}

    def is_own(self, here: Found) -> bool:
        """Whether a file is not one of the compiler's own directories."""
        return not any(here.path.startswith(f"{directory}/") for directory in self.system)

    def own_sources(self) -> list[Source]:
        """The files of the project."""
        return [source for here, source in self.reached.items() if self.is_own(here)]

    def macros(self) -> tuple[dict[str, tuple[str, str]], dict[str, tuple[str, str]]]:
        """The macros at the start, by name: those of the compiler, and those with -D and -U too."""
        base = dict(self.compiler.predefined) if self.compiler else {}
        whole = dict(base)
        for head, text in self.compile.macros:
            name = macro_name(head)
            if text is None:
                whole.pop(name, None)
            else:
                whole[name] = (head, text)
        return base, whole


_REACHES: dict[tuple[tuple[str, ...], tuple[str, ...]], Reach] = {}


def _reach(quoted: tuple[str, ...], directories: tuple[str, ...]) -> Reach:
    return _REACHES.setdefault(
        (quoted, directories), Reach(Search(list(quoted), list(directories)))
    )


class Folder:
    """Writes the folder of a unit, below that of the whole project."""

    def __init__(
        self, out: str, name: str, unit: Unit, variables: Variables, valid: str | None = None
    ) -> None:
        self.top = os.path.abspath(out)
        self.path = f"{self.top}/units/{name}"
        self.name = name
        self.unit = unit
        self.variables = variables
        self.valid = valid
        self.edition = edition_of(unit.compile.standard)
        # Copies depend on the order of the search, on the variables and on the standard.
        search = json.dumps(
            [
                unit.reach.search.quoted,
                unit.reach.search.directories,
                sorted(variables),
                self.edition,
            ]
        )
        self.key = hashlib.sha256(search.encode()).hexdigest()[:8]
        is_unsigned = bool(unit.compiler and "__CHAR_UNSIGNED__" in unit.compiler.predefined)
        self.forms = Forms(unit.reach.search, is_unsigned, self.edition == "gnu11")
        self._asked = sorted(asked_of(unit.reached.values()))
        self.settings = Overlay.of(
            f"{self.top}/settings/{self.key}", unit.reach, unit.reached, self._settings_of
        )
        self.overlay = Overlay.of(
            f"{self.top}/overlay/{self.key}",
            unit.reach,
            unit.reached,
            self._edits_of,
            self._is_once,
        )

    def _is_once(self, here: Found) -> bool:
        return source_of(here.path).is_once and here != self.unit.main

    def _settings_of(self, here: Found) -> Edits:
        if here == self.unit.main or not self.unit.is_own(here):
            return {}
        return settings_of(source_of(here.path), self.variables)

    def _edits_of(self, here: Found) -> Edits:
        return self.forms.edits_of(here) | self._settings_of(here)

    def write(self) -> None:
        """Writes the folder, and the copies of headers that it needs."""
        self.settings.write()
        self.overlay.write()
        write_if_new(f"{self.path}/prelude.h", self._prelude())
        included = [*self.unit.first, self.unit.main]
        lines = [f"{self.path}/prelude.h", *map(self.overlay.path_of, included)]
        write_if_new(f"{self.path}/main.c", "".join(f'#include "{line}"\n' for line in lines))
        write_if_new(f"{self.path}/space.toml", self._space())
        write_if_new(f"{self.path}/unit.json", json.dumps(self._facts(), indent=1) + "\n")

    def _space(self) -> str:
        listed = self.overlay.directories(self.unit.reach.search.all)
        lines = [
            "include = [",
            *[f"  {json.dumps(one)}," for one in listed],
            "]",
            f"include_depth = {DEEPEST}",
            f'standard = "{self.edition}"',
        ]
        if self.valid is not None:
            lines.append(f"valid = {json.dumps(self.valid, ensure_ascii=False)}")
        lines += ["", "[variables]"]
        for name, options in sorted(self.variables.items()):
            written = ", ".join('"undef"' if one == "undef" else one for one in options)
            lines.append(f"{name} = [{written}]")
        return "\n".join(lines) + "\n"

    def _prelude(self) -> str:
        """The macros at the start. Those of the compiler alone stand in a file that units share."""
        base, whole = self.unit.macros()
        left_out = {*PROTECTED, *self.variables}
        base = {name: one for name, one in base.items() if name not in left_out}
        whole = {name: one for name, one in whole.items() if name not in left_out}
        shared = (
            "".join(f"#define {head} {text}\n" for head, text in base.values()) + self._answers()
        )
        path = f"{self.top}/compilers/{hashlib.sha256(shared.encode()).hexdigest()[:8]}.h"
        write_if_new(path, shared)
        lines = [f'#include "{path}"']
        lines += [f"#undef {name}" for name in base if whole.get(name) != base[name]]
        lines += [
            f"#define {head} {text}"
            for name, (head, text) in whole.items()
            if base.get(name) != (head, text)
        ]
        lines.append(f"#define __BASE_FILE__ {json.dumps(self.unit.main.path)}")
        return "\n".join(lines) + "\n"

    def _answers(self) -> str:
        """Macros that answer as the compiler does where a header asks what it has."""
        if not self.unit.compiler:
            return ""
        operators = [one for one in self.unit.compiler.askable if one in ASKING]
        names = [name for name in self._asked if "::" not in name]
        answers = self.unit.compiler.answers(
            (operator, name) for operator in operators for name in names
        )
        lines = [f"#define {operator}(x) {ANSWER}{operator[2:]}_ ## x" for operator in operators]
        lines += [
            f"#define {one}(x) #x" for one in self.unit.compiler.askable if one in ASKING_OTHERWISE
        ]
        lines += [
            f"#define {ANSWER}{operator[2:]}_{name} {value}"
            for (operator, name), value in sorted(answers.items())
            if value
        ]
        return "\n".join(lines) + "\n"

    def _facts(self) -> dict[str, object]:
        """What the tools that read the folder want to know."""
        return {
            "name": self.name,
            "file": self.unit.main.path,
            "directory": self.unit.compile.directory,
            "variables": self.variables,
            "configurations": math.prod(len(options) for options in self.variables.values()),
            "overlay": self.overlay.root,
            "gcc": self._words_of_compiler(),
            "reads": sorted({source.path for source in self.unit.own_sources()}),
        }

    def _words_of_compiler(self) -> list[str]:
        """The words with which the compiler's preprocessor reads what superc reads, but for the
        options of the variables.
        """
        compiler, search = self.unit.compiler, self.unit.reach.search
        words = [
            *(compiler.words if compiler else [self.unit.compile.compiler, "-std=gnu11"]),
            "-nostdinc",
        ]
        listed = self.settings.directories(search.all)
        words += [f"-I{one}" if one not in search.quoted else f"-iquote{one}" for one in listed]
        for head, text in self.unit.compile.macros:
            if macro_name(head) not in self.variables:
                words.append(f"-U{head}" if text is None else f"-D{head}={text}")
        words += [f"-U{name}" for name in self.variables]
        for one in self.unit.first:
            words += ["-include", self.settings.path_of(one)]
        return [*words, self.settings.path_of(self.unit.main)]

    def notes(self) -> list[str]:
        """What this unit asks for that is not carried, and what was left to the variables."""
        notes = list(self.unit.lost)
        compiler = self.unit.compiler
        if compiler:
            for name, value in OWN.items():
                if compiler.predefined.get(name, ("", value))[1] != value:
                    notes.append(f"{name} is {value}, as superc has it")
        standard = self.unit.compile.standard
        if standard not in ("c11", "gnu11", "iso9899:2011"):
            named = standard or "of the compiler"
            notes.append(f"the standard {named} is read as {EDITIONS[self.edition]}")
        notes += [
            f"-D{head}: no directive may define it"
            for head, _ in self.unit.compile.macros
            if macro_name(head) in PROTECTED
        ]
        notes += [
            f"{macro_name(head)} of the command line is left to the variable"
            for head, _ in self.unit.compile.macros
            if macro_name(head) in self.variables
        ]
        is_strict = bool(compiler and "__STRICT_ANSI__" in compiler.predefined)
        for here, source in self.unit.reached.items():
            notes += self.forms.lost.get(here, [])
            notes += source.lost
            if source.trigraph and not is_strict:
                notes.append(f"a trigraph sequence is replaced ({here.path}:{source.trigraph})")
            if self._settings_of(here):
                notes.append(f"what {here.path} sets of the variables is left to them")
        notes += [
            f"__has_c_attribute({name}): superc refuses it" for name in self._asked if "::" in name
        ]
        for here in self.unit.reached:
            if 0 <= here.at < len(self.unit.reach.search.quoted):
                notes.append(
                    f"-iquote {self.unit.reach.search.all[here.at]}: names in <> are looked for there too"
                )
        return notes
