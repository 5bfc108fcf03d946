"""What a compiler answers: where it looks for headers, what it predefines, and what it has."""
from __future__ import annotations

import os
import re
import subprocess
from collections.abc import Iterable
from dataclasses import dataclass
from functools import cache, cached_property

from .compiles import Compile, absolute, macro_name

# Names that no directive may define; superc has them itself.
PROTECTED = {
    "__FILE__",
    "__LINE__",
    "__DATE__",
    "__TIME__",
    "__STDC__",
    "__STDC_VERSION__",
    "__STDC_HOSTED__",
    "defined",
    "__VA_ARGS__",
}
OWN = {"__STDC__": "1", "__STDC_HOSTED__": "1"}
# Operators of `#if` that ask what a compiler has, by a name.
ASKING = (
    "__has_attribute",
    "__has_c_attribute",
    "__has_cpp_attribute",
    "__has_declspec_attribute",
    "__has_builtin",
    "__has_feature",
    "__has_extension",
    "__is_identifier",
)
# The same, by what is no name: a header, or the text of an option.
ASKING_OTHERWISE = ("__has_include", "__has_include_next", "__has_warning")
DEFINITION = re.compile(r"^#define (\w+(?:\([^)]*\))?)(?: (.*))?$", re.M)
STRICT = re.compile(r"c\d|iso9899")
LATER = re.compile(r"(c|gnu)2[3xy]|iso9899:2024")
# What superc reads by each standard of a space.
EDITIONS = {
    "c11": "C11",
    "gnu11": "C11 with GNU's variadic macros",
    "c23": "C11 with #elifdef and binary constants",
}


class CompilerError(Exception):
    """A compiler that gives no answer."""


def standard_of(standard: str) -> str:
    """C11, as strict as the standard that the words name."""
    return "c11" if STRICT.match(standard) else "gnu11"


def is_later(standard: str) -> bool:
    """Whether the words name C23 or what comes after it."""
    return LATER.match(standard) is not None


def edition_of(standard: str) -> str:
    """The standard of the space for what the words name."""
    return "c23" if is_later(standard) else standard_of(standard)


@dataclass(frozen=True)
class Compiler:
    """A compiler with the words that decide its answers. Each question is asked once."""

    words: tuple[str, ...]
    directory: str

    @classmethod
    def of(cls, one: Compile) -> Compiler:
        """The compiler of a compile, which reads C11."""
        return _compiler(
            (one.compiler, *one.mode, f"-std={standard_of(one.standard)}"), one.directory
        )

    def ask(self, words: Iterable[str], text: str) -> subprocess.CompletedProcess[str]:
        """What the preprocessor answers to a text with some more words."""
        command = [*self.words, *words, "-E", "-x", "c", "-"]
        settings = {**os.environ, "LC_ALL": "C"}
        try:
            done = subprocess.run(
                command,
                cwd=self.directory,
                env=settings,
                input=text,
                capture_output=True,
                text=True,
                errors="surrogateescape",
            )
        except OSError as fault:
            raise CompilerError(f"{self.words[0]}: {fault.strerror}") from None
        if done.returncode:
            raise CompilerError(f"{' '.join(command)}: {done.stderr.strip()}")
        return done

    def directories(self, directories: Iterable[tuple[str, str]]) -> tuple[list[str], list[str]]:
        """The directories for quoted names alone, and those for all names, in order."""
        quoted, listed = _directories(self, tuple(word for pair in directories for word in pair))
        return list(quoted), list(listed)

    @cached_property
    def predefined(self) -> dict[str, tuple[str, str]]:
        """The predefined macros by name: each with its head, parameters included, and its
        replacement.
        """
        found = DEFINITION.findall(self.ask(["-dM"], "").stdout)
        return {macro_name(head): (head, text) for head, text in found}

    @cached_property
    def askable(self) -> list[str]:
        """The operators that ask what the compiler has, as far as it has them."""
        names = (*ASKING, *ASKING_OTHERWISE)
        lines = [f"#ifdef {name}\n{place} is there\n#endif" for place, name in enumerate(names)]
        said = self.ask([], "\n".join(lines) + "\n").stdout
        return [names[int(place)] for place in re.findall(r"^(\d+) is there", said, re.M)]

    def answers(self, questions: Iterable[tuple[str, str]]) -> dict[tuple[str, str], int]:
        """The value of each question, an operator with a name."""
        return _answers(self, tuple(sorted(set(questions))))


@cache
def _compiler(words: tuple[str, ...], directory: str) -> Compiler:
    return Compiler(words, directory)


@cache
def _directories(
    compiler: Compiler, words: tuple[str, ...]
) -> tuple[tuple[str, ...], tuple[str, ...]]:
    told = compiler.ask(["-v", *words], "").stderr
    begin = '#include "..." search starts here:\n', "#include <...> search starts here:\n"
    quoted, _, rest = told.partition(begin[0])[2].partition(begin[1])

    def listed(lines: str) -> tuple[str, ...]:
        names = [line.strip() for line in lines.splitlines() if line.startswith(" ")]
        return tuple(
            absolute(compiler.directory, name) for name in names if "(framework" not in name
        )

    return listed(quoted), listed(rest.partition("End of search list.")[0])


@cache
def _answers(compiler: Compiler, asked: tuple[tuple[str, str], ...]) -> dict[tuple[str, str], int]:
    lines: list[str] = []
    for place, (operator, name) in enumerate(asked):
        lines.append(f"#if {operator}({name}) == 0")
        for value in VALUES if operator in WITH_VALUES else (1,):
            lines += [f"#elif {operator}({name}) == {value}", f"{place} is {value}"]
        lines.append("#endif")
    said = compiler.ask([], "\n".join(lines) + "\n").stdout if asked else ""
    return {
        asked[int(place)]: int(value) for place, value in re.findall(r"^(\d+) is (\d+)", said, re.M)
    }


WITH_VALUES = ("__has_c_attribute", "__has_cpp_attribute", "__has_builtin")
# What they answer besides 0.
VALUES = (
    1,
    200809,
    201003,
    201309,
    201603,
    201604,
    201606,
    201803,
    201904,
    201907,
    201910,
    202003,
    202202,
    202311,
)
