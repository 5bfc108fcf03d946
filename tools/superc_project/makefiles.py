"""Files of make and of ninja that run superc over the units of a project."""
from __future__ import annotations

import shlex
from dataclasses import dataclass


@dataclass(frozen=True)
class Job:
    """The run of one unit: its folder below that of the project, and the files that it reads."""

    name: str
    reads: list[str]

    def folder(self) -> str:
        """Where its text is made."""
        return f"units/{self.name}"

    def inputs(self) -> list[str]:
        """What its text is made of: the files of its folder, and those that its unit reads."""
        made = [f"{self.folder()}/{name}" for name in ("main.c", "prelude.h", "space.toml")]
        return [*made, *self.reads]


def makefile(jobs: list[Job], tool: str, superc: str, command: str) -> str:
    """A file of make. A unit that fails does not stop the others where make has -k."""
    lines = [
        "# Made by superc-project.",
        f"SUPERC = {_for_make(shlex.quote(superc))}",
        f"RUN = {_for_make(shlex.quote(tool))} run --superc $(SUPERC) --read {command}",
        "",
        ".PHONY: all summary clean",
        "all: " + " ".join(f"{_for_make(job.folder())}/{command}" for job in jobs),
        "summary:",
        f"\t@{_for_make(shlex.quote(tool))} summary .",
        "clean:",
        f"\trm -f {' '.join(f'{_for_make(job.folder())}/{command}' for job in jobs)}",
        "",
    ]
    for job in jobs:
        folder = job.folder()
        read = " ".join(_for_make(one) for one in job.inputs())
        lines += [
            f"{_for_make(folder)}/{command}: {read}",
            f"\t@$(RUN) {_for_make(shlex.quote(folder))}",
            "",
        ]
    # A file that is gone is no error: its unit is read again.
    every = sorted({_for_make(one) for job in jobs for one in job.reads})
    lines += [f"{one}:" for one in every]
    return "\n".join(lines) + "\n"


def ninja(jobs: list[Job], tool: str, superc: str, command: str) -> str:
    """The same for ninja."""
    lines = [
        "# Made by superc-project.",
        "rule superc",
        f"  command = {_for_ninja_text(shlex.quote(tool))} run --superc {_for_ninja_text(shlex.quote(superc))} --read {command} $folder",
        "  description = superc $folder",
        "",
    ]
    for job in jobs:
        folder = job.folder()
        read = " ".join(_for_ninja(one) for one in job.inputs())
        lines += [
            f"build {_for_ninja(folder)}/{command}: superc {read}",
            f"  folder = {_for_ninja_text(shlex.quote(folder))}",
            "",
        ]
    return "\n".join(lines)


def _for_make(text: str) -> str:
    return (
        text.replace("$", "$$").replace("#", "\\#").replace(" ", "\\ ")
        if "'" not in text
        else text.replace("$", "$$")
    )


def _for_ninja(text: str) -> str:
    return text.replace("$", "$$").replace(" ", "$ ").replace(":", "$:")


def _for_ninja_text(text: str) -> str:
    return text.replace("$", "$$")
