"""The folders that superc-project makes, read by superc and by gcc."""
import itertools
import json
import math
import random
import re
import subprocess
from pathlib import Path

# The lines that gcc's preprocessor leaves for the compiler.
LEFT = re.compile(rb"^[ \t]*#[ \t]*(?:pragma|ident)\b.*$", re.M)


class Folder:
    """The folder of one unit."""

    def __init__(self, path):
        self.path = str(path)
        facts = json.loads((path / "unit.json").read_text())
        self.name, self.directory, self.gcc, self.overlay = facts["name"], facts["directory"], facts["gcc"], facts["overlay"]
        self.variables = facts["variables"]

    def configurations(self, limit):
        """All of them, or so many: that of first options, of last ones, and others by chance."""
        names = sorted(self.variables)
        if math.prod(len(self.variables[name]) for name in names) <= limit:
            return [dict(zip(names, options)) for options in itertools.product(*(self.variables[name] for name in names))]
        rng = random.Random(1)
        found = [{name: self.variables[name][end] for name in names} for end in (0, -1)]
        while len(found) < limit:
            one = {name: rng.choice(self.variables[name]) for name in names}
            found += [one] if one not in found else []
        return found

    def run_superc(self, superc, command="tokens"):
        done = subprocess.run([superc, command, f"{self.path}/space.toml", f"{self.path}/main.c"], capture_output=True)
        return done.returncode, done.stdout

    def run_gcc(self, configuration):
        """The status of gcc's preprocessor at a configuration, and what it makes of the unit."""
        *words, file = self.gcc
        chosen = [f"-D{name}={option}" for name, option in configuration.items() if option != "undef"]
        done = subprocess.run([*words, *chosen, "-w", "-E", "-P", file], cwd=self.directory, capture_output=True)
        return done.returncode, LEFT.sub(b"", done.stdout)


def folders(out):
    return [Folder(path.parent) for path in sorted(Path(out, "units").rglob("unit.json"))]


class Answer:
    """A text of superc at some configurations, by their places in a list."""

    def __init__(self, text, configurations, overlay):
        masks = {b"0": 0, b"1": (1 << len(configurations)) - 1}
        self.tokens, self.faults, self.names = [], [], []
        copy = re.compile(re.escape(f'{overlay}').encode() + rb"(?:/beside|/once)?")
        for line in text.split(b"\n"):
            kind = line[:2]
            if kind == b"t ":
                _, condition, _, spelling = line.split(b" ", 3)
                is_of_copy = spelling.startswith(b'"') and overlay.encode() in spelling
                self.tokens.append((masks[condition], copy.sub(b"", spelling) if is_of_copy else spelling))
            elif kind == b"c ":
                masks[line.split(b" ", 2)[1]] = self._mask(line, masks, configurations)
            elif kind == b"s ":
                self.names.append(line.split(b" ", 2)[2].decode())
            elif kind == b"f ":
                _, condition, _, name, place = line.split(b" ")
                file, row, _ = place.decode().split(":")
                self.faults.append((masks[condition], name.decode(), f"{self.names[int(file)]}:{row}"))

    @staticmethod
    def _mask(line, masks, configurations):
        _, _, name, *fields = line.decode().split(" ")
        child_of = dict(field.split(":") for field in fields)
        return sum(1 << place for place, one in enumerate(configurations) if masks[child_of[one[name]].encode()] >> place & 1)

    def at(self, place):
        """The fault at a configuration, or the spellings there."""
        for mask, name, where in self.faults:
            if mask >> place & 1:
                return (name, where), []
        return None, [spelling for mask, spelling in self.tokens if mask >> place & 1]
