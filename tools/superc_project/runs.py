"""Runs superc on the folder of a unit, and keeps what came of it beside the text."""
from __future__ import annotations

import json
import os
import resource
import subprocess
import time
from collections import Counter
from pathlib import Path
from typing import Any

ACCEPTED, REFUSED = 0, 1
RESULT = "result.json"


def run(folder: str, superc: str, command: str) -> int:
    """Writes the text of a unit and its result; answers superc's status, or 127 where it does not
    start.
    """
    text = f"{folder}/{command}"
    begun = time.monotonic()
    words = [superc, command, f"{folder}/space.toml", f"{folder}/main.c"]
    with open(f"{text}.part", "wb") as out:
        try:
            done = subprocess.run(words, stdout=out, stderr=subprocess.PIPE)
            status, said = done.returncode, done.stderr.decode(errors="replace").strip()
        except OSError as fault:
            status, said = 127, f"{superc}: {fault.strerror}"
    used = resource.getrusage(resource.RUSAGE_CHILDREN)
    result = {
        "command": command,
        "status": status,
        "said": said,
        "seconds": round(used.ru_utime + used.ru_stime, 3),
        "clock": round(time.monotonic() - begun, 3),
        "memory": used.ru_maxrss * 1024,
        "faults": [],
    }
    if status in (ACCEPTED, REFUSED):
        result["faults"] = faults_of(f"{text}.part")
        os.replace(f"{text}.part", text)
    else:
        os.remove(f"{text}.part")
        Path(text).unlink(missing_ok=True)
    Path(folder, RESULT).write_text(json.dumps(result, indent=1) + "\n")
    return status


def faults_of(path: str) -> list[dict[str, object]]:
    """The faults of a text, each with its cause, its place, and whether it is everywhere."""
    files: list[str] = []
    faults: list[dict[str, object]] = []
    with open(path, encoding="utf-8", errors="surrogateescape") as text:
        for line in text:
            if line.startswith("s "):
                files.append(line.rstrip("\n").split(" ", 2)[2])
            elif line.startswith("f "):
                _, condition, _, name, place = line.split()
                file, row, column = place.split(":")
                faults.append(
                    {
                        "cause": name,
                        "file": files[int(file)],
                        "line": int(row),
                        "column": int(column),
                        "always": condition == "1",
                    }
                )
    return faults


def summary(out: str) -> list[str]:
    """What came of all units, as lines."""
    folders = sorted(path.parent for path in Path(out, "units").rglob("unit.json"))
    facts = [json.loads((folder / "unit.json").read_text()) for folder in folders]
    results = [
        json.loads(path.read_text()) if (path := folder / RESULT).exists() else None
        for folder in folders
    ]
    done = [one for one in results if one and one["status"] in (ACCEPTED, REFUSED)]
    lines = [
        f"units: {len(folders)}, of which {len(done)} were read, {sum(one['status'] == ACCEPTED for one in done)} without a fault"
    ]
    lines.append(
        f"configurations: {sum(fact['configurations'] for fact, one in zip(facts, results) if one in done)}"
    )
    stopped = [(fact["name"], one) for fact, one in zip(facts, results) if one and one not in done]
    lines += [f"not read: {name}: status {one['status']}: {one['said']}" for name, one in stopped]
    lines += _faults(done, out)
    if done:
        seconds, memory = sum(one["seconds"] for one in done), max(one["memory"] for one in done)
        lines.append(
            f"time: {seconds:.1f} s of the processor; memory: {memory / 1e6:.0f} MB at most"
        )
    return lines


def _faults(results: list[dict[str, Any]], out: str) -> list[str]:
    """The faults by cause, and the ten that most units share."""
    units: Counter[str] = Counter()
    shared: Counter[str] = Counter()
    always: Counter[str] = Counter()
    for one in results:
        units.update({fault["cause"] for fault in one["faults"]})
        places = {
            f"{_plain(fault['file'], out)}:{fault['line']}:{fault['column']}: {fault['cause']}"
            for fault in one["faults"]
        }
        shared.update(places)
        always.update({fault["cause"] for fault in one["faults"] if fault["always"]})
    lines = []
    if units:
        told = [
            f"{cause} in {count}{f' ({always[cause]} everywhere)' if always[cause] else ''}"
            for cause, count in units.most_common()
        ]
        lines.append(f"faults, by the units that have them: {', '.join(told)}")
        lines.append("the faults that most units share:")
        lines += [
            f"  {count:5} {place}"
            for place, count in sorted(shared.items(), key=lambda pair: (-pair[1], pair[0]))[:10]
        ]
    return lines


def _plain(path: str, out: str) -> str:
    """The name of the file of which a file of the overlay is a copy."""
    root = f"{os.path.abspath(out)}/overlay/"
    if not path.startswith(root):
        return path
    return "/" + path.removeprefix(root).partition("/")[2].removeprefix("beside/").removeprefix(
        "once/"
    )
