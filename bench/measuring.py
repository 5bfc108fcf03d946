"""Measures runs of the program: what the scripts beside it share."""
import os
import random
import sys
import time

TOP = os.path.dirname(os.path.dirname(os.path.abspath(__file__)))


def program():
    """The program that the words name, or the one that was built here."""
    path = sys.argv[1] if sys.argv[1:] else os.path.join(TOP, "crates", "superc", "out", "superc")
    if not os.path.exists(path):
        sys.exit("build the program first, by ./superc conflicts")
    return path


def measure(words, statuses=(0, 1)):
    """Seconds of the clock and of the processor, and peak memory in bytes, of one run whose output
    goes through a pipe, and how many lines of it tell a condition's node. The system counts into
    the memory what this script takes when it starts the run, some 15 to 30 MB."""
    begin = time.time()
    reading, writing = os.pipe()
    pid = os.fork()
    if pid == 0:
        os.dup2(writing, 1)
        os.close(reading)
        os.execvp(words[0], words)
    os.close(writing)
    nodes, last = 0, b"\n"
    while piece := os.read(reading, 1 << 20):
        nodes += (last + piece).count(b"\nc ")
        last = piece[-2:]
    os.close(reading)
    _, status, used = os.wait4(pid, 0)
    if os.waitstatus_to_exitcode(status) not in statuses:
        sys.exit(f"{words} ended with {os.waitstatus_to_exitcode(status)}")
    return time.time() - begin, used.ru_utime + used.ru_stime, used.ru_maxrss * 1024, nodes


def space(variables, options=2):
    values = ", ".join(['"undef"', *map(str, range(1, options))])
    lines = ["[variables]"] + [f"V{i:04} = [{values}]" for i in range(variables)]
    return "\n".join(lines) + "\n"


def lines_of_c(rng, size):
    words = ["int", "x", "y1", "count", "=", "+", "(", ")", ";", "42", "0x1f", '"text"', "'c'", "->", "<<=", "return", "/* note */"]
    total = 0
    while total < size:
        line = " ".join(rng.choice(words) for _ in range(4))
        total += len(line) + 1
        yield line


def conditionals(size, sections, variables, nested=1):
    """A file of this size with so many sections, each under tests of so many variables."""
    rng = random.Random(1)
    body = list(lines_of_c(rng, size))
    step = max(1, len(body) // sections)
    lines = []
    for i in range(0, len(body), step):
        chosen = [rng.randrange(variables) for _ in range(nested)]
        lines += [f"#{rng.choice(['ifdef', 'ifndef'])} V{v:04}" for v in chosen]
        lines += body[i:i + step // 2] + ["#else"] + body[i + step // 2:i + step]
        lines += ["#endif"] * nested
    return "\n".join(lines) + "\n"


def run(program, folder, name, variables, text, options=2, repeats=3, command="tokens"):
    """Measures the program on a text, and prints a line."""
    path = os.path.join(folder, "m.c")
    with open(path, "w") as file:
        file.write(text)
    with open(os.path.join(folder, "space"), "w") as file:
        file.write(space(variables, options))
    words = [program, command, os.path.join(folder, "space"), path]
    clock, processor, memory, nodes = min(measure(words) for _ in range(repeats))
    size = len(text)
    print(f"{name:44} {size / 1e6:7.2f} MB {clock:7.2f} s {processor:7.2f} s cpu {size / 1e6 / clock:7.1f} MB/s {memory / 1e6:8.1f} MB, {memory / size:6.1f} x, {nodes} nodes", flush=True)
    return clock
