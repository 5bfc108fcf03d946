"""Real C: Debian's lua5.4 and zlib, under some variables of their own, with small stand-ins for the
system's headers and for the one that Debian's build makes. What the scripts beside it share.
"""
import contextlib
import itertools
import os
import subprocess
import sys
import tempfile

VARIABLES = {
    "lua": ["LUA_USE_C89", "LUA_COMPAT_5_3", "LUA_USE_POSIX", "LUA_32BITS", "LUAI_ASSERT", "LUA_USE_APICHECK",
            "LUA_COMPAT_LT_LE", "LUA_USE_CTYPE", "LUA_NOCVTS2N", "LUA_USE_JUMPTABLE", "LUA_DEBUG", "LUA_BUILD_AS_DLL"],
    "zlib": ["ZLIB_DEBUG", "FASTEST", "Z_SOLO", "BUILDFIXED", "DYNAMIC_CRC_TABLE", "NO_GZIP", "INFLATE_STRICT",
             "UNALIGNED_OK", "PKZIP_BUG_WORKAROUND", "NO_GZCOMPRESS", "GEN_TREES_H", "HAVE_MEMCPY"],
}
SIZES = "#include <stddef.h>\n"
HEADERS = {
    "limits.h": "#define CHAR_BIT 8\n#define UCHAR_MAX 255\n#define SHRT_MAX 32767\n#define INT_MAX 2147483647\n"
                "#define INT_MIN (-INT_MAX - 1)\n#define UINT_MAX 4294967295u\n#define LONG_MAX 9223372036854775807\n"
                "#define LONG_MIN (-LONG_MAX - 1)\n#define ULONG_MAX 18446744073709551615u\n"
                "#define LLONG_MAX 9223372036854775807\n#define LLONG_MIN (-LLONG_MAX - 1)\n",
    "float.h": "#define FLT_MANT_DIG 24\n#define DBL_MANT_DIG 53\n#define FLT_MAX_10_EXP 38\n#define DBL_MAX_10_EXP 308\n",
    "stddef.h": "#define NULL ((void *)0)\n#define offsetof(type, member) ((size_t)&((type *)0)->member)\n"
                "typedef unsigned long size_t;\ntypedef long ptrdiff_t;\ntypedef int wchar_t;\n",
    "stdarg.h": "typedef void *va_list;\n#define va_start(list, last) ((void)((list) = (va_list)&(last)))\n"
                "#define va_arg(list, type) (*(type *)(list))\n#define va_end(list) ((void)(list))\n",
    "stdint.h": "typedef long intptr_t;\ntypedef unsigned long uintptr_t;\ntypedef long intmax_t;\n",
    "inttypes.h": "#include <stdint.h>\n",
    "lua5.4-deb-multiarch.h": '#define DEB_HOST_MULTIARCH "x86_64-linux-gnu"\n',
    "setjmp.h": "typedef long jmp_buf[32];\n",
    "signal.h": "typedef int sig_atomic_t;\n",
    "stdio.h": SIZES + "typedef struct stream FILE;\n",
    "stdlib.h": SIZES,
    "string.h": SIZES,
    "sys/types.h": SIZES + "typedef long off_t;\ntypedef long ssize_t;\ntypedef int pid_t;\n",
    "time.h": SIZES + "typedef long time_t;\ntypedef long clock_t;\nstruct tm {\n    int tm_sec, tm_min, tm_hour, tm_mday, tm_mon, "
              "tm_year, tm_wday, tm_yday, tm_isdst;\n};\n",
    "unistd.h": "#include <sys/types.h>\n",
}
EMPTY = """assert ctype dlfcn errno fcntl io locale math strings windows sys/stat sys/wait readline/readline
readline/history""".split()


def write_headers(folder):
    headers = {**{f"{name}.h": "" for name in EMPTY}, **HEADERS}
    for name, text in headers.items():
        os.makedirs(os.path.dirname(f"{folder}/{name}"), exist_ok=True)
        with open(f"{folder}/{name}", "w") as file:
            file.write(text)


def folder_of_lua(lua):
    lua = os.path.realpath(lua)
    return f"{lua}/src" if os.path.isdir(f"{lua}/src") else lua


def folders(lua, zlib):
    """Where each project's files are, in the unpacked sources."""
    return {"lua": folder_of_lua(lua), "zlib": os.path.realpath(zlib)}


def sources(folder):
    return sorted(f"{folder}/{name}" for name in os.listdir(folder) if name.endswith(".c"))


@contextlib.contextmanager
def space_of(names, include):
    """The path of a space file in which each name is undefined or 1."""
    lines = [f"include = [{', '.join(map(repr, include))}]", "[variables]", *[f'{name} = ["undef", 1]' for name in names]]
    with tempfile.NamedTemporaryFile("w", suffix=".toml") as space:
        space.write("\n".join(lines).replace("'", '"') + "\n")
        space.flush()
        yield space.name


def configs_of(names):
    for options in itertools.product(("undef", "1"), repeat=len(names)):
        yield dict(zip(names, options))


def run_superc(superc, command, space, file):
    done = subprocess.run([superc, command, space, file], capture_output=True)
    if done.returncode > 1:
        sys.exit(f"{file}: status {done.returncode}: {done.stderr.decode()}")
    return done.stdout.decode("latin-1")


def read_answer(text):
    """The nodes of conditions, the tokens and the faults, each with its condition."""
    nodes, tokens, faults = {}, [], []
    for line in text.split("\n"):
        words = line.split(" ")
        if words[0] == "c":
            nodes[words[1]] = (words[2], dict(word.split(":") for word in words[3:]))
        elif words[0] == "t":
            tokens.append((words[1], line.split(" ", 3)[3]))
        elif words[0] == "f":
            faults.append((words[1], line.split(" ", 2)[2]))
    return nodes, tokens, faults


def holds(nodes, condition, config):
    while condition not in "01":
        name, options = nodes[condition]
        condition = options[config[name]]
    return condition == "1"


def gcc_words(include, config):
    words = ["gcc", "-std=c11", "-undef", "-nostdinc", "-w", *[f"-I{folder}" for folder in include]]
    return words + [f"-D{name}=1" for name, option in config.items() if option == "1"]


def run_gcc(include, config, file):
    """The status of gcc's preprocessor, and what it makes of a file."""
    done = subprocess.run([*gcc_words(include, config), "-E", "-P", file], capture_output=True)
    return done.returncode, done.stdout.decode("latin-1")


def compared(superc, command, projects, stand_ins):
    """Each file at each configuration of its project's first three variables: the file, the
    configuration, what superc tells of it (nodes, tokens, faults there), and what gcc's
    preprocessor answers.
    """
    for project, folder in projects.items():
        names, include = VARIABLES[project][:3], [folder, stand_ins]
        with space_of(names, include) as space:
            for file in sources(folder):
                nodes, tokens, faults = read_answer(run_superc(superc, command, space, file))
                for config in configs_of(names):
                    there = [[told for condition, told in lines if holds(nodes, condition, config)] for lines in (tokens, faults)]
                    yield file, config, *there, *run_gcc(include, config, file)
