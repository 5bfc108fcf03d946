"""The tool superc-project: from the words of a compiler to folders, and what is carried."""
from __future__ import annotations

import json
import os
import re
import shutil
import subprocess
import sys
import tempfile
import tomllib
import unittest
from pathlib import Path

from superc_project import kconfig, runs
from superc_project.compiler import edition_of, is_later, standard_of
from superc_project.compiles import CompileError, compile_of, read_database
from superc_project.forms import Forms
from superc_project.makefiles import Job, makefile, ninja
from superc_project.overlay import Overlay
from superc_project.reach import BESIDE, Found, Reach, Search
from superc_project.settings import settings_of
from superc_project.sources import asked_of, read
from superc_project.variables import VariableError, by_words, check, most, rules_of, tested
from superc_project.variadics import rewritten

TOOLS = Path(__file__).resolve().parent.parent
TOP = TOOLS.parent


class Words(unittest.TestCase):
    def test_the_words_of_a_compiler(self) -> None:
        words = "gcc -c -O2 -Iinclude -I .. -isystem/sys -DA -DB=2 -D f(x)=x -UA -include a.h -std=gnu99 -o m.o m.c"
        one = compile_of("/work/p", words.replace("f(x)=x", "f(x)=x").split())
        self.assertEqual(one.file, "/work/p/m.c")
        self.assertEqual(one.mode, ["-O2"])
        self.assertEqual(
            one.directories, [("-I", "/work/p/include"), ("-I", "/work"), ("-isystem", "/sys")]
        )
        self.assertEqual(one.macros, [("A", "1"), ("B", "2"), ("f(x)", "x"), ("A", None)])
        self.assertEqual((one.includes, one.standard), (["a.h"], "gnu99"))

    def test_words_for_the_preprocessor(self) -> None:
        one = compile_of("/p", ["gcc", "-Wp,-MD,.m.d", "-Wp,-DA=1", "-Wp,-MD,x,-DB", "m.c"])
        self.assertEqual(one.macros, [("A", "1"), ("B", "1")])

    def test_a_file_of_words(self) -> None:
        with tempfile.TemporaryDirectory() as folder:
            Path(folder, "words").write_text("-DA='1 2' m.c")
            one = compile_of(folder, ["cc", "@words"])
            self.assertEqual((one.macros, one.file), ([("A", "1 2")], f"{folder}/m.c"))

    def test_what_is_not_of_c(self) -> None:
        for words in ("g++ -c m.c", "gcc -c m.cc", "gcc -x c++ m.c", "gcc -o m m.o"):
            with self.assertRaises(CompileError):
                compile_of("/p", words.split())

    def test_a_database(self) -> None:
        entries = [
            {"directory": "/p", "file": "m.c", "command": "cc -DA='\"x y\"' m.c"},
            {"directory": "/p", "file": "n.c", "arguments": ["cc", "n.c"]},
        ]
        with tempfile.TemporaryDirectory() as folder:
            path = Path(folder, "compile_commands.json")
            path.write_text(json.dumps(entries))
            found = [words for _, words, _ in read_database(str(path))]
            self.assertEqual(found, [["cc", '-DA="x y"', "m.c"], ["cc", "n.c"]])
            path.write_text("{")
            with self.assertRaises(CompileError):
                read_database(str(path))

    def test_the_standard(self) -> None:
        rows = {
            "c99": "c11",
            "gnu99": "gnu11",
            "": "gnu11",
            "iso9899:1999": "c11",
            "gnu17": "gnu11",
        }
        self.assertEqual({name: standard_of(name) for name in rows}, rows)
        later = ["c23", "gnu23", "c2x", "gnu2x", "c2y", "iso9899:2024"]
        self.assertEqual([name for name in [*rows, *later] if is_later(name)], later)
        editions = {"gnu17": "gnu11", "": "gnu11", "c99": "c11", "gnu2x": "c23", "c23": "c23"}
        self.assertEqual({name: edition_of(name) for name in editions}, editions)


class Variadics(unittest.TestCase):
    def test_forms(self) -> None:
        rows = [
            ("define f(x, ...) g(x, __VA_ARGS__)", None),
            ("define f(x...) g(x)", ("define f(...) g(__VA_ARGS__)", True)),
            ("define f(a, x...) #x a", ("define f(a, ...) #__VA_ARGS__ a", True)),
            ("define f(a, x...) a, ## x", ("define f(...) __VA_ARGS__", True)),
            (
                "define f(s, a, ...) g(s, a, ##__VA_ARGS__)",
                ("define f(s, ...) g(s, __VA_ARGS__)", True),
            ),
            (
                "define f(a, ...) h(a); g(a, ##__VA_ARGS__)",
                ("define f(a, ...) h(a); g(a, ## ,)", False),
            ),
            ('define f(a, x...) g("", ## x)', ('define f(a, ...) g("", ## ,)', False)),
            ("define f(x...) __VA_ARGS__", None),
            ("define f(x) x", None),
            ("define F (x...)", None),
        ]
        for line, want in rows:
            self.assertEqual(rewritten(line), want, line)


class Sources(unittest.TestCase):
    def test_directives(self) -> None:
        text = (
            "#ifndef M_H\n#define M_H\n/* #include <no.h> */\n#include <a.h> // x\n"
            '# include_next "b.h"\n#if defined(A) && B > 0L \\\n  || C\n#define D(x, ...) x\n#endif\n'
            "#elif 'a' == E\n#define H <h.h>\n#pragma once\n#endif\n"
        )
        source = read("m.h", text)
        self.assertEqual(
            [(one.name, one.is_quoted, one.is_next) for one in source.includes],
            [("a.h", False, False), ("b.h", True, True)],
        )
        self.assertEqual(source.tested, {"M_H": 1, "A": 1, "B": 1, "C": 1, "E": 1})
        self.assertEqual([one.name for one in source.defines], ["M_H", "D", "H"])
        self.assertEqual(source.named_headers, [("H", "h.h", False)])
        self.assertEqual(source.lost, [])

    def test_what_is_said(self) -> None:
        rows = {
            "int x = __COUNTER__;\n": "superc has no __COUNTER__ (m.c:1)",
            '#ident "x"\n': "#ident: superc refuses it (m.c:1)",
            "/* __COUNTER__ */\n": None,
        }
        for text, want in rows.items():
            self.assertEqual(read("m.c", text).lost, [want] if want else [])
        self.assertEqual(read("m.c", '/* ??! */\n"??!"\n').trigraph, 2)

    def test_names_that_are_asked_for(self) -> None:
        sources = [
            read("a.h", "#define has(x) __has_attribute (x)\n#define HAS(x) has(x)\n"),
            read("b.h", "#if HAS(noreturn) || __has_builtin(__builtin_x) || other(y)\n#endif\n"),
        ]
        self.assertEqual(asked_of(sources), {"noreturn", "__builtin_x", "x"})

    def test_names_that_nothing_defines(self) -> None:
        sources = [
            read("a.c", "#ifdef A\n#endif\n#if A || B || _C || __D || E\n#endif\n#define E\n")
        ]
        counts = tested(sources, ["B"])
        self.assertEqual(counts, {"A": 2})
        self.assertEqual(most(counts, 3), {"A": ["undef", "1"]})


class Files(unittest.TestCase):
    """Headers in directories, and their copies."""

    def setUp(self) -> None:
        self.folder = tempfile.mkdtemp()
        self.addCleanup(shutil.rmtree, self.folder)

    def put(self, **texts: str) -> None:
        for name, text in texts.items():
            path = Path(
                self.folder, name.replace("__", "/").replace("_h", ".h").replace("_c", ".c")
            )
            path.parent.mkdir(parents=True, exist_ok=True)
            path.write_text(text)

    def overlay(
        self, first: str, *directories: str, has_rests: bool = False
    ) -> tuple[Overlay, Forms]:
        reach = Reach(Search([], [f"{self.folder}/{one}" for one in directories]))
        forms = Forms(reach.search, False, has_rests)
        reached = reach.below([Found(f"{self.folder}/{first}", BESIDE)])
        return Overlay.of(f"{self.folder}/out", reach, reached, forms.edits_of), forms

    def copies(self, overlay: Overlay) -> dict[str, str]:
        """The texts of the copies by their names, as if the folder was the root."""
        return {
            overlay.path_of(here)
            .replace(self.folder, ""): overlay.text_of(here)
            .replace(self.folder, "")
            for here in overlay.copies
        }

    def test_the_next_header_is_named(self) -> None:
        self.put(m_c="#include <x.h>\n", a__x_h="#include_next <x.h>\n", b__x_h="int b;\n")
        overlay, _ = self.overlay("m.c", "a", "b")
        self.assertEqual(self.copies(overlay), {"/out/a/x.h": '#include "/b/x.h"\n'})
        listed = [f"{self.folder}/{one}" for one in ("a", "b")]
        self.assertEqual(overlay.directories(listed), [f"{self.folder}/out{listed[0]}", *listed])

    def test_the_next_header_of_one_that_was_found_beside(self) -> None:
        self.put(m_c="#include <x.h>\n", a__x_h='#include "y.h"\n', a__y_h="#include_next <x.h>\n")
        overlay, _ = self.overlay("m.c", "a")
        want = {
            "/out/a/x.h": '#include "/out/beside/a/y.h"\n',
            "/out/beside/a/y.h": '#include "/out/a/x.h"\n',
        }
        self.assertEqual(self.copies(overlay), want)

    def test_headers_beside_a_copy_are_named(self) -> None:
        self.put(
            m_c="#include <x.h>\n", a__x_h='#define f(x...) x\n#include "y.h"\n', a__y_h="int y;\n"
        )
        overlay, _ = self.overlay("m.c", "a")
        text = '#define f(...) __VA_ARGS__\n#include "/a/y.h"\n'
        self.assertEqual(self.copies(overlay), {"/out/a/x.h": text})

    def test_a_header_that_a_macro_names(self) -> None:
        self.put(m_c='#define H "x.h"\n#define N "n.h"\n#include H\n', x_h="", n_h="")
        reached = Reach(Search([], [])).below([Found(f"{self.folder}/m.c", BESIDE)])
        self.assertEqual(
            [here.path for here in reached], [f"{self.folder}/{one}" for one in ("m.c", "x.h")]
        )

    def test_whether_a_header_is_there(self) -> None:
        self.put(m_c='#if __has_include(<x.h>) && !__has_include("n.h")\n#endif\n', a__x_h="")
        overlay, _ = self.overlay("m.c", "a")
        self.assertEqual(list(self.copies(overlay).values()), ["#if 1 && !0\n#endif\n"])

    def test_a_header_that_is_read_once(self) -> None:
        self.put(m_c='#include "x.h"\n#include <y.h>\n', x_h="#pragma once\nint x;\n")
        self.put(a__y_h="#pragma once\n#define f(x...) x\n")
        reach = Reach(Search([], [f"{self.folder}/a"]))
        forms = Forms(reach.search, False, False)
        reached = reach.below([Found(f"{self.folder}/m.c", BESIDE)])
        overlay = Overlay.of(
            f"{self.folder}/out",
            reach,
            reached,
            forms.edits_of,
            lambda here: reached[here].is_once,
        )
        overlay.write()
        made = {
            str(path)
            .replace(self.folder, ""): re.sub(r"SUPERC_ONCE_\w+", "G", path.read_text())
            .replace(self.folder, "")
            for path in Path(self.folder, "out").rglob("*.[ch]")
        }
        guard = '#ifndef G\n#define G\n#include "%s"\n#endif\n'
        want = {
            "/out/m.c": '#include "/out/x.h"\n#include <y.h>\n',
            "/out/x.h": guard % "/x.h",
            "/out/a/y.h": guard % "/out/once/a/y.h",
            "/out/once/a/y.h": "#pragma once\n#define f(...) __VA_ARGS__\n",
        }
        self.assertEqual(made, want)

    def test_macros_that_superc_reads_have_no_copy(self) -> None:
        self.put(m_c='#include "x.h"\n#define f(a, x...) g("", ## x)\n', x_h="#define h(x...) x\n")
        overlay, forms = self.overlay("m.c", has_rests=True)
        self.assertEqual((overlay.copies, forms.lost), ({}, {}))

    def test_a_large_character(self) -> None:
        self.put(m_c="#if '\\301' == -63 && '\\x41'\n#endif\n")
        overlay, _ = self.overlay("m.c")
        self.assertEqual(
            list(self.copies(overlay).values()), ["#if -63 == -63 && '\\x41'\n#endif\n"]
        )

    def test_a_call_that_is_refused_is_told(self) -> None:
        self.put(m_c='#define f(a, x...) g("", ## x)\n')
        overlay, forms = self.overlay("m.c")
        [notes] = forms.lost.values()
        self.assertEqual(
            notes, [f"`, ##` of GNU in f: its calls are refused ({self.folder}/m.c:1)"]
        )


class Settings(unittest.TestCase):
    TEXT = """#define CONFIG_A 1
#define ENABLE_A 1
#define IF_A(...) __VA_ARGS__
#define IF_NOT_A(...)
#undef CONFIG_B_A
#define ENABLE_B_A 0
#define CONFIG_N 7
"""

    def settings(self, *names: str) -> str:
        source = read("autoconf.h", self.TEXT)
        text = source.text
        for (begin, end), new in sorted(settings_of(source, names).items(), reverse=True):
            text = text[:begin] + new + text[end:]
        return text

    def test_what_is_set_is_left_to_the_variable(self) -> None:
        self.assertEqual(self.settings("CONFIG_N"), self.TEXT.replace("define CONFIG_N 7", ""))
        self.assertEqual(self.settings("OTHER"), self.TEXT)

    def test_macros_follow_their_setting(self) -> None:
        text = self.settings("CONFIG_A")
        self.assertIn(
            "#if defined(CONFIG_A)\n#define ENABLE_A 1\n#else\n#define ENABLE_A 0\n#endif\n", text
        )
        self.assertIn("#define IF_A(...) __VA_ARGS__\n#else\n#define IF_A(...)\n#endif\n", text)
        self.assertIn("#define IF_NOT_A(...)\n#else\n#define IF_NOT_A(...) __VA_ARGS__\n", text)
        self.assertIn("#undef CONFIG_B_A\n#define ENABLE_B_A 0\n", text)
        self.assertIn(
            "#if !defined(CONFIG_B_A)\n#define ENABLE_B_A 0\n#else", self.settings("CONFIG_B_A")
        )


class Variables(unittest.TestCase):
    KCONFIG = """mainmenu "x"
config A
	bool "a"
	help
	  config NOT
	  bool
menuconfig T
	tristate
config N
	int "n"
	range 2 8 if A
	range 4 64
	default 4
config S
	string
source "more"
"""

    def options(self) -> dict[str, kconfig.Option]:
        with tempfile.TemporaryDirectory() as folder:
            Path(folder, "Kconfig").write_text(self.KCONFIG)
            Path(folder, "more").write_text("config M\n\tdef_bool y\n")
            return kconfig.read([f"{folder}/Kconfig"])

    def test_kconfig(self) -> None:
        options = self.options()
        self.assertEqual(
            {name: one.type for name, one in options.items()},
            {"A": "bool", "T": "tristate", "N": "int", "S": "string", "M": "bool"},
        )
        want = {
            "CONFIG_A": ["undef", "1"],
            "CONFIG_T": ["undef", "1"],
            "CONFIG_T_MODULE": ["undef", "1"],
            "CONFIG_N": ["2", "64"],
        }
        self.assertEqual(by_words(["A", "CONFIG_T", "N"], options), want)
        rule = "!(defined(CONFIG_T) && defined(CONFIG_T_MODULE))"
        self.assertEqual(rules_of(want, options), [rule])
        for word in ("S", "ABSENT"):
            with self.assertRaises((VariableError, kconfig.KconfigError)):
                by_words([word], options)

    def test_words(self) -> None:
        self.assertEqual(by_words(["A", "B=1,4"], {}), {"A": ["undef", "1"], "B": ["1", "4"]})
        for name, options in (
            ("1A", ["1"]),
            ("A", ["1", "1"]),
            ("A", ["-1"]),
            ("A", []),
            ("__FILE__", ["1"]),
            ("A", [str(2**63)]),
        ):
            with self.assertRaises(VariableError):
                check({name: options})


class Makefiles(unittest.TestCase):
    def test_both(self) -> None:
        jobs = [Job("a.c", ["/p/a.c"]), Job("b c.c", ["/p/b c.c"])]
        text = makefile(jobs, "/t/superc-project", "superc", "tokens")
        self.assertIn(
            "units/a.c/tokens: units/a.c/main.c units/a.c/prelude.h units/a.c/space.toml /p/a.c\n",
            text,
        )
        self.assertIn("\t@$(RUN) 'units/b c.c'\n", text)
        self.assertIn(
            "build units/b$ c.c/tokens: superc",
            ninja(jobs, "/t/superc-project", "superc", "tokens"),
        )


# A stand-in for superc: it prints the same text for each unit, or stops.
STAND_IN = """#!/bin/sh
case $3 in *stop*) echo "superc: branches full: 4097" >&2; exit 5;; esac
printf 'c 2 A undef:0 1:1\\ns 0 m.c\\nt 1 0:1:1 x\\nf 2 5 BadDirective 0:2:1\\nend\\n'
exit 1
"""


@unittest.skipUnless(shutil.which("gcc") and shutil.which("make"), "gcc or make is not there")
class Whole(unittest.TestCase):
    def setUp(self) -> None:
        self.folder = os.path.realpath(tempfile.mkdtemp())
        self.addCleanup(shutil.rmtree, self.folder)
        Path(self.folder, "m.c").write_text(
            '#include <limits.h>\n#include "config.h"\nint x = INT_MAX;\n#ifdef A\n#endif\n'
        )
        Path(self.folder, "stop.c").write_text("int y;\n")
        Path(self.folder, "config.h").write_text("#define HAVE_X 1\n#define HAVE_Y 1\n")
        entries = [
            {"directory": self.folder, "file": name, "command": f"gcc -DB=2 -c {name}"}
            for name in ("m.c", "stop.c")
        ]
        Path(self.folder, "compile_commands.json").write_text(json.dumps(entries))
        Path(self.folder, "superc").write_text(STAND_IN)
        Path(self.folder, "superc").chmod(0o755)

    def run_tool(self, *words: str) -> subprocess.CompletedProcess[str]:
        return subprocess.run(
            [sys.executable, TOOLS / "superc-project", *words],
            cwd=self.folder,
            capture_output=True,
            text=True,
        )

    def test_a_unit(self) -> None:
        done = self.run_tool(
            "unit",
            "--variable",
            "HAVE_X",
            "--variable",
            "B=2,3",
            "--",
            "gcc",
            "-DB=2",
            "-DC=f(x)",
            "-c",
            "m.c",
        )
        self.assertEqual((done.returncode, done.stdout), (0, "superc-out/units/m.c\n"))
        self.assertIn("B of the command line is left to the variable", done.stderr)
        self.assertIn(
            f"what {self.folder}/config.h sets of the variables is left to them", done.stderr
        )
        unit = Path(self.folder, "superc-out/units/m.c")
        space = tomllib.loads((unit / "space.toml").read_text())
        self.assertEqual(space["variables"], {"B": [2, 3], "HAVE_X": ["undef", 1]})
        self.assertTrue(any("/usr/include" in one for one in space["include"]))
        prelude = (unit / "prelude.h").read_text()
        self.assertIn("#define C f(x)\n", prelude)
        self.assertNotIn("#define B ", prelude)
        facts = json.loads((unit / "unit.json").read_text())
        self.assertEqual(facts["configurations"], 4)
        self.assertIn("-UHAVE_X", facts["gcc"])
        shared = next(Path(self.folder, "superc-out/compilers").iterdir()).read_text()
        self.assertIn("#define __has_attribute(x) __superc_has_attribute_ ## x\n", shared)
        self.assertNotIn("__STDC_VERSION__", shared)
        # Its own copy is named, since the unit looks for it beside itself.
        included = (unit / "main.c").read_text().splitlines()[1]
        self.assertRegex(
            included, f'#include "{self.folder}/superc-out/overlay/[0-9a-f]+{self.folder}/m.c"'
        )

    def test_the_standard_of_a_space(self) -> None:
        for standard, wanted in ("gnu2x", "c23"), ("gnu17", "gnu11"), ("c17", "c11"):
            done = self.run_tool(
                "unit", "--variable", "A", "--", "gcc", f"-std={standard}", "-c", "m.c"
            )
            self.assertEqual((done.returncode, done.stdout), (0, "superc-out/units/m.c\n"))
            space = Path(self.folder, "superc-out/units/m.c/space.toml")
            self.assertEqual(tomllib.loads(space.read_text())["standard"], wanted)

    def test_the_rule_of_a_space(self) -> None:
        for name, rule in ("a", "A"), ("b", "!B || A"):
            table = f"valid = '{rule}'\n[variables]\n{name.upper()} = ['undef', 1]\n"
            Path(self.folder, f"{name}.toml").write_text(table)
        words = ["--variables", "a.toml", "--variables", "b.toml"]
        for count, wanted in (2, "A"), (4, "(A) && (!B || A)"):
            done = self.run_tool("unit", *words[:count], "--", "gcc", "-c", "m.c")
            self.assertEqual((done.returncode, done.stdout), (0, "superc-out/units/m.c\n"))
            space = Path(self.folder, "superc-out/units/m.c/space.toml")
            self.assertEqual(tomllib.loads(space.read_text())["valid"], wanted)

    def test_all_units(self) -> None:
        done = self.run_tool("all", "--superc", "./superc", "--variable", "A", "-j", "1")
        self.assertEqual(done.returncode, 2)
        self.assertIn(
            "units: 2, of which 1 were read, 0 without a fault\nconfigurations: 2\n", done.stdout
        )
        self.assertIn("not read: stop.c: status 5: superc: branches full: 4097\n", done.stdout)
        self.assertIn("      1 m.c:2:1: BadDirective\n", done.stdout)
        text = Path(self.folder, "superc-out/units/m.c/tokens")
        first = text.stat().st_mtime_ns
        self.run_tool("all", "--superc", "./superc", "--variable", "A", "-j", "1")
        self.assertEqual(text.stat().st_mtime_ns, first)
        Path(self.folder, "m.c").write_text("int z;\n")
        self.run_tool("all", "--superc", "./superc", "--variable", "A", "-j", "1")
        self.assertNotEqual(text.stat().st_mtime_ns, first)

    def test_variables_of_the_source(self) -> None:
        self.assertEqual(self.run_tool("variables").stdout, "     1 A\n")

    def test_misuse(self) -> None:
        for words in (
            ("unit", "-p", "absent"),
            ("unit", "absent.c"),
            ("unit", "--", "gcc"),
            ("all", "--variable", "1"),
        ):
            done = self.run_tool(*words)
            self.assertEqual((done.returncode, done.stdout), (2, ""), words)
            self.assertIn("superc-project: ", done.stderr)


class Results(unittest.TestCase):
    def test_faults_of_a_text(self) -> None:
        with tempfile.NamedTemporaryFile("w") as text:
            text.write("s 0 a b.c\nf 1 5 BadDirective 0:2:3\nend\n")
            text.flush()
            want = [
                {"cause": "BadDirective", "file": "a b.c", "line": 2, "column": 3, "always": True}
            ]
            self.assertEqual(runs.faults_of(text.name), want)
