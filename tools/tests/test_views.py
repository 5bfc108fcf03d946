"""The views of superc-view, each as a command."""
import io
import random
import subprocess
import sys
import tempfile
import unittest
from pathlib import Path

from superc_text import Diagrams, Document, Place, Token, fault_at, space_of, tokens_at
from superc_text.layout import Conditions, source, would_join
from superc_text.trees import Wanted, wanted

from .helpers import README_TEXT, SHARED_TEXT, TREE_TEXT, configurations, document, holds

TOOLS = Path(__file__).resolve().parent.parent
DATA = Path(__file__).parent / "data"
RING = TOOLS.parent / "examples/ring/space.toml"
SENTENCE = "No directive of C11 is written so."


def run(*words: str, text: bytes = b"") -> tuple[int, str, str]:
    done = subprocess.run(
        [sys.executable, TOOLS / "superc-view", *words], input=text, capture_output=True
    )
    return done.returncode, done.stdout.decode("utf-8", "surrogateescape"), done.stderr.decode()


def read(path: Path) -> Document:
    """A kept text; that of the example with a rule by its space."""
    space = space_of(RING.read_bytes()) if path.name == "ring.tree" else None
    return Document.read(io.BytesIO(path.read_bytes()), space)


class Commands(unittest.TestCase):
    def test_tokens(self) -> None:
        error = '#if !defined(A)\n#error "main.c:4:1: BadDirective"\n#endif\n'
        self.assertEqual(run("tokens", text=README_TEXT), (0, f"x\n{error}", ""))
        want = f"#if defined(A)\nx\n#endif\n{error}"
        self.assertEqual(run("tokens", "--exact", text=README_TEXT), (0, want, ""))

    def test_tokens_of_a_tree(self) -> None:
        self.assertEqual(
            run("tokens", text=TREE_TEXT), (0, "#if defined(A)\nint\n#else\nlong\n#endif\nx;\n", "")
        )

    def test_at(self) -> None:
        self.assertEqual(run("at", "A=1", text=README_TEXT), (0, "x\n", ""))
        self.assertEqual(
            run("at", text=README_TEXT), (1, "", f"main.c:4:1: error: BadDirective: {SENTENCE}\n")
        )
        self.assertEqual(run("at", "A=1", text=TREE_TEXT), (0, "int\nx;\n", ""))
        self.assertEqual(run("at", "A=undef", text=TREE_TEXT), (0, "long\nx;\n", ""))

    def test_at_as_a_text(self) -> None:
        self.assertEqual(
            run("at", "--text", "A=1", text=README_TEXT)[1], "s 0 main.c\nt 1 0:2:1 x\nend\n"
        )
        self.assertEqual(
            run("at", "--text", text=README_TEXT)[:2],
            (1, "s 0 main.c\nf 1 5 BadDirective 0:4:1\nend\n"),
        )
        plain = "s 0 m.c\nl 0 0:4:1 long\nl 1 0:6:1 x\nn 2 288 1\nl 3 0:6:2 ;\nn 4 19 0 2 3\nn 5 1 4\nroot 5\nend\n"
        self.assertEqual(run("at", "--text", text=TREE_TEXT), (0, plain, ""))

    def test_words_that_name_no_configuration(self) -> None:
        self.assertEqual(
            run("at", "A", text=README_TEXT), (2, "", "superc-view: UnknownVariable A\n")
        )
        self.assertEqual(
            run("at", "A=2", text=README_TEXT), (2, "", "superc-view: UnknownOption A\n")
        )
        self.assertEqual(
            run("at", "A=1", "A=1", text=README_TEXT), (2, "", "superc-view: RepeatedVariable A\n")
        )
        self.assertEqual(
            run("at", "A=1", "B=1", text=README_TEXT),
            (0, "x\n", "superc-view: no condition of the text depends on B\n"),
        )

    def test_faults(self) -> None:
        self.assertEqual(
            run("faults", text=README_TEXT),
            (1, f"main.c:4:1: error: BadDirective: {SENTENCE} [when !defined(A)]\n", ""),
        )
        everywhere = b"s 0 m.c\nf 1 5 BadDirective 0:1:1\nend\n"
        self.assertEqual(
            run("faults", text=everywhere), (1, f"m.c:1:1: error: BadDirective: {SENTENCE}\n", "")
        )
        self.assertEqual(run("faults", text=TREE_TEXT), (0, "", ""))

    def test_tree(self) -> None:
        want = """unit 1
  declaration 19
    choice
      when defined(A): int  m.c:2:1
      when !defined(A): long  4:1
    var_name 288
      x  6:1
    ;  6:2
"""
        self.assertEqual(run("tree", text=TREE_TEXT), (0, want, ""))

    def test_tree_with_lists_and_shared_parts(self) -> None:
        want = """function_body 13
  {  m.c:1:3
  block_items 15
    expression_statement 43 [4]
      var_name 288
        a  1:1
      ;  1:2
    [4] above
    [4] above
  }  1:4
"""
        text = b"s 0 m.c\nl 0 0:1:3 {\nl 1 0:1:1 a\nn 2 288 1\nl 3 0:1:2 ;\nn 4 43 2 3\nn 5 15 4 4\nn 6 15 5 4\nl 7 0:1:4 }\nn 8 13 0 6 7\nroot 8\nend\n"
        self.assertEqual(run("tree", text=text), (0, want, ""))

    def test_a_part_of_a_tree(self) -> None:
        want = "var_name 288\n  x  m.c:6:1\n"
        self.assertEqual(run("tree", "--part", "6", text=TREE_TEXT), (0, f"{want};  6:2\n", ""))
        self.assertEqual(run("tree", "--part", "m.c:6:1", text=TREE_TEXT), (0, want, ""))
        told = "superc-view: no part begins at 9:1\n"
        self.assertEqual(run("tree", "--part", "9:1", text=TREE_TEXT), (2, "", told))
        told = "superc-view: x is no place\n"
        self.assertEqual(run("tree", "--part", "x", text=TREE_TEXT), (2, "", told))
        self.assertEqual(wanted("a:b.c:3"), Wanted("a:b.c", 3, None))
        self.assertEqual(wanted("b.c:3:4"), Wanted("b.c", 3, 4))

    def test_the_tree_of_a_configuration(self) -> None:
        want = "unit 1\n  declaration 19\n    long  m.c:4:1\n    var_name 288 ..\n    ;  6:2\n"
        self.assertEqual(run("tree", "--at", "-", "--depth", "2", text=TREE_TEXT), (0, want, ""))
        told = "superc-view: UnknownOption A\n"
        self.assertEqual(run("tree", "--at", "A=2", text=TREE_TEXT), (2, "", told))

    def test_a_text_without_a_tree(self) -> None:
        told = "superc-view: the text has no tree: superc parse prints one\n"
        self.assertEqual(run("tree", text=README_TEXT), (2, "", told))

    def test_diff(self) -> None:
        want = "--- A=1\n+++ \n@@ -1,2 +1,2 @@\n-int\n+long\n x;\n"
        self.assertEqual(run("diff", "A=1", "-", text=TREE_TEXT), (1, want, ""))
        self.assertEqual(run("diff", "A=1", "A=1", text=TREE_TEXT), (0, "", ""))
        status, out, told = run("diff", "A=1", "-", text=README_TEXT)
        self.assertEqual((status, out), (1, ""))
        self.assertIn(f"BadDirective: {SENTENCE}", told)

    def test_version(self) -> None:
        status, out, _ = run("--version")
        self.assertEqual(status, 0)
        self.assertRegex(out, r"^superc-view \d+\.\d+\n$")

    def test_dot(self) -> None:
        self.assertIn('2 -> 1 [label="1"];', run("dot", text=README_TEXT)[1])
        status, out, _ = run("dot", "--part", "2", text=TREE_TEXT)
        self.assertEqual(status, 0)
        self.assertIn('2 -> 1 [label="!defined(A)"];', out)
        self.assertEqual(
            run("dot", "--part", "9", text=TREE_TEXT),
            (2, "", "superc-view: the text has no part 9\n"),
        )

    def test_a_wrong_text(self) -> None:
        for view in ("tokens", "at", "faults", "tree", "dot", "html"):
            status, _, told = run(view, text=b"s 0 m.c\nt 2 0:1:1 x\nend\n")
            self.assertEqual(
                (status, told),
                (3, "superc-view: standard input: line 2: condition 2 has no line yet\n"),
            )

    def test_a_space_file(self) -> None:
        with tempfile.NamedTemporaryFile() as space:
            space.write(b'[variables]\nA = ["undef", 1]\nB = [1, 2]\n')
            space.flush()
            known = ("--space", space.name)
            self.assertEqual(run("at", *known, "A=1", "B=2", text=README_TEXT), (0, "x\n", ""))
            told = "superc-view: UnknownVariable C\n"
            self.assertEqual(run("at", *known, "A=1", "C=1", text=README_TEXT), (2, "", told))
            told = "superc-view: UnknownOption B\n"
            self.assertEqual(run("at", *known, "A=1", "B=3", text=README_TEXT), (2, "", told))
            told = "superc-view: standard input: line 1: the space has no variable Z\n"
            self.assertEqual(run("faults", *known, text=b"c 2 Z undef:0 1:1\nend\n"), (3, "", told))
            told = "superc-view: standard input: line 1: the options of B stand as before\n"
            self.assertEqual(run("faults", *known, text=b"c 2 B undef:0 1:1\nend\n"), (3, "", told))

    def test_a_wrong_space_file(self) -> None:
        rows = [
            (b"x", "NotToml"),
            (b"", "NoVariables"),
            (b"[variables]\nA = [true]\n", "BadOption A"),
        ]
        for text, told in rows:
            with tempfile.NamedTemporaryFile() as space:
                space.write(text)
                space.flush()
                stopped = run("faults", "--space", space.name, text=README_TEXT)
                self.assertEqual(stopped, (3, "", f"superc-view: space: {told}\n"))

    def test_an_output_that_takes_nothing(self) -> None:
        with open("/dev/full", "wb") as full:
            words = [sys.executable, TOOLS / "superc-view", "tokens"]
            done = subprocess.run(words, input=README_TEXT, stdout=full, stderr=subprocess.PIPE)
        told = b"superc-view: No space left on device\n"
        self.assertEqual((done.returncode, done.stderr), (7, told))

    def test_as_many_variables_as_a_space_has(self) -> None:
        names = [f"V{number:04}" for number in range(1024, 0, -1)]
        lines = [
            f"c {number} {name} undef:0 1:{number - 1}" for number, name in enumerate(names, 2)
        ]
        text = "\n".join([*lines, "s 0 m.c", "f 1025 5 BadDirective 0:1:1", "end", ""]).encode()
        status, out, _ = run("faults", text=text)
        self.assertEqual(status, 1)
        self.assertIn("[when defined(V0001) && defined(V0002)", out)

    def test_no_file_and_no_command(self) -> None:
        self.assertEqual(run("faults", "--input", "/no/text")[0], 6)
        self.assertEqual(run("faults", "--input", "/")[0], 6)
        self.assertEqual(run()[0], 2)
        self.assertEqual(run("frob")[0], 2)

    def test_an_input_file(self) -> None:
        with tempfile.NamedTemporaryFile() as text:
            text.write(README_TEXT)
            text.flush()
            self.assertEqual(run("at", "A=1", "-i", text.name), (0, "x\n", ""))


class Leaves(unittest.TestCase):
    """The tokens of a tree are its leaves, in order, each as often as it occurs."""

    def test_a_leaf_that_occurs_twice(self) -> None:
        self.assertEqual(run("tokens", text=SHARED_TEXT), (0, "enum { a , b , c };\n", ""))

    def test_each_configuration(self) -> None:
        paths = [*sorted(DATA.glob("*.tree")), *sorted(DATA.glob("*.txt"))]
        self.assertGreater(len(paths), 1)
        for whole in [*map(read, paths), document(TREE_TEXT), document(SHARED_TEXT)]:
            tokens = list(whole.shown_tokens())
            for one in configurations(whole.diagrams):
                if fault_at(whole, one) or whole.diagrams.holds(whole.unlisted, one):
                    continue
                found = [
                    (token.place, token.spelling)
                    for token in tokens
                    if whole.diagrams.holds(token.condition, one)
                ]
                alone = [(token.place, token.spelling) for token in tokens_at(whole, one)]
                self.assertEqual(found, alone)


class Nested(unittest.TestCase):
    """The conditionals around tokens."""

    def lines(self, *rows: tuple[str, int]) -> list[str]:
        diagrams = self.diagrams
        tokens = [
            Token(condition, Place("m.c", line, 1), text.encode())
            for line, (text, condition) in enumerate(rows, 1)
        ]
        return list(source(tokens, Conditions(diagrams, refused=self.refused)))

    def setUp(self) -> None:
        self.diagrams = Diagrams()
        for name in "ABC":
            self.diagrams.variables[name] = ("undef", "1")
        self.a, self.b, self.c = (self.diagrams.make(name, (0, 1)) for name in "ABC")
        self.refused = 0

    def test_one_holds_others(self) -> None:
        both = self.diagrams.conjunction(self.a, self.b)
        want = [
            "#if defined(A)",
            "#if defined(B)",
            "x",
            "#endif",
            "y",
            "#if defined(B)",
            "z",
            "#endif",
            "#endif",
            "w",
        ]
        self.assertEqual(self.lines(("x", both), ("y", self.a), ("z", both), ("w", 1)), want)

    def test_branches(self) -> None:
        not_a = self.diagrams.negation(self.a)
        not_a_b = self.diagrams.conjunction(not_a, self.b)
        neither = self.diagrams.difference(not_a, self.b)
        want = ["#if defined(A)", "x", "#elif defined(B)", "y", "#else", "z", "#endif"]
        self.assertEqual(self.lines(("x", self.a), ("y", not_a_b), ("z", neither)), want)

    def test_refused_configurations_are_free(self) -> None:
        self.refused = self.diagrams.difference(self.a, self.b)
        both = self.diagrams.conjunction(self.a, self.b)
        want = ["#if defined(A)", "x", "#endif", "y"]
        self.assertEqual(
            self.lines(
                ("x", both), ("y", self.diagrams.negation(self.refused)), ("z", self.refused)
            ),
            want,
        )

    def test_random_ones_mean_their_conditions(self) -> None:
        chance = random.Random(1)
        for _ in range(300):
            self.refused = self.some_condition(chance) if chance.random() < 0.6 else 0
            rows = [(f"t{place}", self.some_condition(chance)) for place in range(8)]
            lines = self.lines(*[(text, condition) for text, condition in rows if condition])
            for one in configurations(self.diagrams):
                if self.diagrams.holds(self.refused, one):
                    continue
                want = [text for text, when in rows if self.diagrams.holds(when, one)]
                self.assertEqual(preprocessed(lines, one), want, lines)

    def some_condition(self, chance: random.Random) -> int:
        condition = chance.choice((self.a, self.b, self.c, 1))
        for other in (self.a, self.b, self.c):
            other = chance.choice((other, self.diagrams.negation(other)))
            join = chance.choice((self.diagrams.conjunction, self.diagrams.disjunction, None))
            condition = join(condition, other) if join else condition
        return condition


def preprocessed(lines: list[str], configuration: dict[str, str]) -> list[str]:
    """The lines that a configuration has, by their conditionals."""
    kept: list[str] = []
    # For each open conditional whether its branch is taken, and whether one was.
    stack: list[tuple[bool, bool]] = []
    for line in lines:
        word, _, rest = line.partition(" ")
        if word == "#if":
            stack.append((holds(rest, configuration),) * 2)
        elif word in ("#elif", "#else"):
            _, was_taken = stack.pop()
            is_taken = not was_taken and (word == "#else" or holds(rest, configuration))
            stack.append((is_taken, was_taken or is_taken))
        elif word == "#endif":
            stack.pop()
        elif all(is_taken for is_taken, _ in stack):
            kept.append(line)
    return kept


class Layout(unittest.TestCase):
    def test_tokens_that_would_join(self) -> None:
        for left, right in (
            (b"-", b"-"),
            (b"x", b"1"),
            (b"1", b".5"),
            (b"1e", b"+"),
            (b"<", b"<="),
            (b".", b"5"),
            (b"L", b"'a'"),
            (b"/", b"*"),
        ):
            self.assertTrue(would_join(left, right), (left, right))
        for left, right in (
            (b"x", b"("),
            (b"-", b"x"),
            (b"a", b"."),
            (b")", b";"),
            (b"->", b"x"),
            (b"'a'", b"b"),
        ):
            self.assertFalse(would_join(left, right), (left, right))

    def test_tokens_of_one_place(self) -> None:
        tokens = [
            Token(1, Place("m.c", 3, 2), b"-"),
            Token(1, Place("m.c", 3, 3), b"-"),
            Token(1, Place("m.c", 3, 3), b"1"),
        ]
        self.assertEqual(list(source(tokens, Conditions(Diagrams()))), [" - - 1"])

    def test_files(self) -> None:
        tokens = [Token(1, Place("m.c", 1, 1), b"a"), Token(1, Place("h.h", 1, 1), b"b")]
        self.assertEqual(list(source(tokens, Conditions(Diagrams()))), ["a", "/* h.h */", "b"])
