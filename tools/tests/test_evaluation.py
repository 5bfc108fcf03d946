"""Expressions of variables, and the configurations that a space calls valid."""
import io
import random
import tempfile
import unittest

from superc_text import NEVER, Diagrams, Document, Expressions, Space, SpaceError, TextError, space_of
from superc_text.evaluation import PREDEFINED, Evaluation, Unknown, listed, symbols_of
from superc_text.page import Page

from .helpers import README_TEXT, TREE_TEXT, configurations
from .test_views import run

VARIABLES = {"A": ("undef", "1"), "B": ("0", "1", "7"), "N": ("undef", "0", "16"), "T": ("1", "t1")}
SIGNS = ("==", "!=", "<", ">=", "+", "-", "*", "|", "&", "^")
OF_VALID = b'valid = "defined(A)"\n[variables]\nA = ["undef", 1]\n'
REFUSED = b"c 2 A undef:0 1:1\ns 0 m.c\nf 2 5 BadDirective 0:1:1\nend\n"
ROOTLESS = b"root -\n" + REFUSED


def text_of(valid: str) -> str | None:
    """The valid configurations as an expression, if they are evaluated."""
    diagrams = Diagrams()
    diagrams.variables.update(VARIABLES)
    found = listed(diagrams, Space(VARIABLES, valid))
    return None if found is None else Expressions(diagrams).text(found)


class Values(unittest.TestCase):
    def test_each_form(self) -> None:
        rows = {
            "1": "1",
            "A": "defined(A)",
            "defined A && !defined(N)": "defined(A) && !defined(N)",
            "N == 16 || N < 0 - 1": "N!=0",
            "0x10 / N == 01": None,
            "N && 0x10 / N == 01": "N!=0",
            "N ? 16 % N == 0 : A": "defined(A) || N!=0",
            "(B << 2 | 1) == 29 && (B ^ 6) == 1 && ~B == -8": "B==7",
            "B >> 1 == 3 && (B & 2)": "B==7",
            "-7 / 2 == -3 && -7 % 2 == -1 && +A": "defined(A)",
            "OTHER || defined OTHER": "0",
            "__STDC__ && __LINE__ == 1 && defined(__FILE__) && __STDC_VERSION__ == 201112L": "1",
            "A /* && B */ // && N": "defined(A)",
            "__FILE__": None,
            "T": None,
            "defined(T)": "1",
            "1u": None,
            "'a'": None,
            "1, 2": None,
            "A +": None,
            "(A": None,
            "": None,
            "9223372036854775807 + B": None,
            "9223372036854775808": None,
            "1 << 64": None,
            "A ??! B": None,
        }
        for valid, want in rows.items():
            self.assertEqual(text_of(valid), want, valid)

    def test_sums_of_many_variables(self) -> None:
        names = [f"V{number:02}" for number in range(30)]
        variables = {name: ("undef", "1") for name in names}
        diagrams = Diagrams()
        diagrams.variables.update(variables)
        found = listed(diagrams, Space(variables, " + ".join(names) + " > 28"))
        assert found is not None
        for count in (27, 29, 30):
            chosen = {name: "1" if place < count else "undef" for place, name in enumerate(names)}
            self.assertEqual(diagrams.holds(found, chosen), count > 28)

    def test_random_expressions(self) -> None:
        dice = random.Random(7)
        variables = {name: VARIABLES[name] for name in "ABN"}

        # an expression, and the same in Python
        def one(depth: int) -> tuple[str, str]:
            if depth == 0:
                name = dice.choice([*variables, "1", "3"])
                return name, name
            sign = dice.choice([*SIGNS, "&&", "||", "!"])
            (left, first), (right, other) = one(depth - 1), one(depth - 1)
            if sign == "!":
                return f"!({left})", f"int(not {first})"
            if sign in SIGNS:
                return f"({left} {sign} {right})", f"int({first} {sign} {other})"
            word = "and" if sign == "&&" else "or"
            return f"({left} {sign} {right})", f"int(bool({first} {word} {other}))"

        for _ in range(300):
            text, python = one(dice.randrange(5))
            diagrams = Diagrams()
            diagrams.variables.update(variables)
            found = Evaluation(diagrams, symbols_of(text), variables, PREDEFINED).holds()
            for configuration in configurations(diagrams):
                values = {
                    name: 0 if option == "undef" else int(option)
                    for name, option in configuration.items()
                }
                self.assertEqual(diagrams.holds(found, configuration), bool(eval(python, values)), text)

    def test_a_name_of_which_nothing_is_known(self) -> None:
        for text in ("C", "defined(C)", "A && C"):
            diagrams = Diagrams()
            diagrams.variables.update(VARIABLES)
            with self.assertRaises(Unknown):
                Evaluation(diagrams, symbols_of(text), VARIABLES).holds()


class Spaces(unittest.TestCase):
    def test_what_a_space_file_says(self) -> None:
        self.assertEqual(space_of(OF_VALID), Space({"A": ("undef", "1")}, "defined(A)"))
        self.assertEqual(space_of(b"[variables]\n"), Space({}, None))
        for value in (b"1", b'"a\\nb"'):
            with self.assertRaisesRegex(SpaceError, "BadValid BadIf"):
                space_of(b"valid = " + value + b"\n[variables]\n")

    def test_a_root_where_a_valid_configuration_is_accepted(self) -> None:
        def read(text: bytes, valid: str | None) -> Document:
            return Document.read(io.BytesIO(text), Space({"A": ("undef", "1")}, valid))

        self.assertIsNone(read(ROOTLESS, "A").root)
        self.assertIsNone(Document.read(io.BytesIO(ROOTLESS)).root)
        # of a rule that is not evaluated nothing is known
        self.assertIsNone(read(ROOTLESS, "A == 'a'").root)
        for valid in (None, "1", "!A"):
            with self.assertRaisesRegex(TextError, "exactly where every configuration is refused"):
                read(ROOTLESS, valid)
        rooted = b"n 0 2\nroot 0\n" + REFUSED
        self.assertEqual(read(rooted, "1").root, 0)
        with self.assertRaisesRegex(TextError, "exactly where every configuration is refused"):
            read(rooted, "A")


class Views(unittest.TestCase):
    def run_in(self, valid: str, *words: str, text: bytes) -> tuple[int, str, str]:
        with tempfile.NamedTemporaryFile() as space:
            space.write(f"valid = '{valid}'\n[variables]\nA = ['undef', 1]\n".encode())
            space.flush()
            return run(words[0], "--space", space.name, *words[1:], text=text)

    def test_conditions_modulo_the_valid_ones(self) -> None:
        self.assertEqual(self.run_in("A", "tokens", text=README_TEXT)[1].splitlines()[0], "x")
        self.assertEqual(self.run_in("A", "tokens", text=TREE_TEXT), (0, "int\nx;\n", ""))
        exact = "#if defined(A)\nint\n#else\nlong\n#endif\nx;\n"
        self.assertEqual(self.run_in("A", "tokens", "--exact", text=TREE_TEXT), (0, exact, ""))
        told = "main.c:4:1: error: BadDirective: No directive of C11 is written so."
        self.assertEqual(self.run_in("!A", "faults", text=README_TEXT), (1, f"{told}\n", ""))

    def test_a_configuration_that_is_not_valid(self) -> None:
        told = "superc-view: Invalid\n"
        for words in (("at", "A=1"), ("at", "--text", "A=1"), ("diff", "A=undef", "A=1")):
            self.assertEqual(self.run_in("!A", *words, text=README_TEXT), (2, "", told))
        for words in (("at", "A=1"), ("tree", "--at", "A=1")):
            self.assertEqual(self.run_in("!A", *words, text=TREE_TEXT), (2, "", told))
        self.assertEqual(self.run_in("A", "at", "A=1", text=README_TEXT), (0, "x\n", ""))

    def test_a_page_tells_what_is_valid(self) -> None:
        space = Space({"A": ("undef", "1"), "B": ("undef", "1")}, "A || B")
        read = Document.read(io.BytesIO(TREE_TEXT), space)
        self.assertNotEqual(read.unlisted, NEVER)
        page = "".join(Page(read, "t").text())
        self.assertIn('"variables":[["A","undef","1"],["B","undef","1"]]', page)
        self.assertIn('"valid":', page)
