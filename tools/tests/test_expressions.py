"""Conditions as expressions."""
import random
import unittest

from superc_text import ALWAYS, NEVER, Diagrams, Expressions
from superc_text.expressions import literal_text

from .helpers import configurations, holds


def store(**variables: str) -> Diagrams:
    diagrams = Diagrams()
    for name, options in variables.items():
        diagrams.variables[name] = tuple(options.split())
    return diagrams


def option(diagrams: Diagrams, name: str, *chosen: str) -> int:
    return diagrams.make(
        name, [ALWAYS if one in chosen else NEVER for one in diagrams.variables[name]]
    )


class Literals(unittest.TestCase):
    def test_each_form(self) -> None:
        rows = [
            ("undef 1", {1}, "defined(A)"),
            ("undef 1", {0}, "!defined(A)"),
            ("1 4 16", {1}, "A==4"),
            ("1 4 16", {0, 2}, "A!=4"),
            ("1 4 16", {1, 2}, "A!=1"),
            ("undef 1 4", {2}, "A==4"),
            ("undef 0", {1}, "defined(A)"),
            ("undef 0 1", {1}, "defined(A) && A==0"),
            ("undef 0 1", {0, 2}, "!defined(A) || A==1"),
            ("1 2 3 4", {0, 1}, "A<=2"),
            ("1 2 3 4", {2, 3}, "A>=3"),
            ("undef t1 t2", {1, 2}, "defined(A)"),
            ("undef t1 4", {1}, "A=t1"),
            ("t0 t1 4", {0, 2}, "A!=t1"),
        ]
        for options, chosen, text in rows:
            self.assertEqual(literal_text("A", tuple(options.split()), chosen)[0], text)

    def test_each_set_of_options(self) -> None:
        for options in ("undef 0 1 7", "undef 1 2 3 9", "0 1 2 3", "7 undef 0 3"):
            diagrams = store(A=options)
            count = len(options.split())
            for bits in range(1, 2**count - 1):
                chosen = {place for place in range(count) if bits >> place & 1}
                text, _ = literal_text("A", diagrams.variables["A"], chosen)
                for place, configuration in enumerate(configurations(diagrams)):
                    self.assertEqual(holds(text, configuration), place in chosen, text)


class Conditions(unittest.TestCase):
    def test_short_ones(self) -> None:
        diagrams = store(A="undef 1", B="undef 1", C="undef 1", D="undef 1", N="1 4 16")
        a, b, c, d = (option(diagrams, name, "1") for name in "ABCD")
        both, either = diagrams.conjunction, diagrams.disjunction
        rows = [
            (NEVER, "0"),
            (ALWAYS, "1"),
            (both(a, option(diagrams, "N", "4")), "defined(A) && N==4"),
            (either(a, both(diagrams.negation(a), b)), "defined(A) || defined(B)"),
            (diagrams.negation(both(a, b)), "!defined(A) || !defined(B)"),
            (
                both(either(a, b), either(c, d)),
                "(defined(A) || defined(B)) && (defined(C) || defined(D))",
            ),
            (either(both(a, b), both(a, c)), "defined(A) && (defined(B) || defined(C))"),
        ]
        for condition, text in rows:
            self.assertEqual(Expressions(diagrams).text(condition), text)

    def test_random_ones_mean_their_condition(self) -> None:
        chance = random.Random(1)
        for _ in range(150):
            diagrams = store(A="undef 1", B="undef 0 1", C="1 4 16", D="undef 1")
            conditions = [
                option(diagrams, name, chance.choice(diagrams.variables[name]))
                for name in "ABCDABCD"
            ]
            while len(conditions) > 1:
                left, right = conditions.pop(), conditions.pop(0)
                joined = chance.choice((diagrams.conjunction, diagrams.disjunction))(left, right)
                conditions.append(chance.choice((joined, diagrams.negation(joined))))
            text = Expressions(diagrams).text(conditions[0])
            for configuration in configurations(diagrams):
                self.assertEqual(
                    holds(text, configuration), diagrams.holds(conditions[0], configuration), text
                )

    def test_a_long_one_is_named(self) -> None:
        names = [f"V{number:02}" for number in range(20)]
        diagrams = store(**{name: "undef 1" for name in names})
        parity = NEVER
        for name in reversed(names):
            parity = diagrams.make(name, (parity, diagrams.negation(parity)))
        self.assertEqual(Expressions(diagrams, {parity: 40}).text(parity), "condition(40)")
