"""Texts that the program printed, beside what an independent reader found at each configuration."""
import json
import unittest
from pathlib import Path

from superc_text import Expressions, fault_at, text_at, text_of, tokens_at
from superc_text.document import plain_place

from .helpers import configurations, document, holds

DATA = Path(__file__).parent / "data"


class Records(unittest.TestCase):
    def test_what_each_configuration_has(self) -> None:
        for path in sorted(DATA.glob("*.txt")):
            read = document(path.read_bytes())
            for row in json.loads(path.with_suffix(".json").read_text()):
                configuration = row["configuration"]
                fault = fault_at(read, configuration)
                if "fault" in row:
                    self.assertIsNotNone(fault)
                    self.assertEqual(
                        [fault.code, fault.name, plain_place(fault.place)], row["fault"]
                    )
                else:
                    self.assertIsNone(fault)
                    tokens = [
                        [token.spelling.decode("latin-1"), plain_place(token.place)]
                        for token in tokens_at(read, configuration)
                    ]
                    self.assertEqual(tokens, row["tokens"])

    def test_they_are_written_again(self) -> None:
        for path in DATA.glob("*.txt"):
            self.assertEqual(text_of(document(path.read_bytes())), path.read_bytes())

    def test_the_text_of_a_configuration_says_the_same(self) -> None:
        for path in DATA.glob("*.txt"):
            read = document(path.read_bytes())
            for configuration in configurations(read.diagrams):
                alone = document(text_at(read, configuration))
                self.assertEqual(alone.diagrams.variables, {})
                self.assertEqual(bool(alone.faults), fault_at(read, configuration) is not None)
                if not alone.faults:
                    self.assertEqual(alone.tokens, list(tokens_at(read, configuration)))

    def test_expressions(self) -> None:
        for path in DATA.glob("*.txt"):
            read = document(path.read_bytes())
            text_of_condition = Expressions(read.diagrams).text
            for condition in list(read.number_of):
                for configuration in configurations(read.diagrams):
                    expected = read.diagrams.holds(condition, configuration)
                    self.assertEqual(holds(text_of_condition(condition), configuration), expected)
