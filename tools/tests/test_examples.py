"""The example and the text of the README, and the table of productions."""
import os
import re
import subprocess
import sys
import tempfile
import unittest
from pathlib import Path

from superc_text.faults import SENTENCES
from superc_text.grammar import productions
from superc_text.items import CAUSES

from .helpers import README_TEXT, document

TOOLS = Path(__file__).resolve().parent.parent
TOP = TOOLS.parent
SUPERC = os.environ.get("SUPERC", str(TOP / "crates/superc/out/superc"))


def indented_blocks(text: str) -> list[str]:
    """The blocks of a page that are indented by four spaces."""
    return [
        re.sub("^    ", "", block, flags=re.M)
        for block in re.findall(r"(?:^    .*\n)+", text, re.M)
    ]


class Examples(unittest.TestCase):
    def test_the_text_of_the_readme(self) -> None:
        self.assertIn(README_TEXT.decode(), indented_blocks((TOP / "README.md").read_text()))

    def test_the_texts_of_the_format(self) -> None:
        texts = [
            block
            for block in indented_blocks((TOP / "docs/TEXT.md").read_text())
            if block.endswith("\nend\n")
        ]
        self.assertGreater(len(texts), 2)
        for text in texts:
            document(text.encode())

    def test_the_example(self) -> None:
        words = [sys.executable, TOOLS / "superc-view"]
        text = (TOOLS / "tests/data/driver.tokens").read_bytes()
        shown = subprocess.run(
            [*words, "tokens"], input=text, capture_output=True, check=True
        ).stdout.decode()
        self.assertIn(
            "#if defined(CONFIG_SMP)\n spin_lock(&dev->rings[0].lock);\n#else\n disable_irq(irq);\n#endif\n",
            shown,
        )
        alone = subprocess.run(
            [*words, "at", "CONFIG_PM=1"], input=text, capture_output=True, check=True
        ).stdout.decode()
        self.assertIn(" .suspend = suspend,\n", alone)
        self.assertNotIn("spin_lock", alone)


class Faults(unittest.TestCase):
    def test_each_cause_has_its_sentence(self) -> None:
        page = (TOP / "docs/FAULTS.md").read_text()
        found = re.findall(r"^## (\w+)\n\n(.*)\n", page, re.M)
        self.assertEqual(dict(found), SENTENCES)
        self.assertEqual(tuple(name for name, _ in found), CAUSES)

    @unittest.skipUnless(os.access(SUPERC, os.X_OK), "superc is not built, nor named by SUPERC")
    def test_each_example_has_its_cause(self) -> None:
        page = (TOP / "docs/FAULTS.md").read_text()
        with tempfile.TemporaryDirectory() as folder:
            Path(folder, "space.toml").write_text("[variables]\n")
            for cause, section in re.findall(r"^## (\w+)\n(.*?)(?=^## |\Z)", page, re.M | re.S):
                for example in indented_blocks(section):
                    Path(folder, "m.c").write_text(example)
                    words = [SUPERC, "parse", "space.toml", "m.c"]
                    done = subprocess.run(words, cwd=folder, capture_output=True, text=True)
                    self.assertRegex(done.stdout, rf"(?m)^f 1 \d+ {cause} ")


class Grammar(unittest.TestCase):
    def test_the_productions_are_those_of_the_parser(self) -> None:
        source = (TOP / "crates/sc_grammar/specs/C11.antt").read_text()
        rows = re.findall(
            r"^    (?:plain|marked) N_(\w+) \(((?:[nt] [NT]_\w+ ∷ )+)\[\]\)", source, re.M
        )
        found = [
            (
                left.lower(),
                tuple(
                    name.lower() if kind == "n" else name
                    for kind, name in re.findall(r"([nt]) [NT]_(\w+)", right)
                ),
            )
            for left, right in rows
        ]
        self.assertEqual(found, list(map(tuple, productions().values())))
