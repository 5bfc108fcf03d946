"""The completions: they are made from one list, and the list is that of the commands."""
import argparse
import json
import shutil
import subprocess
import sys
import unittest
from pathlib import Path

from superc_project.command import parser as superc_project
from superc_text.command import parser as superc_view

TOOLS = Path(__file__).resolve().parent.parent
COMPLETIONS = TOOLS / "completions"


def complete(*words: str) -> list[str]:
    """What bash offers for the last word."""
    function = "_" + words[0].replace("-", "_")
    quoted = " ".join(f"'{word}'" for word in words)
    script = f"source {COMPLETIONS}/superc.bash; COMP_WORDS=({quoted}) COMP_CWORD={len(words) - 1}; {function}; printf '%s\\n' \"${{COMPREPLY[@]}}\""
    return subprocess.run(
        ["bash", "-c", script], capture_output=True, text=True, check=True
    ).stdout.split()


class Completions(unittest.TestCase):
    def test_they_are_made_from_the_list(self) -> None:
        self.assertEqual(
            subprocess.run([sys.executable, "-B", COMPLETIONS / "make", "--check"]).returncode, 0
        )

    def test_the_list_is_that_of_the_commands(self) -> None:
        commands = {"superc-view": superc_view(), "superc-project": superc_project()}
        for program, words in commands.items():
            listed = json.loads((COMPLETIONS / "commands.json").read_text())[program]
            [subcommands] = [
                action
                for action in words._actions
                if isinstance(action, argparse._SubParsersAction)
            ]
            found = {
                name: {
                    word
                    for action in one._actions
                    for word in action.option_strings
                    if word.startswith("--")
                }
                - {"--help"}
                for name, one in subcommands.choices.items()
            }
            self.assertEqual({name: set(one["options"]) for name, one in listed.items()}, found)

    @unittest.skipUnless(shutil.which("bash"), "bash is not there")
    def test_what_bash_offers(self) -> None:
        self.assertEqual(
            complete("superc", ""), ["tokens", "parse", "project", "conflicts", "make"]
        )
        self.assertEqual(complete("superc-view", "t"), ["tokens", "tree"])
        self.assertEqual(complete("superc-view", "at", "--"), ["--input", "--space", "--text"])
        self.assertEqual(complete("superc-view", "dot", "--part", ""), [])
        self.assertEqual(complete("superc-project", "all", "--k"), ["--kconfig"])
        self.assertEqual(complete("superc-view", "tokens", "--input", "/et"), ["/etc"])
