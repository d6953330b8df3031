"""Completion for bash and zsh: each command, each option and its values, as the command line has them."""
import argparse
import os
import shlex
import shutil
import subprocess
import sys
import tempfile
import unittest
from pathlib import Path

from leafrunt_host.commands import TITLES, parser
from leafrunt_host.words import first_words

TOP = Path(__file__).resolve().parent.parent.parent
COMPLETION = TOP / "debian/completion"
BASH = """
. "$1"; shift; cword=$1; shift
COMP_WORDS=("$@"); COMP_CWORD=$cword
_leafrunt_in_bash "$1"
printf '%s\\n' "${COMPREPLY[@]}"
"""
HELP_OF_HOOKTOOL = """Commands:
  annotate  Finds statements
  try       Asks

Options:
      --kind <KIND>  The route's kind
      --type <1|2>   The type
  <HOOK>  The hook [possible values: count, tag, price, veto]
"""


class Completed(unittest.TestCase):
    def setUp(self) -> None:
        room = tempfile.TemporaryDirectory()
        self.addCleanup(room.cleanup)
        self.room = Path(room.name)
        words = shlex.join([sys.executable, str(TOP / "host/leafrunt")])
        self.program("leafrunt", f'exec {words} "$@"')
        self.program("hooktool", f"cat <<'END'\n{HELP_OF_HOOKTOOL}END")

    def program(self, name: str, script: str) -> None:
        (self.room / name).write_text(f"#!/bin/sh\n{script}\n")
        (self.room / name).chmod(0o755)

    def words(self, *line: str) -> list[str]:
        """What the last word of a line may become, in bash."""
        asked = ["bash", "-c", BASH, "bash", COMPLETION, str(len(line) - 1), *line]
        environment = {**os.environ, "PATH": f"{self.room}:{os.environ['PATH']}"}
        ran = subprocess.run(asked, cwd=self.room, env=environment, capture_output=True, text=True)
        self.assertEqual((ran.returncode, ran.stderr), (0, ""))
        return ran.stdout.split()

    def test_each_command(self) -> None:
        self.assertEqual(set(self.words("leafrunt", "")), {*TITLES, "--help", "--version"})

    def test_each_option(self) -> None:
        (commands,) = (it for it in parser()._actions if isinstance(it, argparse._SubParsersAction))
        for name, one in commands.choices.items():
            options = {it for action in one._actions for it in action.option_strings if it.startswith("--")}
            self.assertEqual(set(self.words("leafrunt", name, "--")), options, name)

    def test_values(self) -> None:
        self.assertEqual(self.words("leafrunt", "up", "--log-level", "w"), ["warning"])
        self.assertEqual(self.words("leafrunt", "metrics", "--format", ""), ["openmetrics", "prometheus"])
        self.assertEqual(set(self.words("leafrunt", "console", "-c", "")), {it.strip() for it in first_words()})
        self.assertEqual(self.words("hooktool", "annotate", ""), ["count", "tag", "price", "veto"])
        self.assertEqual(self.words("hooktool", "try", "--type", ""), ["1", "2"])
        self.assertEqual(self.words("hooktool", "try", "--kind", "e"), ["ext1", "ext2"])

    def test_a_file_where_nothing_else_can_be(self) -> None:
        (self.room / "one.toml").touch()
        self.assertEqual(self.words("leafrunt", "up", "one"), ["one.toml"])

    @unittest.skipIf(shutil.which("zsh") is None, "no zsh")
    def test_zsh_finds_the_same(self) -> None:
        script = '. "$1"; _leafrunt_words leafrunt "" leafrunt ""'
        environment = {
            **os.environ,
            "PATH": f"{self.room}:{os.environ['PATH']}",
            "LEAFRUNT_COMPLETION": str(COMPLETION),
        }
        asked = ["zsh", "-f", "-c", script, "zsh", COMPLETION.with_suffix(".zsh")]
        ran = subprocess.run(asked, env=environment, capture_output=True, text=True)
        self.assertEqual((ran.returncode, ran.stderr), (0, ""))
        self.assertEqual(set(ran.stdout.split()), {*TITLES, "--help", "--version"})
