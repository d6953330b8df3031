"""What answers of `routerd` mean: one table, for the console, `check` and the cheat sheet."""
import contextlib
import io
import re
import unittest
from pathlib import Path
from unittest import mock

from leafrunt_host.client import Client
from leafrunt_host.console import run
from leafrunt_host.meanings import MEANINGS, hint

PAGE = Path(__file__).resolve().parent.parent.parent / "docs/use/CHEATSHEET.md"


class Meanings(unittest.TestCase):
    def test_the_cheat_sheet_has_the_same(self) -> None:
        part = PAGE.read_text().partition("## Refusals")[2].partition("\n## ")[0]
        rows = dict(re.findall(r"(?m)^\| `([^|]+?)` \| (.+) \|$", part))
        self.assertEqual(rows, MEANINGS)

    def test_each_answer_has_its_meaning(self) -> None:
        self.assertIn("length", hint("add 10.0.0.0/8 1 2 0", "refused 3"))
        self.assertIn("255", hint("attach /a.o", "refused slot 4 rule 10"))
        self.assertIn("hooktool explain", hint("attach /a.o", "refused slot 4 rule 10"))
        self.assertIn("object", hint("attach /etc/passwd", "object refusal 2"))
        self.assertIn("no such file", hint("attach /no", "cannot read /no"))
        self.assertIn("help", hint("foo", "unknown"))
        for answer in ("originated", "attached veto bound 5", "refused slot 4 rule 99", "refused: x"):
            self.assertEqual(hint("attach /a.o", answer), "")

    def test_a_prefix_that_is_none(self) -> None:
        for line, meant in (
            ("add 1.2.3.4/8 1 1 1", "the bits of 1.2.3.4/8 behind its length aren't 0: 1.0.0.0/8"),
            ("add 1.2.3.4 1 1 1", "a prefix has a length: 1.2.3.4/32"),
            ("withdraw x", "'x' is no prefix, A.B.C.D/L"),
            ("add 10.0.0.0/8 1 1", MEANINGS["unknown"]),
        ):
            self.assertEqual(hint(line, "unknown"), meant)

    def test_it_stands_beside_the_answer(self) -> None:
        client = mock.Mock(spec=Client, ask=lambda _line: ["refused 3"])
        with contextlib.redirect_stdout(io.StringIO()) as out, contextlib.redirect_stderr(io.StringIO()) as beside:
            self.assertEqual(run(client, ["add 10.0.0.0/8 1 2 0"]), 1)
        self.assertEqual(out.getvalue(), "refused 3\n")
        self.assertEqual(beside.getvalue(), f"({MEANINGS['refused 3']})\n")
