"""What `leafrunt console` completes and helps with, and what it reads."""
import contextlib
import io
import unittest
from pathlib import Path
from unittest import mock

from leafrunt_host.client import Client
from leafrunt_host.console import completions, run
from leafrunt_host.words import help_lines

HERE = Path(__file__).resolve().parent


class Typing(unittest.TestCase):
    def test_completion(self) -> None:
        self.assertEqual(completions([], "de"), ["detach "])
        self.assertEqual(completions([], "ne"), ["neighbors"])
        self.assertEqual(completions(["detach"], "p"), ["price"])
        self.assertEqual(completions(["table"], ""), [])
        self.assertEqual(completions(["attach", "x"], ""), [])
        folder = str(HERE)
        self.assertEqual(completions(["attach"], f"{folder}/stand"), [f"{folder}/stand_in.py"])
        self.assertEqual(
            completions(["attach"], str(HERE.parent / "leafrunt_h")),
            [f"{HERE.parent}/leafrunt_host/"],
        )
        self.assertEqual(completions(["capture"], "of"), ["off"])

    def test_help(self) -> None:
        """Each word that the console knows has its line."""
        lines = help_lines()
        for each in ("attach PATH", "table", "status", "capture FILE", "quit"):
            self.assertTrue(any(line.startswith(f"{each} ") for line in lines), each)

    def test_statuses(self) -> None:
        """Of the first line that isn't done, as `routerd`'s own commands have them."""
        for answers, status in (
            ([["attached veto bound 5"], ["end"]], 0),
            ([["refused slot 0 rule 4"], ["end"]], 1),
            ([["object refusal 1"]], 1),
            ([["unknown"]], 1),
            ([["refused 4"], ["cannot read /x"]], 1),
            ([["originated"], ["cannot read /x"], ["refused 4"]], 3),
            ([["out of memory"]], 4),
            ([["refused: the box is ending"]], 1),
            ([["failed: x"]], 3),
        ):
            given = iter(answers)
            client = mock.Mock(spec=Client, ask=lambda _line: next(given))
            with self.subTest(answers), contextlib.redirect_stdout(io.StringIO()), contextlib.redirect_stderr(io.StringIO()):
                self.assertEqual(run(client, ["x"] * len(answers)), status)

    def test_what_is_no_text(self) -> None:
        """It's a line that the box doesn't know, and the next one is read."""
        client = mock.Mock(spec=Client, ask=lambda line: [f"asked {line}"])
        given = io.TextIOWrapper(io.BytesIO(b"\xff\ntable\n"), encoding="utf-8")
        with mock.patch("sys.stdin", given), contextlib.redirect_stdout(io.StringIO()) as said:
            run(client, [])
        self.assertEqual(said.getvalue(), "asked \ufffd\nasked table\n")


if __name__ == "__main__":
    unittest.main()
