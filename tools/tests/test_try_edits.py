"""tools/try-edits: --list and --fit over the edits as they stand; what rt's lines say of an edit, and of those of the gate."""
import contextlib
import io
import pathlib
import re
import subprocess
import sys
import tempfile
import unittest
from unittest import mock

from loading import tool

TOP = pathlib.Path(__file__).resolve().parent.parent.parent
GOAL = "refused, as it must be: note: src/lib.rt:3:1: it is not proved that what the function ensures holds when it returns (`returns`)"


def listed(*words: str) -> subprocess.CompletedProcess:
    return subprocess.run([sys.executable, TOP / "tools/try-edits", "--list", *words], capture_output=True, text=True)


class TestList(unittest.TestCase):
    def test_a_row_for_each_room_and_their_sums(self) -> None:
        ran = listed()
        self.assertEqual((ran.returncode, ran.stderr), (0, ""))
        rows = [re.findall(r"[^|]+", line) for line in ran.stdout.splitlines()[2:]]
        *rooms, whole = [[it.strip() for it in row if it.strip()] for row in rows]
        sums = [sum(int(room[at]) for room in rooms) for at in range(1, 5)]
        self.assertEqual([int(it) for it in whole[1:]], sums)
        mutants = [it.read_text().split("\n")[0] for it in TOP.glob("crates/*/mutants/*.edit")]
        self.assertEqual(sums[1], len(list(TOP.glob("crates/*/must-fail/*.edit"))))
        self.assertEqual(sums[2], mutants.count("tried by: a check of the crate"))

    def test_the_edits_of_a_crate(self) -> None:
        ran = listed("lsdb")
        self.assertEqual((ran.returncode, ran.stderr), (0, ""))
        lines = ran.stdout.splitlines()
        self.assertEqual(len(lines), len(list(TOP.glob("crates/lsdb/m*/*.edit"))))
        self.assertTrue(all(re.fullmatch(r"lsdb/(must-fail|mutants)/\w+: \w+/.+", it) for it in lines), lines)
        self.assertIn("lsdb/must-fail/sequence_numbers_are_compared_as_unsigned: src/order.rt", lines)

    def test_no_such_crate(self) -> None:
        ran = listed("elves")
        self.assertEqual(ran.returncode, 2)
        self.assertIn("there is no crate elves", ran.stderr)


class TestFit(unittest.TestCase):
    def test_each_edit_fits_the_code(self) -> None:
        ran = subprocess.run([sys.executable, TOP / "tools/try-edits", "--fit", "--all"], capture_output=True, text=True)
        self.assertEqual((ran.returncode, ran.stderr), (0, ""), ran.stdout)


class TestLines(unittest.TestCase):
    """Crates of edits in a folder, and what rt is to have printed of them."""

    def setUp(self) -> None:
        room = tempfile.TemporaryDirectory()
        self.addCleanup(room.cleanup)
        self.top = pathlib.Path(room.name)
        for kind in ("must-fail", "mutants"):
            (self.top / "crates/low" / kind).mkdir(parents=True)
        (self.top / "crates/low/src").mkdir()
        (self.top / "crates/low/src/lib.rt").write_text("pub fn one() -> u32 {\n    1\n}\n")
        self.edit("must-fail/one_is_two", "file: src/lib.rt\nold:     1\nnew:     2\n")
        self.edit("mutants/one_is_three", "tried by: a check of the crate\nfile: src/lib.rt\nold:     1\nnew:     3\n")
        self.edit("mutants/one_is_text", "tried by: the compiler\nerror: mismatched-types\nfile: src/lib.rt\nold:     1\nnew:     \"1\"\n")

    def edit(self, name: str, text: str) -> None:
        (self.top / f"crates/low/{name}.edit").write_text(text)

    def ran(self, *words: str) -> tuple[int, str]:
        """Returns the status of the tool over these crates, and what it prints."""
        ours, printed = tool("try-edits"), io.StringIO()
        ours.TOP = str(self.top)
        with mock.patch("sys.argv", ["try-edits", *words]), contextlib.redirect_stdout(printed):
            return ours.main(), printed.getvalue()

    def gate(self, *lines: str) -> tuple[int, str]:
        (self.top / "said").write_text("".join(f"{it}\n" for it in ("rt: low proved", *lines, "1 passed, 0 failed")))
        return self.ran("--said", str(self.top / "said"))

    def test_what_a_goal_refuses_is_refused(self) -> None:
        self.assertEqual(self.gate(f"rt: must-fail low/one_is_two.edit: {GOAL}"), (0, "1 wrong bodies refused, 0 not\n"))

    def test_the_gate_fails_for_each_edit_that_no_goal_refused(self) -> None:
        by_limit = "refused, as it must be (only by a limit of the prover, which gave no verdict, ..): src/lib.rt:2:1: error"
        by_name = "refused, as it must be (only because a proof file names what the edit took away, ..): ./proofs/one/Answers.antt:4:5: error"
        bad = "BAD EDIT: an 'old:' text is in src/lib.rt 0 times, and not once"
        for said in (by_limit, by_name, bad, "NOT REFUSED: the crate is still proved with this edit", "refused, as it must be", "NOT TRIED: its check was killed"):
            with self.subTest(said=said):
                status, printed = self.gate(f"rt: must-fail low/one_is_two.edit: {said}")
                self.assertEqual(status, 1)
                self.assertIn(f"low/must-fail/one_is_two.edit: must-fail low/one_is_two.edit: {said}\n", printed)
                self.assertIn("0 wrong bodies refused, 1 not\n", printed)

    def test_the_gate_fails_for_an_edit_of_which_rt_says_nothing(self) -> None:
        status, printed = self.gate()
        self.assertEqual((status, printed.splitlines()[-1]), (1, "0 wrong bodies refused, 1 not"))
        self.assertIn("low/must-fail/one_is_two.edit: rt ci reports nothing on it", printed)

    def test_the_gate_fails_where_no_crate_has_a_wrong_body(self) -> None:
        (self.top / "crates/low/must-fail/one_is_two.edit").unlink()
        self.assertEqual(self.gate(), (1, "0 wrong bodies refused, 0 not\n"))

    def test_the_prover_tries_all_but_those_of_the_compiler(self) -> None:
        ours = tool("try-edits")
        ours.TOP = str(self.top)
        self.assertEqual(ours.for_prover("low"), ["must-fail/one_is_two.edit", "mutants/one_is_three.edit"])

    def test_a_mutant_says_first_who_tries_it(self) -> None:
        self.assertEqual(self.ran("--fit", "--all"), (0, "3 edits fit their files, 0 not\n"))
        self.edit("mutants/one_is_four", "file: src/lib.rt\nold:     1\nnew:     4\n")
        status, printed = self.ran("--fit", "low")
        self.assertEqual((status, printed.splitlines()[-1]), (1, "3 edits fit their files, 1 not"))
        self.assertIn("low/mutants/one_is_four.edit: its first line isn't 'tried by: a check of the crate' or", printed)

    def test_an_edit_whose_text_is_gone_does_not_fit(self) -> None:
        (self.top / "crates/low/src/lib.rt").write_text("pub fn one() -> u32 {\n    7\n}\n")
        status, printed = self.ran("--fit", "--all")
        self.assertEqual((status, printed.splitlines()[-1]), (1, "0 edits fit their files, 3 not"))


if __name__ == "__main__":
    unittest.main()
