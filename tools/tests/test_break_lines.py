"""tools/break-lines: what it breaks, and that the file reads as before."""
import pathlib
import subprocess
import tempfile
import unittest

TOOL = pathlib.Path(__file__).resolve().parent.parent / "break-lines"

LONG = """-- What is kept.
use Rattle.std.proofs.Common.{◌≡◌, ◌≢◌, ◌⊎◌, inl, inr, ℕ, zero, suc, ◌+◌, ◌≤◌, List, [], ◌∷◌, length, refl, sym}

pub kept : (first second : ℕ) (list : List ℕ) → first ≡ second → length list ≡ first
    → length list ≡ second → first ∷ list ≡ second ∷ list → length (first ∷ list) ≡ length (second ∷ list)
kept first second list is of_first of_second both = record { first = is; second = of_second; third = both; fourth = of_first }
"""


class BreakLines(unittest.TestCase):
    def setUp(self):
        self.room = tempfile.TemporaryDirectory()
        self.addCleanup(self.room.cleanup)
        self.file = pathlib.Path(self.room.name) / "Kept.antt"

    def run_on(self, text, *words):
        self.file.write_text(text)
        return subprocess.run([TOOL, *words, self.file], capture_output=True, text=True)

    def test_long_lines_are_broken_and_nothing_else_changes(self):
        ran = self.run_on(LONG)
        after = self.file.read_text()
        self.assertEqual(ran.returncode, 0, ran.stderr)
        self.assertIn("3 lines, 0 left", ran.stdout)
        self.assertTrue(all(len(line) <= 100 for line in after.split("\n")), after)
        for line in (
            "use Rattle.std.proofs.Common.{length, refl, sym}",
            "    → length list ≡ second → first ∷ list ≡ second ∷ list",
            "  fourth = of_first;",
        ):
            self.assertIn(line, after.split("\n"))

    def test_a_second_run_changes_nothing(self):
        self.run_on(LONG)
        once = self.file.read_text()
        self.assertEqual(self.run_on(once).stdout, "")
        self.assertEqual(self.file.read_text(), once)

    def test_short_lines_stay_as_they_are(self):
        short = "-- Short.\nuse Rattle.std.proofs.Common.{ℕ}\n\none : ℕ\none = 1\n"
        self.assertEqual(self.run_on(short).returncode, 0)
        self.assertEqual(self.file.read_text(), short)

    def test_check_names_the_file_and_writes_nothing(self):
        ran = self.run_on(LONG, "--check")
        self.assertEqual(ran.returncode, 1)
        self.assertIn("3 lines of more than 100 columns", ran.stdout)
        self.assertEqual(self.file.read_text(), LONG)

    def test_what_does_not_parse_is_left(self):
        wrong = LONG.replace("length list ≡ first\n", "length list ≡ (first\n")
        ran = self.run_on(wrong)
        self.assertEqual(ran.returncode, 2)
        self.assertIn("don't parse: nothing was written", ran.stderr)
        self.assertEqual(self.file.read_text(), wrong)


if __name__ == "__main__":
    unittest.main()
