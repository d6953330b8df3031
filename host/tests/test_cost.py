"""`try-cost` runs, and its figures are there; what they are is no test's, since it is time."""
import subprocess
import sys
import unittest
from pathlib import Path

PROGRAM = Path(__file__).resolve().parents[1] / "try-cost"


class Costs(unittest.TestCase):
    def run_it(self, *words: str) -> tuple[int, str]:
        ran = subprocess.run(
            [sys.executable, str(PROGRAM), *words],
            capture_output=True,
            text=True,
            timeout=120,
            check=False,
        )
        return ran.returncode, ran.stdout + ran.stderr

    def test_figures(self) -> None:
        status, said = self.run_it("--routes", "50")
        self.assertIn(status, (0, 1))
        for words in ("load of 50 routes: ", "one of 50 changes", "at rest with 50: ", "50 routes move", "50 static"):
            self.assertIn(words, said)

    def test_wrong_words(self) -> None:
        self.assertEqual(self.run_it("--routes", "0")[0], 2)
        self.assertEqual(self.run_it("--pyroute2")[0], 2)


if __name__ == "__main__":
    unittest.main()
