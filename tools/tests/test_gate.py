""".ci/run adds up what its steps came to, and a step that fails keeps no crate from being proved."""
import pathlib
import shutil
import subprocess
import tempfile
import unittest

TOP = pathlib.Path(__file__).resolve().parent.parent.parent


class Gate(unittest.TestCase):
    """.ci/run over stand-ins for its steps."""

    def ran(self, **steps: str) -> tuple[int, list[str]]:
        """Returns the status and the lines of a run whose steps are these texts of sh."""
        texts = {"check": "echo '5 passed, 0 failed, 1 skipped'", "tools/check-kit": "echo kit", "tools/gate-progress": "echo '83 passed, 0 failed'",
                 "tools/try-anywhere": "echo '2 passed, 0 failed, 0 skipped'",
                 "tools/try-edits": "grep -q '83 passed' $2 && echo '19 wrong bodies refused, 0 not'", "docs/work/GATE.md": ""} | steps
        with tempfile.TemporaryDirectory() as room:
            for name, text in texts.items():
                file = pathlib.Path(room, name)
                file.parent.mkdir(parents=True, exist_ok=True)
                file.write_text(f"#!/bin/sh\n{text}\n")
                file.chmod(0o755)
            pathlib.Path(room, ".ci").mkdir()
            shutil.copy(TOP / ".ci/run", f"{room}/.ci/run")
            ran = subprocess.run(["bash", ".ci/run"], cwd=room, stdin=subprocess.DEVNULL, capture_output=True, text=True, timeout=60)
            return ran.returncode, ran.stdout.splitlines()

    def test_its_last_line_adds_up_all_steps(self) -> None:
        status, lines = self.ran()
        self.assertEqual((status, lines[-1]), (0, "95 passed, 0 failed, 2 skipped"))

    def test_a_step_that_failed_keeps_no_crate_from_being_proved(self) -> None:
        for said, last in (("echo '4 passed, 2 failed, 0 skipped'; exit 1", "89 passed, 2 failed, 0 skipped"), ("exit 1", "85 passed, 1 failed, 0 skipped")):
            status, lines = self.ran(check=f'[ "$1" = --gate ] || exit 0; {said}')
            self.assertEqual((status, lines[-1]), (1, last))
            self.assertIn("gate: FAILED: ./check", lines)
            self.assertIn("83 passed, 0 failed", lines)

    def test_a_proof_that_failed_is_counted(self) -> None:
        for said, last in (("echo '80 passed, 3 failed'; exit 1", "87 passed, 3 failed, 1 skipped"), ("exit 2", "7 passed, 1 failed, 1 skipped")):
            status, lines = self.ran(**{"tools/gate-progress": said})
            self.assertEqual((status, lines[-1]), (1, last))

    def test_a_wrong_body_that_no_goal_refused_is_counted(self) -> None:
        status, lines = self.ran(**{"tools/try-edits": "echo '18 wrong bodies refused, 1 not'; exit 1"})
        self.assertEqual((status, lines[-1]), (1, "95 passed, 1 failed, 2 skipped"))
        self.assertIn("gate: FAILED: wrong bodies", lines)

    def test_without_a_kit_nothing_is_begun(self) -> None:
        status, lines = self.ran(**{"tools/check-kit": "exit 3"})
        self.assertEqual((status, lines), (3, ["0 passed, 1 failed, 0 skipped"]))


if __name__ == "__main__":
    unittest.main()
