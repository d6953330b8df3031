"""tools/gate-progress: passes on all that the gate prints, and its status."""
import pathlib
import subprocess
import sys
import tempfile
import unittest

TOP = pathlib.Path(__file__).resolve().parent.parent.parent
TOOL = [sys.executable, str(TOP / "tools/gate-progress")]
LINES = "== isa\nrt: isa proved\nrt: isa: its tests are proved\nrt: asm NOT PROVED\nrt: FAILED: asm\n3 passed, 1 failed\n"


def run(script: str, *words: str) -> subprocess.CompletedProcess:
    return subprocess.run([*TOOL, *words, "sh", "-c", script], stdin=subprocess.DEVNULL, capture_output=True, text=True)


class TestGateProgress(unittest.TestCase):
    def test_all_is_passed_on_with_the_status(self) -> None:
        ran = run(f"printf '{LINES}'; exit 7", "--every", "1000")
        self.assertEqual((ran.stdout, ran.returncode), (LINES, 7))

    def test_how_far_it_is(self) -> None:
        parts = LINES.splitlines(True)
        begins, ends = "".join(parts[:4]), "".join(parts[4:])
        with tempfile.TemporaryDirectory() as room:
            # The second part comes once the first was told of, however long that takes.
            script = f"printf '{begins}'; until [ -e {room}/told ]; do sleep 0.1; done; printf '{ends}'"
            words = [*TOOL, "--every", "0.2", "sh", "-c", script]
            ran = subprocess.Popen(words, stdin=subprocess.DEVNULL, stdout=subprocess.PIPE, text=True)
            lines = []
            for line in ran.stdout:
                lines.append(line)
                if line.endswith("; last asm\n"):
                    pathlib.Path(room, "told").touch()
            self.assertEqual(ran.wait(), 0)
            ran.stdout.close()
        told = [it for it in lines if it.startswith("gate: ")]
        self.assertRegex(told[-1], r"^gate: 0 minutes: 1 of \d+ crates proved, 1 with tests, 1 FAILED: asm; last asm$")
        self.assertEqual("".join(it for it in lines if it not in told), LINES)
        self.assertEqual(lines[-1], parts[-1])

    def test_a_last_line_without_an_end_stays_the_last(self) -> None:
        ran = run("sleep 0.5; printf '1 passed, 0 failed'", "--every", "0.1")
        self.assertEqual(ran.stdout.splitlines(True)[-1], "1 passed, 0 failed")

    def test_bytes_that_are_no_text(self) -> None:
        ran = subprocess.run([*TOOL, "printf", r"\377\n"], stdin=subprocess.DEVNULL, capture_output=True)
        self.assertEqual((ran.stdout, ran.returncode), (b"\xff\n", 0))

    def test_a_signal_is_a_failure(self) -> None:
        self.assertEqual(run("kill -KILL $$").returncode, 137)

    def test_no_such_command(self) -> None:
        ran = subprocess.run([*TOOL, "no-such-command"], stdin=subprocess.DEVNULL, capture_output=True, text=True)
        self.assertEqual(ran.returncode, 127)
        self.assertIn("no-such-command", ran.stderr)

    def test_the_record(self) -> None:
        with tempfile.TemporaryDirectory() as room:
            run(f"printf '{LINES}'; exit 1", "--record", f"{room}/new/gate")
            rows = dict(it.split(": ", 1) for it in pathlib.Path(room, "new/gate").read_text().splitlines())
        self.assertEqual(rows["last line"], "3 passed, 1 failed")
        self.assertEqual(rows["status"], "1")
        self.assertEqual(set(rows), {"commit", "kit", "status", "minutes", "processors", "last line"})


if __name__ == "__main__":
    unittest.main()
