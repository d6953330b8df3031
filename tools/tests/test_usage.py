"""Each tool says what it is for when asked, and refuses what it doesn't know, before it does anything."""
import os
import pathlib
import subprocess
import tempfile
import unittest

TOP = pathlib.Path(__file__).resolve().parent.parent.parent


def commands() -> list[pathlib.Path]:
    return [*(it for it in sorted((TOP / "tools").iterdir()) if it.is_file()), TOP / "demo", TOP / "check"]


def ran(command: pathlib.Path, word: str) -> subprocess.CompletedProcess[str]:
    return subprocess.run([command, word], cwd=TOP, stdin=subprocess.DEVNULL, capture_output=True, text=True, timeout=120)


class Usage(unittest.TestCase):
    def test_help_is_printed_with_status_0(self) -> None:
        for command in commands():
            for word in ("--help", "-h"):
                with self.subTest(command=command.name, word=word):
                    said = ran(command, word)
                    self.assertEqual(said.returncode, 0, said.stderr)
                    self.assertIn("usage", said.stdout.lower())

    def test_a_flag_that_is_not_known_is_refused_with_status_2(self) -> None:
        for command in commands():
            with self.subTest(command=command.name):
                said = ran(command, "--no-such-flag")
                self.assertEqual((said.returncode, said.stdout), (2, ""))
                self.assertNotEqual(said.stderr, "")
                self.assertNotIn("Traceback", said.stderr)

    def test_a_file_that_is_not_there_is_told_before_anything_is_done(self) -> None:
        for words in (["try-elf", "/nowhere"], ["try-elf", "/bin/true", "/nowhere"], ["try-hooktool", "/nowhere"],
                      ["try-package", "/nowhere"], ["check-answers", "/nowhere"], ["check-names", "/nowhere"]):
            with self.subTest(words=words), tempfile.TemporaryDirectory() as room:
                said = subprocess.run([TOP / "tools" / words[0], *words[1:]], cwd=room, env={**os.environ, "TMPDIR": room},
                                      stdin=subprocess.DEVNULL, capture_output=True, text=True, timeout=120)
                self.assertEqual((said.returncode, said.stdout), (2, ""), said.stderr)
                self.assertIn("/nowhere", said.stderr.splitlines()[-1])
                self.assertNotIn("Traceback", said.stderr)
                self.assertEqual(os.listdir(room), [])

    def test_a_crate_that_is_none_is_told_by_no_traceback(self) -> None:
        with tempfile.TemporaryDirectory() as room:
            said = subprocess.run([TOP / "tools/check-crate", "elves"], cwd=room, stdin=subprocess.DEVNULL, capture_output=True,
                                  text=True, timeout=120)
        self.assertEqual((said.returncode, said.stdout, said.stderr), (1, "", "check-crate: elves is no crate of crates.txt\n"))


if __name__ == "__main__":
    unittest.main()
