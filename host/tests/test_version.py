"""`leafrunt --version`: in a package, in a clone, and in a bare copy."""
from __future__ import annotations

import subprocess
import sys
import tempfile
import unittest
from pathlib import Path

from leafrunt_host.version import version_text

HOST = Path(__file__).resolve().parent.parent


class TestVersion(unittest.TestCase):
    def setUp(self) -> None:
        held = tempfile.TemporaryDirectory()
        self.addCleanup(held.cleanup)
        self.top = Path(held.name)
        self.host = self.top / "host"
        self.host.mkdir()

    def git(self, *words: str) -> None:
        who = ["-c", "user.name=x", "-c", "user.email=x@example"]
        subprocess.run(["git", "-C", str(self.top), *who, *words], check=True, capture_output=True)

    def clone(self) -> None:
        (self.top / "crates.txt").write_text("isa:\n")
        (self.top / "VERSION").write_text("7.8.9\n")

    def test_a_package_says_what_its_file_has(self) -> None:
        (self.host / "version").write_text("version: 7.8.9\ncommit: 0123\nprograms: proved\n")
        self.assertEqual(
            version_text(self.host), "leafrunt 7.8.9\ncommit: 0123\nprograms: proved"
        )

    def test_a_bare_copy_knows_nothing(self) -> None:
        self.assertTrue(version_text(self.host).startswith("leafrunt unknown: "))

    def test_a_clone_without_git(self) -> None:
        self.clone()
        said = version_text(self.host).splitlines()
        self.assertEqual(said[0], "leafrunt 7.8.9")
        self.assertIn("gate: not run in this clone (.ci/run)", said)

    def test_a_clone_whose_gate_was_of_another_commit(self) -> None:
        self.clone()
        self.git("init", "-q")
        self.git("add", "-A")
        self.git("commit", "-qm", "x")
        (self.top / "build").mkdir()
        rows = "commit: 0123\nkit: a-kit\nlast line: 3 passed, 0 failed\n"
        (self.top / "build/gate").write_text(rows)
        said = version_text(self.host)
        self.assertRegex(said, r"commit: [0-9a-f]{12}\n")
        self.assertIn("kit: a-kit\ngate: 3 passed, 0 failed (of commit 0123)", said)
        (self.top / "VERSION").write_text("8.0.0\n")
        self.assertRegex(version_text(self.host), r"commit: [0-9a-f]{12}\+changes\n")

    def test_the_command(self) -> None:
        words = [sys.executable, str(HOST / "leafrunt"), "--version"]
        ran = subprocess.run(words, capture_output=True, text=True, check=False)
        self.assertEqual(ran.returncode, 0, ran.stderr)
        self.assertTrue(ran.stdout.startswith("leafrunt "))


if __name__ == "__main__":
    unittest.main()
