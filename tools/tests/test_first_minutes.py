"""What a newcomer meets first: tools/quick-build, tools/check-kit and ./demo, where something lacks or is wrong."""
import os
import pathlib
import subprocess
import sys
import tempfile
import unittest

TOP = pathlib.Path(__file__).resolve().parent.parent.parent


def run(*words: str, rt: str | None = None) -> subprocess.CompletedProcess:
    """Runs a command of the repository with a stand-in for the kit's rt on PATH, or with none."""
    with tempfile.TemporaryDirectory() as room:
        if rt is not None:
            pathlib.Path(room, "rt").write_text(f"#!/bin/sh\n{rt}\n")
            pathlib.Path(room, "rt").chmod(0o755)
        for name in ("env", "python3"):
            os.symlink("/usr/bin/env" if name == "env" else sys.executable, f"{room}/{name}")
        command = [sys.executable, str(TOP / words[0]), *words[1:]]
        return subprocess.run(command, env={"PATH": room}, stdin=subprocess.DEVNULL, capture_output=True, text=True)


class TestKit(unittest.TestCase):
    def test_no_kit_is_told(self) -> None:
        ran = run("tools/check-kit")
        self.assertEqual(ran.returncode, 3)
        self.assertIn("isn't on PATH", ran.stderr)

    def test_another_version_of_the_same_logic(self) -> None:
        ran = run("tools/check-kit", rt="echo rattle-kit-99z logic dac8208d650f15bf")
        self.assertEqual(ran.returncode, 0)
        self.assertIn("README.md names rattle-kit-", ran.stdout)
        self.assertIn("Its logic is the same", ran.stdout)

    def test_another_logic(self) -> None:
        ran = run("tools/check-kit", rt="echo rattle-kit-99z logic 0123456789abcdef")
        self.assertEqual(ran.returncode, 0)
        self.assertIn("Its logic is another one", ran.stdout)

    def test_a_command_that_tells_no_version(self) -> None:
        ran = run("tools/check-kit", rt="exit 1")
        self.assertEqual(ran.returncode, 0)
        self.assertIn("kit: unknown", ran.stdout)


class TestQuickBuild(unittest.TestCase):
    def test_no_kit_is_told(self) -> None:
        ran = run("tools/quick-build")
        self.assertEqual((ran.returncode, ran.stdout), (3, ""))
        self.assertIn("isn't on PATH", ran.stderr)

    def test_a_kit_without_its_tools_is_told(self) -> None:
        ran = run("tools/quick-build", rt="exit 0")
        self.assertEqual((ran.returncode, ran.stdout), (3, ""))
        self.assertIn("has no bin/rtlib.py", ran.stderr)

    def test_another_name_is_told_with_those_that_are_there(self) -> None:
        ran = run("tools/quick-build", "router")
        self.assertEqual(ran.returncode, 2)
        self.assertIn("bench, hooktool, routerd, simulation", ran.stderr)

    def test_one_file_for_two_programs(self) -> None:
        ran = run("tools/quick-build", "routerd", "hooktool", "-o", "x")
        self.assertEqual(ran.returncode, 2)
        self.assertIn("of one program", ran.stderr)


class TestDemo(unittest.TestCase):
    def test_a_router_that_ends_is_told(self) -> None:
        ran = run("demo", "--object", "--routerd", "/bin/true")
        self.assertEqual(ran.returncode, 1)
        self.assertIn("router one", ran.stderr)

    def test_no_such_program(self) -> None:
        ran = run("demo", "--routerd", "/no/such/file")
        self.assertEqual(ran.returncode, 2)
        self.assertIn("/no/such/file", ran.stderr)

    def test_help_needs_nothing(self) -> None:
        ran = run("demo", "--help")
        self.assertEqual(ran.returncode, 0)
        self.assertIn("./demo", ran.stdout)


if __name__ == "__main__":
    unittest.main()
