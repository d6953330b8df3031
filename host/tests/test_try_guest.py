"""`try-guest` and `try-systemd`: what they put into the guest, what is made of the guest's lines, and
what they can't run without."""
from __future__ import annotations

import contextlib
import importlib.machinery
import importlib.util
import io
import subprocess
import sys
import tempfile
import unittest
from pathlib import Path
from unittest import mock

HOST = Path(__file__).resolve().parent.parent
PROGRAM, OTHER = HOST / "try-guest", HOST / "try-systemd"


def loaded(program: Path):  # type: ignore[no-untyped-def]
    """The program as a module."""
    name = program.name.replace("-", "_")
    loader = importlib.machinery.SourceFileLoader(name, str(program))
    module = importlib.util.module_from_spec(importlib.util.spec_from_loader(name, loader))
    loader.exec_module(module)
    return module


try_guest, try_systemd = loaded(PROGRAM), loaded(OTHER)


class Guests(unittest.TestCase):
    def setUp(self) -> None:
        room = tempfile.TemporaryDirectory()
        self.addCleanup(room.cleanup)
        self.folder = Path(room.name)
        self.kernel = self.folder / "kernel"
        (self.kernel / "boot").mkdir(parents=True)
        (self.kernel / "boot/vmlinuz-6").write_text("")
        for each in try_guest.MODULES.split():
            (self.kernel / f"{each}.ko").write_text(each)
        (self.folder / "busybox").write_text("")

    def test_the_first_root(self) -> None:
        with mock.patch.object(try_guest, "BUSYBOX", str(self.folder / "busybox")):
            try_guest.made_root(self.folder / "root", self.kernel, "cd /x && 'a  b'")
        self.assertEqual((self.folder / "root/command").read_text(), "cd /x && 'a  b'")
        self.assertEqual((self.folder / "root/modules/vrf.ko").read_text(), "vrf")
        self.assertTrue((self.folder / "root/init").stat().st_mode & 0o100)

    def test_the_first_root_for_systemd(self) -> None:
        """Its last step is systemd, of which the command is a service."""
        with mock.patch.object(try_guest, "BUSYBOX", str(self.folder / "busybox")):
            try_guest.made_root(self.folder / "root", self.kernel, "echo 1", try_guest.SYSTEMD)
        init = (self.folder / "root/init").read_text()
        self.assertTrue(init.endswith("exec switch_root /upper/root /sbin/init\n"))
        self.assertIn(try_guest.ENDED, (self.folder / "root/service").read_text())
        self.assertTrue((self.folder / "root/bin/switch_root").is_symlink())

    def test_a_tree_with_a_box(self) -> None:
        """What docs/use/HOST.md has copied, again over what is there; started at boot."""
        tree, routerd = self.folder / "tree", self.folder / "routerd"
        routerd.write_text("routerd")
        for each in ("usr/local/bin", "usr/local/lib", "etc/systemd/system"):
            (tree / each).mkdir(parents=True)
        for _ in range(2):
            try_systemd.installed(tree, routerd)
        self.assertEqual((tree / "usr/local/bin/routerd").stat().st_mode & 0o777, 0o755)
        self.assertEqual((tree / "etc/leafrunt/keys.toml").stat().st_mode & 0o777, 0o600)
        self.assertTrue((tree / try_systemd.PLACE / "tests/try_systemd.py").exists())
        self.assertTrue((tree / "etc/systemd/system/leafrunt@.service").exists())
        wanted = tree / "etc/systemd/system/multi-user.target.wants/leafrunt@north.service"
        self.assertTrue(wanted.is_symlink())

    def test_files_that_are_not_there(self) -> None:
        (self.kernel / "vrf.ko").unlink()
        (self.kernel / "boot/vmlinuz-7").write_text("")
        for pattern, count in (("vrf.ko", "no"), ("vmlinuz-*", "2")):
            with self.assertRaisesRegex(try_guest.CannotRun, f"has {count} files {pattern[:4]}"):
                try_guest.only(self.kernel, pattern)

    def said(self, text: str, seconds: float = 60) -> tuple[int, str]:
        """Status, and what is printed, of a guest that prints a text, and then waits."""
        rest = 60 if seconds < 60 else 0
        program = f"import time; print({text!r}, flush=True); time.sleep({rest})"
        guest = subprocess.Popen([sys.executable, "-c", program], stdout=-1, text=True)
        with contextlib.redirect_stdout(io.StringIO()) as printed:
            return try_guest.shown(guest, seconds), printed.getvalue()

    def test_what_the_command_prints(self) -> None:
        begins, ended = try_guest.BEGINS, try_guest.ENDED
        for text, wanted in (
            (f"BIOS\n\x1b[2J{begins}\r\none\ntwo\n{ended}7\r\nout", (7, "one\ntwo\n")),
            (f"{begins}\none", (3, "one\n")),
            (f"one\n{ended}x", (3, "")),
        ):
            with self.subTest(text):
                self.assertEqual(self.said(text), wanted)

    def test_one_that_does_not_end(self) -> None:
        self.assertEqual(self.said(f"{try_guest.BEGINS}\none", 2), (3, "one\n"))

    def test_wrong_words(self) -> None:
        kernel = ["--kernel", str(self.folder)]
        for program in (PROGRAM, OTHER):
            for words, status in (([], 2), (kernel, 2), (["--help"], 0)):
                ran = subprocess.run(
                    [sys.executable, str(program), *words], capture_output=True, timeout=60, check=False
                )
                self.assertEqual(ran.returncode, status)
                self.assertNotIn(b"Traceback", ran.stderr)


if __name__ == "__main__":
    unittest.main()
