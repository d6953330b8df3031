"""`leafrunt demo`: it becomes the demo of the package or of the clone."""
import contextlib
import io
import sys
import tempfile
import unittest
from pathlib import Path
from unittest import mock

from leafrunt_host import version
from leafrunt_host.commands import main


class Demo(unittest.TestCase):
    def test_it_becomes_the_demo(self) -> None:
        with mock.patch("os.execv") as became:
            main(["demo"])
        program, words = became.call_args.args
        self.assertEqual((program, words[0]), (sys.executable, sys.executable))
        self.assertTrue(Path(words[1]).is_file())

    def test_without_one_it_says_so(self) -> None:
        with tempfile.TemporaryDirectory() as room, mock.patch.object(version, "HOST", Path(room, "host")):
            with contextlib.redirect_stderr(io.StringIO()) as said:
                self.assertEqual(main(["demo"]), 3)
        self.assertIn("isn't there", said.getvalue())
