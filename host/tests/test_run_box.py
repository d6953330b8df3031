"""A test that is killed leaves no box behind."""
import os
import subprocess
import sys
import time
import unittest
from pathlib import Path

CHILD = (
    "import sys, time; sys.path.insert(0, sys.argv[1]); from tests.run_box import end_with_parent; "
    "end_with_parent(); print('ready', flush=True); time.sleep(60)"
)
PARENT = (
    "import subprocess, sys, time; words = [sys.executable, '-c', sys.argv[1], sys.argv[2]]; "
    "child = subprocess.Popen(words, stdout=subprocess.PIPE); child.stdout.readline(); "
    "print(child.pid, flush=True); time.sleep(60)"
)


def is_running(process: int) -> bool:
    """Whether it is there, and not only its status."""
    try:
        return Path(f"/proc/{process}/stat").read_text().rpartition(") ")[2][0] != "Z"
    except FileNotFoundError:
        return False


class RunBox(unittest.TestCase):
    def test_it_ends_where_its_parent_is_killed(self) -> None:
        words = [sys.executable, "-c", PARENT, CHILD, str(Path(__file__).parents[1])]
        environment = {**os.environ, "PYTHONDONTWRITEBYTECODE": "1"}
        parent = subprocess.Popen(words, stdout=subprocess.PIPE, text=True, env=environment)
        with parent, parent.stdout:  # type: ignore[union-attr]
            child = int(parent.stdout.readline())  # type: ignore[union-attr]
            self.assertTrue(is_running(child))
            parent.kill()
            until = time.monotonic() + 20
            while is_running(child) and time.monotonic() < until:
                time.sleep(0.05)
        self.assertFalse(is_running(child))
