"""What tests of threads share."""
from __future__ import annotations

import time
import unittest
from collections.abc import Callable


class Waits(unittest.TestCase):
    """Cases in which another thread does what is looked for."""

    def wait(self, is_so: Callable[[], object]) -> None:
        until = time.monotonic() + 60
        while not is_so():
            self.assertLess(time.monotonic(), until)
            time.sleep(0.01)
