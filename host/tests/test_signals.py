"""Signals that come one upon the other, where a handler is interrupted by the next one's."""
from __future__ import annotations

import os
import signal
import subprocess
import time
import unittest

from tests.test_box import Boxes, within

SECONDS = 1.0
ANNOUNCE = '[[announce]]\nprefix = "10.1.0.0/16"\nmetric = 5\n'


def flooded(box: subprocess.Popen[str], number: signal.Signals) -> int:
    """Sends it as often as it can for a second, or until the box has ended; how often."""
    until, sent = time.monotonic() + SECONDS, 0
    while time.monotonic() < until and box.poll() is None:
        for _ in range(100):
            os.kill(box.pid, number)
            sent += 1
    return sent


class OneUponTheOther(Boxes):
    def test_sighup(self) -> None:
        """The file is read again after the last one, and the box goes on and ends in order."""
        box, client = self.up(), self.client()
        with open(self.folder / "one.toml", "a", encoding="utf-8") as file:
            file.write(ANNOUNCE)
        self.assertGreater(flooded(box, signal.SIGHUP), 1000)
        wanted = ["10.1.0.0/16 5 2 0 originated configuration", "end"]
        self.assertTrue(within(30, lambda: client.ask("announced") == wanted))
        box.send_signal(signal.SIGTERM)
        status, log = self.ended(box)
        self.assertEqual(status, 0, log)
        self.assertIn("SIGHUP: the configuration is read again", log)
        self.assertNotIn("mistake", log)

    def test_sigterm(self) -> None:
        """The second one hurries the end; no number of them hinders it."""
        box = self.up()
        flooded(box, signal.SIGTERM)
        status, log = self.ended(box)
        self.assertEqual(status, 0, log)
        self.assertNotIn("mistake", log)


if __name__ == "__main__":
    unittest.main()
