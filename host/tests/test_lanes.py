"""Parts that are played side by side, by programs that stand in for `try-network`'s own."""
from __future__ import annotations

import contextlib
import io
import os
import signal
import subprocess
import sys
import tempfile
import threading
import time
import unittest
from pathlib import Path

from tests import lanes
from tests.network import Looks, within

HOST = Path(__file__).resolve().parent.parent
PART = """
import os, signal, sys, time
folder, part = sys.argv[1:]
def ended(*_):
    open(f"{folder}/{part}.removed", "w").close()
    sys.exit(2)
signal.signal(signal.SIGTERM, ended)
with open(f"{folder}/order", "a") as it:
    print("begun", part, flush=True, file=it)
print(f"== {part}", flush=True)
if part == "crashes":
    os.kill(os.getpid(), signal.SIGKILL)
if part == "endless":
    open(f"{folder}/endless.pid", "w").write(str(os.getpid()))
    time.sleep(60)
_, is_after, other = part.partition("-until-")
other, _, times = other.partition("-")
last = time.monotonic() + 10
while is_after and open(f"{folder}/order").read().count(f"ended {other}\\n") < int(times or 1):
    if time.monotonic() > last:
        break
    time.sleep(0.05)
print(f"yes  {part}: looked at")
if part.startswith("bad"):
    print(f"NO   {part}: never")
print("1 looks as they must be, 0 not, in 0 s at a mean load of 0.0")
with open(f"{folder}/order", "a") as it:
    print("ended", part, flush=True, file=it)
sys.exit(part.startswith("bad"))
"""
ALONE = """
import sys
from tests import lanes
folder = sys.argv[1]
lanes.played(["endless"], lambda part: [sys.executable, "-c", sys.argv[2], folder, part], 2, 1)
"""


class Lanes(unittest.TestCase):
    def setUp(self) -> None:
        room = tempfile.TemporaryDirectory()
        self.addCleanup(room.cleanup)
        self.folder = Path(room.name)

    def words(self, part: str) -> list[str]:
        return [sys.executable, "-c", PART, str(self.folder), part]

    def played(self, parts: list[str], most: int, times: int = 1) -> tuple[bool, list[str]]:
        """Whether all was good, and what was said."""
        said = io.StringIO()
        with contextlib.redirect_stdout(said):
            is_well = lanes.played(parts, self.words, most, times)
        return is_well, said.getvalue().splitlines()

    def order(self) -> list[str]:
        return (self.folder / "order").read_text().splitlines()

    def test_side_by_side(self) -> None:
        """What a part says stands together, and one that ended makes room for the next."""
        is_well, said = self.played(["long-until-b", "a", "b"], 2)
        self.assertTrue(is_well)
        parts = {(f"== {part}", f"yes  {part}: looked at") for part in ("a", "b", "long-until-b")}
        self.assertEqual(set(zip(said[:-1:2], said[1:-1:2])), parts)
        self.assertRegex(said[-1], r"^3 looks as they must be, 0 not, in \d+ s at a mean load of")
        order = [each for each in self.order() if each != "begun long-until-b"]
        wanted = ["begun a", "ended a", "begun b", "ended b", "ended long-until-b"]
        self.assertEqual(order, wanted)

    def test_no_more_than_asked_for(self) -> None:
        self.played(["a", "b", "c", "d", "e"], 2)
        running = most = 0
        for line in self.order():
            running += 1 if line.startswith("begun") else -1
            most = max(most, running)
        self.assertLessEqual(most, 2)

    def test_a_NO(self) -> None:
        is_well, said = self.played(["a", "bad", "b"], 3)
        self.assertFalse(is_well)
        self.assertIn("NO   bad: never", said)
        self.assertIn("3 looks as they must be, 1 not", said[-1])
        self.assertTrue(said[-1].endswith("; bad: never"))

    def test_a_part_that_is_killed(self) -> None:
        is_well, said = self.played(["crashes", "a"], 2)
        self.assertFalse(is_well)
        self.assertIn("NO   crashes is played to its end: status -9", said)

    def test_rounds(self) -> None:
        """A NO begins the count of those in a row anew."""
        is_well, said = self.played(["a", "long-until-b", "b"], 2, 3)
        self.assertTrue(is_well)
        rounds = [each for each in said if each.startswith("round")]
        said_of = [f"round {at} of 3: {at} in a row without a NO" for at in (1, 2, 3)]
        self.assertEqual(rounds, said_of)
        self.assertEqual(self.order().count("ended a"), 3)
        is_well, said = self.played(["bad", "a"], 2, 2)
        self.assertFalse(is_well)
        self.assertIn("round 2 of 2: 0 in a row without a NO", said)

    def test_a_lane_that_is_free(self) -> None:
        """A part of the next round begins there."""
        _, said = self.played(["a-until-b", "b"], 2, 2)
        order = self.order()
        self.assertLess(order.index("ended b"), order.index("ended a-until-b"))
        self.assertIn("round 2 of 2: 2 in a row without a NO", said)

    def test_no_part_beside_itself(self) -> None:
        """One that is still played for an earlier round isn't begun for the next."""
        self.played(["a-until-b-2", "b"], 2, 2)
        its = [each.split()[0] for each in self.order() if each.endswith("a-until-b-2")]
        self.assertEqual(its, ["begun", "ended"] * 2)

    def test_it_is_interrupted(self) -> None:
        """The parts are ended, and waited for until they have removed what they made; a second
        signal doesn't come between."""

        def interrupted(*_: object) -> None:
            raise KeyboardInterrupt

        def interrupt() -> None:
            pid = self.folder / "endless.pid"
            within(20, lambda: pid.exists() and pid.read_text())
            os.kill(os.getpid(), signal.SIGALRM)

        of_terminal = signal.getsignal(signal.SIGINT)
        before = signal.signal(signal.SIGALRM, interrupted)
        self.addCleanup(signal.signal, signal.SIGALRM, before)
        waits = threading.Thread(target=interrupt)
        self.addCleanup(waits.join)
        waits.start()
        with self.assertRaises(KeyboardInterrupt):
            self.played(["endless", "a"], 2)
        self.assertTrue((self.folder / "endless.removed").exists())
        self.assertIs(signal.getsignal(signal.SIGINT), of_terminal)

    def test_this_program_is_killed(self) -> None:
        words = [sys.executable, "-c", ALONE, str(self.folder), PART]
        pid, removed = self.folder / "endless.pid", self.folder / "endless.removed"
        with subprocess.Popen(words, cwd=HOST) as whole:
            self.assertIsNotNone(within(20, lambda: pid.exists() and pid.read_text()))
            whole.kill()
        self.assertIsNotNone(within(20, removed.exists))
        gone = Path("/proc", pid.read_text())
        self.assertIsNotNone(within(20, lambda: not gone.exists()))


class Undisturbed(unittest.TestCase):
    def test_signals(self) -> None:
        own, before = os.getpid(), signal.getsignal(signal.SIGINT)
        with lanes.undisturbed():
            for each in (signal.SIGINT, signal.SIGTERM, signal.SIGHUP):
                os.kill(own, each)
            time.sleep(0.01)
        self.assertIs(signal.getsignal(signal.SIGINT), before)


class Total(unittest.TestCase):
    def test_it_is_no_look(self) -> None:
        """A part's own total isn't printed: the round's follows."""
        looks = Looks(3, ["a link is back: Full"])
        said = lanes.total(looks, 61.4, [7.0, 9.0])
        wanted = "3 looks as they must be, 1 not, in 61 s at a mean load of 8.0"
        self.assertEqual(said, f"{wanted}; a link is back: Full")
        self.assertTrue(lanes.TOTAL.fullmatch(said))


if __name__ == "__main__":
    unittest.main()
