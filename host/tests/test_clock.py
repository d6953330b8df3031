import json
import time
import unittest

from leafrunt_host.clock import Clock, Step
from leafrunt_host.status import status_lines, status_of
from tests.test_desk import known
from tests.test_keeper import Keeps


class Clocks(unittest.TestCase):
    def setUp(self) -> None:
        self.wall, self.steady = 1_000_000.0, 50.0
        self.clock = Clock(lambda: self.wall, lambda: self.steady)

    def step(self, passed: float, by: float = 0.0) -> float | None:
        """The seconds of the step that is seen after this many passed, and the clock was set."""
        self.steady += passed
        self.wall += passed + by
        found = self.clock.look()
        return found.seconds if found else None

    def test_steps(self) -> None:
        for passed, by, seen in (
            (0.5, 0.0, None),
            (0.5, -120.0, -120.0),
            (0.5, 0.0, None),
            (0.5, 60.0, 60.0),
            (3600.0, 0.9, None),
            (0.5, 1.5, 1.5),
        ):
            found = self.step(passed, by)
            with self.subTest(passed=passed, by=by):
                self.assertEqual(found if found is None else round(found, 6), seen)

    def test_a_clock_that_is_slewed(self) -> None:
        """By 500 millionths, the most that adjtimex(2) does, for an hour."""
        for _ in range(7200):
            self.assertIsNone(self.step(0.5, 0.00025))

    def test_what_is_said(self) -> None:
        back, forward = Step(-120.0, 100.0, 0.0), Step(60.0, 100.0, 0.0)
        self.assertIn("set back by 120 s", str(back.remark(110)))
        self.assertIn("(or wait 110 s more)", str(back.remark(110)))
        self.assertIsNone(back.remark(221))
        self.assertIn("set forward by 60 s", str(forward.remark(110)))
        self.assertIsNone(forward.remark(4000))


class Told(Keeps):
    def test_a_step(self) -> None:
        set_back = 0.0
        self.keeper._clock = Clock(lambda: time.time() - set_back)
        self.keeper._look(time.monotonic())
        set_back = 120.0
        with self.assertLogs("leafrunt.box", "WARNING") as logged:
            self.keeper._look(time.monotonic())
        self.assertIn("the clock was set back by 120 s", logged.output[0])
        it = known()
        it.steps = self.known.steps
        status = json.loads(json.dumps(status_of(it)))
        self.assertTrue(any("warning: the clock was set back by" in each for each in status_lines(status)))

    def test_a_keeper_that_hangs(self) -> None:
        it = known()
        it.looked = time.monotonic() - 60
        lines = status_lines(json.loads(json.dumps(status_of(it))))
        self.assertTrue(any("table has ended for 60 s: one of them" in each for each in lines))


del Keeps

class BackAndForth(unittest.TestCase):
    def test_no_advice_once_it_is_right_again(self) -> None:
        """A clock that was set back by 120 s, and forward by as much, sends Hellos again."""
        from leafrunt_host.clock import Step

        back = Step(-120, 1000, 1.8e9)
        self.assertIn("start the box again (or wait 110 s more)", back.remark(1010) or "")
        self.assertIn("wait 20 s more", back.remark(1010, 90) or "")
        self.assertIsNone(back.remark(1010, 120))


if __name__ == "__main__":
    unittest.main()
