"""What a box says where `routerd` refuses what happens, and its lists are answered as before."""
import json
import time
import unittest
from ipaddress import IPv4Network
from unittest import mock

from leafrunt_host.clock import Step
from leafrunt_host.forwarding import KernelTable
from leafrunt_host.keeper import SECONDS_SHORT, Keeper, NeighborWaker
from leafrunt_host.kernel import Json
from leafrunt_host.metrics import families_of
from leafrunt_host.status import status_lines, status_of
from tests.fake_kernel import FakeKernel, FakeNotices
from tests.schemas import faults, schema
from tests.test_desk import interface, known
from tests.test_keeper import StandInLink, StandInRouter

LSAS = ("router", "network", "summary", "asbr-summary", "external")
LINE = "withdraw 255.255.255.255/32"
SHORT = (
    "routerd refuses packets, timers and commands (refused 6): "
    "routerd is out of memory: give the machine more"
)


class Refuses(unittest.TestCase):
    """Each look is a second after the one before, or less."""

    def setUp(self) -> None:
        self.now, self.ended = time.monotonic(), list[int]()
        self.router, self.known, kernel = StandInRouter(), known(), FakeKernel("eth1", "eth2")
        ones = (("eth1", "10.0.1.1/24"), ("eth2", "10.0.2.1/24"))
        links = {at: StandInLink(interface(*one)) for at, one in enumerate(ones, 1)}
        self.known.links = links  # type: ignore[assignment]
        self.keeper = Keeper(
            *(self.known, self.router, KernelTable(kernel, FakeNotices(kernel))),  # type: ignore
            *(NeighborWaker(), lambda: self.ended.append(1)),
        )
        self.answers("withdrawn")
        self.looks(1)

    def looks(self, count: int, each: float = 1.0) -> None:
        for _ in range(count):
            self.now += each
            with mock.patch("time.monotonic", return_value=self.now):
                self.assertTrue(self.keeper._looked(self.now))

    def answers(self, said: str) -> None:
        self.router.answers = {LINE: said}

    def status(self) -> Json:
        """Of a box that was at rest before."""
        it = known(neighbors=("neighbor 1 2.2.2.2 Full",))
        it.refusal, it.steps = self.known.refusal, self.known.steps
        status: Json = json.loads(json.dumps(status_of(it, dict.fromkeys(LSAS, 0))))
        self.assertEqual(faults(schema("status"), status), [])
        return status

    def warnings(self) -> str:
        return "\n".join(each for each in status_lines(self.status()) if each.startswith("warning"))

    def test_events_are_refused(self) -> None:
        """Though `table` and `neighbors` are answered: what is wrong, what to do, and its end."""
        self.assertIsNone(self.status()["routerd"]["refusal"])
        self.assertIsNotNone(self.status()["at_rest_since"])
        self.answers("refused 6")
        with self.assertLogs("leafrunt.box", "ERROR") as logged:
            self.looks(6)
        self.assertEqual(len(logged.output), 1)
        self.assertIn(SHORT, logged.output[0])
        self.assertIn(f"warning: {SHORT}", self.warnings())
        self.assertIn("Neighbors and routes are shown as they were at ", self.warnings())
        self.assertIsNone(self.status()["at_rest_since"])
        refusal = self.status()["routerd"]["refusal"]
        self.assertEqual((refusal["answer"], refusal["until"]), ("refused 6", None))
        self.assertIn("out of memory: give the machine more", refusal["reason"])
        self.answers("withdrawn")
        with self.assertLogs("leafrunt.box", "INFO") as logged:
            self.looks(1)
        self.assertIn("routerd refuses nothing any more, after ", logged.output[0])
        self.assertNotIn("refuses", self.warnings())
        self.assertIn("warning: routerd was out of memory for ", self.warnings())
        self.assertIn("goes on by itself", self.warnings())
        self.assertIsNotNone(self.status()["routerd"]["refusal"]["until"])
        with mock.patch("time.time", return_value=time.time() + 4000):
            self.assertNotIn("out of memory", self.warnings())

    def test_it_stays_so(self) -> None:
        """The box ends, and systemd starts it again."""
        self.answers("refused 6")
        with self.assertLogs("leafrunt.box", "ERROR"):
            self.looks(int(SECONDS_SHORT))
            self.assertEqual(self.ended, [])
            self.looks(7)
        self.assertEqual(self.ended, [1])

    def test_without_the_kernels_table(self) -> None:
        self.keeper._kernel = None
        self.answers("refused 6")
        with self.assertLogs("leafrunt.box", "ERROR"):
            self.looks(6)
        self.assertIn(SHORT, self.warnings())

    def test_a_list_alone(self) -> None:
        self.router.table = None  # type: ignore[assignment]
        with self.assertLogs("leafrunt.box", "ERROR") as logged:
            self.looks(60, 0.05)
        self.assertEqual(len([each for each in logged.output if "out of memory" in each]), 1)
        self.assertIn("warning: routerd refuses its lists (out of memory): ", self.warnings())
        self.router.table = []
        with self.assertLogs("leafrunt.box", "INFO") as logged:
            self.looks(6)
        self.assertTrue(any("refuses nothing any more" in each for each in logged.output))

    def test_one_that_comes_and_goes(self) -> None:
        """The log has a bounded number of lines of it."""
        with self.assertLogs("leafrunt.box", "INFO") as logged:
            for at in range(120):
                said = None if at % 2 else ["neighbor 1 2.2.2.2 Full"]
                with mock.patch.object(self.router, "ask_list", return_value=said):
                    self.looks(1, 0.5)
        self.assertLessEqual(len([each for each in logged.output if "refuses" in each]), 21)

    def test_the_clock(self) -> None:
        """The answer while the clock is behind the last event: that ends no box."""
        self.answers("refused 4")
        with self.assertLogs("leafrunt.box", "ERROR"):
            self.looks(200)
        self.assertIn("(refused 4): the machine's clock was set back", self.warnings())
        self.known.steps = (Step(-300.0, time.monotonic(), time.time()),)
        self.assertNotIn("refused 4", self.warnings())
        self.assertIn("(or wait ", self.warnings())
        self.known.steps = ()
        self.answers("withdrawn")
        self.looks(1)
        self.assertEqual((self.ended, self.warnings().count("refused 4")), ([], 0))

    def test_what_is_no_refusal(self) -> None:
        """That the programs were being changed says nothing."""
        for said in ("refused 8", "unknown", ""):
            self.answers(said)
            self.looks(6)
            self.assertNotIn("refuse", self.warnings())

    def test_it_is_asked_seldom(self) -> None:
        """And not at all where somebody announces that destination."""
        self.router.lines.clear()
        self.looks(50)
        self.assertLessEqual(len(self.router.lines), 11)
        one = mock.Mock(answer="originated")
        self.known.announced = {IPv4Network(LINE.removeprefix("withdraw ")): one}
        self.router.lines.clear()
        self.looks(50)
        self.assertEqual(self.router.lines, [])

    def test_its_metric(self) -> None:
        def value() -> float:
            found = {each.name: each for each in families_of(self.status(), [], [])}
            return found["leafrunt_routerd_refuses"].values[0][1]

        self.assertEqual(value(), 0)
        self.answers("refused 6")
        with self.assertLogs("leafrunt.box", "ERROR"):
            self.looks(6)
        self.assertEqual(value(), 1)


if __name__ == "__main__":
    unittest.main()
