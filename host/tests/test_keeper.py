"""The keeper's looks: when they are, and what comes of them, with a made-up `routerd` and kernel."""
import os
import select
import threading
import time
import unittest
from dataclasses import dataclass
from ipaddress import IPv4Address
from types import SimpleNamespace
from typing import Any
from unittest import mock

from leafrunt_host import keeper
from leafrunt_host.exchange import Side
from leafrunt_host.forwarding import CannotKeep, Hop, KernelTable
from leafrunt_host.keeper import (
    AFTER,
    AGAIN,
    LONGEST_REST,
    REST,
    SECONDS_ABSENT,
    SECONDS_SHORT,
    SELDOM,
    Keeper,
    NeighborWaker,
    Pace,
)
from leafrunt_host.packets import Packet, PacketType
from leafrunt_host.router import RouterGone
from leafrunt_host.status import neighbors_of
from leafrunt_host.statuses import Stopped
from tests.fake_kernel import FakeKernel, FakeNotices
from tests.test_desk import TWO, interface, known
from tests.waits import Waits

THREE, NOBODY = IPv4Address("3.3.3.3"), IPv4Address(0)


class Paces(unittest.TestCase):
    def test_until_the_table_has_changed(self) -> None:
        pace = Pace(100.0)
        pace.looked(100.0, 0, False)
        pace.woken(100.5)
        dues = []
        for _ in range(len(AFTER) + 2):
            dues.append(pace.due)
            pace.looked(pace.due, 0, False)
        steps = [round(later - sooner, 6) for sooner, later in zip(dues, dues[1:])]
        self.assertEqual(dues[0], 100.5 + AFTER[0])
        self.assertEqual(steps, [*AFTER[1:], SELDOM, SELDOM])

    def test_after_a_change(self) -> None:
        pace = Pace(100.0)
        pace.woken(100.0)
        pace.looked(100.03, 0, True)
        for seconds in (AFTER[AGAIN], AFTER[-1], SELDOM, SELDOM):
            before = 100.03 if seconds == AFTER[AGAIN] else pace.due
            if before != 100.03:
                pace.looked(pace.due, 0, False)
            self.assertAlmostEqual(pace.due, before + seconds)

    def test_a_table_that_is_calculated(self) -> None:
        """A look that found it half made is followed by another one soon, without a rest."""
        pace = Pace(100.0)
        pace.looked(101.0, 1.0, True, is_lacking=True)
        self.assertEqual(pace.due, 101.0 + SECONDS_ABSENT / 2)
        pace.looked(102.0, 1.0, True)
        self.assertEqual(pace.due, 102.0 + LONGEST_REST)

    def test_long_looks_are_far_between(self) -> None:
        pace = Pace(100.0)
        pace.looked(101.0, 0.02, True)
        pace.woken(101.0)
        self.assertEqual(pace.due, 101.0 + REST * 0.02)
        pace.looked(102.0, 1.0, True)
        pace.woken(102.0)
        self.assertEqual(pace.due, 102.0 + LONGEST_REST)


class Wakes(unittest.TestCase):
    def is_awake(self, waker: NeighborWaker) -> bool:
        awake = bool(select.select([waker], [], [], 0)[0])
        waker.clear()
        return awake

    def test_who_wakes(self) -> None:
        waker = NeighborWaker()
        self.assertFalse(self.is_awake(waker))
        waker.wake()
        waker.wake()
        self.assertTrue(self.is_awake(waker))
        named = Packet(PacketType.HELLO, TWO, NOBODY, bytes(20) + TWO.packed)
        nobody = Packet(PacketType.HELLO, TWO, NOBODY, bytes(20))
        other = Packet(PacketType.LINK_STATE_REQUEST, TWO, NOBODY, bytes(24))
        for side, packet, wakes in (
            (Side.WIRE, named, True),
            (Side.WIRE, named, False),
            (Side.WIRE, other, False),
            (Side.ROUTER, nobody, False),
            (Side.WIRE, nobody, True),
            (Side.WIRE, named, True),
        ):
            waker.watch(side, packet)
            self.assertEqual(self.is_awake(waker), wakes)

    def test_any_number_of_router_ids(self) -> None:
        waker = NeighborWaker()
        for number in range(1000):
            waker.watch(Side.WIRE, Packet(PacketType.HELLO, IPv4Address(number), NOBODY, bytes(20)))
        self.assertLessEqual(len(waker._hellos), 64)


@dataclass
class StandInLink:
    interface: Any
    is_usable: bool = True
    index: int = 5
    doubted_until: float = 0.0

    def is_table_in_doubt(self, now: float) -> bool:
        return now < self.doubted_until

    def next_hop(self, router_id: IPv4Address) -> IPv4Address:
        return IPv4Address("10.0.1.2") if router_id == TWO else IPv4Address("10.0.2.2")

    def why_lost(self, _router_id: IPv4Address, _now: float) -> str:
        return "no Hello for 8 s"


class StandInRouter:
    def __init__(self) -> None:
        self.table = [b"10.0.1.0/24 intra 10 via 0", b"172.16.2.0/24 ext2 20 via 1,2"]
        self.neighbors = ["neighbor 1 2.2.2.2 Full", "neighbor 2 3.3.3.3 Full"]
        self.asked = 0
        self.silence = threading.Event()
        self.silence.set()
        self.is_asked = threading.Event()
        self.answers: dict[str, str] = {}
        self.lines: list[str] = []

    def ask(self, line: str) -> list[str]:
        self.lines.append(line)
        return [self.answers.get(line, "unknown")]

    def ask_list(self, _line: str) -> list[str]:
        self.is_asked.set()
        self.silence.wait(30)
        return list(self.neighbors)

    def ask_bytes(self, _line: str) -> bytes | None:
        self.asked += 1
        if self.table is None:
            return None
        return b"".join(each + b"\n" for each in self.table)


class Keeps(Waits):
    def setUp(self) -> None:
        self.router, self.kernel = StandInRouter(), FakeKernel("eth1", "eth2")
        self.links = {
            1: StandInLink(interface("eth1", "10.0.1.1/24")),
            2: StandInLink(interface("eth2", "10.0.2.1/24")),
        }
        self.known = known()
        self.known.links = self.links  # type: ignore[assignment]
        table = KernelTable(self.kernel, FakeNotices(self.kernel))
        self.waker = NeighborWaker()
        self.keeper = Keeper(self.known, self.router, table, self.waker)  # type: ignore

    def test_next_hops_of_links_that_are_down(self) -> None:
        self.keeper._look(time.monotonic())
        self.assertEqual(self.kernel.forwards(), {"172.16.2.0/24": ["10.0.1.2", "10.0.2.2"]})
        self.assertEqual(self.known.kept.routes, 1)
        self.links[2].is_usable = False
        self.keeper._look(time.monotonic() + 60)
        self.assertEqual(self.kernel.forwards(), {"172.16.2.0/24": ["10.0.1.2"]})

    def test_a_neighbor_that_is_no_longer_full(self) -> None:
        now = time.monotonic()
        with mock.patch("time.monotonic", return_value=now):
            self.keeper._look(now)
        self.router.neighbors[1] = "neighbor 2 3.3.3.3 ExStart"
        with self.assertLogs("leafrunt.box", "INFO") as logged:
            self.keeper._look(now + 0.01)
        self.assertIn("eth2: 3.3.3.3 Full -> ExStart", logged.output[0])
        self.assertEqual(self.kernel.forwards(), {"172.16.2.0/24": ["10.0.1.2"]})

    def look(self, now: float) -> None:
        with mock.patch("time.monotonic", return_value=now):
            self.keeper._look(now)

    def test_a_route_that_is_away_for_a_moment(self) -> None:
        """`routerd` has taken an event, and not yet calculated what comes of it: then `table` lacks
        what the event touched. The kernel keeps it."""
        now, table = time.monotonic(), self.router.table
        self.look(now)
        self.router.table = table[:1]
        self.keeper._pace.woken(now + 1)
        with mock.patch.object(self.kernel, "change") as given:
            self.look(self.keeper._pace.due)
            self.router.table = table
            self.look(self.keeper._pace.due)
            self.look(self.keeper._pace.due)
        given.assert_not_called()
        self.assertIsNone(self.known.kept.error)

    def test_a_route_that_is_gone(self) -> None:
        """It leaves the kernel once `table` has lacked it for a tenth of a second, and at once where
        its next hops are gone too."""
        now = time.monotonic()
        self.look(now)
        self.router.table = self.router.table[:1]
        self.keeper._pace.woken(now + 1)
        self.look(first := self.keeper._pace.due)
        self.assertEqual(len(self.kernel.forwards()), 1)
        self.assertLessEqual(self.keeper._pace.due, first + SECONDS_ABSENT)
        self.look(first + SECONDS_ABSENT + 0.01)
        self.assertEqual(self.kernel.forwards(), {})

    def test_routes_that_are_gone_with_the_own_router_lsa(self) -> None:
        """While a foreign one stands in its place `table` is no word on them."""
        now = time.monotonic()
        self.look(now)
        self.router.table, self.links[1].doubted_until = self.router.table[:1], now + 5
        for after in (1, 1.2, 4.9):
            self.keeper._pace.woken(now + after)
            self.look(self.keeper._pace.due)
            self.assertEqual(len(self.kernel.forwards()), 1)
        self.look(now + 5.1)
        self.assertEqual(self.kernel.forwards(), {})

    def test_a_kernel_that_fails_meanwhile(self) -> None:
        """It isn't asked more often than where no route is away."""
        now = time.monotonic()
        self.look(now)
        self.router.table = self.router.table[:1]
        self.keeper._pace.woken(now + 1)
        self.look(first := self.keeper._pace.due)
        with mock.patch.object(KernelTable, "keep", side_effect=CannotKeep("it fails")):
            with self.assertRaises(CannotKeep):
                self.look(first + SECONDS_ABSENT)
        self.assertGreater(self.keeper._pace.due, first + 2 * SECONDS_ABSENT)

    def test_a_route_that_is_gone_with_its_links(self) -> None:
        now = time.monotonic()
        self.look(now)
        self.router.table = self.router.table[:1]
        for each in self.links.values():
            each.is_usable = False
        self.keeper._pace.woken(now + 1)
        self.look(self.keeper._pace.due)
        self.assertEqual(self.kernel.forwards(), {})

    def test_nothing_happens(self) -> None:
        """The table is asked for a few times, and then each five seconds."""
        now = time.monotonic()
        for _ in range(600):
            now += 0.1
            with mock.patch("time.monotonic", return_value=now):
                self.keeper._look(now)
        self.assertLessEqual(self.router.asked, 16)
        self.assertEqual(self.kernel.reads, 1)

    def test_it_is_woken(self) -> None:
        reader, writer = os.pipe()
        self.addCleanup(os.close, writer)
        self.addCleanup(os.close, reader)
        with mock.patch.object(FakeNotices, "fileno", lambda _: reader):
            with mock.patch.object(keeper, "SELDOM", 3600.0), mock.patch.object(keeper, "EACH", 3600.0):
                self.keeper.start()
                self.wait(lambda: len(self.kernel.forwards()) == 1)
                self.router.table.append(b"172.16.3.0/24 ext2 20 via 1")
                self.waker.wake()
                self.wait(lambda: len(self.kernel.forwards()) == 2)
                self.keeper.stop()

    def test_another_table(self) -> None:
        """Who gives one is told once it has the routes."""
        other = FakeKernel("eth1", "eth2")
        with mock.patch.object(FakeNotices, "fileno", lambda _: self.waker.fileno()):
            self.keeper.start()
            self.assertTrue(self.keeper.has_kept(60))
            self.router.silence.clear()
            self.keeper._neighbors = []
            self.keeper.keep(KernelTable(other, FakeNotices(other)))
            self.assertFalse(self.keeper.has_kept(0.05))
            self.router.silence.set()
            self.assertTrue(self.keeper.has_kept(60))
            self.assertEqual(len(other.forwards()), 1)
            self.keeper.stop()

    def test_a_routerd_that_is_gone(self) -> None:
        """The kernel keeps its routes, and no time is spent, until another one is served, also if
        the keeper waited for an answer until then."""
        other = StandInRouter()
        other.table = [b"172.16.2.0/24 ext2 20 via 1"]
        gone = mock.Mock(side_effect=RouterGone("routerd has ended"))
        with mock.patch.object(FakeNotices, "fileno", lambda _: self.waker.fileno()):
            self.keeper.start()
            self.addCleanup(self.keeper.stop)
            self.assertTrue(self.keeper.has_kept(60))
            self.router.silence.clear()
            self.router.is_asked.clear()
            self.assertTrue(self.router.is_asked.wait(60))
            with self.assertRaisesRegex(Stopped, "no answer"):
                self.keeper.serve(other, lambda: None, 0.05)  # type: ignore[arg-type]
            self.router.ask_list = gone  # type: ignore[method-assign]
            self.router.ask_bytes = self.router.ask = gone  # type: ignore[method-assign]
            self.router.silence.set()
            self.wait(lambda: gone.call_count > 1)
            count = gone.call_count
            time.sleep(0.5)
            self.assertLess(gone.call_count - count, 10)
            self.assertEqual(self.kernel.forwards(), {"172.16.2.0/24": ["10.0.1.2", "10.0.2.2"]})
            self.keeper.serve(other, lambda: None)  # type: ignore[arg-type]
            self.wait(lambda: self.kernel.forwards() == {"172.16.2.0/24": ["10.0.1.2"]})

    def test_one_that_waits_for_an_answer(self) -> None:
        """The end doesn't wait for it for long, and says so."""
        self.router.silence.clear()
        self.addCleanup(self.router.silence.set)
        with mock.patch.object(FakeNotices, "fileno", lambda _: self.waker.fileno()):
            self.keeper._kernel = None
            self.keeper.start()
            self.assertTrue(self.router.is_asked.wait(60))
            with mock.patch.object(keeper, "SECONDS_TO_STOP", 0.05):
                with self.assertLogs("leafrunt.box", "WARNING") as logged:
                    self.keeper.stop()
        self.assertIn("the box ends without it", logged.output[0])

    def test_memory_that_is_refused(self) -> None:
        """Status and log say it, with what to do; where it stays so, the box ends, and systemd
        starts it again."""
        ended: list[int] = []
        self.keeper._give_up = lambda: ended.append(1)
        self.router.table = None  # type: ignore[assignment]
        now = time.monotonic()
        with self.assertLogs("leafrunt.box", "ERROR") as logged:
            for _ in range(int(SECONDS_SHORT) + 2):
                now += 1.0
                with mock.patch("time.monotonic", return_value=now):
                    self.assertTrue(self.keeper._looked(now))
        self.assertIn("routerd is out of memory: give the machine more", logged.output[0])
        self.assertIn("routerd is out of memory", str(self.known.kept.error))
        self.assertEqual(ended, [1])
        self.router.table = []
        ended.clear()
        for _ in range(200):
            now += 1.0
            with mock.patch("time.monotonic", return_value=now):
                self.keeper._looked(now)
        self.assertEqual((ended, self.known.kept.error), ([], None))

    def test_own_networks(self) -> None:
        """A destination by a forwarding address in one isn't one of them."""
        self.router.table = [b"10.0.1.0/24 intra 10 via 0", b"14.0.0.0/24 ext2 20 via 0"]
        self.keeper._look(time.monotonic())
        self.assertEqual((self.known.kept.table, self.known.kept.own), (2, 1))

    def test_a_storm(self) -> None:
        """It is woken at each change, and asks `routerd` no more often than it may look at the table:
        each question costs both, and a table of thousands costs so much."""
        looks = list[float]()

        def table(_line: str) -> bytes:
            looks.append(time.monotonic())
            time.sleep(0.02)
            return b"172.16.2.0/24 ext2 %d via 1\n" % len(looks)

        self.router.ask_bytes = table  # type: ignore[method-assign]
        asks = mock.Mock(side_effect=self.router.ask_list)
        self.router.ask_list = asks  # type: ignore[method-assign]
        with mock.patch.object(FakeNotices, "fileno", lambda _: self.waker.fileno()):
            self.keeper.start()
            began = time.monotonic()
            while time.monotonic() - began < 2:
                self.waker.wake()
                time.sleep(0.005)
            self.keeper.stop()
        self.assertGreaterEqual(len(looks), 4)
        self.assertLessEqual(asks.call_count, len(looks) + 2 / keeper.EACH + 2)


class Hops(unittest.TestCase):
    def test_links_that_are_down(self) -> None:
        """The kernel takes no next hop at one, and would refuse the route with all of its hops."""
        links = {
            number: SimpleNamespace(
                is_usable=number != 2,
                interface=SimpleNamespace(name=f"eth{number}"),
                next_hop=lambda router_id: router_id,
            )
            for number in (1, 2, 3)
        }
        lines = ["neighbor 1 2.2.2.2 Full", "neighbor 2 3.3.3.3 Full", "neighbor 3 4.4.4.4 Init"]
        known = SimpleNamespace(
            neighbors=neighbors_of(lines),
            links=links,
            configuration=SimpleNamespace(announcements=()),
            sessions=None,
        )
        keeper = Keeper(known, None, None, NeighborWaker())
        self.assertEqual(keeper._hops(), {1: Hop(IPv4Address("2.2.2.2"), "eth1")})


if __name__ == "__main__":
    unittest.main()
