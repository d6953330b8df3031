"""What a box makes of BFD: its configuration, its status, and a neighbor that is lost."""
from __future__ import annotations

import socket
import time
import unittest
from dataclasses import dataclass, field
from ipaddress import IPv4Address
from typing import Any
from unittest import mock

from leafrunt_host.bfd import Neighbor
from leafrunt_host.bfd_packets import BfdKey, KeyType
from leafrunt_host.bfd_session import Settings
from leafrunt_host.bridge import Bridge
from leafrunt_host.forwarding import KernelTable
from leafrunt_host.interfaces import KernelState
from leafrunt_host.keeper import Keeper, NeighborWaker
from leafrunt_host.packets import Hello, read
from leafrunt_host.status import status_lines, status_of
from tests import captured
from tests.fake_kernel import FakeKernel, FakeNotices
from tests.test_bridge import THERE, link, own_hello
from tests.test_configuration import INTERFACE, TOP, Files
from tests.test_desk import interface, known
from tests.test_keeper import StandInLink, StandInRouter

KEYS = """[bfd]
id = 7
algorithm = "meticulous keyed sha1"
secret = "secret"
[old]
id = 8
algorithm = "keyed sha1"
secret = "old"
[again]
id = 8
algorithm = "keyed sha1"
secret = "again"
[ospf]
id = 1
algorithm = "keyed md5"
secret = "ospf"
"""
WITH_KEYS = TOP + 'keys = "keys.toml"\n' + INTERFACE
OF_BFD = "interface 1 (eth1), bfd"
SHA1_NAMES = (
    'names of keys whose algorithm is "keyed sha1" or "meticulous keyed sha1": bfd, old, again'
)
MISTAKES = [
    # what the interface says, and of each mistake where it is, what is found, what is allowed
    ("bfd = 1\n", ((OF_BFD, "1", "true, false or a table [bfd]"),)),
    ('bfd = "yes"\n', ((OF_BFD, '"yes"', "true, false or a table [bfd]"),)),
    (
        "[interface.bfd]\ntransmit_interval = 49\nreceive_interval = 0.3\ndetect_multiplier = 0\n",
        (
            (f"{OF_BFD}, transmit_interval", "49", "a whole number from 50 to 10000"),
            (f"{OF_BFD}, receive_interval", "0.3", "a whole number from 50 to 10000"),
            (f"{OF_BFD}, detect_multiplier", "0", "a whole number from 1 to 255"),
        ),
    ),
    (
        "[interface.bfd]\nmultiplier = 3\n",
        (
            (
                f"{OF_BFD}, multiplier",
                "an unknown key",
                "transmit_interval, receive_interval, detect_multiplier, keys "
                "(detect_multiplier, maybe)",
            ),
        ),
    ),
    (
        "passive = true\nbfd = true\n",
        ((OF_BFD, "BFD", "none where passive = true, as there is no neighbor there"),),
    ),
    ('[interface.bfd]\nkeys = ["ospf"]\n', ((f"{OF_BFD}, keys", '"ospf"', SHA1_NAMES),)),
    (
        '[interface.bfd]\nkeys = ["old", "again"]\n',
        (
            (
                f"{OF_BFD}, keys",
                '"again", whose ID 8 an earlier one has',
                "keys with different IDs",
            ),
        ),
    ),
    (
        'keys = ["bfd"]\n',
        (
            (
                "interface 1 (eth1), keys",
                '"bfd", whose algorithm meticulous keyed sha1 is BFD\'s',
                "names of keys with another algorithm",
            ),
        ),
    ),
]


class Configured(Files):
    def setUp(self) -> None:
        super().setUp()
        self.write("keys.toml", KEYS.encode(), 0o600)

    def bfd(self, text: str) -> Settings | None:
        return self.read(WITH_KEYS + text).interfaces[0].bfd

    def test_what_it_says(self) -> None:
        self.assertIsNone(self.bfd(""))
        self.assertIsNone(self.bfd("bfd = false\n"))
        self.assertEqual(self.bfd("bfd = true\n"), Settings(300_000, 300_000, 3))
        self.assertEqual(self.bfd("[interface.bfd]\n"), Settings(300_000, 300_000, 3))
        text = "bfd = { transmit_interval = 50, receive_interval = 10000, "
        text += 'detect_multiplier = 255, keys = ["bfd", "old"] }\n'
        keys = (
            BfdKey(7, KeyType.METICULOUS_KEYED_SHA1, b"secret"),
            BfdKey(8, KeyType.KEYED_SHA1, b"old"),
        )
        self.assertEqual(self.bfd(text), Settings(50_000, 10_000_000, 255, keys))

    def test_each_mistake(self) -> None:
        for text, wanted in MISTAKES:
            with self.subTest(text):
                self.assertEqual(self.mistakes_of(WITH_KEYS + text), wanted)

    def test_keys(self) -> None:
        """They have no lifetime, and at most 20 bytes."""
        for line, where in (
            ("accept_to = 2028-01-01T00:00:00Z\n", "a, accept_to"),
            ("", "a, secret"),
        ):
            secret = "s" * (21 if not line else 20)
            text = f'[a]\nid = 1\nalgorithm = "keyed sha1"\nsecret = "{secret}"\n{line}'
            self.write("keys.toml", text.encode(), 0o600)
            self.assertEqual([each[0] for each in self.mistakes_of(WITH_KEYS)], [where])


@dataclass
class StandInSessions:
    settings: dict[int, Settings] = field(default_factory=lambda: {1: Settings()})
    said: dict[str, Any] | None = None
    cut: set[int] = field(default_factory=set)
    followed: list[tuple[int, Neighbor | None, bool]] = field(default_factory=list)
    name: str = "eth1"

    def is_at(self, number: int, name: str) -> bool:
        return (number, name) == (1, self.name)

    def report(self, number: int) -> dict[str, Any] | None:
        return self.said if number == 1 else None

    def follow(self, number: int, neighbor: Neighbor | None, is_two_way: bool) -> None:
        self.followed.append((number, neighbor, is_two_way))

    def is_cut(self, number: int) -> bool:
        return number in self.cut

    def is_known(self, number: int) -> None:
        self.cut.discard(number)


class Told(unittest.TestCase):
    SAID = {
        "neighbor": "10.0.1.2",
        "since": 0.0,
        "authentication": None,
        "error": None,
        "state": "Up",
        "remote_state": "Up",
        "diagnostic": "no diagnostic",
        "remote_diagnostic": "no diagnostic",
        "detection_time_seconds": 0.9,
        "transmit_interval_seconds": 0.3,
        "discarded": {},
        "late_seconds": 0.0,
    }

    def lines(self, **others: object) -> list[str]:
        it = known(neighbors=("neighbor 1 2.2.2.2 Full",))
        it.sessions = StandInSessions(said={**self.SAID, **others})  # type: ignore[assignment]
        lines = [each for each in status_lines(status_of(it)) if "BFD" in each]
        return [each.partition(" since ")[0] + each[each.find(",") :] for each in lines]

    def test_status(self) -> None:
        head = "  eth1: BFD with 10.0.1.2 "
        self.assertEqual(self.lines(), [f"{head}Up, detection time 0.9 s"])
        fallen = {"state": "Down", "diagnostic": "path down", "discarded": {"wrong digest": 3}}
        said = f"{head}Down, detection time 0.9 s, last: path down; discarded: wrong digest 3"
        self.assertEqual(self.lines(**fallen), [said])
        self.assertTrue(self.lines(error="no socket")[0].endswith("; no socket"))


class Lost(unittest.TestCase):
    def test_routerd_is_told(self) -> None:
        one = link()
        one.kernel_is(KernelState(3, True, 1500, frozenset([IPv4Address("10.0.1.1")])), 0)
        self.assertEqual(one.neighbor_lost().to_router, [])
        one.from_router(own_hello(), 0)
        one.from_wire(bytes.fromhex(captured.BIRD_HELLO_PLAIN), THERE, 0)
        (data,) = one.neighbor_lost().to_router
        said = (read(data).router_id, Hello.decode(read(data).body).neighbors)
        self.assertEqual(said, (IPv4Address("2.2.2.2"), ()))
        self.assertEqual((one.index, one.is_usable), (3, True))

    def test_files_that_a_bridge_follows(self) -> None:
        with mock.patch.object(Bridge, "_open"):
            bridge = Bridge([])
        own, other = socket.socketpair()
        self.addCleanup(own.close)
        self.addCleanup(other.close)
        self.addCleanup(bridge._close)
        heard = []
        bridge.follow(own, lambda: heard.append(own.recv(9)))
        other.send(b"one")
        bridge.turn(1)
        bridge.leave(own)
        other.send(b"two")
        bridge.turn(0)
        self.assertEqual(heard, [b"one"])


class Kept(unittest.TestCase):
    def setUp(self) -> None:
        self.router, self.kernel = StandInRouter(), FakeKernel("eth1", "eth2")
        self.sessions = StandInSessions()
        self.known = known()
        self.known.sessions = self.sessions  # type: ignore[assignment]
        self.known.links = {  # type: ignore[assignment]
            number: StandInLink(interface(f"eth{number}", f"10.0.{number}.1/24"))
            for number in (1, 2)
        }
        table = KernelTable(self.kernel, FakeNotices(self.kernel))
        self.keeper = Keeper(self.known, self.router, table, NeighborWaker())  # type: ignore

    def look(self, moment: float) -> list[str]:
        self.keeper._look(time.monotonic() + moment)
        return self.kernel.forwards().get("172.16.2.0/24", [])

    def test_a_neighbor_that_is_cut(self) -> None:
        """No next hop leads there, until `routerd` knows."""
        self.assertEqual(self.look(0), ["10.0.1.2", "10.0.2.2"])
        self.sessions.cut = {1}
        self.assertEqual(self.look(60), ["10.0.2.2"])
        self.router.neighbors[0] = "neighbor 1 2.2.2.2 Init"
        self.assertEqual(self.look(120), ["10.0.2.2"])
        self.assertEqual(self.sessions.cut, set())

    def test_whom_it_follows(self) -> None:
        who = Neighbor(IPv4Address("10.0.1.2"), 5)
        for state, wanted in (
            ("Init", (1, who, False)),
            ("ExStart", (1, who, True)),
            ("Full", (1, who, True)),
            (None, (1, None, False)),
        ):
            with self.subTest(state):
                self.router.neighbors = [f"neighbor 1 2.2.2.2 {state}"] if state else []
                self.look(0)
                self.assertEqual(self.sessions.followed[-1], wanted)

    def test_numbers_that_a_reload_changes(self) -> None:
        """An interface's session isn't followed by what is known of another one's neighbor."""
        for links, name, count in ((self.known.links, "eth2", 0), ({}, "eth1", 0)):
            self.known.links, self.sessions.name = links, name
            self.look(0)
            self.assertEqual(len(self.sessions.followed), count)


if __name__ == "__main__":
    unittest.main()
