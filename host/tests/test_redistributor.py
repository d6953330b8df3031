"""What is redistributed, by messages of the kernel."""
import socket
import sys
import time
import tomllib
import unittest
from collections.abc import Container
from ipaddress import IPv4Interface, IPv4Network
from pathlib import Path
from unittest import mock

from leafrunt_host.announcements import LEAST_INTERVAL, Announced, Announcements
from leafrunt_host.announcer import TOGETHER, Announcer
from leafrunt_host.destinations import Announcement, Owner
from leafrunt_host.kernel import members_of
from leafrunt_host.packet_filter import Bpf
from leafrunt_host.redistribution import Redistribution, redistribution_of
from leafrunt_host.redistributor import (
    MOST_COMPARED,
    Changes,
    Redistributor,
    notices_filter,
)
from leafrunt_host.router import RouterGone
from leafrunt_host.rtnetlink import (
    MAIN,
    OF_ALL,
    ROUTE,
    Address,
    CannotAsk,
    Kernel,
    Link,
    NextHop,
    attribute,
    netlink,
    number,
    route_of,
)
from leafrunt_host.tables import Table
from tests.fake_router import FakeRouter
from tests.test_rtnetlink import ADDRESSES, LINK_DOWN, NEXT_HOPS, ROUTE_DELETED, runs
from tests.waits import Waits

ALL = """
[redistribute.default]
[redistribute.connected]
[redistribute.static]
[redistribute.kernel]
protocols = ["bgp"]
"""
# What Linux 6.18 sent of `ip route add PREFIX proto static` with more words, of interfaces e1 and
# lo (3 and 1); at `unlinked` e1 had lost its carrier.
MESSAGES = {
    "blackhole": "02080000fe0400060000000008000f00fe000000080001000a000000",
    "unreachable": "02100000fe0400070000000008000f00fe000000080001000a0100000800060007000000",
    "throw": "02080000fe0400090000000008000f00fe0000000800010010000000",
    "blackhole object": (
        "02080000fe0400060000000008000f00fe000000080001000b00000008001e00050000000800040001000000"
    ),
    "via inet6": (
        "02080000fe0400010000000008000f00fe000000080001000c000000160012000a00fe8000000000000000000"
        "0000000000100000800040003000000"
    ),
    "nexthops": (
        "02080000fe0400010000000008000f00fe000000080001000d00000024000900100000000300000008000500"
        "0a0900031000000003000000080005000a090004"
    ),
    "nexthops, unlinked": (
        "02080000fe0400011000000008000f00fe000000080001000d00000024000900100010000300000008000500"
        "0a0900031000100003000000080005000a090004"
    ),
    "via, unlinked": (
        "02080000fe0400011000000008000f00fe000000080001000f000000080005000a0900090800040003000000"
    ),
    "tos": "02080004fe0400010000000008000f00fe000000080001000f000000080005000a0900090800040003000000",
    "metric, src, table": (
        "02080000fc0300010000000008000f00e8030000080001000e0000000800060005000000080007000a090001"
        "080005000a0900090800040003000000"
    ),
}


def section(text: str = ALL, own: str = "10.9.0.0/24") -> Redistribution:
    top = Table("one.toml", "", tomllib.loads(text), [])
    return redistribution_of(top, [IPv4Network(own)], Path("/nowhere"))


def body(
    prefix: str, protocol: int = 4, index: int = 3, table: int = MAIN, next_hop: int = 0, kind: int = 1
) -> bytes:
    """A route's message as Linux has it."""
    net = IPv4Network(prefix)
    head = ROUTE.pack(2, net.prefixlen, 0, 0, min(table, 252), protocol, 0, kind, 0)
    said = number(15, table) + attribute(1, net.network_address.packed)
    if next_hop:
        return head + said + number(30, next_hop)
    return head + said + (number(4, index) if index else b"")


class MadeUpKernel(Kernel):
    """Its lists, as they are set."""

    def __init__(self) -> None:
        self.of_links = [Link(1, "lo", 65536, True), Link(2, "e2", 1500, True), Link(3, "e1", 1500, True)]
        self.of_addresses: list[Address] = []
        self.bodies: list[bytes] = []
        self.objects: list[NextHop] = []
        self.error = ""
        self.asked: list[int] = []

    def links(self) -> list[Link]:
        if self.error:
            raise CannotAsk(self.error)
        return self.of_links

    def addresses(self) -> list[Address]:
        return self.of_addresses

    def route_bodies(self, protocol: int = 0) -> list[bytes]:
        self.asked.append(protocol)
        return [each for each in self.bodies if protocol in (0, each[5])]

    def next_hops(self, is_own: bool = True, also: Container[int] = ()) -> list[NextHop]:
        return self.objects

    def close(self) -> None:
        pass


class Pipe(Changes):
    """Notices that a test makes."""

    def __init__(self) -> None:
        ours, self.kernels = socket.socketpair(socket.AF_UNIX, socket.SOCK_DGRAM)
        super().__init__(b"", ours)

    def close(self) -> None:
        super().close()
        self.kernels.close()


class Cases(unittest.TestCase):
    def setUp(self) -> None:
        self.kernel, self.pipe = MadeUpKernel(), Pipe()
        self.addCleanup(self.pipe.close)
        self.start()

    def start(self, text: str = ALL, **more: object) -> None:
        self.it = Redistributor(
            section(text), kernel=self.kernel, changes=self.pipe, **more  # type: ignore[arg-type]
        )

    def found(self) -> dict[str, str]:
        """Prefixes with their owners."""
        asked = self.it.asked_for()
        return {str(each.prefix): str(owner) for owner in asked for each in asked[owner]}


class Routes(Cases):
    def test_by_their_owners(self) -> None:
        self.kernel.bodies = [
            body("192.0.2.0/24"),
            body("198.51.100.0/24", 186),
            body("203.0.113.0/24", 12),
            body("0.0.0.0/0", 16),
            body("10.9.0.0/24", 4),
            body("203.0.113.0/24", 89),
        ]
        wanted = {"192.0.2.0/24": "static", "198.51.100.0/24": "kernel", "0.0.0.0/0": "default"}
        self.assertEqual(self.found(), wanted)
        others = set(Owner) - {Owner.CONSOLE, Owner.CONFIGURATION}
        self.assertEqual(set(self.it.asked_for()), others)
        self.start("[redistribute.static]")
        self.assertEqual((self.found(), set(self.it.asked_for())), ({"192.0.2.0/24": "static"}, others))

    def test_odd_ones(self) -> None:
        """By messages of Linux."""
        self.kernel.bodies = [bytes.fromhex(each) for each in MESSAGES.values()]
        taken = ["10.0.0.0/8", "10.1.0.0/16", "11.0.0.0/8", "12.0.0.0/8", "13.0.0.0/8"]
        self.assertEqual(sorted(self.found()), taken)
        self.start("[redistribute.static]", table=1000)
        self.assertEqual(sorted(self.found()), ["14.0.0.0/8"])

    def test_paths_that_are_down(self) -> None:
        for name in ("nexthops, unlinked", "via, unlinked"):
            self.kernel.bodies = [bytes.fromhex(MESSAGES[name])]
            self.assertEqual(self.found(), {}, name)
        self.kernel.bodies = [bytes.fromhex(MESSAGES["nexthops"]), body("192.0.2.0/24", index=2)]
        self.kernel.of_links[2] = Link(3, "e1", 1500, False)
        self.assertEqual(self.found(), {"192.0.2.0/24": "static"})
        del self.kernel.of_links[1]
        self.assertEqual(self.found(), {})

    def test_objects_alone(self) -> None:
        """As with net.ipv4.nexthop_compat_mode=0."""
        self.kernel.bodies = [body("192.0.2.0/24", next_hop=7), body("198.51.100.0/24", next_hop=8)]
        self.kernel.bodies.append(body("203.0.113.0/24", next_hop=9, kind=6))
        self.kernel.objects = [NextHop(5, 3), NextHop(6, 4), NextHop(7, members=(5, 6)), NextHop(8, 4)]
        self.assertEqual(set(self.found()), {"192.0.2.0/24", "203.0.113.0/24"})

    def test_one_prefix_often(self) -> None:
        """Of several metrics and protocols."""
        self.kernel.bodies = [body("192.0.2.0/24", 186), body("192.0.2.0/24"), body("192.0.2.0/24", 3)]
        asked = self.it.asked_for()
        self.assertEqual([len(asked[each]) for each in (Owner.STATIC, Owner.KERNEL)], [2, 1])

    def test_only_what_is_needed_is_asked_for(self) -> None:
        self.start("[redistribute.kernel]\nprotocols = ['bgp']")
        self.it.asked_for()
        self.assertEqual(self.kernel.asked, [186])
        self.kernel.asked.clear()
        self.start("[redistribute.default]\nalways = true")
        self.assertEqual((self.found(), self.kernel.asked), ({"0.0.0.0/0": "default"}, []))

    def test_nonsense(self) -> None:
        """A message that is cut off is none."""
        whole = body("192.0.2.0/24")
        self.kernel.bodies = [whole[:at] for at in range(12, len(whole))]
        self.assertLessEqual(set(self.found()), {"192.0.2.0/24", "0.0.0.0/24"})

    def test_what_was_read_is_not_read_again(self) -> None:
        self.kernel.bodies = [body(f"100.{at // 250}.{at % 250}.0/24") for at in range(2000)]
        with mock.patch("leafrunt_host.redistributor.route_of", side_effect=route_of) as reads:
            for more in ([], [], [body("192.0.2.0/24")]):
                self.kernel.bodies = more + self.kernel.bodies
                self.it.asked_for()
            self.kernel.bodies = self.kernel.bodies[:3]
            asked = self.it.asked_for()
        self.assertEqual((reads.call_count, len(asked[Owner.STATIC])), (2001, 3))
        self.assertEqual(len(self.it._read), 3)


class Addresses(Cases):
    def test_connected(self) -> None:
        self.kernel.of_links.append(Link(4, "e3", 1500, False))
        self.kernel.of_addresses = [
            Address(1, IPv4Interface("127.0.0.1/8"), False),
            Address(1, IPv4Interface("192.0.2.1/32"), False),
            Address(2, IPv4Interface("10.2.0.1/24"), False),
            Address(2, IPv4Interface("10.2.0.7/24"), True),
            Address(2, IPv4Interface("10.3.0.1/32"), False, IPv4Network("10.3.0.2/32")),
            Address(2, IPv4Interface("169.254.1.1/16"), False),
            Address(3, IPv4Interface("10.9.0.1/24"), False),
            Address(3, IPv4Interface("10.8.0.1/24"), True),
            Address(4, IPv4Interface("10.4.0.1/24"), False),
            Address(9, IPv4Interface("10.5.0.1/24"), False),
        ]
        taken = ["10.2.0.0/24", "10.3.0.2/32", "10.8.0.0/24", "192.0.2.1/32"]
        self.assertEqual(sorted(self.found()), taken)
        self.kernel.of_links[3] = Link(4, "e3", 1500, True)
        self.assertIn("10.4.0.0/24", self.found())

    def test_of_a_vrf(self) -> None:
        links = [Link(1, "lo", 0, True), Link(2, "red", 0, True, 0, 10), Link(3, "blue", 0, True, 0, 11)]
        links += [Link(4, "r", 0, True, 2), Link(5, "b", 0, True, 3), Link(6, "p", 0, True, 7)]
        links += [Link(7, "bridge", 0, True)]
        self.assertEqual(members_of(links, ""), {1, 6, 7})
        self.assertEqual(members_of(links, "red"), {2, 4})
        self.assertEqual(members_of(links, "lo"), set())
        self.assertEqual(members_of(links, "none"), set())


@unittest.skipIf(sys.byteorder == "big", "the bytes are those of a machine of the other order")
class Notices(unittest.TestCase):
    def takes(self, program: bytes, data: bytes) -> bool:
        steps = [Bpf.INSTRUCTION.unpack_from(program, at) for at in range(0, len(program), 8)]
        return runs(steps, data)

    def test_which_come(self) -> None:
        program = notices_filter(section(), MAIN)
        deleted = bytes.fromhex(ROUTE_DELETED)
        next_hop = bytes.fromhex(NEXT_HOPS)[:48]
        for what, data, is_taken in (
            ("the own route", deleted, False),
            ("of bgp", deleted[:21] + b"\xba" + deleted[22:], True),
            ("static", deleted[:21] + b"\4" + deleted[22:], True),
            ("boot", deleted[:21] + b"\3" + deleted[22:], True),
            ("of bird", deleted[:21] + b"\x0c" + deleted[22:], False),
            ("a default route of bird", deleted[:17] + b"\0\0\0\xfe\x0c" + deleted[22:], True),
            ("the own default route", deleted[:17] + b"\0\0\0\xfe\x59" + deleted[22:], False),
            ("static of another table", deleted[:20] + b"\x64\4" + deleted[22:], False),
            ("the own next hop", next_hop, False),
            ("another's", next_hop[:18] + b"\x0b" + next_hop[19:], True),
            ("a link", bytes.fromhex(LINK_DOWN), True),
            ("an address", bytes.fromhex(ADDRESSES)[:76], True),
        ):
            with self.subTest(what):
                self.assertEqual(self.takes(program, data), is_taken)
        replaces = deleted[:4] + b"\x18\0\0\1" + deleted[8:21] + b"\x0c" + deleted[22:]
        for data, is_taken in (
            (replaces, True),
            (replaces[:6] + b"\0\6" + replaces[8:], False),
            (replaces[:20] + b"\x64" + replaces[21:], False),
            (replaces[:21] + b"\x59" + replaces[22:], False),
        ):
            self.assertEqual(self.takes(program, data), is_taken)
        connected = notices_filter(section("[redistribute.connected]"), MAIN)
        self.assertFalse(self.takes(connected, replaces))
        far = notices_filter(section(), 1000)
        self.assertTrue(self.takes(far, deleted[:20] + b"\xfc\4" + deleted[22:]))
        static = notices_filter(section("[redistribute.static]"), MAIN)
        self.assertFalse(self.takes(static, deleted[:17] + b"\0\0\0\xfe\x0c" + deleted[22:]))

    def test_any_number_of_protocols(self) -> None:
        deleted = bytes.fromhex(ROUTE_DELETED)
        for count in (MOST_COMPARED - 2, MOST_COMPARED + 1, 251):
            others = [each for each in range(3, 256) if each != 89][-count:]
            listed = ", ".join(f"'{each}'" for each in others)
            program = notices_filter(
                section(f"[redistribute.default]\n[redistribute.kernel]\nprotocols = [{listed}]"), MAIN
            )
            one = deleted[:21] + bytes([others[0]]) + deleted[22:]
            self.assertTrue(self.takes(program, one))
            self.assertFalse(self.takes(program, deleted))
            with netlink(OF_ALL) as real:
                real.close()

    def test_the_kernel_takes_the_program(self) -> None:
        for text in (ALL, "[redistribute.connected]"):
            changes = Changes(notices_filter(section(text), MAIN))
            changes.are_there()
            changes.close()

    def test_lost_ones(self) -> None:
        """Where more came than there was room for, something changed."""

        class Full:
            errors = [OSError(105, "No buffer space available"), BlockingIOError()]

            def setblocking(self, _flag: bool) -> None:
                pass

            def recv(self, _size: int) -> bytes:
                raise self.errors.pop(0)

        changes = Changes(b"", Full())  # type: ignore[arg-type]
        self.assertTrue(changes.are_there())
        Full.errors = [BlockingIOError()]
        self.assertFalse(changes.are_there())


NETWORK = IPv4Network("198.51.100.0/24")


class Following(Cases, Waits):
    def setUp(self) -> None:
        super().setUp()
        self.router, self.published, self.said = FakeRouter(), dict[IPv4Network, Announced](), ("",)
        self.announcements = Announcements(self.router.ask, self.publish)
        self.announcer = Announcer(self.announcements, self.it)
        self.addCleanup(self.announcer.stop)

    def publish(self, announced: dict[IPv4Network, Announced], said: tuple[str, ...]) -> None:
        self.published, self.said = announced, said

    def announced(self) -> set[str]:
        return {str(each) for each in self.router.announced}

    def test_another_is_followed(self) -> None:
        """Or none: then nothing is redistributed any more, and what isn't that stays."""
        self.announcements.by_hand("add 203.0.113.0/24 1 2 0")
        self.kernel.bodies = [body("192.0.2.0/24")]
        self.announcer.start()
        self.wait(lambda: self.announced() == {"192.0.2.0/24", "203.0.113.0/24"})
        self.announcer.redistribute(None)
        self.wait(lambda: self.announced() == {"203.0.113.0/24"})
        again = mock.Mock()
        again.fileno.return_value = self.announcer._waker.fileno()
        again.asked_for.return_value = {Owner.STATIC: [Announcement(NETWORK, 1, 2, 0)]}
        self.announcer.redistribute(again)
        self.wait(lambda: self.announced() == {str(NETWORK), "203.0.113.0/24"})
        self.announcer.redistribute(None)
        self.wait(lambda: again.close.called)

    def test_a_routerd_that_is_gone(self) -> None:
        """Another one that takes its place gets what is announced then."""
        gone = mock.Mock(side_effect=RouterGone("routerd has ended"))
        self.announcements._ask = gone
        self.kernel.bodies = [body("192.0.2.0/24")]
        self.announcer.start()
        self.wait(lambda: gone.called)
        time.sleep(0.3)
        self.announcements._ask = self.router.ask
        self.announcements.started_anew()
        self.wait(lambda: self.announced() == {"192.0.2.0/24"})

    def test_it_follows_notices(self) -> None:
        self.kernel.bodies = [body("192.0.2.0/24")]
        self.announcer.start()
        self.wait(lambda: self.announced() == {"192.0.2.0/24"})
        self.kernel.bodies = [body("198.51.100.0/24", 186)]
        time.sleep(0.3)
        self.assertEqual(self.announced(), {"192.0.2.0/24"})
        self.pipe.kernels.send(b"x")
        self.wait(lambda: self.announced() == {"198.51.100.0/24"})
        asked = len(self.kernel.asked)
        time.sleep(0.3)
        self.assertEqual(len(self.kernel.asked), asked)

    def test_a_kernel_that_does_not_answer(self) -> None:
        """It's told, what is announced stays, and it is asked again."""
        self.kernel.bodies = [body("192.0.2.0/24")]
        self.announcer._turn()
        self.kernel.error = "no answer"
        self.pipe.kernels.send(b"x")
        with self.assertLogs("leafrunt.announcements", "WARNING") as logged:
            self.assertIsNotNone(self.announcer._turn())
        self.assertIn("what is redistributed isn't followed: no answer", logged.output[0])
        self.assertEqual(self.announced(), {"192.0.2.0/24"})
        self.kernel.error, self.kernel.bodies = "", []
        with self.assertLogs("leafrunt.announcements", "INFO"):
            self.assertIsNone(self.announcer._turn())
        self.assertEqual((self.announced(), self.said), (set(), ()))

    def test_a_storm(self) -> None:
        """Routes that come and go all the time are added no more often than once in five seconds,
        and looked at no more often than ten times a second."""
        many = [body(f"100.{at // 256}.{at % 256}.0/24") for at in range(4096)]
        self.announcer.start()
        began = time.monotonic()
        while time.monotonic() - began < 2:
            self.kernel.bodies = [] if self.kernel.bodies else many
            self.pipe.kernels.send(b"x")
            time.sleep(0.01)
        looks = self.kernel.asked.count(0)
        self.assertLessEqual(looks, (time.monotonic() - began) / TOGETHER + 1)
        adds = sum(each.startswith("add") for each in self.router.lines)
        self.assertLessEqual(adds, 4096 * (1 + (time.monotonic() - began) // LEAST_INTERVAL))


if __name__ == "__main__":
    unittest.main()
