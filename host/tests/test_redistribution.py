"""The section `[redistribute]`, and what it says of addresses and routes."""
import tempfile
import tomllib
import unittest
from ipaddress import IPv4Network
from pathlib import Path

from leafrunt_host.destinations import Announcement, Owner
from leafrunt_host.redistribution import (
    MOST_RANGES,
    PROTOCOL,
    STATIC,
    PrefixRange,
    Redistribution,
    Source,
    named_protocols,
    redistribution_of,
)
from leafrunt_host.rtnetlink import Route
from leafrunt_host.tables import Mistake, Table

NO_FILE = Path("/nowhere/rt_protos")
WHOLE = """
[redistribute.default]
metric = 1
type = 1
[redistribute.connected]
allow = ["192.0.2.0/24 le 28", "10.0.0.0/8 ge 16 le 24"]
deny = ["192.0.2.64/26"]
[redistribute.static]
metric = 0
tag = 7
[redistribute.kernel]
protocols = ["dhcp", "bgp", "77"]
"""


def net(text: str) -> IPv4Network:
    return IPv4Network(text)


def route(prefix: str, protocol: int = 4, **more: int) -> Route:
    its = net(prefix)
    both = its.network_address.packed + bytes([its.prefixlen])
    return Route(both, protocol, 0, 0, ((b"", 3),), **more)


class Sections(unittest.TestCase):
    def read(self, text: str, own: str = "10.0.1.0/24") -> Redistribution:
        self.mistakes: list[Mistake] = []
        top = Table("one.toml", "", tomllib.loads(text), self.mistakes)
        return redistribution_of(top, [net(own)], NO_FILE)

    def assert_told(self, text: str, *told: tuple[str, str]) -> None:
        """Each mistake with its key, and what was found there."""
        self.read(text)
        self.assertEqual([(each.where, each.found) for each in self.mistakes], list(told))

    def test_a_whole_section(self) -> None:
        read = self.read(WHOLE)
        self.assertEqual(self.mistakes, [])
        self.assertEqual(
            [owner for owner, _ in read.sources],
            [Owner.DEFAULT, Owner.CONNECTED, Owner.STATIC, Owner.KERNEL],
        )
        self.assertEqual(read.sources[2][1], Source(0, 2, 7))
        self.assertEqual(read.protocols, {16, 186, 77})
        self.assertEqual(read.of_routes, {16, 186, 77, *STATIC})
        self.assertTrue(read and read.is_default_asked)

    def test_none(self) -> None:
        for text in ("", "[redistribute]\n"):
            read = self.read(text)
            self.assertFalse(read)
            self.assertEqual((read.owners, read.of_routes), (frozenset(), frozenset()))
        self.assertEqual(self.mistakes, [])

    def test_all_mistakes(self) -> None:
        self.assert_told("redistribute = 1", ("redistribute", "1"))
        self.assert_told(
            "[redistribute.connected]\nmetric = 16777215\nallow = ['10.0.0.1/8', '10.0.0.0/8 ge 7',"
            " '10.0.0.0/8 le 33', '10.0.0.0/8 ge 20 le 19', '10.0.0.0', '10.0.0.0/8  le 9',"
            " '10.0.0.0/8+']\ndeny = [1]\n[redistribute.static]\ntype = 3\nalways = true\n"
            "[redistribute.kernel]\n[redistribute.default]\ntag = -1\ndeny = []\n"
            "[redistribute.bgp]\n",
            ("redistribute.default, tag", "-1"),
            ("redistribute.default, deny", "an unknown key"),
            ("redistribute.connected, metric", "16777215"),
            *(
                ("redistribute.connected, allow", f'"{each}"')
                for each in ("10.0.0.1/8", "10.0.0.0/8 ge 7", "10.0.0.0/8 le 33")
            ),
            *(
                ("redistribute.connected, allow", f'"{each}"')
                for each in ("10.0.0.0/8 ge 20 le 19", "10.0.0.0", "10.0.0.0/8  le 9", "10.0.0.0/8+")
            ),
            ("redistribute.connected, deny", "1"),
            ("redistribute.static, type", "3"),
            ("redistribute.static, always", "an unknown key"),
            ("redistribute.kernel, protocols", "nothing"),
            ("redistribute, bgp", "an unknown key"),
        )

    def test_protocols(self) -> None:
        self.assert_told(
            "[redistribute.kernel]\nprotocols = ['89', '2', '256', 'kernel', 'bgb', '-1', '\u0663']",
            ("redistribute.kernel, protocols", '"89", the box\'s own'),
            ("redistribute.kernel, protocols", '"2", kernel'),
            *(
                ("redistribute.kernel, protocols", each)
                for each in ('"256"', '"kernel"', '"bgb"', '"-1"', '"\\u0663"')
            ),
        )
        for text in ("protocols = 4", "protocols = [4]", "protocols = ['bgp', 'bgp']"):
            self.read(f"[redistribute.kernel]\n{text}")
            self.assertEqual(len(self.mistakes), 1, text)

    def test_very_long_filters(self) -> None:
        some = ", ".join(f'"10.{at // 256}.{at % 256}.0/24"' for at in range(MOST_RANGES + 1))
        self.assert_told(
            f"[redistribute.connected]\nallow = [{some}]",
            ("redistribute.connected, allow", "a list of 1025"),
        )

    def test_names_of_this_machine(self) -> None:
        with tempfile.NamedTemporaryFile("w", suffix=".rt") as it:
            it.write("# names\n77 mine # own\n 78\tother\nx y\n\n300 large\n")
            it.flush()
            names = named_protocols(Path(it.name))
        self.assertEqual([names["mine"], names["other"], names["bgp"]], [77, 78, 186])
        self.assertNotIn("y", names)
        self.assertEqual(named_protocols(NO_FILE)["static"], 4)


class Filters(unittest.TestCase):
    def test_ranges(self) -> None:
        """As of FRR's and Cisco's prefix lists."""
        for text, yes, no in (
            ("10.0.0.0/8", ["10.0.0.0/8"], ["10.0.0.0/9", "0.0.0.0/0", "11.0.0.0/8"]),
            ("10.0.0.0/8 le 9", ["10.0.0.0/8", "10.128.0.0/9"], ["10.0.0.0/10"]),
            ("10.0.0.0/8 ge 31", ["10.1.1.2/31", "10.1.1.1/32"], ["10.1.1.0/30", "10.0.0.0/8"]),
            ("10.0.0.0/8 ge 9 le 9", ["10.0.0.0/9"], ["10.0.0.0/8", "10.0.0.0/10"]),
            ("0.0.0.0/0 le 32", ["0.0.0.0/0", "1.2.3.4/32"], []),
        ):
            read = PrefixRange.of(text)
            for each in yes + no:
                with self.subTest((text, each)):
                    self.assertEqual(read.has(net(each)), each in yes)

    def test_deny_goes_first(self) -> None:
        ranges = {
            "allow": (PrefixRange.of("10.0.0.0/8 le 32"),),
            "deny": (PrefixRange.of("10.1.0.0/16 le 32"),),
        }
        source = Source(**ranges)
        taken = [each for each in ("10.0.0.0/8", "10.1.2.0/24", "11.0.0.0/8") if source.takes(net(each))]
        self.assertEqual(taken, ["10.0.0.0/8"])
        self.assertTrue(Source(deny=ranges["deny"]).takes(net("11.0.0.0/8")))


class Decisions(unittest.TestCase):
    def setUp(self) -> None:
        top = Table("one.toml", "", tomllib.loads(WHOLE), [])
        self.section = redistribution_of(top, [net("10.0.1.0/24")], NO_FILE)

    def owner(self, prefix: str, protocol: int = 4, **more: int) -> Owner | None:
        asked = self.section.of_route(route(prefix, protocol, **more))
        return asked[0] if asked else None

    def test_addresses(self) -> None:
        for prefix, is_taken in (
            ("192.0.2.0/28", True),
            ("192.0.2.64/28", True),
            ("192.0.2.64/26", False),
            ("192.0.2.0/29", False),
            ("10.0.2.0/24", True),
            ("10.0.1.0/24", False),
            ("127.0.0.0/8", False),
        ):
            with self.subTest(prefix):
                self.assertEqual(self.section.of_address(net(prefix)) is not None, is_taken)

    def test_routes(self) -> None:
        for prefix, protocol, owner in (
            ("192.0.2.0/24", 4, Owner.STATIC),
            ("192.0.2.0/24", 3, Owner.STATIC),
            ("192.0.2.0/24", 16, Owner.KERNEL),
            ("192.0.2.0/24", 186, Owner.KERNEL),
            ("192.0.2.0/24", 12, None),
            ("0.0.0.0/0", 4, Owner.DEFAULT),
            ("0.0.0.0/0", 12, Owner.DEFAULT),
            ("0.0.0.0/0", PROTOCOL, None),
            ("0.0.0.0/0", 1, None),
            ("10.0.1.0/24", 4, None),
            ("10.0.1.0/25", 4, Owner.STATIC),
        ):
            with self.subTest((prefix, protocol)):
                self.assertEqual(self.owner(prefix, protocol), owner)
        self.assertIsNone(self.owner("192.0.2.0/24", tos=4))
        types = {each: self.owner("192.0.2.0/24", type=each) for each in range(12)}
        self.assertEqual([each for each in types if types[each]], [1, 6, 7, 8])

    def test_never_announced(self) -> None:
        """What no packet goes to, however the filters are."""
        for prefix, owner in (
            ("0.0.0.0/8", None),
            ("0.1.0.0/16", None),
            ("0.0.0.0/1", Owner.STATIC),
            ("128.0.0.0/1", Owner.STATIC),
            ("127.0.0.1/32", None),
            ("126.0.0.0/7", Owner.STATIC),
            ("169.254.0.0/16", None),
            ("169.254.7.0/24", None),
            ("224.0.0.0/4", None),
            ("224.0.0.5/32", None),
            ("240.0.0.0/4", None),
            ("255.255.255.255/32", None),
            ("100.64.0.0/10", Owner.STATIC),
            ("198.18.0.0/15", Owner.STATIC),
        ):
            with self.subTest(prefix):
                self.assertEqual(self.owner(prefix), owner)

    def test_a_source_that_denies_it(self) -> None:
        """The next one may take it."""
        text = "[redistribute.static]\ndeny = ['192.0.2.0/24']\n[redistribute.kernel]\nprotocols = ['static']\n"
        self.section = redistribution_of(Table("x", "", tomllib.loads(text), []), (), NO_FILE)
        self.assertEqual(self.owner("192.0.2.0/24"), Owner.KERNEL)
        self.assertEqual(self.owner("192.0.3.0/24"), Owner.STATIC)

    def test_always(self) -> None:
        text = "[redistribute.default]\nalways = true\nmetric = 3"
        section = redistribution_of(Table("x", "", tomllib.loads(text), []), (), NO_FILE)
        announcement = Announcement(net("0.0.0.0/0"), 3, 2, 0)
        self.assertEqual(section.always(), (Owner.DEFAULT, announcement))
        self.assertFalse(section.is_default_asked)
        self.assertIsNone(self.section.always())


if __name__ == "__main__":
    unittest.main()
