"""Another router with this router's Router ID."""
import time
import unittest
from ipaddress import IPv4Address, IPv4Interface
from unittest import mock

from leafrunt_host.exchange import Side
from leafrunt_host.namesakes import SECONDS, Namesakes
from leafrunt_host.status import status_of
from tests.test_desk import known
from tests.test_topology import router_lsa, update

OWN, OTHER = (1, "2.2.2.2", "10.0.1.1", 10), (1, "3.3.3.3", "10.0.3.4", 10)
STUB = (3, "10.0.3.0", "255.255.255.0", 10)
FIRST = -0x7FFFFFFF
TOLD = "another router has this Router ID, 1.1.1.1: its router-LSA came with the address 10.0.3.4"


class Duplicates(unittest.TestCase):
    def setUp(self) -> None:
        self.it = Namesakes(IPv4Address("1.1.1.1"), [IPv4Interface("10.0.1.1/24")])

    def came(self, *links: tuple[int, str, str, int], at: float, sequence: int, of: str = "1.1.1.1", age: int = 0) -> None:
        lsa = router_lsa(of, *links, sequence=FIRST + sequence, age=age)
        self.it.watch(Side.WIRE, update(lsa), at)

    def test_two_instances_within_a_while(self) -> None:
        self.came(OTHER, at=100, sequence=7)
        self.assertIsNone(self.it.remark(100))
        with self.assertLogs("leafrunt.bridge", "ERROR") as logged:
            self.came(OTHER, STUB, at=110, sequence=9)
            self.came(OTHER, at=115, sequence=11)
        self.assertEqual(len(logged.output), 1)
        self.assertTrue((self.it.remark(116) or "").startswith(TOLD))
        self.assertIsNone(self.it.remark(116 + SECONDS))

    def test_with_networks_alone(self) -> None:
        """A neighbor that isn't Full yet is no link of its router-LSA."""
        own = (3, "10.0.1.0", "255.255.255.0", 10)
        with self.assertLogs("leafrunt.bridge", "ERROR"):
            for sequence in (1, 2):
                self.came(own, at=1, sequence=10 + sequence)
                self.came(STUB, at=1, sequence=sequence)
        self.assertIn("came with the network 10.0.3.0/24, which", self.it.remark(1) or "")

    def test_what_this_router_said_itself(self) -> None:
        """Of before its start, of an address that it had, flushed, the same one again, another
        router's: none is another router with its ID."""
        with self.assertNoLogs("leafrunt.bridge", "ERROR"):
            for at in range(9):
                self.came(OTHER, at=at, sequence=3)
                self.came(OWN, at=at, sequence=10 + at)
                self.came(OTHER, at=at, sequence=20 + at, age=3600)
                self.came(OTHER, at=at, sequence=30 + at, of="3.3.3.3")
            had = (1, "2.2.2.2", "10.0.9.1", 10)
            self.it.watch(Side.ROUTER, update(router_lsa("1.1.1.1", had)), 9)
            self.came(had, at=9, sequence=50)
            self.came(had, at=9, sequence=51)
        self.assertIsNone(self.it.remark(9))

    def test_what_routerd_passes_on(self) -> None:
        """It floods the other one's before it originates its own anew: its addresses aren't ours."""
        self.came(OTHER, at=1, sequence=5)
        self.it.watch(Side.ROUTER, update(router_lsa("1.1.1.1", OTHER, sequence=FIRST + 5)), 1)
        with self.assertLogs("leafrunt.bridge", "ERROR"):
            self.came(OTHER, at=8, sequence=7)

    def test_forged_by_the_thousand(self) -> None:
        with self.assertLogs("leafrunt.bridge", "ERROR") as logged:
            for at in range(5000):
                self.came((1, "3.3.3.3", str(IPv4Address(at + 7)), 10), at=at / 1000, sequence=at)
        self.assertEqual(len(logged.output), 1)
        self.assertLess(len(self.it._seen), 10)

    def test_in_status(self) -> None:
        it = known(neighbors=("neighbor 1 2.2.2.2 Full",))
        it.namesakes = self.it
        self.assertIsNotNone(status_of(it)["at_rest_since"])
        now = time.monotonic()
        with mock.patch("logging.Logger.error"):
            self.came(OTHER, at=now, sequence=1)
            self.came(OTHER, at=now, sequence=2)
        status = status_of(it)
        self.assertIsNone(status["at_rest_since"])
        self.assertTrue(any(each.startswith(TOLD) for each in status["warnings"]))


if __name__ == "__main__":
    unittest.main()
