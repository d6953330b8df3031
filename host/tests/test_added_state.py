"""What a box keeps beside OSPF's own state: each row of the table in docs/use/INTERNALS.md, by somebody who fills it and goes away. (The kernel's table, the console's and BFD's are their own
tests'.)"""
import logging
import unittest
from dataclasses import replace
from ipaddress import IPv4Address
from pathlib import Path

from leafrunt_host.arrivals import MIN_LS_ARRIVAL, Arrivals
from leafrunt_host.authentication import Algorithm
from leafrunt_host.link import Link, Sent
from leafrunt_host.lsas import MAX_AGE
from leafrunt_host.owed import SECONDS_AGAIN
from leafrunt_host.own_lsas import SECONDS_REPLACED, OwnLsas
from leafrunt_host.packets import Flags, read
from leafrunt_host.places import SECONDS_GIVEN, Places
from tests import captured
from tests.test_bridge import KEY, THERE, link, own_hello
from tests.test_topology import EXTERNAL, router_lsa
from tests.test_withheld import UNREAD, description, external, update

PAGE = Path(__file__).parents[2] / "docs" / "use" / "INTERNALS.md"
TWO, ATTACKER = IPv4Address("2.2.2.2"), IPv4Address("10.0.1.66")
STUB = (3, "10.0.1.0", "255.255.255.0", 10)
SPOILED = EXTERNAL[:-1] + bytes([EXTERNAL[-1] ^ 1])
HELLO = bytes.fromhex(captured.BIRD_HELLO_PLAIN)


class Rows(unittest.TestCase):
    """The attacker's packets come at 100 seconds, in the neighbor's name."""

    def setUp(self) -> None:
        logging.disable(logging.WARNING)
        self.addCleanup(logging.disable, logging.NOTSET)
        self.places, self.arrivals, self.own_lsas = Places(), Arrivals(), OwnLsas(0.0)
        given = self.places, self.own_lsas, self.arrivals
        made = link()
        self.link = Link(made.interface, made.authentication._numbers, None, None, *given)
        self.hears(own_hello(), 99)
        self.comes(HELLO, 99)

    def comes(self, data: bytes, now: float, source: IPv4Address = THERE) -> Sent:
        return self.link.from_wire(data, source, now)

    def hears(self, data: bytes, now: float) -> Sent:
        """What `routerd` sends."""
        return self.link.from_router(data, now)

    def test_next_hop(self) -> None:
        """Gone with the neighbor's next Hello."""
        self.comes(HELLO, 100, ATTACKER)
        self.assertEqual(self.link.next_hop(TWO), ATTACKER)
        self.comes(HELLO, 102)
        self.assertEqual(self.link.next_hop(TWO), THERE)

    def test_place(self) -> None:
        """Gone ten seconds after an LSA that `routerd` doesn't acknowledge."""
        self.comes(update(SPOILED), 100)
        self.assertTrue(self.places.has(SPOILED[3:12]))
        self.hears(own_hello(), 101 + SECONDS_GIVEN)
        self.assertFalse(self.places.has(SPOILED[3:12]))

    def test_sequence_number(self) -> None:
        """No packet without the key leaves one; a repeated one leaves that which was there."""
        one = link(KEY)
        one.from_router(own_hello(), 99)
        hello = bytes.fromhex(captured.BIRD_HELLO[Algorithm.HMAC_SHA_256])
        one.from_wire(hello, THERE, 99)
        before = dict(one.authentication._heard or {})
        forged = hello[:20] + b"\xff" * 4 + hello[24:]
        for data, source in ((forged, THERE), (hello, ATTACKER), (forged, ATTACKER)):
            one.from_wire(data, source, 100)
        self.assertEqual(one.authentication._heard, before)

    def test_router_lsa_that_waits(self) -> None:
        """Gone after MinLSArrival."""
        for number in range(3):
            lsa = router_lsa("2.2.2.2", STUB, sequence=-(2**31) + 1 + number)
            self.comes(update(lsa), 100 + number / 10)
        self.assertTrue(self.arrivals.is_waiting)
        self.assertEqual(len(list(self.arrivals.due(100 + MIN_LS_ARRIVAL))), 1)
        self.assertFalse(self.arrivals.is_waiting)

    def test_lsa_that_is_not_read(self) -> None:
        """Gone at MaxAge, if it isn't flushed before."""
        self.comes(update(UNREAD["its type 9 is none"]), 100)
        self.assertTrue(self.link.withholds)
        self.hears(own_hello(), 100 + MAX_AGE)
        self.assertTrue(self.link.withholds)
        self.hears(own_hello(), 101 + MAX_AGE)
        self.assertFalse(self.link.withholds)

    def test_lsa_above_the_limit(self) -> None:
        """Gone with the next exchange."""
        self.places = Places(1)
        made = link()
        self.link = Link(made.interface, made.authentication._numbers, places=self.places)
        self.hears(own_hello(), 99)
        self.comes(HELLO, 99)
        self.comes(description(*(external(at)[:20] for at in range(3))), 100)
        self.assertTrue(self.link.withholds)
        self.comes(description(flags=Flags.I | Flags.M | Flags.MS, sequence=9), 110)
        self.assertFalse(self.link.withholds)

    def test_own_router_lsa_replaced(self) -> None:
        """Gone after ten seconds, if `routerd` hasn't originated its own anew before."""
        self.comes(update(router_lsa("1.1.1.1", STUB, sequence=0x7FFFFFFF)), 100)
        self.assertTrue(self.link.is_table_in_doubt(101))
        self.assertFalse(self.link.is_table_in_doubt(100 + SECONDS_REPLACED))

    def test_debt(self) -> None:
        """Gone a minute after an LSA was sent last."""
        self.comes(update(SPOILED), 100)
        self.assertTrue(self.link.owed.is_waiting)
        self.hears(own_hello(), 99 + SECONDS_AGAIN)
        self.assertTrue(self.link.owed.is_waiting)
        self.hears(own_hello(), 101 + SECONDS_AGAIN)
        self.assertFalse(self.link.owed.is_waiting)

    def test_whose_packets_go_first(self) -> None:
        """Gone with `routerd`'s next Hello that names the neighbor."""
        self.assertEqual(self.link.neighbors, (int(TWO),))
        self.comes(replace(read(HELLO), router_id=ATTACKER).encode(), 100)
        self.hears(own_hello(), 102)
        self.assertEqual(self.link.neighbors, (int(TWO),))

    def test_the_table_has_each(self) -> None:
        """Each row names its test here, and each test has a row."""
        text = PAGE.read_text(encoding="utf-8").partition("## What a box adds to OSPF's state")[2]
        rows = [line for line in text.partition("\n## ")[0].splitlines() if "`test_" in line]
        named = {line.rpartition("`test_")[2].partition("`")[0] for line in rows}
        tests = {each.removeprefix("test_") for each in dir(self) if each.startswith("test_")}
        self.assertEqual(named, tests - {"the_table_has_each"})


if __name__ == "__main__":
    unittest.main()
