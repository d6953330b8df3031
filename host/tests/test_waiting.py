"""LSAs that wait in the bridge: own ones that come back at MaxAge too early, the own router-LSA
until the kernel has its routes, and router-LSAs within MinLSArrival."""
from __future__ import annotations

import logging
import unittest
from dataclasses import replace
from ipaddress import IPv4Address
from types import SimpleNamespace

from leafrunt_host.arrivals import MIN_LS_ARRIVAL, MOST_KEPT, Arrivals
from leafrunt_host.arrivals import MOST as MOST_GIVEN
from leafrunt_host.bridge import Bridge
from leafrunt_host.holding import LONGEST, MOST, Holding, own_router_lsa_in
from leafrunt_host.link import EARLY, Link
from leafrunt_host.lsas import MAX_AGE
from leafrunt_host.own_lsas import MIN_LS_INTERVAL, SECONDS_REPLACED, OwnLsas
from leafrunt_host.packets import Packet, PacketType, lsas_of, read
from tests.test_bridge import OWN, THERE, link, own, own_hello, plain
from tests.test_topology import EXTERNAL, external, router_lsa
from tests.test_withheld import update

TWO, THREE = (1, "2.2.2.2", "10.0.1.1", 10), (1, "3.3.3.3", "10.0.2.1", 10)
STUB = (3, "10.0.1.0", "255.255.255.0", 10)
FIRST = -(2**31) + 1


def own_lsa(*links: tuple[int, str, str, int], number: int = 1) -> bytes:
    """The instance of that number of this router's router-LSA."""
    return router_lsa("1.1.1.1", *links, sequence=FIRST + number - 1)


def of_two(number: int, *links: tuple[int, str, str, int]) -> bytes:
    return router_lsa("2.2.2.2", *(links or (STUB,)), sequence=FIRST + number - 1)


def flushed(lsa: bytes) -> bytes:
    return MAX_AGE.to_bytes(2, "big") + lsa[2:]


def sent(*lsas: bytes) -> bytes:
    """An Update of `routerd`."""
    return own(read(update(*lsas)))


class OwnLsasThatComeBack(unittest.TestCase):
    def setUp(self) -> None:
        logging.disable(logging.WARNING)
        self.addCleanup(logging.disable, logging.NOTSET)
        own_lsas, self.arrivals = OwnLsas(100.0), Arrivals()
        interface, numbers = link().interface, link().authentication._numbers
        self.link = Link(interface, numbers, own_lsas=own_lsas, arrivals=self.arrivals)
        self.link.from_router(own_hello(), 100)

    def given(self, now: float, *lsas: bytes) -> list[bytes]:
        """What of an Update `routerd` is given."""
        came = self.link.from_wire(update(*lsas), THERE, now).to_router
        return [lsa for each in came for lsa in lsas_of(read(each).body)]

    def test_they_come_when_it_may_originate_at_once(self) -> None:
        """Within MinLSInterval of its last instance it would wait, and forget the number (RFC 2328,
        13.4): it isn't given what came, and nobody acknowledges it."""
        lsa = flushed(own_lsa(TWO, number=2))
        self.assertEqual(self.given(104.9, lsa, EXTERNAL), [EXTERNAL])
        self.assertEqual(self.given(105.0, lsa), [lsa])
        self.link.from_router(sent(own_lsa(number=1)), 200)
        self.link.from_router(sent(own_lsa(number=1)), 204)  # the same again
        self.assertEqual(self.given(200 + MIN_LS_INTERVAL - 0.1, lsa), [])
        self.assertEqual(self.link.from_wire(update(lsa), THERE, 201).to_wire, [])
        self.assertEqual(self.given(200 + MIN_LS_INTERVAL, lsa), [lsa])
        self.assertEqual(self.link.counters[EARLY], 3)

    def test_they_come_once_it_may(self) -> None:
        """The newest one, without the neighbor's sending it again, which may come too early too:
        with RxmtInterval as long as MinLSInterval it was ten seconds until others had the next."""
        mine = external("192.0.2.0/24", "1.1.1.1")
        self.link.from_router(sent(mine), 200)
        for number in (3, 4, 2):
            lsa = flushed(external("192.0.2.0/24", "1.1.1.1", sequence=FIRST + number))
            self.assertEqual(self.given(200.1, lsa, EXTERNAL), [EXTERNAL])
        forged = flushed(external("192.0.2.0/24", "1.1.1.1", sequence=FIRST + 9))
        self.assertEqual(self.given(200.2, forged[:-1] + b"x"), [])
        self.assertTrue(self.arrivals)
        self.assertFalse(self.arrivals.is_waiting)
        self.assertEqual([*self.arrivals.due(204.9)], [])
        ((_, packet),) = self.arrivals.due(200 + MIN_LS_INTERVAL)
        wanted = [flushed(external("192.0.2.0/24", "1.1.1.1", sequence=FIRST + 4))]
        self.assertEqual(lsas_of(packet.body), wanted)
        came = self.link.come_again(packet, 200 + MIN_LS_INTERVAL).to_router
        self.assertEqual([lsas_of(read(each).body) for each in came], [wanted])
        self.assertFalse(self.arrivals)

    def test_bounds_of_what_waits(self) -> None:
        for number in range(MOST_KEPT + 9):
            prefix = str(IPv4Address(0x0A000000 + 256 * number)) + "/24"
            self.given(101, flushed(external(prefix, "1.1.1.1")))
        self.assertEqual(len(self.arrivals._kept), MOST_KEPT)

    def test_what_is_given_at_any_time(self) -> None:
        """An own LSA below MaxAge, those of others, and own ones that it has flushed itself."""
        mine = external("192.0.2.0/24", "1.1.1.1")
        self.link.from_router(sent(mine), 200)
        self.assertEqual(self.given(201, flushed(mine)), [])
        for lsa in (mine, flushed(EXTERNAL), own_lsa(number=7)):
            self.assertEqual(self.given(201, lsa), [lsa])
        self.link.from_router(sent(flushed(mine)), 202)
        self.assertEqual(self.given(202.1, flushed(mine)), [flushed(mine)])


class OwnRouterLsaReplaced(unittest.TestCase):
    """Until `routerd` has originated its own again `table` isn't believed where it lacks routes."""

    def setUp(self) -> None:
        self.own_lsas = OwnLsas(100.0)
        self.own_lsas.sent(OWN.packed, [own_lsa(TWO, number=3)], 100)

    def in_doubt(self, lsa: bytes, now: float) -> bool:
        self.own_lsas.came(OWN.packed, lsa, now)
        return self.own_lsas.is_in_doubt(now)

    def test_what_replaces_it(self) -> None:
        last = router_lsa("1.1.1.1", STUB, sequence=0x7FFFFFFF)
        for lsa in (own_lsa(STUB, number=4), flushed(own_lsa(TWO, number=3)), last):
            self.setUp()
            self.assertTrue(self.in_doubt(lsa, 200))
            self.assertTrue(self.own_lsas.is_in_doubt(200 + SECONDS_REPLACED - 0.1))
            self.assertFalse(self.own_lsas.is_in_doubt(200 + SECONDS_REPLACED))

    def test_what_does_not(self) -> None:
        """An older or the same one; another router's; one that `routerd` discards."""
        later = own_lsa(STUB, number=4)
        wrong = later[:-1] + bytes([later[-1] ^ 1])
        for lsa in (own_lsa(number=2), own_lsa(TWO, number=3), of_two(9), EXTERNAL, wrong):
            self.assertFalse(self.in_doubt(lsa, 200))

    def test_until_it_is_originated_again(self) -> None:
        """A flush isn't that, nor is the forged one, which is flooded first; nobody puts it off by
        another forged one."""
        self.assertTrue(self.in_doubt(own_lsa(STUB, number=9), 200))
        self.own_lsas.sent(OWN.packed, [own_lsa(STUB, number=9)], 200)
        self.own_lsas.sent(OWN.packed, [flushed(own_lsa(STUB, number=9))], 201)
        self.assertTrue(self.own_lsas.is_in_doubt(203))
        self.assertFalse(self.in_doubt(own_lsa(STUB, number=11), 211))
        self.own_lsas.sent(OWN.packed, [own_lsa(TWO, number=12)], 212)
        self.assertTrue(self.own_lsas.is_in_doubt(212.5))
        self.assertFalse(self.own_lsas.is_in_doubt(214))

    def test_at_a_link(self) -> None:
        interface, numbers = link().interface, link().authentication._numbers
        one = Link(interface, numbers, own_lsas=self.own_lsas)
        one.from_router(own_hello(), 100)
        one.from_wire(update(own_lsa(STUB, number=4)), THERE, 200)
        self.assertTrue(one.is_table_in_doubt(201))


class Held(unittest.TestCase):
    def setUp(self) -> None:
        self.now, self.woken = 100.0, 0
        self.holding = Holding(self.wake, lambda: self.now)
        self.holding.keeps(True)

    def wake(self) -> None:
        self.woken += 1

    def goes_on(self, *lsas: bytes) -> bool:
        return not self.holding.holds(1, sent(*lsas))

    def test_until_the_kernel_has_the_routes(self) -> None:
        first, second = own_lsa(TWO, STUB), own_lsa(TWO, STUB, THREE, number=2)
        for number, lsa in enumerate((first, second), 1):
            self.assertFalse(self.goes_on(EXTERNAL, lsa))
            self.assertEqual(self.woken, number)
            self.holding.looked(self.now - 0.1)
            self.assertFalse(self.holding.is_over())
            self.holding.looked(self.now + 0.1)
            self.assertTrue(self.holding.is_over())
            self.assertFalse(self.holding.is_over(is_waiting=True))
            self.assertEqual(self.holding.released(), [(1, sent(EXTERNAL, lsa))])
            self.assertTrue(self.goes_on(lsa), "once more")
            self.now += 10

    def test_no_longer_than_a_moment(self) -> None:
        self.assertFalse(self.goes_on(own_lsa(TWO)))
        self.now += LONGEST / 2
        self.holding.go_on()
        self.assertFalse(self.goes_on(own_lsa(TWO, THREE, number=2)))
        self.now += LONGEST / 2 + 0.1
        self.assertTrue(self.holding.is_over(is_waiting=True))
        self.assertEqual(len(self.holding.released()), 2)
        self.assertFalse(self.holding.is_over())

    def test_what_comes_meanwhile_is_looked_at_too(self) -> None:
        self.assertFalse(self.goes_on(own_lsa(TWO)))
        self.now += 1
        self.holding.go_on()
        self.holding.looked(self.now - 0.5)
        self.assertFalse(self.holding.is_over())
        self.assertEqual(self.woken, 2)

    def test_bounds(self) -> None:
        for _ in range(MOST + 1):
            self.assertFalse(self.goes_on(own_lsa(TWO)))
        self.assertTrue(self.holding.is_over())

    def test_what_goes_on_at_once(self) -> None:
        """Links that go, or stay; one at MaxAge; what others originated; other packets."""
        both = own_lsa(TWO, THREE)
        self.goes_on(both)
        self.holding.released()
        two, three = own_lsa(TWO, number=2), own_lsa(THREE, number=3)
        again = own_lsa((*TWO[:3], 99), THREE, number=5)
        for lsa in (two, three, EXTERNAL, of_two(1, (1, "1.1.1.1", "10.0.1.2", 10))):
            self.assertTrue(self.goes_on(lsa))
        self.assertFalse(self.goes_on(own_lsa(TWO, THREE, number=4)))
        self.holding.released()
        self.assertTrue(self.goes_on(again), "another cost")
        self.assertTrue(self.goes_on(flushed(own_lsa(TWO, THREE, STUB, number=6))))
        for data in (own_hello(), own(plain("BIRD Description")), b"", bytes(24), sent(both)[:-1]):
            self.assertIsNone(own_router_lsa_in(data))

    def test_one_that_goes_takes_the_held_ones_place(self) -> None:
        """A neighbor takes none within MinLSArrival of the last one."""
        self.goes_on(own_lsa(TWO))
        self.holding.released()
        self.assertFalse(self.goes_on(own_lsa(TWO, THREE, number=2)))
        self.assertTrue(self.goes_on(own_lsa(STUB, number=3)))
        self.assertEqual(self.holding.released(), [])

    def test_a_table_that_is_not_kept(self) -> None:
        self.assertFalse(self.goes_on(own_lsa(TWO)))
        self.holding.keeps(False)
        self.assertTrue(self.holding.is_over())
        self.assertTrue(self.goes_on(own_lsa(TWO, THREE, number=2)))


class WithinMinLSArrival(unittest.TestCase):
    def setUp(self) -> None:
        self.arrivals = Arrivals()

    def waits(self, lsa: bytes, now: float, number: int = 1) -> bool:
        return self.arrivals.waits(number, read(update(lsa)), lsa, now)

    def test_the_next_instance_waits(self) -> None:
        self.assertFalse(self.waits(of_two(1), 10))
        self.assertFalse(self.waits(of_two(1), 10.1), "the same")
        self.assertTrue(self.waits(of_two(2), 10.2))
        self.assertTrue(self.waits(of_two(4), 10.4, number=2))
        self.assertTrue(self.waits(of_two(3), 10.5))
        self.assertTrue(self.arrivals.is_waiting)
        self.assertEqual(list(self.arrivals.due(10 + MIN_LS_ARRIVAL - 0.1)), [])
        ((number, packet),) = self.arrivals.due(10 + MIN_LS_ARRIVAL)
        self.assertEqual((number, packet.router_id), (2, IPv4Address("2.2.2.2")))
        self.assertEqual(lsas_of(packet.body), [of_two(4)])
        self.assertFalse(self.arrivals.is_waiting)
        self.assertFalse(self.waits(of_two(4), 11.1))
        self.assertTrue(self.waits(of_two(5), 11.9))
        self.assertFalse(self.waits(of_two(6), 12.0), "it is time")
        self.assertFalse(self.arrivals.is_waiting, "and the one before is older")

    def test_others_do_not(self) -> None:
        for number in (1, 2):
            lsa = external("192.0.2.0/24", "2.2.2.2", sequence=FIRST + number)
            self.assertFalse(self.waits(lsa, 10))

    def test_a_wrong_checksum(self) -> None:
        """It doesn't keep the instances that hold waiting, however high its sequence number is."""
        forged = of_two(99, TWO)
        forged = forged[:-1] + bytes([forged[-1] ^ 1])
        self.assertFalse(self.waits(forged, 10))
        self.assertFalse(self.waits(of_two(1), 10.1))
        self.assertTrue(self.waits(of_two(2), 10.2))
        self.assertFalse(self.waits(forged, 10.3))
        ((_, packet),) = self.arrivals.due(11.2)
        self.assertEqual(lsas_of(packet.body), [of_two(2)])

    def test_bounds(self) -> None:
        for number in range(MOST_GIVEN + 9):
            self.waits(router_lsa(str(IPv4Address(number + 1)), STUB), 10)
        self.assertEqual(len(self.arrivals._given), MOST_GIVEN)

    def test_bounds_of_what_waits(self) -> None:
        """What has no room goes on at once."""
        for number in range(MOST_GIVEN + 9):
            router, waits = str(IPv4Address(number + 1)), number < MOST_GIVEN
            self.assertFalse(self.waits(router_lsa(router, STUB), 10))
            self.assertEqual(self.waits(router_lsa(router, STUB, sequence=FIRST + 1), 10), waits)
        self.assertEqual(len(self.arrivals._waiting), MOST_GIVEN)

    def test_it_comes_by_its_link(self) -> None:
        one = Link(link().interface, link().authentication._numbers, arrivals=self.arrivals)
        one.from_router(own_hello(), 0)
        for lsa, now in ((of_two(1), 10), (of_two(2), 10.5)):
            came = one.from_wire(update(lsa, EXTERNAL), THERE, now).to_router
            wanted = [EXTERNAL] if now > 10 else [lsa, EXTERNAL]
            self.assertEqual([lsas_of(read(each).body) for each in came], [wanted])
        ((_, packet),) = self.arrivals.due(11)
        (data,) = one.come_again(packet, 11).to_router
        self.assertEqual(lsas_of(read(data).body), [of_two(2)])
        other = replace(packet, router_id=IPv4Address("9.9.9.9"))
        self.assertEqual(one.come_again(other, 11).to_router, [])


class Passed(unittest.TestCase):
    """What the bridge does with both."""

    def setUp(self) -> None:
        self.now, self.sent = 100.0, list[Packet]()
        self.bridge = Bridge.__new__(Bridge)
        self.bridge._clock = lambda: self.now
        self.bridge._holding = Holding(lambda: None, self.bridge._clock)
        self.bridge._holding.keeps(True)
        self.bridge._arrivals = Arrivals()
        one = SimpleNamespace(interface=SimpleNamespace(number=1), failed=self.fail)
        self.bridge.links = [self.link] = [one]
        self.bridge._pass_on = lambda _, data: self.sent.append(read(data))
        self.bridge._send_again = lambda _link, packet, _now: self.sent.append(packet)

    def test_in_turn(self) -> None:
        self.bridge._from_router(self.link, sent(own_lsa(TWO)))
        self.bridge._from_router(self.link, own_hello())
        self.assertEqual([each.type for each in self.sent], [PacketType.HELLO])
        self.bridge._release()
        self.assertEqual([each.router_id for each in self.sent], [OWN, OWN])
        self.assertEqual(lsas_of(self.sent[1].body), [own_lsa(TWO)])

    def test_what_has_waited(self) -> None:
        arrivals, holding = self.bridge._arrivals, self.bridge._holding
        for number in (1, 2):
            arrivals.waits(1, read(update(of_two(number))), of_two(number), 100)
        self.bridge._from_router(self.link, sent(own_lsa(TWO)))
        self.now = 101.0
        self.bridge._come_again()
        self.assertEqual(lsas_of(self.sent[0].body), [of_two(2)])
        holding.looked(100.5)
        self.assertFalse(holding.is_over(), "the kernel may lack what came")


if __name__ == "__main__":
    unittest.main()
