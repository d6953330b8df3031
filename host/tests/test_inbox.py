import random
import tempfile
import unittest
from ipaddress import IPv4Address
from pathlib import Path

from leafrunt_host.inbox import (
    MOST_AHEAD,
    MOST_HELLOS,
    MOST_WAITING,
    RECORD,
    Inbox,
    kernel_memory,
    waiting_at,
)
from leafrunt_host.packets import ROUTER_MTU, Packet, PacketType, lsas_of, merged, read
from tests import captured
from tests.test_packets import lsa

UDP = """\
   sl  local_address rem_address   st tx_queue rx_queue tr tm->when retrnsmt   uid  timeout inode
  210: 0100007F:1B59 00000000:0000 07 00000000:00012C00 00:00000000 00000000     0        0 1 2 0 0
  212: 0100000A:1B59 00000000:0000 07 00000000:00000001 00:00000000 00000000     0        0 3 2 0 0
  211: 0100007F:1B5A 0100007F:1B59 01 00000000:00000000 00:00000000 00000000     0        0 2 2 0 0
"""
HELLO = bytes.fromhex(captured.BIRD_HELLO_PLAIN)
UPDATE = read(bytes.fromhex(captured.PLAIN["FRR Update"]))


def update(*lsas: bytes, router_id: str = "2.2.2.2") -> bytes:
    body = len(lsas).to_bytes(4, "big") + b"".join(lsas)
    return Packet(UPDATE.type, IPv4Address(router_id), UPDATE.area, body).encode()


def taken(inbox: Inbox) -> list[bytes]:
    return list(iter(inbox.take, None))


class Merging(unittest.TestCase):
    def test_two_updates(self) -> None:
        one = merged(update(lsa(1, 36), lsa(2, 48)), update(lsa(3, 36)), ROUTER_MTU)
        self.assertEqual(lsas_of(read(one or b"").body), [lsa(1, 36), lsa(2, 48), lsa(3, 36)])

    def test_what_is_not_merged(self) -> None:
        for one, other in (
            (update(lsa(1, 36)), HELLO),
            (HELLO, HELLO),
            (update(lsa(1, 36)), update(lsa(1, 36), router_id="3.3.3.3")),
            (update(lsa(1, 5000)), update(lsa(1, 5000))),
        ):
            self.assertIsNone(merged(one, other, ROUTER_MTU))

    def test_updates_that_are_none(self) -> None:
        """One whose LSAs don't fill it would take those of a good one along, and its count may be
        any number."""
        good, largest = update(lsa(1, 36)), Packet(
            UPDATE.type, IPv4Address("2.2.2.2"), UPDATE.area, b"\xff" * 4
        )
        cut_short = Packet(
            UPDATE.type, IPv4Address("2.2.2.2"), UPDATE.area, b"\0\0\0\1" + lsa(2, 36)[:30]
        )
        for bad in (largest.encode(), cut_short.encode()):
            for one, other in ((bad, bad), (bad, good), (good, bad)):
                self.assertIsNone(merged(one, other, ROUTER_MTU))


class Waiting(unittest.TestCase):
    def test_all_come_out_in_order_and_hellos_first(self) -> None:
        source, inbox = random.Random(1), Inbox()
        lsas = [lsa(number, source.randrange(20, 900)) for number in range(300)]
        for each in lsas:
            self.assertTrue(inbox.put(update(each)))
        inbox.put(HELLO)
        found: list[bytes] = []
        while len(inbox):
            inbox.seen(0)
            found += taken(inbox)
        self.assertEqual(found[0], HELLO)
        self.assertEqual([each for data in found[1:] for each in lsas_of(read(data).body)], lsas)
        self.assertTrue(all(len(data) <= ROUTER_MTU for data in found))
        self.assertLess(len(found), 30)

    def test_it_waits_while_the_router_is_behind(self) -> None:
        inbox = Inbox()
        for _ in range(200):
            inbox.put(HELLO)
        given = taken(inbox)
        memory = len(given) * kernel_memory(len(HELLO))
        self.assertTrue(MOST_AHEAD <= memory < MOST_AHEAD + 4096)
        inbox.seen(MOST_AHEAD)
        self.assertIsNone(inbox.take())
        inbox.seen(MOST_AHEAD - 1)
        self.assertEqual(len(taken(inbox)), 1)

    def test_it_is_bounded(self) -> None:
        inbox = Inbox()
        size = len(HELLO) + RECORD
        for _ in range(MOST_WAITING // size):
            self.assertTrue(inbox.put(HELLO))
        self.assertFalse(inbox.put(HELLO))
        inbox.take()
        self.assertTrue(inbox.put(HELLO))

    def test_hellos_push_nothing_back_for_ever(self) -> None:
        inbox = Inbox()
        inbox.put(update(lsa(1, 36)))
        for _ in range(2 * MOST_HELLOS):
            inbox.put(HELLO)
        found: list[bytes] = []
        while len(inbox):
            inbox.seen(0)
            found += taken(inbox)
        self.assertEqual(
            [data[1] for data in found].index(PacketType.LINK_STATE_UPDATE), MOST_HELLOS
        )

    def test_what_the_kernel_says(self) -> None:
        with tempfile.TemporaryDirectory() as folder:
            path = Path(folder, "udp")
            path.write_text(UDP)
            self.assertEqual(waiting_at({7001, 7002, 9}, path), {7001: 0x12C00, 7002: 0})
            self.assertEqual(waiting_at({7001}, Path(folder, "none")), {})


if __name__ == "__main__":
    unittest.main()
