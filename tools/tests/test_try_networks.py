"""tools/try-networks: what a router may not say, what becomes of packets, and what it refuses."""
import pathlib
import struct
import subprocess
import sys
import tempfile
import unittest

TOP = pathlib.Path(__file__).resolve().parents[2]
TOOL = TOP / "tools/try-networks"
sys.dont_write_bytecode = True
sys.path.insert(0, str(TOP / "tools/agreement-parts"))
from ospf_bytes import packet, update  # noqa: E402
from packets import ACKNOWLEDGMENT, DESCRIPTION  # noqa: E402
from rows import Row, Watched, Wrong, named_in  # noqa: E402

# A router that prints, for each line that begins with a moment, a Hello at each interface, and has no neighbor.
ROUTER = """#!/usr/bin/env python3
import sys
for line in sys.stdin:
    words = line.split()
    if words[0] == "neighbors":
        print("end", flush=True)
    elif words[0].isdigit() and words[1] == "tick":
        print(f"{words[0]} sends 1 0201\\n{words[0]} sends 2 0201", flush=True)
    elif words[0].isdigit() and words[1] == "down":
        print(f"{words[0]} refused: there is no such interface", flush=True)
"""


def lsa(number: int = 1, router: int = 9, age: int = 1, rest: bytes = b"") -> bytes:
    """The bytes of an AS-external-LSA, in so far as the tool reads them."""
    return struct.pack("!HBBIIiHH", age, 2, 5, 0x14000000, router, number - 0x80000000, 7, 20 + len(rest)) + rest


def acknowledgment(*headers: bytes) -> bytes:
    return packet(ACKNOWLEDGMENT, b"".join(headers))


class RouterIsWatched(unittest.TestCase):
    def setUp(self) -> None:
        self.router = Watched(0)

    def floods(self, moment: int = 10, interface: int = 2) -> None:
        """It hears an LSA at interface 1 and floods it at another one, whose neighbor is Full."""
        self.router.hears(1, update(lsa()))
        self.router.tells(interface, moment, update(lsa()), is_tick=False, is_reply=False)

    def test_what_was_received_or_is_its_own_may_be_said(self) -> None:
        self.floods()
        self.router.tells(1, 11, acknowledgment(lsa()), is_tick=True, is_reply=False)
        self.router.tells(1, 11, update(lsa(router=1)), is_tick=False, is_reply=False)
        self.assertEqual(self.router.acknowledged, 1)

    def test_what_was_not_received_may_not_be_said(self) -> None:
        self.router.hears(1, update(lsa(), lsa(router=8)))
        self.router.hears(1, acknowledgment(lsa(number=3)))
        for text in (update(lsa(number=2)), acknowledgment(lsa(number=2)), acknowledgment(lsa(age=3600)), acknowledgment(lsa(number=3)),
                     acknowledgment(lsa(router=1)), update(lsa(), lsa(router=7))):
            with self.subTest(text.hex()), self.assertRaises(Wrong):
                self.router.tells(1, 10, text, is_tick=True, is_reply=False)

    def test_what_is_not_acknowledged_is_sent_again_within_two_seconds(self) -> None:
        self.floods()
        self.router.looks(11, {1, 2}, is_tick=True)
        self.router.looks(12, {1, 2}, is_tick=False)
        with self.assertRaises(Wrong):
            self.router.looks(12, {1, 2}, is_tick=True)
        self.router.tells(2, 12, update(lsa()), is_tick=True, is_reply=False)
        self.router.looks(13, {1, 2}, is_tick=True)
        with self.assertRaises(Wrong):
            self.router.looks(14, {1, 2}, is_tick=True)

    def test_what_is_acknowledged_there_is_not_sent_again_at_a_tick(self) -> None:
        self.floods()
        self.router.hears(1, acknowledgment(lsa()))
        with self.assertRaises(Wrong):
            self.router.looks(12, {1, 2}, is_tick=True)
        self.router.hears(2, acknowledgment(lsa()))
        self.router.looks(12, {1, 2}, is_tick=True)
        self.router.tells(2, 12, update(lsa()), is_tick=False, is_reply=True)
        with self.assertRaises(Wrong):
            self.router.tells(2, 12, update(lsa()), is_tick=True, is_reply=False)

    def test_what_may_have_left_the_list_is_not_looked_for(self) -> None:
        for leaves in (lambda: self.router.hears(1, update(lsa(number=2))), lambda: self.router.looks(12, {1}, is_tick=True)):
            self.floods()
            leaves()
            self.router.looks(20, {1, 2}, is_tick=True)

    def test_lsas_fill_their_packet(self) -> None:
        self.assertEqual(len(named_in(update(lsa(), lsa(2, rest=bytes(16))))[1]), 2)
        self.assertEqual(named_in(packet(DESCRIPTION, bytes(7))), (DESCRIPTION, ()))
        for text in (update(lsa()) + b"\0", acknowledgment(lsa()) + bytes(4), update(lsa(rest=bytes(4))[:20])):
            with self.subTest(text.hex()), self.assertRaises(Wrong):
                named_in(text)


class Noted(Row):
    """A row whose routers are left out: it notes which packets come, and moves on."""

    def __init__(self, sent: int):
        self.packets, self.at, self.count, self.came = [(0, 1, bytes([it])) for it in range(sent)], 0, 3, []

    def happens(self, place, words, came=None):
        self.came.append(came[1][0])


class PacketsMeetTheirFates(unittest.TestCase):
    def test_each_fate(self) -> None:
        for fate, came, at in (("C", [0], 1), ("L", [], 1), ("T", [0, 0], 1), ("X", [1, 0], 2)):
            with self.subTest(fate):
                row = Noted(3)
                row.next(fate)
                self.assertEqual((row.came, row.at), (came, at))

    def test_the_last_packet_has_none_behind_it(self) -> None:
        row = Noted(1)
        row.next("X")
        row.next("C")
        self.assertEqual((row.came, row.at), ([0], 1))

    def test_a_packet_comes_again(self) -> None:
        row = Noted(3)
        for back in (0, 1, 3, 4):
            row.again(back)
        self.assertEqual(row.came, [2, 0])


class Command(unittest.TestCase):
    def setUp(self) -> None:
        room = tempfile.TemporaryDirectory()
        self.addCleanup(room.cleanup)
        self.room = pathlib.Path(room.name)
        self.program = self.room / "simulation"
        self.program.write_text(ROUTER)
        self.program.chmod(0o755)

    def play(self, acts: str) -> tuple[int, str]:
        (self.room / "acts").write_text(acts)
        ran = subprocess.run([TOOL, self.room / "acts", "--program", self.program], capture_output=True, text=True, check=False, timeout=60)
        return ran.returncode, ran.stdout

    def test_acts_are_played(self) -> None:
        self.assertEqual(self.play("routers 2 # both\n\nseconds 3 CLTX\nneighbors\n"), (0, "neighbors: all are Down\n"))

    def test_an_event_that_is_refused_is_told(self) -> None:
        self.assertEqual(self.play("routers 2\ndown 2 1\n")[0], 3)

    def test_what_is_no_act_is_refused(self) -> None:
        for acts in ("", "seconds 3 C", "routers 4", "routers 2\nfly", "routers 2\nseconds 3 Z", "routers 2\nseconds 0 C", "routers 2\ntick 3",
                     "routers 2\ndown 1 3", "routers 3\nannounce 1 4", "routers 3\nway 1", "routers 3\nseconds 3"):
            with self.subTest(acts):
                self.assertEqual(self.play(acts), (2, ""))

    def test_a_history_of_routers_that_never_speak_ends_otherwise(self) -> None:
        ran = subprocess.run([TOOL, "--histories", "0", "1", "--program", self.program], capture_output=True, text=True, check=False, timeout=60)
        self.assertIn(ran.returncode, (1, 3))


if __name__ == "__main__":
    unittest.main()
