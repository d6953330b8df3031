"""What changed, kept over a restart, bounded, and with what came before it."""
import json
import logging
import tempfile
import time
import unittest
from dataclasses import replace
from ipaddress import IPv4Address, IPv4Network
from pathlib import Path
from unittest import mock

from leafrunt_host import history as histories
from leafrunt_host.history import (
    MOST_OTHERS,
    MOST_ROUTES,
    SECONDS_BEFORE,
    Change,
    History,
    change_line,
    change_read,
    moment_of,
    named,
)
from leafrunt_host.observing import Adjacencies, Observer
from tests.test_observing import PACKET, THERE, hello_of
from tests.test_topology import external, router_lsa

A, B = b"203.0.113.0/24", b"198.51.100.0/24"
NAMES = {1: "eth1", 2: "eth2"}


def line(prefix: bytes, rest: bytes = b"ext2 20 via 1") -> dict[bytes, bytes]:
    return {prefix: prefix + b" " + rest}


class Histories(unittest.TestCase):
    def setUp(self) -> None:
        folder = tempfile.TemporaryDirectory()
        self.addCleanup(folder.cleanup)
        self.path = Path(folder.name) / "changes"

    def history(self) -> History:
        it = History(self.path)
        self.addCleanup(it.close)
        return it

    def test_routes(self) -> None:
        it = self.history()
        it.routes({}, line(A), NAMES)
        it.routes(line(A), line(A, b"ext2 30 via 1,2"), NAMES)
        it.routes(line(A, b"ext2 30 via 1,2"), line(B, b"intra 10 via 0"), NAMES)
        said = [each[2:5] for each in it.last()]
        own = "intra 10, this router's own network"
        by_address = "ext2 20, by a forwarding address in this router's own network"
        self.assertEqual(named("ext2 20 via 0", {}), by_address)
        self.assertEqual(
            said,
            [
                (A.decode(), None, "ext2 20 via eth1"),
                (A.decode(), "ext2 20 via eth1", "ext2 30 via eth1,eth2"),
                (B.decode(), None, own),
                (A.decode(), "ext2 30 via eth1,eth2", None),
            ],
        )
        self.assertEqual([each[2] for each in it.last(IPv4Network(B.decode()))], [B.decode()])
        self.assertEqual(it.last(since=time.time() + 1), [])
        self.assertRegex(change_line(it.last()[0]), r"^\d{4}-.* route 203\.0\.113\.0/24: no route -> ext2 20 via eth1$")

    def test_causes(self) -> None:
        """An LSA of the destination before what concerns all routes; nothing that is long past."""
        it = self.history()
        it.causes.lsa(router_lsa("2.2.2.2"))
        it.causes.lsa(external(A.decode(), "2.2.2.2", age=3600))
        it.routes({**line(A), **line(B)}, {}, NAMES)
        it.routes({}, line(A, b"intra 20 via 1"), NAMES)
        it.note("program", "veto", None, "/v.o", "by root")
        it.routes({}, line(B), NAMES)
        causes = [each.cause for each in it.last() if each.kind == "route"]
        self.assertEqual(
            causes,
            [
                "external-LSA 203.0.113.0 of 2.2.2.2 withdrawn",
                "router-LSA 2.2.2.2 of 2.2.2.2 came",
                "router-LSA 2.2.2.2 of 2.2.2.2 came",
                "veto: nothing -> /v.o (by root)",
            ],
        )
        later = time.monotonic() + SECONDS_BEFORE + 1
        with mock.patch.object(histories.time, "monotonic", lambda: later):
            self.assertEqual((it.causes.of_all(), it.causes.of(A.decode(), "")), ("", ""))

    def test_over_a_restart(self) -> None:
        it = self.history()
        it.routes({}, line(A), NAMES)
        it.note("neighbor", "eth1 2.2.2.2", "Full", "Down", "no Hello for 40 s")
        before = it.last()
        it.close()
        it.close()
        self.assertEqual(self.history().last(), before)

    def test_a_damaged_file(self) -> None:
        good = json.dumps(Change(1.0, "route", "10.0.0.0/8", None, "x", ""))
        lines = ["{}", "[", "[1]", "null", '["x", "route", "a", null, null, ""]', '[true, "route", "a", null, null, ""]']
        lines += ['[1, "other", "a", null, null, ""]', '[1, "route", 5, null, null, ""]', "[" * 99999, "\0", good]
        self.path.write_bytes(b"\xff\n" + "\n".join(lines).encode())
        self.assertEqual(self.history().last(), [Change(1.0, "route", "10.0.0.0/8", None, "x", "")])
        self.assertEqual(len((change_read(json.dumps([1, "route", "a" * 9999, None, None, ""])) or ("",) * 3)[2]), 300)

    def test_bounded(self) -> None:
        """Floods of routes push no change of a neighbor out, nor the other way round."""
        it = self.history()
        it.note("neighbor", "eth1 2.2.2.2", "Full", "Down")
        many = {b"10.%d.%d.0/24" % (at // 256, at % 256): b"10.%d.%d.0/24 x" % (at // 256, at % 256) for at in range(30_000)}
        it.routes({}, many, NAMES)
        for _ in range(2 * MOST_OTHERS):
            it.note("program", "veto", None, "/x.o")
        it.close()
        self.assertEqual(len(it.last(most=10**9)), MOST_ROUTES + MOST_OTHERS)
        self.assertLess(self.path.stat().st_size, 4 << 20)
        self.assertLessEqual(len(it.causes._by_prefix), 20_000)

    def test_a_folder_that_is_gone(self) -> None:
        it = History(Path("/nowhere/at/all"))
        with self.assertLogs("leafrunt.box", "WARNING") as logged:
            it.note("box", "one", None, "started")
            it.close()
        self.assertEqual(len(logged.output), 1)
        self.assertEqual(len(it.last()), 1)
        History(None).close()

    def test_moments(self) -> None:
        now = time.mktime(time.strptime("2026-12-02 03:00:00", "%Y-%m-%d %H:%M:%S"))
        for text, ago in (("90m", 5400), ("2h", 7200), ("1d", 86400), ("30s", 30), ("02:14", 2760), ("2026-12-02 02:14:30", 2730), ("2026-12-01T03:00:00", 86400), ("23:00", 4 * 3600)):
            with self.subTest(text):
                self.assertEqual(moment_of(text, now), now - ago)
        for text in ("", "x", "25:00", "-5m", "5", "m", "9" * 30 + "m", "2026-13-01 00:00"):
            with self.subTest(text), self.assertRaises(ValueError):
                moment_of(text, now)


class Reasons(unittest.TestCase):
    """Why a neighbor isn't Full any more."""

    def test_by_its_packets(self) -> None:
        it = Observer("eth1", 1500)
        one, of = IPv4Address("1.1.1.1"), PACKET.router_id
        it.from_router(hello_of(replace(PACKET, router_id=one), neighbors=(of,)))
        self.assertEqual(it.why_lost(of, 5), "no Hello of it is known")
        it.from_wire(hello_of(neighbors=(one,)), THERE, 10)
        self.assertIn("RFC 2328, SeqNumberMismatch", it.why_lost(of, 12))
        self.assertEqual(it.why_lost(of, 18), "no Hello for 8 s, RouterDeadInterval is 8")
        it.from_wire(hello_of(neighbors=()), THERE, 19)
        self.assertEqual(it.why_lost(of, 20), "it doesn't hear this router (its Hello names nobody)")

    def test_in_the_log(self) -> None:
        """A loss is a warning, with its reason; what comes is none."""
        it = Adjacencies()
        full, none = ["neighbor 1 2.2.2.2 Full"], list[str]()
        self.assertEqual(it.look(full, NAMES, 0)[0], (logging.INFO, "eth1: 2.2.2.2 Down -> Full"))
        level, said = it.look(none, NAMES, 1, lambda number, router_id: f"{number} {router_id}")[0]
        self.assertEqual((level, said), (logging.WARNING, "eth1: 2.2.2.2 Full -> Down: 1 2.2.2.2"))
        self.assertEqual([each[1:] for each in it.changes()], [("Down", "Full", ""), ("Full", "Down", "1 2.2.2.2")])
        self.assertEqual(it.changes(), [])


if __name__ == "__main__":
    unittest.main()
