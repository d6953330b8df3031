"""`leafrunt watch`: what it shows, and its terminal, which is a pty here."""
import json
import os
import re
import signal
import threading
import unittest

from leafrunt_host.kernel import Json
from leafrunt_host.table_changes import RouteChange, table_change
from leafrunt_host.terminal import ENTER, LEAVE, Row, cut, painted
from leafrunt_host.watching import Look, Watched, duration, rows_of
from tests.pty_terminal import Terminal
from tests.test_box import Boxes
from tests.test_documents import Listening, status

NOW = 1_800_000_000.0


def watched(*changed: Json, seconds: float = 2.0) -> Watched:
    """What was seen of a box whose status had these parts, one after the other."""
    it = None
    for number, each in enumerate(changed):
        look = Look({**status(), **each}, each.get("values", {}), seconds * number)
        if it is None:
            it = Watched(look)
        else:
            it.take(look)
    assert it
    return it


def lines(it: Watched) -> list[str]:
    return [each.text for each in rows_of(it, NOW)]


def interfaces(counters: dict[str, int], **fields: object) -> list[Json]:
    first, second = status()["interfaces"]
    return [{**first, "counters": counters, **fields}, second]


class Views(unittest.TestCase):
    def test_interfaces(self) -> None:
        neighbor = {"router_id": "2.2.2.2", "address": None, "state": "Full", "since": NOW - 100}
        (row,) = (
            each
            for each in rows_of(
                watched(
                    {"interfaces": interfaces({"in": 5, "out": 10}, neighbor=neighbor)},
                    {
                        "interfaces": interfaces(
                            {
                                "in": 8,
                                "out": 10,
                                "refused wrong digest": 2,
                                "refused MTU": 3,
                                "dropped: no socket": 4,
                            },
                            neighbor=neighbor,
                        )
                    },
                ),
                NOW,
            )
            if each.text.startswith("eth1")
        )
        self.assertEqual(
            row.text.split(), ["eth1", "2.2.2.2", "Full", "00:01:40", "1.5", "0.0", "5", "4"]
        )
        self.assertFalse(row.is_bold)

    def test_neighbors_that_changed(self) -> None:
        full = {"router_id": "2.2.2.2", "address": None, "state": "Full", "since": NOW - 1}
        it = watched(
            {"interfaces": interfaces({}, neighbor=full)},
            {"interfaces": interfaces({}, neighbor={**full, "state": "Init"})},
            {"interfaces": interfaces({}, neighbor=None)},
        )
        at = lines(it).index("neighbors that changed:")
        said = [each.split(": ", 1)[1] for each in lines(it)[at + 1 : at + 3]]
        self.assertEqual(said, ["eth1: 2.2.2.2 Init -> Down", "eth1: 2.2.2.2 Full -> 2.2.2.2 Init"])
        for _ in range(20):
            it.take(it.now)
            it.take(Look({**it.now.status, "interfaces": []}, {}, 9.0))
        self.assertLessEqual(len(it.events), 8)

    def test_routes(self) -> None:
        shown = [
            {"prefix": "10.1.0.0/16", "before": None, "after": "ext2 20 via 1"},
            {"prefix": "10.2.0.0/16", "before": "intra 5 via 1", "after": "intra 7 via 1,2"},
            {"prefix": "10.3.0.0/16", "before": "intra 5 via 1", "after": None},
        ]
        change = {"at": NOW - 1, "added": 1, "removed": 4, "changed": 1, "shown": shown}
        said = lines(watched({"table": {"routes": 10_003, "changes": [change]}}))
        self.assertIn("routes: 10003; kernel: 0 routes", said)
        at = said.index("routes that changed:")
        self.assertEqual(
            [each.strip().split(": ")[-1] for each in said[at + 1 :]],
            [
                "1 added, 4 removed, 1 changed",
                "+ 10.1.0.0/16 ext2 20 via 1",
                "~ 10.2.0.0/16 intra 7 via 1,2 (was intra 5 via 1)",
                "- 10.3.0.0/16 intra 5 via 1",
            ],
        )
        alone = lines(watched({"table": None}))
        self.assertIn("routes: not followed, since the kernel's table is left alone", alone)

    def test_counters(self) -> None:
        """Those with a name too where they are 0; a box that was started anew counts from 0."""
        said = lines(watched({"values": {5: 10, 7: 1}}, {"values": {5: 16, 7: 0, 9: 3}}))
        counters = [each.split() for each in said if each.startswith("  counter")]
        self.assertEqual(
            counters,
            [
                ["counter", "5", "martians", "16", "3.0/s"],
                ["counter", "6", "never", "0", "0.0/s"],
                ["counter", "7", "0", "0.0/s"],
                ["counter", "9", "3", "1.5/s"],
            ],
        )
        self.assertIn("-/s", "".join(lines(watched({"values": {5: 10}}))))

    def test_bfd(self) -> None:
        session = {
            "neighbor": "10.0.1.2",
            "state": "Down",
            "since": NOW,
            "detection_time_seconds": 0,
            "diagnostic": "",
            "discarded": {"wrong TTL": 3},
            "error": None,
        }
        said = "\n".join(lines(watched({"interfaces": interfaces({}, bfd=session)})))
        self.assertIn("eth1: BFD with 10.0.1.2 Down", said)
        self.assertIn("discarded: wrong TTL 3", said)

    def test_durations(self) -> None:
        for seconds, said in ((-5, "00:00:00"), (59.9, "00:00:59"), (86_399, "23:59:59")):
            self.assertEqual(duration(seconds), said)
        self.assertEqual(duration(2 * 86_400 + 3_661), "2d 01:01:01")

    def test_many_warnings(self) -> None:
        said = lines(watched({"warnings": [f"number {each}" for each in range(10)]}))
        self.assertEqual(len([each for each in said if each.startswith("warning")]), 5)
        self.assertIn("warning: 6 more: `leafrunt status`", said)


class Painted(unittest.TestCase):
    def test_cut(self) -> None:
        self.assertEqual(cut("abcdef", 3), "abc")
        self.assertEqual(cut("a\x1b[2Jb", 80), "a [2Jb")
        self.assertEqual(cut("漢字x", 3), "漢")
        self.assertEqual(cut("e\u0301x", 1), "e\u0301")
        self.assertEqual(cut("abc", 0), "")

    def test_rows_that_have_no_room(self) -> None:
        rows = [Row(str(each)) for each in range(30)]
        for count in (1, 2, 24, 29):
            said = re.sub(r"\x1b\[[0-9;?]*[a-zA-Z]", "", painted(rows, 80, count)).split("\r\n")
            self.assertEqual(len(said), count)
            self.assertEqual(said[-1], f".. and {31 - count} more lines")
        self.assertNotIn("more lines", painted(rows, 80, 30))


class TableChanges(unittest.TestCase):
    def test_kinds(self) -> None:
        gone, come = (
            {each.partition(b" ")[0]: each for each in lines}
            for lines in (
                (b"10.0.0.0/8 intra 1 via 1", b"11.0.0.0/8 intra 1 via 1"),
                (b"11.0.0.0/8 intra 2 via 1", b"12.0.0.0/8 ext2 3 via 2"),
            )
        )
        change = table_change(gone, come)
        self.assertEqual((change.added, change.removed, change.changed), (1, 1, 1))
        self.assertEqual(
            change.shown,
            (
                RouteChange("11.0.0.0/8", "intra 1 via 1", "intra 2 via 1"),
                RouteChange("12.0.0.0/8", None, "ext2 3 via 2"),
                RouteChange("10.0.0.0/8", "intra 1 via 1", None),
            ),
        )

    def test_many(self) -> None:
        come = {b"%d" % each: b"%d intra 1 via 1" % each for each in range(10_000)}
        change = table_change({}, come)
        self.assertEqual((change.added, len(change.shown)), (10_000, 4))


class Terminals(Boxes):
    def watch(self, *words: str, term: str = "xterm") -> Terminal:
        terminal = Terminal(self.run_folder, *words, term=term)
        self.addCleanup(terminal.close)
        return terminal

    def test_it_follows_and_leaves(self) -> None:
        box = self.up(more="[counters]\nmartians = 5\n")
        it = self.watch("--interval", "0.5")
        self.assertTrue(it.shows("box one: router 1.1.1.1, up 00:00:"), it.text[-2000:])
        self.assertTrue(it.text.startswith(ENTER), it.text[:200])
        self.assertTrue(it.shows("counter 5   martians"))
        self.assertTrue(it.shows("0.0/s"), "a second look")
        in_use = it.modes()
        it.size(2, 20)
        self.assertTrue(it.shows(".. and "), "a smaller terminal")
        it.text = ""
        it.size(50, 200)
        self.assertTrue(it.shows("q: leave"), "a larger terminal")
        it.types(b"xyz\x1b[A\xff")
        it.text = ""
        self.assertTrue(it.shows("box one"), "keys that are none")
        it.types(b"q")
        self.assertEqual(it.ended(), 0, it.text[-2000:])
        self.assertTrue(it.text.endswith(LEAVE), it.text[-200:])
        self.assertNotEqual(it.modes(), in_use)
        self.assertIsNone(box.poll())

    def test_how_it_ends(self) -> None:
        """The terminal is left as it was, whatever ends it."""
        box = self.up()
        for end, status in (
            (lambda it: it.types(b"\x03"), 0),
            (lambda it: os.kill(it.pid, signal.SIGTERM), 1),
            (lambda it: os.kill(it.pid, signal.SIGINT), 0),
            (lambda it: box.send_signal(signal.SIGKILL), 3),
        ):
            it = self.watch()
            self.assertTrue(it.shows("q: leave"))
            end(it)
            self.assertEqual(it.ended(), status, it.text[-500:])
            self.assertIn(LEAVE, it.text)
            after = it.text.rpartition(LEAVE)[2]
            said = {0: "", 1: "leafrunt: ended by SIGTERM", 3: "leafrunt: the box one has ended"}
            self.assertEqual(after.strip(), said[status])
            self.assertNotIn("Traceback", it.text)

    def test_a_terminal_that_goes(self) -> None:
        """Nothing of it stays behind, and the box goes on."""
        box = self.up()
        it = self.watch()
        self.assertTrue(it.shows("q: leave"))
        it.hang_up()
        self.assertIn(it.ended(), (0, 1, 3))
        self.assertIsNone(box.poll())
        self.assertEqual(self.leafrunt("neighbors")[0], 0)

    def test_where_there_is_no_terminal(self) -> None:
        self.up(more="[counters]\nmartians = 5\n")
        status, text, errors = self.leafrunt("watch")
        self.assertEqual((status, text), (2, ""))
        self.assertIn("no terminal: `leafrunt watch --once` prints", errors)
        dumb = self.watch(term="dumb")
        self.assertEqual(dumb.ended(), 2)
        self.assertIn("TERM=dumb", dumb.text)
        status, text, errors = self.leafrunt("watch", "--once")
        self.assertEqual((status, errors), (0, ""))
        self.assertNotIn("\x1b", text)
        self.assertRegex(text, r"counter 5   martians +6 +-/s")
        for interval in ("0", "0.4", "3601", "x", "nan", "inf", "-1"):
            with self.subTest(interval):
                self.assertEqual(self.leafrunt("watch", "--interval", interval)[0], 2)


class Silent(Listening):
    """A box that says what it is once, and then nothing."""

    def test_keys_count(self) -> None:
        answers = [json.dumps(status()).encode() + b"\nend\n\n", b"counter 5 6\nend\n\n"]
        ending = threading.Event()

        def serve() -> None:
            with self.listener.accept()[0] as one:
                for each in answers:
                    one.recv(4096)
                    one.sendall(each)
                ending.wait(60)

        thread = threading.Thread(target=serve)
        thread.start()
        self.addCleanup(thread.join)
        self.addCleanup(ending.set)
        it = Terminal(self.run_folder, "--box", "one", "--interval", "0.5")
        self.addCleanup(it.close)
        self.assertTrue(it.shows("box one: router"), it.text[-2000:])
        self.assertTrue(it.shows("no answer for "), it.text[-2000:])
        it.types(b"q")
        self.assertEqual(it.ended(10), 0, it.text[-2000:])
        self.assertTrue(it.text.endswith(LEAVE), it.text[-200:])


if __name__ == "__main__":
    unittest.main()
