"""Levels of the log: what debug says of packets, and what systemd's journal is told."""
import contextlib
import fcntl
import logging
import os
import shlex
import signal
import subprocess
import sys
import time
import unittest
from dataclasses import replace
from ipaddress import IPv4Address
from unittest import mock

from leafrunt_host import journal, tracing
from leafrunt_host.journal import LEVELS, is_journal
from leafrunt_host.packets import PacketType
from tests import captured
from tests.test_box import LEAFRUNT, Boxes, running, within
from tests.test_bridge import KEY, THERE, link, own, own_hello, plain


class Packets(unittest.TestCase):
    def said(self, level: str = "DEBUG") -> list[str]:
        """What is logged of the packets of a link, at this level."""
        one = link()
        with self.assertLogs("leafrunt.packets", level) as seen:
            logging.getLogger("leafrunt.packets").error("one line at least")
            one.from_router(own_hello(), 0)
            for text in captured.PLAIN.values():
                one.from_wire(bytes.fromhex(text), THERE, 0)
            one.from_wire(bytes.fromhex(captured.BIRD_HELLO[KEY.algorithm]), THERE, 0)
            one.from_wire(b"\2\1", THERE, 0)
        return [each.getMessage() for each in seen.records[1:]]

    def test_each_is_told(self) -> None:
        said = self.said()
        self.assertEqual(said[0], "eth1: sent Hello that names 2.2.2.2")
        for number, (name, text) in enumerate(captured.PLAIN.items(), 1):
            packet = plain(name)
            head = f"eth1: {packet.router_id} (10.0.1.2): received "
            self.assertTrue(said[number].startswith(head), said[number])
            title = tracing.TITLES[PacketType(bytes.fromhex(text)[1])]
            self.assertTrue(said[number].removeprefix(head).startswith(title), said[number])
        self.assertIn("authenticated, and no key is configured here", said[-2])
        self.assertTrue(said[-1].startswith("eth1: 10.0.1.2: refused a packet: "), said[-1])
        self.assertEqual(len(said), len(captured.PLAIN) + 3)

    def test_kinds(self) -> None:
        hello = plain("BIRD Hello")
        head, said_of_two = b"\x05\xdc\x02", "sequence 5, 2 LSA headers"
        for kind, body, said in (
            (1, hello.body, "Hello that names 1.1.1.1"),
            (1, hello.body[:20], "Hello that names nobody"),
            (2, head + b"\7\0\0\0\5", "Database Description, i m ms sequence 5, 0 LSA headers"),
            (2, head + b"\0\0\0\0\5" + bytes(40), f"Database Description, {said_of_two}"),
            (3, bytes(36), "Link State Request, 3 LSAs"),
            (4, b"\0\0\0\x09", "Link State Update, 9 LSAs"),
            (5, bytes(40), "Link State Acknowledgment, 2 LSA headers"),
        ):
            packet = replace(hello, type=PacketType(kind), body=body)
            words = sorted(tracing.described(packet).split())
            self.assertEqual(words, sorted(said.split()))

    def test_nothing_is_made_above_debug(self) -> None:
        with mock.patch.object(tracing, "described", side_effect=AssertionError):
            self.assertEqual(self.said("INFO"), [])

    def test_a_flood_is_bounded(self) -> None:
        one = link()
        with self.assertLogs("leafrunt.packets", "DEBUG") as seen:
            for number in range(3000):
                router_id = IPv4Address(0x0A000000 + number)
                data = replace(plain("BIRD Hello"), router_id=router_id).encode()
                one.from_wire(data, THERE, number / 1000)
                one.from_wire(data[:-3], THERE, number / 1000)
                one.from_router(own(plain("BIRD Hello")), number / 1000)
        self.assertEqual(len(seen.records), 3 * tracing.MOST_LINES + 2)
        self.assertIn("more lines were left out", seen.records[tracing.MOST_LINES].getMessage())


class Journals(unittest.TestCase):
    def test_by_its_device_and_inode(self) -> None:
        """As a shell may have sent standard error elsewhere."""
        reader, writer = os.pipe()
        its = os.fstat(writer)
        with open(reader, "rb"), open(writer, "w", encoding="ascii") as stream:
            for said, wanted in (
                (f"{its.st_dev}:{its.st_ino}", True),
                (f"{its.st_dev}:{its.st_ino + 1}", False),
                ("", False),
            ):
                with mock.patch.dict(os.environ, {"JOURNAL_STREAM": said}):
                    self.assertEqual(is_journal(stream), wanted, said)

    def test_errors_have_a_priority(self) -> None:
        """Whoever reads the journal's errors alone sees why a box didn't start."""
        words = [sys.executable, str(LEAFRUNT), "check", "/none.toml"]
        for is_told in (True, False):
            reader, writer = os.pipe()
            its = os.fstat(writer)
            journal = f"{its.st_dev}:{its.st_ino if is_told else 0}"
            ran = subprocess.run(
                words, stderr=writer, env={**os.environ, "JOURNAL_STREAM": journal}, check=False
            )
            os.close(writer)
            with open(reader, encoding="utf-8") as said:
                head = "<3>" if is_told else ""
                self.assertEqual(said.read().partition(" cannot")[0], f"{head}leafrunt:")
            self.assertEqual(ran.returncode, 3)


class Streams(unittest.TestCase):
    def test_closed_ones(self) -> None:
        """Whichever of the standard streams are closed, a command does what it does."""
        words = shlex.join([sys.executable, str(LEAFRUNT), "check", "/none.toml"])
        for closed in ("0<&-", "1>&-", "2>&-", "0<&- 1>&- 2>&-"):
            ran = subprocess.run(["sh", "-c", f"{words} {closed}"], capture_output=True, check=False)
            with self.subTest(closed):
                self.assertEqual(ran.returncode, 3)

    def test_one_that_stands_still(self) -> None:
        """What has room waits until somebody reads; how many more lines there were is told."""
        reader, writer = os.pipe()
        log = logging.getLogger("leafrunt.streams")
        log.propagate, log.handlers = False, [journal.Shown(writer, journal.Line(False))]
        log.setLevel(logging.INFO)
        count, began = 5000, time.monotonic()
        for number in range(count):
            log.info("%0200d", number)
        self.assertLess(time.monotonic() - began, 5)
        with mock.patch.object(journal, "SECONDS_TO_WRITE", 0.1):
            log.handlers[0].flush()
        found, last = 0, ""
        with open(reader, encoding="utf-8") as it:
            while "lines were left out" not in last:
                found, last = found + 1, it.readline()
        said = int(last.split("warning: ")[1].split()[0])
        self.assertEqual(found - 1 + said, count)
        self.assertGreaterEqual(found, journal.MOST_WAITING)
        os.close(writer)
        log.info("nobody is there any more")
        log.handlers[0].flush()
        log.handlers = []


class OfBoxes(Boxes):
    def test_nobody_reads_its_log(self) -> None:
        """A full pipe, or a terminal that stands still, keeps a box from nothing."""
        reader, writer = os.pipe()
        fcntl.fcntl(writer, fcntl.F_SETFL, os.O_NONBLOCK)
        with contextlib.suppress(BlockingIOError):
            while True:
                os.write(writer, bytes(4096))
        fcntl.fcntl(writer, fcntl.F_SETFL, 0)
        box = self.begin(errors=writer)
        try:
            self.assertTrue(within(30, lambda: "one" in running(self.run_folder)))
            self.assertEqual(self.leafrunt("status")[0], 0)
            self.assertEqual(self.leafrunt("down")[0], 0)
            self.assertEqual(box.wait(20), 0)
        finally:
            os.close(reader)
            os.close(writer)
            box.kill()
            box.wait()

    def test_levels(self) -> None:
        """A box's log has what its level lets pass, at standard error and at the console."""
        first = {"info": "info: box one", "warning": "warning: isolated = false"}
        for level in LEVELS:
            box = self.up(f'1.1.1.1"\nlog_level = "{level}')
            kept = self.client().ask("log")
            box.send_signal(signal.SIGTERM)
            status, said = self.ended(box)
            self.assertEqual(status, 0)
            for each, line in first.items():
                is_there = LEVELS[each] >= LEVELS[level]
                with self.subTest(level, line=line):
                    self.assertEqual(line in said, is_there, said)
                    self.assertEqual(line in "\n".join(kept), is_there)


if __name__ == "__main__":
    unittest.main()
