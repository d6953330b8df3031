"""What a box says of itself where it has neighbors, and its parts that no whole box shows in a test."""
import json
import logging
import os
import signal
import struct
import sys
import tempfile
import threading
import time
import unittest
from collections import Counter
from dataclasses import dataclass, field, replace
from ipaddress import IPv4Address, IPv4Interface, IPv4Network
from pathlib import Path
from types import SimpleNamespace
from typing import Any
from unittest import mock

from leafrunt_host import capture as captures
from leafrunt_host.announcements import Announced
from leafrunt_host.capture import MOST_WAITING, Capture
from leafrunt_host.configuration import Configuration, InterfaceSettings
from leafrunt_host.desk import Desk
from leafrunt_host.destinations import Announcement
from leafrunt_host.exchange import Side
from leafrunt_host.health import checked
from leafrunt_host.journal import Kept as KeptLog
from leafrunt_host.journal import Shown, one_line, path_of
from leafrunt_host.kernel_settings import KernelSettings
from leafrunt_host.observing import Adjacencies, Report
from leafrunt_host.owed import Owed
from leafrunt_host.packets import lsas_of
from leafrunt_host.programs import Attached
from leafrunt_host.router import LONGEST_LINE, Router, RouterGone, RouterSilent
from leafrunt_host.server import Asked, who_is
from leafrunt_host.status import (
    Kept,
    Known,
    kernel_line,
    neighbors_of,
    originated,
    since_1970,
    status_lines,
    status_of,
)
from tests.test_bridge import plain

TWO = IPv4Address("2.2.2.2")
THERE = IPv4Address("10.0.1.2")


@dataclass
class StandInLink:
    """What a status asks of a link."""

    said: list[Report]
    counters: Counter[str] = field(default_factory=lambda: Counter({"in": 3}))
    owed: Owed = field(default_factory=Owed)
    withholds: bool = False
    is_usable: bool = True

    def reports(self, _now: float) -> list[Report]:
        return self.said

    def next_hop(self, router_id: IPv4Address) -> IPv4Address | None:
        return THERE if router_id == TWO else None


def interface(name: str, address: str, passive: bool = False) -> InterfaceSettings:
    return InterfaceSettings(name, IPv4Interface(address), 1500, 10, 10, 40, 5, 1, passive, ())


def known(*reports: Report, neighbors: tuple[str, ...] = (), kernel: bool = True) -> Known:
    interfaces = (interface("eth1", "10.0.1.1/24"), interface("lan0", "10.0.2.1/24", True))
    one = IPv4Address("1.1.1.1")
    configuration = Configuration(
        "one", Path("/one.toml"), one, Path("/routerd"), kernel, interfaces, (), (), ("take care",)
    )
    adjacencies = Adjacencies()
    adjacencies.look(neighbors, {1: "eth1"}, 0)
    it = Known(configuration, {1: StandInLink(list(reports))}, adjacencies, 77)
    it.neighbors = neighbors_of(list(neighbors))
    return it


class Rests(unittest.TestCase):
    def test_at_rest(self) -> None:
        """Since the last neighbor is Full, and nobody owes anything; else who owes what."""
        it = known(neighbors=("neighbor 1 2.2.2.2 Full",))
        began = it.adjacencies.since(1, TWO, "Full")
        assert began is not None
        status = status_of(it)
        self.assertAlmostEqual(status["at_rest_since"], since_1970(began), delta=1)
        self.assertIn(": all neighbors are Full, and nobody owes", status_lines(status)[-1])
        now, update = time.monotonic(), plain("BIRD Update")
        for side, said in ((Side.WIRE, "this router owes it"), (Side.ROUTER, "it owes")):
            it.links[1].owed.passed(side, update, now)
            count = len(lsas_of(update.body))
            status = status_of(it)
            self.assertIsNone(status["at_rest_since"])
            self.assertIn(f"  eth1: {said} {count} acknowledgments", status_lines(status))
            it.links[1].owed.clear()
        it.links[1].owed.passed(Side.WIRE, update, now)
        it.links[1].owed.acknowledged(lsas_of(update.body), now)
        self.assertAlmostEqual(status_of(it)["at_rest_since"], time.time(), delta=5)

    def test_not_at_rest(self) -> None:
        for neighbors in ((), ("neighbor 1 2.2.2.2 Loading",)):
            status = status_of(known(neighbors=neighbors))
            self.assertIsNone(status["at_rest_since"])
            self.assertNotIn("at rest", "".join(status_lines(status)))

    def test_not_at_rest_though_all_neighbors_are_full(self) -> None:
        """An interface has none, an LSA is withheld, a route isn't in the kernel, a program keeps all
        out, or `routerd` doesn't answer."""
        full = ("neighbor 1 2.2.2.2 Full",)
        self.assertIsNotNone(status_of(known(neighbors=full))["at_rest_since"])
        lonely, withholding, refused, lost, unkept, awaiting = (known(neighbors=full) for _ in range(6))
        awaiting.configuration = replace(awaiting.configuration, awaited=("ppp*", "eth9"))
        one = lonely.configuration.interfaces
        more = (*one, interface("eth2", "10.0.3.1/24"))
        lonely.configuration = replace(lonely.configuration, interfaces=more)
        withholding.links[1].withholds = True
        refused.kept = Kept(refused=("10.0.0.0/8 via 10.0.1.2 dev eth1: File exists",))
        lost.kept = Kept(without_hop=(b"10.0.0.0/8",))
        unkept.kept = Kept(error="no ip")
        for it in (lonely, withholding, refused, lost, unkept, awaiting):
            self.assertIsNone(status_of(it)["at_rest_since"])
        it = known(neighbors=full)
        it.configuration = replace(it.configuration, awaited=("ppp*",))
        self.assertIsNotNone(status_of(it)["at_rest_since"])
        self.assertIsNone(status_of(it, silence="routerd hasn't answered")["at_rest_since"])
        it.kept = Kept(table=3, own=3)
        status = status_of(it, offered=8)
        self.assertIsNone(status["at_rest_since"])
        lines = status_lines(status)
        self.assertIn("veto: LSAs offer 8 routes, and it lets 0 in", lines)
        said = "warning: the program at veto keeps all routes out: LSAs offer 8, and it lets none in"
        self.assertIn(said, lines)
        it.kept = Kept(table=4, own=3)
        self.assertIsNotNone(status_of(it, offered=8)["at_rest_since"])


class Statuses(unittest.TestCase):
    def lines(self, it: Known) -> list[str]:
        """The lines, by way of JSON, without the first one and what this very host is warned of."""
        status = json.loads(json.dumps(status_of(it)))
        status["warnings"] = [each for each in status["warnings"] if each == "take care"]
        return status_lines(status)[1:]

    def test_full(self) -> None:
        it = known(Report("eth1", TWO, THERE, 1.0), neighbors=("neighbor 1 2.2.2.2 Full",))
        it.kept = Kept(7)
        lines = self.lines(it)
        self.assertEqual(lines[:2], ["kernel: 7 routes", "warning: take care"])
        self.assertRegex(
            lines[2],
            r"^eth1: 10\.0\.1\.1/24, MTU 1500: 2\.2\.2\.2 \(10\.0\.1\.2\) Full since \d{4}-",
        )
        self.assertEqual(lines[3:-1], ["lan0: 10.0.2.1/24, MTU 1500: passive"])

    def test_programs_and_refused_reloads(self) -> None:
        it = known()
        it.programs = {"veto": Attached("/v.o", 5, "root", 1e9), "tag": Attached("/t.o", 6, "", 1e9)}
        it.not_reloaded = "the last reload was refused at 02:14: no"
        lines = self.lines(it)
        self.assertRegex(lines[1], r"^program at tag: /t\.o, attached by the configuration at 2001-")
        self.assertRegex(lines[2], r"^program at veto: /v\.o, attached at the console by root at .*, bound 5$")
        self.assertIn(it.not_reloaded, status_of(it)["warnings"])

    def test_health(self) -> None:
        """0, 1 and 2, as Nagios takes them, and a line for each complaint."""
        def health(it: Known, **named: Any) -> tuple[int, list[str]]:
            status = json.loads(json.dumps(status_of(it, **named)))
            status["warnings"] = [each for each in status["warnings"] if "take care" not in each and "sysctl" not in each]
            return checked(status)

        full = ("neighbor 1 2.2.2.2 Full",)
        good = "LEAFRUNT OK: box one: 1 neighbors are Full, 7 routes in the kernel"
        it = known(Report("eth1", TWO, THERE, 1.0), neighbors=full)
        it.kept = Kept(7)
        self.assertEqual(health(it), (0, [good]))
        it.kept = Kept(7, ("10.0.0.0/8: File exists",), (b"11.0.0.0/8",))
        status, lines = health(it)
        self.assertEqual(status, 1)
        self.assertEqual(lines[0], "LEAFRUNT WARNING: box one: the kernel refuses 10.0.0.0/8: File exists (and 1 more)")
        self.assertEqual(lines[1:], ["WARNING: the kernel refuses 10.0.0.0/8: File exists", "WARNING: 1 routes without a known next hop"])
        lonely = known(Report("eth1", reasons=("down: no carrier",)))
        self.assertEqual(health(lonely)[1][1:], ["CRITICAL: no neighbor is Full", "WARNING: eth1: no neighbor: down: no carrier"])
        self.assertEqual(health(lonely)[0], 2)
        silent = health(known(neighbors=full), silence="routerd hasn't answered `table` for 9 s")
        self.assertEqual(silent, (2, ["LEAFRUNT CRITICAL: box one: routerd hasn't answered `table` for 9 s", "CRITICAL: routerd hasn't answered `table` for 9 s"]))
        it = known(neighbors=full)
        self.assertEqual(health(it, offered=3)[0], 0)
        it.kept = Kept(table=1, own=1)
        self.assertEqual(health(it, offered=3)[1][1:], ["CRITICAL: the program at veto keeps all routes out"])

    def test_a_state_that_is_new(self) -> None:
        """The moment of the state before isn't told of this one."""
        it = known(Report("eth1", TWO, THERE, 1.0), neighbors=("neighbor 1 2.2.2.2 Full",))
        for line in ("neighbor 1 2.2.2.2 Init", "neighbor 1 3.3.3.3 Full"):
            it.neighbors = neighbors_of([line])
            self.assertIsNone(status_of(it)["interfaces"][0]["neighbor"]["since"])

    def test_why_not(self) -> None:
        reports = [
            Report("eth1", reasons=("down: no carrier",)),
            Report("eth1", TWO, THERE, 1.0, ("HelloInterval 3 there and 2 here", "area 0.0.0.1")),
        ]
        self.assertEqual(
            self.lines(known(*reports))[2:5],
            [
                "eth1: 10.0.1.1/24, MTU 1500: no neighbor",
                "  eth1: down: no carrier",
                "  eth1: 2.2.2.2 (10.0.1.2): HelloInterval 3 there and 2 here; area 0.0.0.1",
            ],
        )

    def test_a_worker_that_stopped(self) -> None:
        it = known()
        it.stopped = ("[WARN  daemon::labor] worker 1 stopped",)
        self.assertIn("routerd: [WARN  daemon::labor] worker 1 stopped", self.lines(it))

    def test_of_the_kernel(self) -> None:
        for kept, line in (
            (Kept(1), "kernel: 1 route"),
            (
                Kept(2, ("10.0.0.0/8 via 10.0.1.2 dev eth1: File exists",)),
                "kernel: 2 routes, 1 refused: 10.0.0.0/8 via 10.0.1.2 dev eth1: File exists",
            ),
            (
                Kept(0, (), (b"10.0.0.0/8",)),
                "kernel: 0 routes, 1 without a known next hop",
            ),
            (Kept(error="no ip"), "kernel: its table isn't kept: no ip"),
            (
                Kept(3, limited=2),
                "kernel: 3 routes, 2 with more than 63 next hops: the others are left out",
            ),
        ):
            it = known()
            it.kept = kept
            with self.subTest(line):
                self.assertEqual(kernel_line(status_of(it)["kernel"]), line)
        self.assertIn("left alone", self.lines(known(kernel=False))[0])
        for table, line in (
            (KernelSettings(100), "kernel: 0 routes in table 100"),
            (KernelSettings(10, "red"), "kernel: 0 routes in the VRF red"),
        ):
            it = known()
            it.configuration = replace(it.configuration, table=table)
            self.assertEqual(kernel_line(status_of(it)["kernel"]), line)

    def test_lines_of_neighbors(self) -> None:
        found = neighbors_of(["neighbor 3 2.2.2.2 ExStart", "end", "neighbor x 2.2.2.2 Full"])
        self.assertEqual(
            [(each.number, each.router_id, each.state) for each in found.values()],
            [(3, TWO, "ExStart")],
        )

    def test_what_is_announced_is_left_out(self) -> None:
        """What a price withholds isn't announced, so another's route to it is the kernel's."""
        it = known()
        for prefix, answer in (("10.0.0.0/8", "originated"), ("11.0.0.0/8", "withheld")):
            net = IPv4Network(prefix)
            it.announced[net] = Announced(Announcement(net, 1, 2, 0), answer)
        self.assertEqual(originated(it), frozenset([IPv4Network("10.0.0.0/8")]))


class Lines(unittest.TestCase):
    """What lines at the console do beside their answers."""

    def setUp(self) -> None:
        self.known, self.woken = known(), list[str]()
        self.answers = {"attach /v.o": "attached veto bound 5", "add 10.0.0.0/8 1 2 0": "originated"}
        router = SimpleNamespace(
            ask=lambda line: [self.answers.get(line, "unknown")],
            look=lambda: None,
            soon=lambda ask, _seconds: ask(),
        )
        announcements = SimpleNamespace(by_hand=lambda line: self.answers.get(line, "refused 5"))
        parts = (self.known, router, announcements, None, None, KeptLog())
        self.desk = Desk(*parts, end=lambda: None, wake=lambda: self.woken.append("woken"))

    def test_the_kernels_table_follows_at_once(self) -> None:
        for count, line in enumerate(("attach /v.o", "add 10.0.0.0/8 1 2 0", "detach veto"), 1):
            self.desk.answer(Asked(line))
            self.assertEqual(len(self.woken), count, line)
        self.desk.answer(Asked("counters"))
        self.assertEqual(len(self.woken), 3)

    def test_what_is_logged(self) -> None:
        with self.assertLogs("leafrunt.console", "INFO") as logged:
            for line in ("attach /v.o", "counters", "add 1.2.3.0/24 1 2 0", "capture"):
                self.desk.answer(Asked(line, by="alice as root"))
        said = [each.partition("console:")[2].partition("console: ")[2] for each in logged.output]
        self.assertEqual(
            said,
            [
                "attach /v.o: attached veto bound 5 (by alice as root)",
                "add 1.2.3.0/24 1 2 0: refused 5 (by alice as root)",
                "capture: refused: after `capture` comes a new file's path, or `off` (by alice as root)",
            ],
        )

    def test_a_script_fills_no_log(self) -> None:
        with self.assertLogs("leafrunt.console", "INFO") as logged:
            for _ in range(5000):
                self.desk.answer(Asked("withdraw 10.0.0.0/8"))
        self.assertEqual(len(logged.output), 100)

    def test_who_attached_it_and_when(self) -> None:
        self.desk.answer(Asked("attach /v.o", by="root"))
        it = self.known.programs["veto"]
        self.assertEqual((it.object, it.bound, it.origin), ("/v.o", 5, "at the console by root"))
        self.assertAlmostEqual(it.at, time.time(), delta=5)
        self.assertEqual(self.known.by_hand, {"veto"})
        self.desk.passed_on("attach /v.o")
        self.assertEqual(self.known.programs["veto"].origin, "by the configuration")
        self.assertEqual(self.known.by_hand, frozenset())

    def test_whose_login_it_is(self) -> None:
        with tempfile.TemporaryDirectory() as folder:
            (Path(folder) / "7").mkdir()
            login = Path(folder) / "7" / "loginuid"
            for said, wanted in (("4294967295", "root"), ("0", "root"), ("1", "daemon as root")):
                login.write_text(said)
                self.assertEqual(who_is(7, 0, Path(folder)), wanted)
        self.assertEqual(who_is(8, 3_999_999_999, Path(folder)), "3999999999")


class Captures(unittest.TestCase):
    def setUp(self) -> None:
        folder = tempfile.TemporaryDirectory()
        self.addCleanup(folder.cleanup)
        self.path = Path(folder.name, "it.pcap")
        logging.disable(logging.WARNING)
        self.addCleanup(logging.disable, logging.NOTSET)

    def capture(self) -> Capture:
        return Capture(os.open(self.path, os.O_WRONLY | os.O_CREAT, 0o600), str(self.path))

    def packets(self) -> list[bytes]:
        """The packets in the file, which has nothing else."""
        data, at, found = self.path.read_bytes(), 24, []
        self.assertEqual(
            struct.unpack("=IHHiIII", data[:24]), (0xA1B2C3D4, 2, 4, 0, 0, 65535, 101)
        )
        while at < len(data):
            _, micros, kept, length = struct.unpack("=IIII", data[at : at + 16])
            self.assertEqual(kept, length)
            self.assertLess(micros, 1_000_000)
            found.append(data[at + 16 : at + 16 + kept])
            at += 16 + kept
        return found

    def test_packets(self) -> None:
        capture = self.capture()
        packets = [b"\x45" + bytes(63), b"\x45" + bytes(1499)]
        for each in packets:
            capture.take(each)
        self.assertEqual(capture.end(), f"captured 2 packets to {self.path}")
        capture.take(b"late")
        self.assertEqual(self.packets(), packets)

    def test_a_file_that_can_not_be_written(self) -> None:
        self.path.touch()
        capture = Capture(os.open(self.path, os.O_RDONLY), str(self.path))
        capture.take(b"x")
        self.assertEqual(
            capture.end(),
            f"captured 0 packets to {self.path}, then writing failed: Bad file descriptor",
        )

    def test_a_disk_that_waits(self) -> None:
        """Nobody waits for it: what comes too fast is counted and left out."""
        reader, writer = os.pipe()
        with mock.patch("stat.S_ISREG", return_value=True):
            capture = Capture(writer, "it")
        for _ in range(MOST_WAITING + 500):
            capture.take(bytes(1000))
        with mock.patch.object(captures, "SECONDS_TO_WRITE", 0.05):
            said = capture.end()
        self.assertRegex(said, r"^captured \d+ packets to it; \d+ came too fast and were left out")
        os.close(reader)
        capture._thread.join(5)

    def test_its_length_is_bounded(self) -> None:
        with mock.patch.object(captures, "LARGEST_FILE", 1000):
            capture = self.capture()
            for number in range(20):
                capture.take(bytes([number]) * 84)
            self.assertEqual(
                capture.end(),
                f"captured 9 packets to {self.path}, then the file had its largest length, 1000 bytes",
            )
        self.assertEqual(len(self.packets()), 9)
        self.assertLessEqual(self.path.stat().st_size, 1000)


class Logs(unittest.TestCase):
    def test_one_line(self) -> None:
        self.assertEqual(one_line("a\x1b[2J\nb\u2028c\xe9"), "a [2J b c\xe9")

    def test_a_file_that_was_rotated(self) -> None:
        """It is made anew under its name, without a reload; what is no file any more stays as it is."""
        with tempfile.TemporaryDirectory() as folder:
            path, moved = Path(folder) / "log", Path(folder) / "log.1"
            descriptor = os.open(path, os.O_WRONLY | os.O_CREAT)
            shown = Shown(descriptor, logging.Formatter())

            def say(text: str) -> None:
                shown.emit(logging.makeLogRecord({"msg": text}))
                shown.flush()

            say("one")
            path.rename(moved)
            say("two")
            self.assertEqual((moved.read_text(), path.read_text()), ("one\n", "two\n"))
            path.unlink()
            path.symlink_to(moved)
            say("three")
            self.assertEqual(moved.read_text(), "one\n")
            path.unlink()
            say("four")
            self.assertEqual(path.read_text(), "four\n")
            shown._descriptor = os.open(os.devnull, os.O_WRONLY)
        reader, writer = os.pipe()
        self.assertIsNone(path_of(writer))
        os.close(reader)
        os.close(writer)

    def test_nothing_is_asked_for(self) -> None:
        self.assertEqual(KeptLog().last(0), [])


class Routers(unittest.TestCase):
    def setUp(self) -> None:
        folder = tempfile.TemporaryDirectory()
        self.addCleanup(folder.cleanup)
        self.program = Path(folder.name, "routerd")
        stand_in = Path(__file__).with_name("stand_in.py").read_text()
        self.program.write_text(f"#!{sys.executable} -IS\n{stand_in}")
        self.program.chmod(0o755)
        self.configuration = Path(folder.name, "routerd.conf")
        self.configuration.write_text("router 1.1.1.1\n")

    def test_one_that_does_not_answer_is_killed(self) -> None:
        router = Router(self.program, self.configuration)
        self.assertEqual(router.ask("neighbors"), ["neighbor 1 2.2.2.2 Full", "end"])
        self.assertRaises(RouterGone, router.ask, "attach /silent", 0.1)
        self.assertTrue(router.is_silent())
        self.assertRaises(RouterGone, router.ask, "table")
        with self.assertLogs("leafrunt.router", "ERROR"):
            ended = router.quit(0.1)
        self.assertEqual((ended.status, ended.words), (-9, "killed by signal 9"))

    def test_one_that_does_not_answer_somebody_else_is_killed(self) -> None:
        """The end of a box doesn't wait as long as an answer is waited for."""
        router, gone = Router(self.program, self.configuration), list[str]()

        def ask() -> None:
            try:
                router.ask("attach /silent", 20)
            except RouterGone as why:
                gone.append(str(why))

        asker = threading.Thread(target=ask)
        asker.start()
        while not router._one_at_a_time.locked():
            time.sleep(0.01)
        began = time.monotonic()
        with self.assertLogs("leafrunt.router", "ERROR"):
            ended = router.quit(0.1)
        asker.join()
        self.assertEqual((ended.status, gone), (-9, ["routerd has ended"]))
        self.assertLess(time.monotonic() - began, 15)

    def test_one_that_stands_still(self) -> None:
        """Who asks is told within a second, and it is given up after its patience; what it answers
        in time is no one else's answer."""
        router = Router(self.program, self.configuration, patience=3)
        self.assertIsNone(router.unanswered(0))
        os.kill(router.pid, signal.SIGSTOP)
        began = time.monotonic()
        with self.assertRaisesRegex(RouterSilent, "^routerd hasn't answered `neighbors` for"):
            router.soon(lambda: router.ask("neighbors"), 0.3)
        self.assertLess(time.monotonic() - began, 1)
        time.sleep(1)
        began = time.monotonic()
        self.assertRaises(RouterSilent, router.soon, lambda: router.ask("table"))
        self.assertRaises(RouterSilent, router.look)
        self.assertLess(time.monotonic() - began, 0.3)
        os.kill(router.pid, signal.SIGCONT)
        time.sleep(0.5)
        self.assertEqual(router.soon(lambda: router.ask("counters")), ["counter 5 6", "end"])
        os.kill(router.pid, signal.SIGSTOP)
        began = time.monotonic()
        self.assertRaises(RouterGone, router.ask, "neighbors")
        self.assertTrue(2.9 < time.monotonic() - began < 6)
        self.assertTrue(router.is_silent())
        began = time.monotonic()
        with self.assertLogs("leafrunt.router", "ERROR"):
            self.assertEqual(router.quit().status, -9)
        self.assertLess(time.monotonic() - began, 6)

    def test_a_program_that_is_verified(self) -> None:
        """That may take its time, and isn't silence."""
        router = Router(self.program, self.configuration, patience=0.2)
        asker = threading.Thread(target=lambda: router.ask("attach /silent", 2), daemon=True)
        with mock.patch("threading.excepthook"):
            asker.start()
            time.sleep(1.2)
            self.assertIsNotNone(router.unanswered())
            router.look()
            with self.assertLogs("leafrunt.router", "ERROR"):
                router.quit(0.1)
            asker.join()

    def test_errors_without_an_end(self) -> None:
        """Of one that was taken over: they fill no log and no memory, also without line feeds."""
        lines, none = "yes stopped", "yes | tr -d '\\n'"
        self.program.write_text(
            f"#!/bin/sh\n{lines} | head -c 9999 >&2\n{none} | head -c 99999 >&2\n"
        )
        it, longest = known(), 0

        def told(line: str) -> None:
            nonlocal longest
            longest = max(longest, len(line))
            it.told(line)

        with self.assertLogs("leafrunt.router", "WARNING") as logged:
            ended = Router(self.program, self.configuration, told).quit(20)
        self.assertEqual(ended.status, 0)
        self.assertEqual((len(logged.output), len(it.stopped)), (20, 64))
        self.assertEqual(longest, LONGEST_LINE)

    def test_lines_that_are_none(self) -> None:
        router = Router(self.program, self.configuration)
        self.assertEqual(router.ask("table\ntable"), ["unknown"])
        self.assertEqual(router.ask("x" * 5000), ["unknown"])
        self.assertEqual(router.ask("counters"), ["counter 5 6", "end"])
        ended = router.quit()
        self.assertEqual((ended.status, ended.counters), (0, ("counter 5 7", "counter 6 1")))


if __name__ == "__main__":
    unittest.main()
