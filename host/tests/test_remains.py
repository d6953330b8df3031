"""`leafrunt clear`: what a box that was killed left in the kernel, and what is another's."""
import contextlib
import io
import os
import shutil
import tempfile
import unittest
from ipaddress import IPv4Address
from pathlib import Path
from unittest import mock

from leafrunt_host import remains
from leafrunt_host.commands import main
from leafrunt_host.forwarding import Hop, KernelTable
from leafrunt_host.kernel_settings import KernelSettings
from leafrunt_host.rooms import CLAIMS, NAMESPACE, Room
from leafrunt_host.rtnetlink import CannotAsk
from leafrunt_host.statuses import Stopped
from tests.fake_kernel import FakeKernel, FakeNotices

MAIN, OTHER = KernelSettings(), KernelSettings(100)
HOPS = {1: Hop(IPv4Address("10.0.1.2"), "eth1")}
LINES = [b"172.16.2.0/24 ext2 20 via 1", b"172.16.3.0/24 ext2 20 via 1"]


class Remains(unittest.TestCase):
    def setUp(self) -> None:
        self.folder = Path(tempfile.mkdtemp(prefix="lb-"))
        self.addCleanup(shutil.rmtree, self.folder)
        self.kernels = {MAIN: FakeKernel("eth1"), OTHER: FakeKernel("eth1")}
        made = mock.patch.object(remains, "KernelTable", self.table)
        made.start()
        self.addCleanup(made.stop)

    def table(self, settings: KernelSettings) -> KernelTable:
        kernel = self.kernels[settings]
        return KernelTable(kernel, FakeNotices(kernel), settings)

    def room(self, name: str) -> Room:
        return Room(name, self.folder / name, self.folder / "state" / name)

    def kept(self, name: str, settings: KernelSettings) -> Room:
        """A box that keeps a table."""
        room = self.room(name)
        room.claim(["interface eth1 of " + name, *settings.claims])
        self.table(settings).keep(LINES, HOPS)
        return room

    @staticmethod
    def killed(room: Room) -> None:
        """The kernel gives its locks back, and what stands in the files stays."""
        for each in room._claims.values():
            each.close()
        room._claims.clear()

    def routes(self, settings: KernelSettings) -> int:
        return len(self.kernels[settings].table)

    def test_of_a_box_that_was_killed(self) -> None:
        other = self.kept("other", MAIN)
        self.killed(self.kept("one", OTHER))
        said = remains.clear(self.room("one"))
        self.assertEqual(said, ["table 100: 2 routes removed that the box one left"])
        self.assertEqual((self.routes(MAIN), self.routes(OTHER)), (2, 0))
        self.assertEqual(remains.clear(self.room("one")), ["the box one left nothing"])
        other.claim(OTHER.claims)
        other.leave()

    def test_of_one_that_could_not_start(self) -> None:
        """Another box has the table."""
        other = self.kept("other", MAIN)
        with self.assertRaises(Stopped):
            self.room("one").claim(MAIN.claims)
        self.assertEqual(remains.clear(self.room("one")), ["the box one left nothing"])
        self.assertEqual(self.routes(MAIN), 2)
        other.leave()

    def test_of_one_that_ended_in_order(self) -> None:
        room = self.kept("one", MAIN)
        room.leave()
        self.assertEqual(remains.clear(self.room("one")), ["the box one left nothing"])

    def test_of_one_that_runs(self) -> None:
        room = self.kept("one", MAIN)
        with self.assertRaisesRegex(Stopped, r"the box one \(process \d+\) has the kernel"):
            remains.clear(self.room("one"))
        self.assertEqual(self.routes(MAIN), 2)
        room.leave()

    def test_a_table_that_another_box_has_since(self) -> None:
        self.killed(self.kept("one", MAIN))
        other = self.kept("other", MAIN)
        self.assertEqual(remains.clear(self.room("one")), ["the box one left nothing"])
        self.assertEqual(self.routes(MAIN), 2)
        other.leave()

    def test_a_kernel_that_does_not_answer(self) -> None:
        room = self.kept("one", MAIN)
        self.killed(room)
        with mock.patch.object(FakeKernel, "own_routes", side_effect=CannotAsk("no answer")):
            with self.assertRaisesRegex(Stopped, "has the routes of the box one still: no answer"):
                remains.clear(room)
        self.killed(room)
        self.assertEqual(len(remains.clear(self.room("one"))), 1)
        self.assertEqual(self.routes(MAIN), 0)

    def test_files_that_are_none(self) -> None:
        """Names that only begin like the box's, other claims, another namespace, no files."""
        folder = self.folder / CLAIMS
        folder.mkdir(mode=0o700)
        own = os.stat(NAMESPACE).st_ino
        for name, holder in (
            (f"{own} kernel's routing table", "one.more (process 7)\n"),
            (f"{own} kernel's routing table 0100", "one (process 7)\n"),
            (f"{own} kernel's routing table 99999999999", "one (process 7)\n"),
            (f"{own} kernel's routing table 4294967296", "one (process 7)\n"),
            (f"{own} kernel's routing tables", "one (process 7)\n"),
            (f"{own} interface eth1", "one (process 7)\n"),
            (f"{own + 1} kernel's routing table 100", "one (process 7)\n"),
        ):
            (folder / name).write_text(holder)
        (folder / "real").write_text("one (process 7)\n")
        (folder / f"{own} kernel's routing table 100").symlink_to(folder / "real")
        (folder / f"{own} kernel's routing table 101").mkdir()
        os.mkfifo(folder / f"{own} kernel's routing table 102")
        self.assertEqual(remains.clear(self.room("one")), ["the box one left nothing"])

    def test_the_command(self) -> None:
        self.killed(self.kept("one", OTHER))
        words = ["clear", "--run-directory", str(self.folder), "--box"]
        said = io.StringIO()
        with contextlib.redirect_stdout(said), contextlib.redirect_stderr(said):
            statuses = [main([*words, each]) for each in ("one", "../one", "none")]
        self.assertEqual((statuses, self.routes(OTHER)), ([0, 2, 0], 0))
        lines = said.getvalue().splitlines()
        self.assertEqual(lines[0], "table 100: 2 routes removed that the box one left")
        self.assertEqual(lines[2], "the box none left nothing")


class Unit(unittest.TestCase):
    def test_what_comes_after_its_end(self) -> None:
        """It takes its own box's routes away: all boxes of a machine have one protocol."""
        unit = (Path(__file__).parents[1] / "leafrunt@.service").read_text()
        said = [each for each in unit.splitlines() if each.startswith("ExecStopPost")]
        program = "/usr/bin/python3 /usr/local/lib/leafrunt/leafrunt"
        self.assertEqual(said, [f"ExecStopPost=-{program} clear --box %i"])


if __name__ == "__main__":
    unittest.main()
