"""`try-network` tells what it can't try with, before it makes a network; a part's mistake is told."""
from __future__ import annotations

import contextlib
import importlib.machinery
import importlib.util
import io
import os
import signal
import subprocess
import tempfile
import unittest
from collections.abc import Callable
from datetime import datetime
from pathlib import Path
from unittest import mock

from tests import network, try_bfd

PROGRAM = Path(__file__).resolve().parent.parent / "try-network"
loader = importlib.machinery.SourceFileLoader("try_network", str(PROGRAM))
try_network = importlib.util.module_from_spec(
    importlib.util.spec_from_loader(loader.name, loader)
)
loader.exec_module(try_network)


class Routerd(unittest.TestCase):
    def setUp(self) -> None:
        room = tempfile.TemporaryDirectory()
        self.addCleanup(room.cleanup)
        self.folder = Path(room.name)
        self.program = self.folder / "routerd"
        self.program.write_text("#!/bin/sh\n")

    def test_a_program_that_a_box_may_start(self) -> None:
        self.folder.chmod(0o755)
        self.program.chmod(0o755)
        self.assertIsNone(try_network.why_not_routerd(self.program))

    def test_a_file_that_is_no_program(self) -> None:
        self.program.chmod(0o644)
        for path in (self.program, self.folder, self.folder / "nowhere"):
            self.assertIn("no program", try_network.why_not_routerd(path) or "")

    def test_a_folder_that_the_user_of_routerd_may_not_pass(self) -> None:
        self.program.chmod(0o755)
        self.folder.chmod(0o700)
        why = try_network.why_not_routerd(self.program) or ""
        self.assertIn(str(self.program), why)
        self.assertIn("let others pass each folder on the way", why)


class Falls(unittest.TestCase):
    """Whose fault it is that a session of BFD fell, by its packets."""

    def setUp(self) -> None:
        room = tempfile.TemporaryDirectory()
        self.addCleanup(room.cleanup)
        self.file = Path(room.name, "heard")
        self.heard = try_bfd.Heard.__new__(try_bfd.Heard)
        self.heard._file = self.file

    def fell_by(self, others: list[tuple[float, str]], why: str) -> tuple[int, int]:
        """How many falls are the box's fault, and how many the other end's, where the box's session
        falls after a second of such packets of the other end's."""
        own = [(at / 4, "Up") for at in range(-4, 4)] + [(1.0, "Down")]
        sent = [(at, "10.0.1.1", state) for at, state in own]
        sent += [(at, "10.0.1.2", state) for at, state in others]
        line = "{:.3f} IP {}.49152 > 10.0.1.9.3784: BFDv1, Control, State {}, Flags: [none]\n"
        began = 1_700_000_000
        self.file.write_text("".join(line.format(began + at, *said) for at, *said in sorted(sent)))
        moment = datetime.fromtimestamp(began + 1)
        fall = f"eth1: BFD with 10.0.1.2: Up -> Down: {why}"
        with mock.patch("time.sleep"):
            found = try_bfd.falls_of([f"{moment} info: {fall}"], {"eth1": self.heard})
        return len(found[0]), len(found[1])

    def test_whose_fault(self) -> None:
        before, expired = [(at / 4, "Up") for at in range(-4, 0)], "control detection time expired"
        for others, why, expected in (
            ([*before, (0.09, "Up")], expired, (0, 1)),
            ([*before, (0.09, "Up"), (0.9, "Up")], expired, (1, 0)),
            ([*before, (0.09, "Up"), (0.9, "Init")], expired, (1, 0)),
            ([*before, (0.09, "Up"), (0.15, "Down"), (0.95, "Down")], expired, (0, 1)),
            ([*before, (0.09, "Up"), (0.99, "Down")], "neighbor signaled session down", (0, 1)),
        ):
            self.assertEqual(self.fell_by(others, why), expected, others)


class Parts(unittest.TestCase):
    def test_a_part_that_ends_by_a_mistake(self) -> None:
        """It's a NO, its network is removed, and nothing else ends by it."""
        looks, own, said = network.Looks(), mock.Mock(), io.StringIO()
        own.close.return_value = []
        with mock.patch.object(try_network, "Network", return_value=own):
            with contextlib.redirect_stdout(said):
                try_network.tried(lambda _: [][0], looks, Path("routerd"))
        self.assertEqual(looks.bad, ["the part ends by IndexError: list index out of range"])
        self.assertIn("Traceback", said.getvalue())
        own.close.assert_called_once()


    def test_a_part_that_is_ended_while_it_makes_a_network(self) -> None:
        """Nobody but the list of all has it; nothing of it is left."""
        made: list[network.Network] = []

        def part(_: network.Try) -> None:
            made.append(network.Network())
            raise KeyboardInterrupt

        looks = network.Looks()
        with mock.patch("tests.network.remove_stale"), self.assertRaises(KeyboardInterrupt):
            try_network.tried(part, looks, Path("routerd"))
        self.assertEqual([each.work.exists() for each in made], [False])
        self.assertEqual(network.Network.made, [])


class Rounds(unittest.TestCase):
    def test_how_many_in_a_row(self) -> None:
        """A NO begins the count anew, and makes the status 1."""
        good = iter((True, True, False, True, True))

        def tried(_part: object, looks: network.Looks, _routerd: Path) -> None:
            looks.look("it", next(good))

        said = io.StringIO()
        with mock.patch.object(try_network, "tried", tried), contextlib.redirect_stdout(said):
            self.assertTrue(try_network.played(["ring"], Path("routerd"), 2))
            self.assertFalse(try_network.played(["ring"], Path("routerd"), 3))
        rounds = [each for each in said.getvalue().splitlines() if each.startswith("round")]
        self.assertEqual([each.split(": ")[1].split()[0] for each in rounds], list("12012"))


class SideBySide(unittest.TestCase):
    def test_the_longest_are_begun_first(self) -> None:
        """Each is played by a `try-network` of its own, which is given the same `routerd`."""
        self.assertLessEqual(set(try_network.LONGEST), set(try_network.PARTS))
        with mock.patch.object(try_network.lanes, "played", return_value=True) as played:
            found = try_network.side_by_side(["ring", "peers", "bfd"], Path("/a/routerd"), 3, 4)
        (parts, words, most, times), _ = played.call_args
        self.assertEqual((found, parts, most, times), (True, ["bfd", "ring", "peers"], 4, 3))
        self.assertEqual(words("ring")[2:], ["--only", "ring", "--routerd", "/a/routerd"])

    def test_numbers_of_lanes(self) -> None:
        for wrong in ("0", "-1", "x", "1.5"):
            with self.subTest(wrong), contextlib.redirect_stderr(io.StringIO()) as said:
                with mock.patch("sys.argv", ["try-network", "--lanes", wrong]):
                    with self.assertRaises(SystemExit) as raised:
                        try_network.main()
                self.assertEqual(raised.exception.code, 2)
                self.assertIn("--lanes: invalid count value", said.getvalue())


class Waited(unittest.TestCase):
    def test_of_threads_and_programs(self) -> None:
        """From the beginning on, in nanoseconds, the second of three numbers (the kernel's
        Documentation/scheduler/sched-stats.rst): of each program its longest; one has ended."""
        with tempfile.TemporaryDirectory() as room:

            def are(**seconds: float) -> None:
                for name, waited in seconds.items():
                    _, program, task = name.split("_")
                    place = Path(room, program, "task", task)
                    place.mkdir(parents=True, exist_ok=True)
                    (place / "schedstat").write_text(f"99000000000 {waited * 1e9:.0f} 12\n")

            are(of_7_7=20, of_7_8=3, of_9_9=1, of_4_4=50)
            waiting = network.Waiting(iter(["7", "9", "5"]), Path(room))
            self.assertEqual(waiting.seconds(), 0)
            are(of_7_7=20.5, of_7_8=5, of_7_9=1, of_9_9=1.25, of_4_4=60)
            self.assertEqual(waiting.seconds(), 2.25)

    def test_a_program_and_what_it_started(self) -> None:
        words = ["sh", "-c", "sleep 60 & echo $!; wait"]
        with subprocess.Popen(words, stdout=subprocess.PIPE, text=True) as shell:
            assert shell.stdout
            child = shell.stdout.readline().strip()
            self.assertEqual(network.family(shell), [str(shell.pid), child])
            os.kill(int(child), signal.SIGTERM)
        self.assertEqual(network.family(shell), [str(shell.pid)])
        self.assertEqual(network.family(None), [])

    def test_of_this_process(self) -> None:
        self.assertGreaterEqual(network.Waiting([str(os.getpid())]).seconds(), 0)


class Locked(unittest.TestCase):
    def test_what_falls_between(self) -> None:
        with tempfile.TemporaryDirectory() as room:
            own = mock.Mock(work=Path(room))
            it = try_bfd.Locked(own, "a namespace")
            (Path(room) / "locked").write_text("10.0 10.5\n12.0 13.0\n14.5 16.0\n17.0")
            for first, last, seconds in (
                (0, 9, 0),
                (0, 20, 3.0),
                (10.25, 15, 1.75),
                (12.5, 12.75, 0.25),
            ):
                with self.subTest(first=first, last=last):
                    self.assertEqual(it.between(first, last), seconds)

    def test_it_is_a_program(self) -> None:
        compile(try_bfd.LOCKED, "LOCKED", "exec")


class Within(unittest.TestCase):
    def setUp(self) -> None:
        self.now = 0.0
        clock = mock.patch("tests.network.time")
        time = clock.start()
        self.addCleanup(clock.stop)
        time.monotonic.side_effect = lambda: self.now
        time.sleep.side_effect = self.passes

    def passes(self, seconds: float) -> None:
        self.now += seconds

    def look(self, takes: float, from_then_on: float) -> Callable[[], bool]:
        """A look at something that is so from a moment on."""

        def looked() -> bool:
            self.passes(takes)
            return self.now >= from_then_on

        return looked

    def test_looks(self) -> None:
        for takes, from_then_on, took in (
            (0.0, 0.0, 0.0),
            (0.0, 3.9, 4.0),
            (0.0, 4.1, None),
            (5.0, 1.0, 5.0),
            (3.0, 5.0, 6.5),
            (3.0, 7.0, None),
        ):
            with self.subTest(takes=takes, from_then_on=from_then_on):
                self.now = 0.0
                self.assertEqual(network.within(4, self.look(takes, from_then_on), 0.5), took)


    def test_without_what_they_waited(self) -> None:
        """For a processor: 3 seconds."""
        for from_then_on, is_good, said in (
            (3.9, True, "after 4.00 s, of which they waited 3.00 s for a processor"),
            (6.9, True, "after 7.00 s, of which they waited 3.00 s for a processor"),
            (7.1, False, "after 7.50 s, of which they waited 3.00 s for a processor"),
            (12.1, False, "not within 12 s, of which they waited 3.00 s for a processor"),
        ):
            with self.subTest(said), mock.patch("tests.network.Waiting") as waiting:
                waiting.return_value.seconds.return_value = 3.0
                self.now = 0.0
                found = network.within_own(4, self.look(0.0, from_then_on), ["7"], 0.5)
                self.assertEqual(found, (is_good, said))
        self.now = 0.0
        found = network.within_own(4, self.look(0.0, 3.9), [], 0.5)
        self.assertEqual(found, (True, "after 4.00 s"))


if __name__ == "__main__":
    unittest.main()
