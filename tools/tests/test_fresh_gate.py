"""Tests of tools/fresh-gate: what a check used is counted once, two runs are compared and have networks of their own,
a run that is stopped leaves nothing, wrong words are refused."""
import os
import pathlib
import shutil
import signal
import subprocess
import sys
import tempfile
import time
import unittest
import unittest.mock

from loading import tool

import clone


class CountsOnce(unittest.TestCase):
    def seconds(self, parents: dict[int, int], looks: list[dict[int, tuple[str, str, float]]]) -> dict:
        """Returns what is counted of checks that are seen in these looks, each with its crate, kind and seconds."""
        fresh_gate = tool("fresh-gate")
        times = fresh_gate.Times()
        for seen in looks:
            with (
                unittest.mock.patch.object(fresh_gate, "below", return_value=sorted(seen)),
                unittest.mock.patch.object(fresh_gate, "stat_of", side_effect=lambda it: ["S", str(parents[it])]),
                unittest.mock.patch.object(times, "check_of", side_effect=seen.get),
            ):
                times.look(1)
        return dict(times.seconds)

    def test_a_check_has_what_those_used_that_it_started(self) -> None:
        # (the first one's seconds grow by the second one's as that ends)
        first, second = ("turns", "proof", 3.0), ("turns", "proof", 4.0)
        looks = [{10: first, 11: second}, {10: ("turns", "proof", 8.0)}, {}]
        self.assertEqual(self.seconds({10: 2, 11: 10}, looks), {("turns", "proof"): 8.0})

    def test_checks_side_by_side_count_each(self) -> None:
        looks = [{10: ("isa", "proof", 3.0), 11: ("words", "proof", 4.0)}, {}]
        self.assertEqual(self.seconds({10: 2, 11: 2}, looks), {("isa", "proof"): 3.0, ("words", "proof"): 4.0})


class Compares(unittest.TestCase):
    LAST = "fresh-gate: status 0, 121 minutes on 2 cores, {} processor minutes in all (201 of checks); {}\n"

    def test_the_ratios_are_those_of_the_last_lines(self) -> None:
        one, other = self.LAST.format("215.0", "15.4 times the 836 s of isa"), self.LAST.format("244.3", "16.7 times the 873 s of isa")
        self.assertEqual([round(it, 2) for it in tool("fresh-gate").ratios_of(one, other)], [0.88, 0.92])

    def test_there_are_none_if_a_run_proved_too_little(self) -> None:
        one, other = self.LAST.format("3.0", "no ratio: isa not proved in this run"), self.LAST.format("244.3", "16.7 times the 873 s of isa")
        self.assertIsNone(tool("fresh-gate").ratios_of(one, other))


class OwnNetwork(unittest.TestCase):
    HOLDS = (
        "import socket, sys; it = socket.socket(socket.AF_INET, socket.SOCK_DGRAM); it.bind(('127.0.0.1', 27105)); "
        "it.connect(('127.0.0.1', 27106)); print('bound', flush=True); sys.stdin.read()"
    )

    @unittest.skipIf(os.geteuid() or shutil.which("ip") is None, "takes root and ip of iproute2")
    def test_two_gates_bind_the_same_port(self) -> None:
        command = [*tool("fresh-gate").own_network(), sys.executable, "-c", self.HOLDS]
        how = {"stdin": subprocess.PIPE, "stdout": subprocess.PIPE, "text": True}
        with subprocess.Popen(command, **how) as one, subprocess.Popen(command, **how) as other:
            said = [it.stdout.readline() for it in (one, other)]
            for it in (one, other):
                it.stdin.close()
        self.assertEqual((said, one.returncode, other.returncode), (["bound\n", "bound\n"], 0, 0))

    def test_without_root_there_is_none(self) -> None:
        with unittest.mock.patch("os.geteuid", return_value=1000):
            self.assertEqual(tool("fresh-gate").own_network(), [])


class KitAnew(unittest.TestCase):
    def test_the_copy_has_the_kits_files_and_nothing_that_was_kept(self) -> None:
        with tempfile.TemporaryDirectory() as name:
            room = pathlib.Path(name)
            rt = room / "there/rattle/bin/rt"
            rt.parent.mkdir(parents=True)
            rt.write_text("a command")
            (room / "there/rattle-kept").mkdir()
            (room / "here").mkdir()
            fresh_gate = tool("fresh-gate")
            with unittest.mock.patch.object(fresh_gate.kit, "folder", return_value=room / "there/rattle"):
                copy = fresh_gate.kit_anew(room / "here")
            self.assertEqual((copy / "rt").read_text(), "a command")
            self.assertEqual([it.name for it in copy.parent.parent.iterdir()], ["rattle"])


class IsStopped(unittest.TestCase):
    @unittest.skipIf(clone.git("rev-parse", "HEAD") is None, "this folder is no clone")
    def test_a_run_that_is_stopped_before_its_gate_leaves_nothing(self) -> None:
        with tempfile.TemporaryDirectory() as name:
            room = pathlib.Path(name)
            rt = room / "kit/bin/rt"
            rt.parent.mkdir(parents=True)
            rt.write_text("#!/bin/sh\n")
            rt.chmod(0o755)
            # (the copy of the kit takes as long as the test needs it to)
            cp = room / "cp"
            cp.write_text("#!/bin/sh\ntouch '" + name + "/copies'\nexec sleep 60\n")
            cp.chmod(0o755)
            (room / "tmp").mkdir()
            env = {**os.environ, "PATH": f"{room}:{rt.parent}:{os.environ['PATH']}", "TMPDIR": str(room / "tmp")}
            ran = subprocess.Popen([tool("fresh-gate").__file__, "--anew"], env=env, stdout=subprocess.DEVNULL)
            until = time.monotonic() + 120
            while not (room / "copies").exists() and time.monotonic() < until:
                time.sleep(0.05)
            ran.terminate()
            self.assertEqual(ran.wait(60), 128 + signal.SIGTERM)
            self.assertEqual(list((room / "tmp").iterdir()), [])


class Usage(unittest.TestCase):
    def said(self, *words: str) -> tuple[int, str]:
        """Returns the status and the complaint of the tool with these words."""
        ran = subprocess.run([tool("fresh-gate").__file__, *words], capture_output=True, text=True)
        return ran.returncode, ran.stderr

    def test_words_that_contradict_each_other_are_refused(self) -> None:
        self.assertEqual(self.said("--beside", "HEAD"), (2, "fresh-gate: --beside needs --cores, at most half of the processors\n"))
        self.assertEqual(self.said("--commit", "no-such"), (2, "fresh-gate: no-such is no commit of this repository\n"))


if __name__ == "__main__":
    unittest.main()
