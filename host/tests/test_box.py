"""A box from its start to its end, around a stand-in for `routerd`, as the operator's commands see
it."""
import contextlib
import errno
import io
import os
import pwd
import shutil
import signal
import socket
import stat
import subprocess
import sys
import tempfile
import threading
import time
import unittest
from collections.abc import Callable
from pathlib import Path
from types import SimpleNamespace
from typing import IO
from unittest import mock

from leafrunt_host.box import SIGNALS, Box
from leafrunt_host.client import Client
from leafrunt_host.commands import main
from leafrunt_host.configuration import Configuration, read_configuration
from leafrunt_host import rtnetlink
from leafrunt_host.forwarding import KernelTable
from leafrunt_host.isolation import Account
from leafrunt_host.journal import Kept as KeptLog
from leafrunt_host.keeper import SECONDS_TO_STOP
from leafrunt_host.rooms import Room, running, socket_path
from leafrunt_host.rtnetlink import Kernel, Notices
from leafrunt_host.server import MOST_CLIENTS
from leafrunt_host.statuses import Status, Stopped
from tests.run_box import KERNEL
from tests.test_desk import known
from tests.test_rtnetlink import Answering

HERE = Path(__file__).parent
LEAFRUNT = HERE.parent / "leafrunt"
TEXT = 'router_id = "{}"\nrouterd = "routerd"\nkernel = false\nisolated = false\n[[interface]]\nname = "lan0"\npassive = true\n'
MANY = 3
NOBODY = 65534


def read(path: Path) -> Configuration:
    return read_configuration(path, KERNEL)


def errors_of(box: subprocess.Popen[str]) -> IO[str]:
    """What a box writes on standard error."""
    assert box.stderr
    return box.stderr


def within(seconds: float, test: Callable[[], bool]) -> bool:
    """Whether the test holds before this many seconds are over."""
    until = time.monotonic() + seconds
    while not test():
        if time.monotonic() > until:
            return False
        time.sleep(0.02)
    return True


def is_running(pid: int) -> bool:
    try:
        state = Path(f"/proc/{pid}/stat").read_text().rpartition(")")[2].split()[0]
    except OSError:
        return False
    return state != "Z"


class Boxes(unittest.TestCase):
    def setUp(self) -> None:
        self.folder = Path(tempfile.mkdtemp(prefix="lb-"))
        self.addCleanup(shutil.rmtree, self.folder)
        self.run_folder, self.state = self.folder / "run", self.folder / "state"
        program = self.folder / "routerd"
        program.write_text(f"#!{sys.executable} -IS\n" + (HERE / "stand_in.py").read_text())
        program.chmod(0o755)
        self.boxes: list[subprocess.Popen[str]] = []

    def tearDown(self) -> None:
        for box in self.boxes:
            if box.poll() is None:
                box.kill()
            box.wait()
            errors_of(box).close()

    def begin(
        self,
        router_id: str = "1.1.1.1",
        more: str = "",
        name: str = "one",
        errors: int = subprocess.PIPE,
    ) -> subprocess.Popen[str]:
        """Starts a box, and doesn't wait for it."""
        path = self.folder / f"{name}.toml"
        path.write_text(TEXT.format(router_id) + more)
        words = [
            sys.executable,
            "-S",
            str(HERE / "run_box.py"),
            str(path),
            str(self.run_folder),
            str(self.state),
        ]
        box = subprocess.Popen(
            words,
            stderr=errors,
            text=True,
            env={**os.environ, "PYTHONDONTWRITEBYTECODE": "1"},
            start_new_session=True,
        )
        if errors == subprocess.PIPE:
            self.boxes.append(box)
        return box

    def up(self, *words: str, **named: str) -> subprocess.Popen[str]:
        """Starts a box, and waits until it takes connections."""
        box = self.begin(*words, **named)
        name = named.get("name", "one")
        self.assertTrue(
            within(30, lambda: name in running(self.run_folder) or box.poll() is not None)
        )
        self.assertIsNone(box.poll(), errors_of(box).read() if box.poll() is not None else "")
        return box

    def client(self, name: str | None = None) -> Client:
        client = Client(self.run_folder, name)
        self.addCleanup(client.close)
        return client

    def leafrunt(self, *words: str, given: str = "") -> tuple[int, str, str]:
        """Status and words of a command, in this process."""
        output, errors, before = io.StringIO(), io.StringIO(), sys.stdin
        sys.stdin = io.StringIO(given)
        try:
            with contextlib.redirect_stdout(output), contextlib.redirect_stderr(errors):
                status = main([words[0], "--run-directory", str(self.run_folder), *words[1:]])
        except SystemExit as ended:
            status = int(ended.code or 0)
        finally:
            sys.stdin = before
        return status, output.getvalue(), errors.getvalue()

    def routerd_of(self, client: Client) -> int:
        (line,) = (line for line in client.ask("status") if "routerd is process" in line)
        return int(line.rpartition(" ")[2])

    def ended(self, box: subprocess.Popen[str]) -> tuple[int, str]:
        """The status of a box that has to end, and its log."""
        status = box.wait(60)
        return status, errors_of(box).read()


class Consoles(Boxes):
    """All with one box, which none of these ends."""

    def test_whole(self) -> None:
        self.up(more='[[announce]]\nprefix = "203.0.113.0/24"\n')
        for each in (
            self.lines,
            self.noted,
            self.own_words,
            self.two_at_once,
            self.long_and_odd_lines,
            self.one_that_goes_away,
            self.captures,
            self.for_its_owner_alone,
            self.commands,
            self.many_clients,
            self.many_files,
        ):
            with self.subTest(each.__name__):
                each()

    def lines(self) -> None:
        """`routerd`'s answers come as they are, each to its line."""
        client = self.client()
        self.assertEqual(
            client.ask("table"),
            ["10.0.1.0/24 intra 10 via 0", "192.0.2.0/24 ext2 20 via 1", "end"],
        )
        self.assertEqual(client.ask("counters"), ["counter 5 6", "end"])
        for line in ("hello", "table ", " table", "", "quitt", "add", "detach all"):
            self.assertEqual(client.ask(line), ["unknown"], line)
        self.assertEqual(client.ask("neighbors"), ["neighbor 1 2.2.2.2 Full", "end"])

    def two_at_once(self) -> None:
        """Each of several clients that ask at once gets its own answers, in its order."""
        wrong: list[object] = []

        def asks(number: int) -> None:
            client = Client(self.run_folder, None)
            for at in range(100):
                prefix = f"10.{number}.{at}.0/24"
                asked = [
                    (f"add {prefix} 1 2 0", ["originated"]),
                    ("table", ["10.0.1.0/24 intra 10 via 0", "192.0.2.0/24 ext2 20 via 1", "end"]),
                    (f"hello {number}", ["unknown"]),
                    (f"withdraw {prefix}", ["withdrawn"]),
                ]
                wrong.extend(
                    (line, said) for line, wanted in asked if (said := client.ask(line)) != wanted
                )
            client.close()

        threads = [threading.Thread(target=asks, args=(number,)) for number in range(MANY)]
        for each in threads:
            each.start()
        for each in threads:
            each.join()
        self.assertEqual(wrong, [])

    def noted(self) -> None:
        """What is announced and attached is known, also by another client."""
        client, other = self.client(), self.client()
        self.assertEqual(client.ask("add 10.0.0.0/8 7 1 9"), ["originated"])
        self.assertEqual(client.ask("add 10.5.0.0/16 1 1 1"), ["refused 5"])
        self.assertEqual(
            other.ask("announced"),
            [
                "10.0.0.0/8 7 1 9 originated console",
                "203.0.113.0/24 20 2 0 originated configuration",
                "end",
            ],
        )
        self.assertEqual(other.ask("withdraw 10.0.0.0/8"), ["withdrawn"])
        self.assertEqual(
            client.ask("announced"), ["203.0.113.0/24 20 2 0 originated configuration", "end"]
        )
        self.assertEqual(client.ask("attach /x/veto.o"), ["attached veto bound 7"])
        self.assertEqual(other.ask("programs"), ["veto bound 7 /x/veto.o", "end"])
        self.assertEqual(client.ask("detach veto"), ["detached veto"])
        self.assertEqual(other.ask("programs"), ["end"])
        logged = [each.partition("info: ")[2] for each in client.ask("log 2")[:-1]]
        who = pwd.getpwuid(os.geteuid()).pw_name
        self.assertRegex(
            logged[0], rf"^console: attach /x/veto\.o: attached veto bound 7 \(by (\w+ as )?{who}\)$"
        )
        self.assertTrue(logged[1].startswith("console: detach veto: detached veto (by "))

    def own_words(self) -> None:
        client = self.client()
        status = client.ask("status")
        self.assertTrue(status[0].startswith("box one: router 1.1.1.1, since "))
        self.assertEqual(status[1], "kernel: its table is left alone (kernel = false)")
        self.assertEqual(status[-2:], ["lan0: 10.0.1.1/24, MTU 1500: passive", "end"])
        self.assertEqual(
            client.ask("interfaces"),
            [
                "interface 1 lan0 10.0.1.1/24 mtu 1500 cost 10 hello 10 dead 40 rxmt 5 delay 1 passive",
                "end",
            ],
        )
        self.assertIn("info: box one: router 1.1.1.1 at lan0", client.ask("log")[0])
        self.assertEqual(len(client.ask("log 1")), 2)
        self.assertEqual(len(client.ask("database")), 2)
        self.assertEqual(client.ask("map")[0], "digraph area {")
        for line in (
            "status all",
            "log x",
            "log -1",
            "database here",
            "database 1.2.3.4",
            "map 1.2.3.4/8",
            "programs x",
            "capture",
            "capture x",
        ):
            with self.subTest(line):
                self.assertTrue(client.ask(line)[0].startswith("refused: "))

    def long_and_odd_lines(self) -> None:
        client = self.client()
        self.assertEqual(client.ask("add " + "9" * 5000), ["unknown"])
        self.assertEqual(client.ask("x" * 100_000), ["unknown"])
        self.assertEqual(client.ask("table")[-1], "end")
        client._socket.sendall(b"\xff\xfe\n\0\ntable\n")
        self.assertEqual([client.answer(), client.answer()], [["unknown"], ["unknown"]])
        self.assertEqual(client.answer()[-1], "end")
        client._socket.sendall(b"neigh")
        time.sleep(0.05)
        client._socket.sendall(b"bors\ncounters\n")
        self.assertEqual(client.answer(), ["neighbor 1 2.2.2.2 Full", "end"])
        self.assertEqual(client.answer(), ["counter 5 6", "end"])

    def one_that_goes_away(self) -> None:
        """A client that leaves while its answer is on the way, and one that reads nothing, keep
        nobody from anything."""
        silent = socket.socket(socket.AF_UNIX, socket.SOCK_STREAM)
        silent.connect(str(socket_path(self.run_folder, "one")))
        silent.sendall(b"attach /long\n")
        for _ in range(6):
            with socket.socket(socket.AF_UNIX, socket.SOCK_STREAM) as gone:
                gone.connect(str(socket_path(self.run_folder, "one")))
                gone.sendall(b"attach /long\ntable\n")
        client = self.client()
        began = time.monotonic()
        self.assertEqual(client.ask("counters"), ["counter 5 6", "end"])
        self.assertLess(time.monotonic() - began, 20)
        silent.close()

    def captures(self) -> None:
        path = self.folder / "it.pcap"
        said = self.leafrunt(
            "console",
            "-c",
            f"capture {path}",
            "-c",
            f"capture {path}",
            "-c",
            f"capture {path}2",
            "-c",
            "capture off",
        )
        self.assertEqual(
            said[1].splitlines(),
            [
                f"capturing to {path}",
                f"refused: cannot make {path}: File exists",
                f"refused: a capture to {path} is under way: `capture off` ends it",
                f"captured 0 packets to {path}",
            ],
        )
        self.assertEqual(path.read_bytes()[:4], (0xA1B2C3D4).to_bytes(4, sys.byteorder))
        self.assertEqual(stat.S_IMODE(path.stat().st_mode), 0o600)
        self.assertFalse(path.with_name("it.pcap2").exists())
        reader, writer = os.pipe()
        self.assertEqual(
            self.client().ask("capture /pipe", writer), ["refused: /pipe: no regular file"]
        )
        os.close(reader)
        os.close(writer)

    def for_its_owner_alone(self) -> None:
        path = socket_path(self.run_folder, "one")
        self.assertEqual(stat.S_IMODE(path.stat().st_mode), 0o600)
        self.assertEqual(stat.S_IMODE(path.parent.stat().st_mode), 0o700)
        if os.geteuid():
            self.skipTest("another user takes root")
        # even where the folder and the socket were opened to all
        self.folder.chmod(0o755)
        path.parent.chmod(0o755)
        for mode, status, words in ((0o600, 1, "owner"), (0o666, 1, f"this is the user {NOBODY}")):
            path.chmod(mode)
            said = self.as_nobody("status", "--box", "one")
            self.assertEqual(said[0], status)
            self.assertIn(words, said[1])
        path.parent.chmod(0o700)
        path.chmod(0o600)
        self.assertEqual(self.as_nobody("status", "--box", "one")[0], 1)
        self.folder.chmod(0o700)

    def as_nobody(self, *words: str) -> tuple[int, str]:
        """Status and errors of a command of another user, in a process that was this one."""
        reader, writer = os.pipe()
        pid = os.fork()
        if pid == 0:
            try:
                try:
                    os.setgroups([])
                    os.setgid(NOBODY)
                    os.setuid(NOBODY)
                except OSError:
                    os._exit(98)
                os.dup2(writer, 2)
                sys.stderr = os.fdopen(2, "w", closefd=False)
                status = main([words[0], "--run-directory", str(self.run_folder), *words[1:]])
                sys.stderr.flush()
                os._exit(status)
            finally:
                os._exit(99)
        os.close(writer)
        with os.fdopen(reader) as said:
            text = said.read()
        status = os.waitstatus_to_exitcode(os.waitpid(pid, 0)[1])
        if status == 98:
            self.skipTest("no process here may become another user")
        return status, text

    def commands(self) -> None:
        said = self.leafrunt("console", given="table\n\nhelp\nquit\nhello\n")
        self.assertEqual((said[0], said[2]), (0, ""))
        self.assertEqual(
            said[1].splitlines()[:3],
            ["10.0.1.0/24 intra 10 via 0", "192.0.2.0/24 ext2 20 via 1", "end"],
        )
        self.assertNotIn("unknown", said[1])
        self.assertEqual(self.leafrunt("status")[0], 0)
        status, text, _ = self.leafrunt("status", "--json")
        self.assertIn('"router_id": "1.1.1.1"', text)
        self.assertEqual(self.leafrunt("database")[0], 0)
        self.assertEqual(
            self.leafrunt("database", "1.2.3.4"),
            (1, "", "leafrunt: no LSA has the Link State ID 1.2.3.4 (A.B.C.D/L finds those of a destination)\n"),
        )
        self.assertTrue(self.leafrunt("map")[1].endswith("}\n"))
        self.assertEqual(self.leafrunt("map", "--to", "1.2.3.4/8")[0], 2)
        self.assertEqual(
            self.leafrunt("status", "--box", "two"),
            (3, "", "leafrunt: the box two doesn't run: `leafrunt up` starts it\n"),
        )
        self.assertEqual(self.leafrunt("status", "--box", "../one")[0], 2)
        closed = [
            sys.executable,
            str(LEAFRUNT),
            "database",
            "--run-directory",
            str(self.run_folder),
        ]
        reader, writer = os.pipe()
        os.close(reader)
        ran = subprocess.run(
            closed, stdout=writer, stderr=subprocess.PIPE, text=True, timeout=30, check=False
        )
        os.close(writer)
        self.assertEqual((ran.returncode, ran.stderr), (3, ""))

    def many_clients(self) -> None:
        """Any number of them that ask nothing locks nobody out: the one that has asked nothing
        longest is let go, and is told so."""
        idle = [Client(self.run_folder, "one") for _ in range(MOST_CLIENTS + 8)]
        for each in idle:
            self.addCleanup(each.close)
        self.assertEqual(self.leafrunt("status")[0], 0)
        self.assertEqual(idle[-1].ask("counters"), ["counter 5 6", "end"])
        (said,) = idle[0].ask("counters")
        self.assertIn("refused: this console was let go, since", said)
        with self.assertRaises(Stopped):
            idle[0].ask("counters")

    def many_files(self) -> None:
        """Files that come with a line that never ends are closed again."""
        client, folder = self.client(), f"/proc/{self.boxes[-1].pid}/fd"
        before = len(os.listdir(folder))
        for _ in range(200):
            socket.send_fds(client._socket, [b"x"], [0, 0, 0, 0])
        self.assertEqual(self.leafrunt("status")[0], 0)
        self.assertTrue(within(10, lambda: len(os.listdir(folder)) < before + 10))
        self.assertEqual(client.ask(""), ["unknown"])


class Ends(Boxes):
    def test_down_beside_idle_clients(self) -> None:
        box = self.up()
        idle = [self.client() for _ in range(MOST_CLIENTS + 1)]
        self.assertEqual(self.leafrunt("down"), (0, "the box one has ended, status 0\n", ""))
        self.assertEqual(self.ended(box)[0], 0)
        del idle

    def test_down(self) -> None:
        box = self.up()
        routerd = self.routerd_of(self.client())
        self.assertEqual(self.leafrunt("down"), (0, "the box one has ended, status 0\n", ""))
        status, log = self.ended(box)
        self.assertEqual(status, 0)
        for words in (
            "routerd: counter 5 7",
            "routerd: counter 6 1",
            "routerd ended: status 0",
            "the neighbors were told",
        ):
            self.assertIn(words, log)
        self.assertFalse(is_running(routerd))
        self.assertEqual(sorted(os.listdir(self.run_folder / "one")), ["lock"])
        self.assertEqual(
            self.leafrunt("down"),
            (
                3,
                "",
                f"leafrunt: no box of this user's runs (in {self.run_folder}): `leafrunt up CONFIG` starts one\n",
            ),
        )
        self.up()
        self.assertEqual(
            self.leafrunt("console", given="down\ntable\n")[1], "ending\nended, status 0\n"
        )

    def test_signals(self) -> None:
        boxes = [self.up(name=name) for name in ("one", "two")]
        pids = [self.routerd_of(self.client(name)) for name in ("one", "two")]
        for box, number in zip(boxes, (signal.SIGTERM, signal.SIGINT), strict=True):
            box.send_signal(number)
        for box, pid, name in zip(boxes, pids, ("SIGTERM", "SIGINT"), strict=True):
            status, log = self.ended(box)
            self.assertEqual(status, 0)
            self.assertIn(f"{name}: the box ends", log)
            self.assertFalse(is_running(pid))

    def test_sighup(self) -> None:
        """To a daemon it means that the configuration is to be read again. A box in a terminal ends
        with it."""
        box = self.up()
        box.send_signal(signal.SIGHUP)
        said = "info: nothing differs"
        self.assertTrue(within(30, lambda: said in " ".join(self.client().ask("log"))))
        self.assertEqual(self.leafrunt("down")[0], 0)
        self.assertEqual(self.ended(box)[0], 0)

    def test_several(self) -> None:
        self.up(name="one")
        self.up(name="two")
        status, _, words = self.leafrunt("status")
        self.assertEqual(
            (status, words),
            (2, "leafrunt: several boxes run: one, two; choose one by `--box NAME`\n"),
        )
        again = self.begin(name="two")
        status, log = self.ended(again)
        self.assertEqual(status, 1)
        self.assertIn("the box two runs already (process ", log)
        self.assertEqual(self.leafrunt("status", "--box", "two")[0], 0)

    def test_routerd_that_ends_by_itself(self) -> None:
        box = self.up()
        with self.assertRaises(Stopped):
            client = self.client()
            if client.ask("attach /end/7") == ["refused: routerd has ended: the box is ending"]:
                client.answer()
        status, log = self.ended(box)
        self.assertEqual(status, 3)
        self.assertIn("routerd has ended by itself", log)
        self.assertIn("routerd ended: status 7", log)

    def test_routerd_that_is_killed(self) -> None:
        box = self.up()
        os.kill(self.routerd_of(self.client()), signal.SIGKILL)
        status, log = self.ended(box)
        self.assertEqual(status, 3)
        self.assertIn("routerd ended: killed by signal 9", log)

    def test_a_box_that_is_killed(self) -> None:
        """It leaves no `routerd` behind; its socket is there, and takes nobody in; it can be
        started again."""
        box = self.up()
        routerd = self.routerd_of(self.client())
        box.kill()
        box.wait()
        self.assertTrue(within(30, lambda: not is_running(routerd)))
        self.assertTrue(socket_path(self.run_folder, "one").exists())
        self.assertEqual(
            self.leafrunt("status", "--box", "one")[::2],
            (3, "leafrunt: the box one doesn't run: `leafrunt up` starts it\n"),
        )
        self.assertEqual(running(self.run_folder), [])
        self.up()
        self.assertEqual(self.leafrunt("status")[0], 0)


class Starts(Boxes):
    def test_systemd_is_told(self) -> None:
        """sd_notify(3): ready once the console takes connections, stopping at the end."""
        with socket.socket(socket.AF_UNIX, socket.SOCK_DGRAM) as told:
            told.bind(str(self.folder / "notify"))
            told.settimeout(30)
            os.environ["NOTIFY_SOCKET"] = str(self.folder / "notify")
            try:
                box = self.begin()
            finally:
                del os.environ["NOTIFY_SOCKET"]
            self.assertEqual(told.recv(100), b"READY=1")
            self.assertEqual(running(self.run_folder), ["one"])
            box.terminate()
            self.assertEqual(told.recv(100), b"STOPPING=1")
            self.assertEqual(self.ended(box)[0], 0)

    def test_no_world_of_its_own(self) -> None:
        """A kernel that refuses it: told with what to do, and nothing is left behind."""
        why = OSError(errno.EPERM, "Operation not permitted")
        text = TEXT.replace("isolated = false\n", "")
        with mock.patch("leafrunt_host.isolation.libc_call", side_effect=why):
            with mock.patch.object(Account, "runs", return_value=True):
                status, log = self.refused(text=text)
        self.assertEqual(status, 3)
        self.assertIn("CAP_SYS_ADMIN, is needed). `isolated = false` in the", log)
        self.assertEqual(os.listdir(self.run_folder / "one"), ["lock"])

    def test_an_interface_of_another_box(self) -> None:
        """In one network namespace an interface and the kernel's table are one box's."""
        rooms = [Room(name, self.run_folder / name, self.state / name) for name in ("one", "two")]
        name = "interface eth1"
        rooms[0].claim([name, "kernel's routing table"])
        with self.assertRaises(Stopped) as raised:
            rooms[1].claim(["interface eth2", name])
        self.assertEqual(
            str(raised.exception),
            f"the box one (process {os.getpid()}) has the {name} in this network namespace",
        )
        rooms[1].leave()
        rooms[0].leave()
        rooms[1].claim(["interface eth2", name])
        rooms[1].leave()

    def test_a_claim_that_cannot_be_made(self) -> None:
        """Those before it are given back."""
        one, two = (Room(name, self.run_folder / name, self.state / name) for name in ("a", "b"))
        folder = self.run_folder / ".claims"
        folder.mkdir(0o700, parents=True)
        (folder / f"{os.stat('/proc/self/ns/net').st_ino} interface eth2").mkdir()
        with self.assertRaisesRegex(Stopped, "eth2: Is a directory"):
            one.claim(["interface eth1", "interface eth2"])
        self.assertEqual(one.claimed, frozenset())
        two.claim(["interface eth1"])
        two.leave()

    def test_folders_without_a_umask(self) -> None:
        """Who can change the one above could put another in a box's place."""
        before = os.umask(0)
        self.addCleanup(os.umask, before)
        room = Room("one", self.folder / "a" / "b" / "one", self.folder / "c" / "one")
        room.enter()
        room.leave()
        modes = [stat.S_IMODE((self.folder / each).stat().st_mode) for each in ("a", "a/b", "c")]
        self.assertEqual(modes, [0o755] * 3)

    def test_nobody_else_can_claim(self) -> None:
        """The files of claims are their owner's alone, and an abstract socket of the name that
        other versions claimed by keeps no box from starting."""
        room = Room("one", self.run_folder / "one", self.state / "one")
        with socket.socket(socket.AF_UNIX, socket.SOCK_DGRAM) as squatter:
            squatter.bind("\0leafrunt interface eth1")
            room.claim(["interface eth1"])
        folder = self.run_folder / ".claims"
        modes = [stat.S_IMODE(each.stat().st_mode) for each in (folder, *folder.iterdir())]
        self.assertEqual(modes, [0o700, 0o600])
        room.leave()
        if os.geteuid() == 0:
            os.chown(folder, NOBODY, NOBODY)
            room.claim(["interface eth1"])
            room.leave()
        shutil.rmtree(folder)
        folder.symlink_to(self.folder)
        with self.assertRaises(Stopped):
            room.claim(["interface eth1"])

    def test_a_port_that_is_taken(self) -> None:
        self.up("9.9.9.1")
        self.assertIn("other ports are tried", " ".join(self.client().ask("log")))

    def refused(self, router_id: str = "1.1.1.1", text: str = TEXT) -> tuple[Status, str]:
        """Status and log of a box that can't be started, in this process."""
        path = self.folder / "one.toml"
        path.write_text(text.format(router_id))
        room = Room("one", self.run_folder / "one", self.state / "one")
        handlers = {number: signal.getsignal(number) for number in SIGNALS}
        try:
            with self.assertLogs("leafrunt") as logged:
                status = Box(read(path), room, KeptLog(), read).run()
        finally:
            for number, handler in handlers.items():
                signal.signal(number, handler)
        return status, "\n".join(logged.output)

    def test_what_does_not_start(self) -> None:
        for router_id, words in (
            ("9.9.9.2", "didn't start (routerd has ended, status 1): config refusal line 1"),
            ("9.9.9.3", "didn't start (routerd has ended, status 0): hello"),
        ):
            with self.subTest(router_id):
                status, log = self.refused(router_id)
                self.assertEqual(status, 3)
                self.assertIn(words, log)
                self.assertEqual(os.listdir(self.run_folder / "one"), ["lock"])

    def test_a_kernel_that_does_not_answer(self) -> None:
        """`status` and log say so, and the box ends all the same: it waits for no more than one
        look and one answer."""
        path = self.folder / "one.toml"
        path.write_text(TEXT.format("1.1.1.1").replace("kernel = false\n", ""))
        room = Room("one", self.run_folder / "one", self.state / "one")
        box = Box(read(path), room, KeptLog(), read)
        said: list[str] = []

        def look_and_end() -> None:
            within(60, lambda: "one" in running(self.run_folder))
            client = Client(self.run_folder, "one")
            within(60, lambda: "hasn't answered" in " ".join(client.ask("status")))
            said.extend(client.ask("status"))
            client.close()
            box._ending.set()

        ender = threading.Thread(target=look_and_end, daemon=True)
        silent = Kernel(89, 89, Answering(lambda data: []))
        table = KernelTable(silent, Notices(7, 89, Answering(lambda data: [])))
        self.addCleanup(table.close)
        handlers = {number: signal.getsignal(number) for number in SIGNALS}
        try:
            with mock.patch("leafrunt_host.box.KernelTable", return_value=table):
                silent._socket.settimeout(0.2)
                ender.start()
                with self.assertLogs("leafrunt") as logged:
                    status = box.run()
        finally:
            for number, handler in handlers.items():
                signal.signal(number, handler)
            ender.join(60)
        self.assertIn("the kernel hasn't answered for", " ".join(said))
        log = "\n".join(logged.output)
        self.assertIn("the kernel's routes: the kernel hasn't answered", log)
        self.assertIn("the neighbors were told that this router leaves", log)
        self.assertEqual((status, ender.is_alive()), (Status.FAILED, False))
        self.assertLessEqual(rtnetlink.SECONDS + SECONDS_TO_STOP, 9)

    def test_a_mistake_starts_nothing(self) -> None:
        status, log = self.ended(self.begin(more="cost = 0\n"))
        self.assertEqual(status, 1)
        self.assertEqual(
            log,
            "one.toml: interface 1 (lan0), cost: found 0; allowed: a whole number from 1 to 65535\n",
        )
        self.assertFalse(self.run_folder.exists())

    def test_a_folder_of_another_kind(self) -> None:
        self.run_folder.mkdir()
        (self.run_folder / "one").symlink_to(self.folder)
        status, log = self.refused()
        self.assertEqual(status, 1)
        self.assertIn("is no folder of this user's", log)

    def test_no_room_for_files(self) -> None:
        """A full /run, which may have room for names and none for bytes: the lock holds without
        its text, and what `routerd` reads is where the state is."""
        room = Room("one", self.run_folder / "one", self.state / "one")
        full = OSError(errno.ENOSPC, os.strerror(errno.ENOSPC))
        with mock.patch("os.pwrite", side_effect=full), self.assertLogs("leafrunt.room") as told:
            room.enter()
            room.claim([f"interface of process {os.getpid()}"])
        self.assertIn("No space left on device", told.output[0])
        other = Room("one", self.run_folder / "one", self.state / "one")
        with self.assertRaisesRegex(Stopped, "the box one runs already: `leafrunt down`"):
            other.enter()

        def written(path: Path, data: bytes) -> None:
            if self.run_folder in path.parents:
                raise full
            path.write_bytes(data)

        with mock.patch.object(Room, "_write", side_effect=written):
            with self.assertLogs("leafrunt.room", "WARNING") as told:
                path = room.lend("routerd.conf", b"router 1.1.1.1\n")
        self.assertEqual(path.read_bytes(), b"router 1.1.1.1\n")
        self.assertEqual((path, path.parent), (room.configuration, self.state / "one" / "routerd"))
        self.assertIn("no room for", told.output[0])
        room.leave()
        self.assertFalse(path.parent.exists())

    def test_a_state_folder_that_cannot_be_made(self) -> None:
        self.state.write_text("no folder\n")
        room = Room("one", self.run_folder / "one", self.state / "one")
        with self.assertLogs("leafrunt.room", "WARNING") as told:
            room.enter()
        self.assertIsNone(room.kept("numbers"))
        self.assertIn("sequence numbers aren't kept over a restart", told.output[0])
        room.leave()

    def test_damaged_state(self) -> None:
        """It is told of, and the box starts."""
        (self.state / "one").mkdir(parents=True)
        (self.state / "one" / "numbers").write_text("many\n")
        (self.state / "one" / "neighbor-numbers").write_bytes(b"\xff\n")
        box = self.up()
        said = " ".join(self.client().ask("log"))
        self.assertIn("no sequence number, so it begins with the clock ('many')", said)
        self.assertIn("left out, no neighbor's sequence number", said)
        box.terminate()
        self.assertEqual(self.ended(box)[0], 0)

    def test_check(self) -> None:
        path = self.folder / "x.toml"
        path.write_text("router_id = 1\n")
        for command in ("check", "up"):
            status, said = self.script(command, str(path))
            self.assertEqual(status, 1)
            self.assertIn("leafrunt: x.toml: router_id: found 1; allowed: an address", said)
        self.assertEqual(self.leafrunt("check", "/none.toml")[0], 2)
        for words, status in ((["/none.toml"], 3), ([], 2), (["--help"], 0)):
            with contextlib.redirect_stdout(io.StringIO()), contextlib.redirect_stderr(
                io.StringIO()
            ) as errors:
                try:
                    self.assertEqual(main(["check", *words]), status)
                except SystemExit as ended:
                    self.assertEqual(ended.code, status)
            self.assertNotIn("Traceback", errors.getvalue())

    def script(self, *words: str) -> tuple[int, str]:
        """Status and errors of the command as a process of its own."""
        ran = subprocess.run(
            [sys.executable, "-S", str(LEAFRUNT), *words],
            capture_output=True,
            text=True,
            timeout=30,
            check=False,
        )
        return ran.returncode, ran.stderr


class Files(unittest.TestCase):
    def test_a_file_that_no_box_would_start_with(self) -> None:
        """It is told while the box runs, and not at the next boot; and no longer once it is well."""
        faults = iter(["two.toml: cost: found 0\ntwo.toml: name: found 1", "", ""])

        def read_again(_path: Path) -> Configuration:
            if fault := next(faults, ""):
                raise Stopped(fault, Status.REFUSED)
            return it.configuration

        it = known()
        box = Box(it.configuration, mock.Mock(), KeptLog(), read_again)
        told: list[str | None] = []

        def wait(_seconds: float) -> bool:
            told.append(it.file_fault)
            return len(told) > 2

        with mock.patch.object(box, "_ending", SimpleNamespace(wait=wait)):
            with self.assertLogs("leafrunt.box", "WARNING") as logged:
                box._follow_file(it)
        said = "this box wouldn't start now (`leafrunt check`): two.toml: cost: found 0 (and 1 more)"
        self.assertEqual(told, [None, said, None])
        self.assertEqual(len(logged.output), 1)


if __name__ == "__main__":
    unittest.main()
