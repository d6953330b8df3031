"""The world that `routerd` is started in. What needs root is skipped without it."""
import errno
import os
import pwd
import socket
import stat
import subprocess
import tempfile
import unittest
from pathlib import Path
from unittest import mock

from leafrunt_host.isolation import (
    ADDRESS_SPACE,
    FIRST_NUMBER,
    LAST_NUMBER,
    PR_CAP_AMBIENT,
    Account,
    CannotIsolate,
    World,
    account_of,
    enter_namespace,
    free_number,
    libc_call,
    running_users,
)
from leafrunt_host.rooms import Room
from leafrunt_host.router import Router

PR_CAP_AMBIENT_IS_SET, CAP_NET_RAW = 1, 13
NAMESPACE = "/proc/thread-self/ns/net"
PRINTS = """#!/usr/bin/python3 -IS
import os, resource, sys
names = ("AS", "FSIZE", "CORE")
limits = [f"{each} {resource.getrlimit(getattr(resource, f'RLIMIT_{each}'))[1]}" for each in names]
ids = [f"{os.getresuid()} {os.getresgid()} {os.getgroups()}"]
with open(sys.argv[2]) as it:
    variables = [f"{each}={os.environ[each]}" for each in os.environ]
    print(*ids, *limits, it.read(), *variables, sep="\\n", file=sys.stderr, flush=True)
print(sys.stdin.read())
"""
ATTEMPTS = """#!/usr/bin/python3 -IS
import ctypes, os, socket, sys, threading
def attempt(what, act):
    try:
        found = act()
        done = found is not None and found < 0 if isinstance(found, int) else False
        print(what, "refused" if done else "done", file=sys.stderr, flush=True)
    except OSError:
        print(what, "refused", file=sys.stderr, flush=True)
def connected():
    with socket.socket(socket.AF_UNIX) as one:
        one.connect("SOCKET")
call = ctypes.CDLL(None).syscall
attempt("own file", lambda: open(sys.argv[2]).close())
attempt("thread", lambda: threading.Thread(target=int).start())
attempt("other file", lambda: open("/etc/passwd").close())
attempt("write here", lambda: open("made", "w").close())
attempt("write in /tmp", lambda: open("/tmp/leafrunt-made", "w").close())
attempt("write in /dev/shm", lambda: open("/dev/shm/leafrunt-made", "w").close())
attempt("folder", lambda: os.mkdir("made"))
attempt("process", os.fork)
attempt("signal", lambda: os.kill(OTHER, 0))
attempt("tracing", lambda: call(101, 16, OTHER, 0, 0))
attempt("unix socket", connected)
attempt("netlink", lambda: socket.socket(socket.AF_NETLINK, socket.SOCK_RAW, 0).close())
attempt("user namespace", lambda: call(272, 0x10000000))
attempt("keys", lambda: call(250, 0, -3, 0))
attempt("bpf", lambda: call(321, 0, 0, 0))
attempt("shared memory", lambda: call(29, 7, 4096, 0o1600))
print(sys.stdin.read())
"""


def isolated(case: unittest.TestCase) -> World:
    """A world of its own, where this test may have one."""
    try:
        world = World(account_of(None, "test"))
    except CannotIsolate as why:
        case.skipTest(str(why))
    case.addCleanup(world.close)
    return world


class Accounts(unittest.TestCase):
    def test_users(self) -> None:
        own = pwd.getpwuid(os.geteuid()).pw_name
        for name, words in (
            ("no such user", "which the system doesn't have"),
            ("root", "who may"),
            (own, "who"),
        ):
            with self.assertRaises(ValueError) as raised:
                account_of(name, "one")
            self.assertIn(words, str(raised.exception))

    def test_a_user_that_is_named(self) -> None:
        """Else a number of the box's own, even if the system has a user `leafrunt`."""
        found = mock.Mock(pw_name="leafrunt", pw_uid=os.geteuid() + 1, pw_gid=7)
        with mock.patch("leafrunt_host.isolation.pwd.getpwnam", return_value=found):
            self.assertEqual(account_of("leafrunt", "one").user, os.geteuid() + 1)
            numbers = [account_of(None, each).user for each in ("one", "two")]
        self.assertEqual(numbers, [free_number("one"), free_number("two")])
        self.assertNotEqual(*numbers)

    def test_a_number_that_nobody_has(self) -> None:
        one = free_number("one")
        self.assertTrue(FIRST_NUMBER <= one <= LAST_NUMBER)
        self.assertEqual(free_number("one"), one)
        with mock.patch("leafrunt_host.isolation.running_users", return_value={one}):
            self.assertNotEqual(free_number("one"), one)
        self.assertIn(os.geteuid(), running_users())

    def test_who_can_run_a_program(self) -> None:
        own = Account("own", os.geteuid(), os.getegid())
        other = Account("other", FIRST_NUMBER, FIRST_NUMBER)
        with tempfile.TemporaryDirectory() as folder:
            program = Path(folder, "routerd")
            program.write_bytes(b"")
            program.chmod(0o755)
            self.assertTrue(own.runs(program))
            self.assertFalse(other.runs(program))  # (the folder is its owner's alone)
            program.chmod(0o655)
            self.assertFalse(own.runs(program))
        status = os.stat_result((0o710, 0, 0, 1, 5, 6, 0, 0, 0, 0))
        may = [Account("", user, group).may(status, 1) for user, group in ((5, 0), (0, 6), (0, 0))]
        self.assertEqual(may, [True, True, False])


class Worlds(unittest.TestCase):
    def test_none_of_its_own(self) -> None:
        world = World(None)
        here = os.stat(NAMESPACE).st_ino
        self.assertEqual(world.do(lambda: os.stat(NAMESPACE).st_ino), here)
        self.assertEqual(world.sockets_of(7), Path("/proc/net/udp"))
        self.assertEqual(world.words(Path("/r"), "route", "x")[-3:], ["/r", "route", "x"])

    def test_a_refusal_says_what_to_do(self) -> None:
        account = Account("other", FIRST_NUMBER, FIRST_NUMBER)
        for number, words in (
            (errno.EPERM, "root, or the capability CAP_SYS_ADMIN, is needed"),
            (errno.ENOSPC, "user.max_net_namespaces"),
            (errno.EINVAL, "the kernel may have none"),
        ):
            why = OSError(number, os.strerror(number))
            with mock.patch("leafrunt_host.isolation.libc_call", side_effect=why):
                with self.assertRaises(CannotIsolate) as raised:
                    World(account)
            self.assertIn(words, str(raised.exception))
            self.assertIn("`isolated = false`", str(raised.exception))

    def test_no_way_in(self) -> None:
        """Its sockets aren't reached from here, and this thread stays where it is."""
        here = os.stat(NAMESPACE).st_ino
        world = isolated(self)
        self.assertNotEqual(world.do(lambda: os.stat(NAMESPACE).st_ino), here)
        self.assertEqual(os.stat(NAMESPACE).st_ino, here)

        def bound() -> socket.socket:
            one = socket.socket(socket.AF_INET, socket.SOCK_DGRAM)
            one.bind(("127.0.0.1", 0))
            return one

        with world.do(bound) as one, world.do(bound) as other, bound() as outside:
            one.settimeout(0.2)
            outside.sendto(b"outside", one.getsockname())
            self.assertRaises(TimeoutError, one.recv, 10)
            other.sendto(b"inside", one.getsockname())
            self.assertEqual(one.recv(10), b"inside")

    def test_ambient_capabilities_end_there(self) -> None:
        """Those of a `leafrunt` that isn't root would go on to each of its children."""
        world = isolated(self)

        def kept() -> str:
            libc_call("prctl", PR_CAP_AMBIENT, PR_CAP_AMBIENT_IS_SET, CAP_NET_RAW, 0, 0)
            return Path("/proc/thread-self/status").read_text()

        self.assertIn("CapAmb:\t0000000000000000", world.do(kept))
        calls = mock.Mock()
        with mock.patch("leafrunt_host.isolation.libc_call", calls):
            with mock.patch("leafrunt_host.isolation.fcntl.ioctl"):
                enter_namespace()
        self.assertIn(mock.call("prctl", PR_CAP_AMBIENT, 4, 0, 0, 0), calls.mock_calls)

    def test_whom_it_runs_as(self) -> None:
        """A program that prints what it is: no groups, bounded memory and files."""
        world = isolated(self)
        account = world.account
        assert account
        said = self.said_by(PRINTS, world)
        user, group = account.user, account.group
        for line in (
            f"({user}, {user}, {user}) ({group}, {group}, {group}) []",
            f"AS {ADDRESS_SPACE}",
            "CapPrm:\t0000000000000000",
            "CapEff:\t0000000000000000",
            "CapAmb:\t0000000000000000",
            "NoNewPrivs:\t1",
            "FSIZE 0",
            "CORE 0",
            "the configuration",
            "MALLOC_ARENA_MAX=1",
            "MALLOC_MMAP_THRESHOLD_=2097152",
            "MALLOC_TRIM_THRESHOLD_=4194304",
        ):
            self.assertIn(line, said)

    def said_by(self, text: str, world: World) -> list[str]:
        """What a program prints in the place of `routerd`."""
        with tempfile.TemporaryDirectory() as folder:
            room = Room("one", Path(folder, "run"), Path(folder, "state"))
            room.enter()
            os.chmod(folder, 0o755)
            with socket.socket(socket.AF_UNIX) as anybodys:
                anybodys.bind(f"{folder}/socket")
                anybodys.listen()
                os.chmod(f"{folder}/socket", 0o777)
                program = Path(folder, "routerd")
                program.write_text(text.replace("SOCKET", f"{folder}/socket"))
                program.chmod(0o755)
                room.lend("routerd.conf", b"the configuration\n")
                said: list[str] = []
                with self.assertLogs("leafrunt.router"):
                    router = Router(program, room.configuration, said.append, world)
                    status = Path(f"/proc/{router.pid}/status").read_text().splitlines()
                    ended = router.quit()
            room.leave()
        self.assertEqual(ended.status, 0, said)
        return [each.strip() for each in said + status]

    def test_what_it_reaches(self) -> None:
        """Of another process of the same user, files, sockets and calls: nothing but its own file
        and threads."""
        world = isolated(self)
        account = world.account
        assert account
        words = ["/bin/sleep", "60"]
        with subprocess.Popen(words, user=account.user, group=account.group) as other:
            try:
                said = self.said_by(ATTEMPTS.replace("OTHER", str(other.pid)), world)
            finally:
                other.kill()
        done = [each.removesuffix(" done") for each in said if each.endswith(" done")]
        refused = [each for each in said if each.endswith(" refused")]
        self.assertEqual((done, len(refused)), (["own file", "thread"], 14), said)


class Lending(unittest.TestCase):
    def setUp(self) -> None:
        folder = tempfile.TemporaryDirectory()
        self.addCleanup(folder.cleanup)
        self.folder = Path(folder.name)
        self.room = Room("one", self.folder / "run", self.folder / "state")
        self.room.enter()
        self.addCleanup(self.room.leave)

    def test_a_file(self) -> None:
        """Whoever can pass the folder above can read it, which is `routerd` alone."""
        before = os.umask(0o077)
        try:
            path = self.room.lend("routerd.conf", b"router 1.1.1.1\n")
        finally:
            os.umask(before)
        self.assertEqual(path, self.room.configuration)
        modes = [stat.S_IMODE(each.stat().st_mode) for each in (path, path.parent, self.room.run)]
        self.assertEqual(modes, [0o644, 0o755, 0o700])
        self.room.leave()
        self.assertFalse(self.room.lent.exists())

    def test_an_object(self) -> None:
        closed = self.folder / "closed"
        closed.mkdir(0o700)
        path = closed / "veto.o"
        path.write_bytes(b"BPFH")
        path.chmod(0o600)
        with self.room.lent_object(str(path)) as name:
            self.assertEqual((self.room.lent / name).read_bytes(), b"BPFH")
        self.assertFalse((self.room.lent / name).exists())

    def test_what_is_no_object(self) -> None:
        """It has its own name: `routerd` says what is wrong."""
        os.mkfifo(self.folder / "pipe")
        (self.folder / "empty").write_bytes(b"")
        (self.folder / "two words").write_bytes(b"BPFH")
        for path in ("", "none", "pipe", "empty", ".", "two words"):
            given = str(self.folder / path) if path else ""
            with self.room.lent_object(given) as name:
                self.assertEqual(name, given)


if __name__ == "__main__":
    unittest.main()
