"""A test network: network namespaces, links between them, and the programs that run there: boxes
of Leafrunt, BIRD and FRR. All of it is removed by `Network.close`, whatever happened before.

Nothing here touches the network of the host itself, or its routing daemons.
"""
from __future__ import annotations

import contextlib
import os
import re
import shutil
import signal
import subprocess
import sys
import tempfile
import time
from collections.abc import Callable, Iterable, Iterator
from contextlib import closing
from dataclasses import dataclass, field
from datetime import datetime
from ipaddress import IPv4Address, IPv4Interface
from pathlib import Path
from typing import ClassVar

from leafrunt_host.client import Client
from leafrunt_host.kernel import Json
from leafrunt_host.listing import box_status
from leafrunt_host.statuses import Stopped

HOST = Path(__file__).resolve().parent.parent
FRR_DAEMONS = Path("/usr/lib/frr")
PREFIX = "lfnet"
UNITS_PROGRAM = "/usr/local/lib/leafrunt"
"""Where the unit of systemd has this folder."""
HELLO_INTERVAL, DEAD_INTERVAL, RETRANSMIT_INTERVAL = 2, 8, 2
TOTAL_SECONDS = 60
COMES_UP = 40
"""Seconds within which a router comes to Full here: two router-LSAs are five seconds apart."""


@dataclass
class Timers:
    """HelloInterval and RouterDeadInterval, where nobody names others."""

    hello: int = HELLO_INTERVAL
    dead: int = DEAD_INTERVAL

    @property
    def comes_up(self) -> int:
        """Seconds within which a router comes to Full."""
        return COMES_UP + 3 * (self.hello - HELLO_INTERVAL)

    @contextlib.contextmanager
    def at(self, hello: int) -> Iterator[None]:
        """Others for a while: this HelloInterval, and a RouterDeadInterval of four of them."""
        before = self.hello, self.dead
        self.hello, self.dead = hello, 4 * hello
        try:
            yield
        finally:
            self.hello, self.dead = before


TIMERS = Timers()
"""What a part of `try-network` is played with."""


class CannotTry(Exception):
    """What a try needs isn't there; the text is a sentence."""


def within(seconds: float, succeeds: Callable[[], object], each: float = 0.2) -> float | None:
    """After how many seconds it succeeded; None where it didn't within that time. A look counts
    that began in time: what it takes itself, such as a command on a busy machine, isn't late."""
    start = time.monotonic()
    while time.monotonic() - start <= seconds:
        if succeeds():
            return time.monotonic() - start
        time.sleep(each)
    return None


def run(*words: object, lines: str | None = None, seconds: float = TOTAL_SECONDS) -> str:
    """What a command prints on standard output. `CannotTry` where it fails."""
    said = [str(each) for each in words]
    try:
        ran = subprocess.run(
            said, input=lines, capture_output=True, text=True, timeout=seconds, check=False
        )
    except subprocess.TimeoutExpired as error:
        raise CannotTry(f"{' '.join(said)}: no end within {seconds:g} s") from error
    if ran.returncode:
        words_said = " ".join((ran.stdout + ran.stderr).split())[-400:]
        raise CannotTry(f"{' '.join(said)}: status {ran.returncode}: {words_said}")
    return ran.stdout


def output(*words: object, seconds: float = TOTAL_SECONDS) -> str:
    """What a command prints, also where it fails."""
    said = [str(each) for each in words]
    with contextlib.suppress(subprocess.TimeoutExpired):
        ran = subprocess.run(said, capture_output=True, text=True, timeout=seconds, check=False)
        return ran.stdout
    return ""


@dataclass(frozen=True)
class End:
    """An interface in a namespace, with its address, as `ip address add` takes it."""

    namespace: str
    interface: str
    address: str

    @property
    def ip(self) -> IPv4Address:
        return IPv4Interface(self.address.split()[0]).ip


@dataclass(frozen=True)
class Secret:
    """An authentication key at both ends, in BIRD's words."""

    id: int
    algorithm: str
    secret: str
    begins: datetime | None = None
    ends: datetime | None = None

    def of_bird(self) -> str:
        """As BIRD's configuration has it: its clock is the local time."""
        said = f"id {self.id}; algorithm {self.algorithm};"
        for verb, moment in (("from", self.begins), ("to", self.ends)):
            if moment:
                text = moment.astimezone().strftime("%Y-%m-%d %H:%M:%S")
                said += f' generate {verb} "{text}";'
        return f'password "{self.secret}" {{ {said} }};'

    def of_box(self, name: str) -> str:
        """As a box's file of keys has it."""
        said = (
            f'[{name}]\nid = {self.id}\nalgorithm = "{self.algorithm}"\nsecret = "{self.secret}"\n'
        )
        for verb, moment in (("from", self.begins), ("to", self.ends)):
            if moment:
                said += f"generate_{verb} = {moment.isoformat(timespec='seconds')}\n"
        return said


@dataclass(frozen=True)
class Bfd:
    """BFD at an interface: the intervals in milliseconds, and a key, where it has one."""

    interval: int = 300
    multiplier: int = 3
    key: Secret | None = None

    def of_bird(self, name: str) -> str:
        """As BIRD's `protocol bfd` has it."""
        said = f"min rx interval {self.interval} ms; min tx interval {self.interval} ms;"
        said += f" multiplier {self.multiplier};"
        if self.key:
            password = f'password "{self.key.secret}" {{ id {self.key.id}; }};'
            said += f" authentication {self.key.algorithm}; {password}"
        return f'interface "{name}" {{ {said} }};'


@dataclass(frozen=True)
class Side:
    """A router's interface: its name, and what is said of it there."""

    name: str
    keys: tuple[Secret, ...] = ()
    hello: int = field(default_factory=lambda: TIMERS.hello)
    dead: int = field(default_factory=lambda: TIMERS.dead)
    is_passive: bool | None = None
    """None says nothing of it, where that differs."""
    cost: int = 10
    bfd: Bfd | None = None
    retransmit: int = RETRANSMIT_INTERVAL


SHA = Secret(5, "hmac sha256", "a secret for BIRD")
MD5 = Secret(1, "keyed md5", "secret-for-FRR")
NOT_FULL = (None, "Init", "Down", "ExStart", "Exchange", "2-Way")


class Network:
    """Namespaces, links and programs, ended and removed by `close`."""

    made: ClassVar[list[Network]] = []
    """Those that aren't closed yet: whoever is ended while he makes one can't close it."""

    def __init__(self) -> None:
        remove_stale()
        self._namespaces: list[str] = []
        self._running: list[subprocess.Popen[str]] = []
        self._pairs: list[str] = []
        self._bridges = 0
        self._wires: subprocess.Popen[str] | None = None
        self.work = Path(tempfile.mkdtemp(prefix=f"{PREFIX}-{os.getpid()}-"))
        self.made.append(self)
        self.work.chmod(0o711)

    def name(self, short: str) -> str:
        return f"{PREFIX}-{os.getpid()}-{short}"

    def namespace(self, short: str, forwards: bool = True) -> str:
        """A new namespace, its loopback interface up, without IPv6."""
        name = self.name(short)
        self._namespaces.append(name)
        run("ip", "netns", "add", name)
        run("ip", "-n", name, "link", "set", "lo", "up")
        run("ip", "netns", "exec", name, "sysctl", "-qw", f"net.ipv4.ip_forward={int(forwards)}")
        with contextlib.suppress(CannotTry):
            run("ip", "netns", "exec", name, "sysctl", "-qw", "net.ipv6.conf.all.disable_ipv6=1")
        return name

    def link(self, one: End, other: End, mtu: int = 1500) -> None:
        """A direct link between two namespaces."""
        run(
            *("ip", "link", "add", one.interface, "netns", one.namespace, "mtu", mtu, "type"),
            *("veth", "peer", "name", other.interface, "netns", other.namespace, "mtu", mtu),
        )
        for end in (one, other):
            self._up(end)

    def _up(self, end: End) -> None:
        words = end.address.split()
        run("ip", "-n", end.namespace, "addr", "add", *words, "dev", end.interface)
        run("ip", "-n", end.namespace, "link", "set", end.interface, "up")

    def wired(self, one: End, other: End, mtu: int = 1500) -> int:
        """A link by way of `wire.py`, in a namespace of its own, which may lose what passes; its
        number. `start_wires` comes when all are made."""
        if not self._pairs:
            self.namespace("wires", forwards=False)
        number = len(self._pairs) + 1
        ends = (f"w{number}a", f"w{number}b")
        for end, wire in zip((one, other), ends):
            run(
                *("ip", "link", "add", end.interface, "netns", end.namespace, "mtu", mtu, "type"),
                *("veth", "peer", "name", wire, "netns", self.name("wires"), "mtu", mtu),
            )
            self._up(end)
            run("ip", "-n", self.name("wires"), "link", "set", wire, "up")
        self._pairs.append(":".join(ends))
        return number

    def bridged(self, one: End, other: End) -> int:
        """A link by way of a kernel's bridge, which `silence` may stop without a loss of carrier; its
        number."""
        if not self._pairs and not self._bridges:
            self.namespace("wires", forwards=False)
        self._bridges += 1
        wires = self.name("wires")
        run("ip", "-n", wires, "link", "add", f"br{self._bridges}", "type", "bridge")
        run("ip", "-n", wires, "link", "set", f"br{self._bridges}", "up")
        for end, wire in zip((one, other), (f"b{self._bridges}a", f"b{self._bridges}b")):
            run(
                *("ip", "link", "add", end.interface, "netns", end.namespace, "type"),
                *("veth", "peer", "name", wire, "netns", wires),
            )
            self._up(end)
            run("ip", "-n", wires, "link", "set", wire, "master", f"br{self._bridges}", "up")
        return self._bridges

    def join(self, number: int, end: End) -> None:
        """One more interface at that bridge."""
        wires, wire = self.name("wires"), f"b{number}{end.interface}"
        run(
            *("ip", "link", "add", end.interface, "netns", end.namespace, "type"),
            *("veth", "peer", "name", wire, "netns", wires),
        )
        self._up(end)
        run("ip", "-n", wires, "link", "set", wire, "master", f"br{number}", "up")

    def silence(self, number: int, is_silent: bool = True) -> None:
        """Nothing passes that bridge, and both ends keep their carrier; or it passes again."""
        words = ("nomaster",) if is_silent else ("master", f"br{number}")
        run("ip", "-n", self.name("wires"), "link", "set", f"b{number}b", *words)

    def deafen(self, number: int, end: int, is_deaf: bool = True) -> None:
        """Nothing comes to the first end of that bridge, 0, or to the other, 1, which still is
        heard; or all comes again."""
        wires, port = self.name("wires"), f"b{number}{'ab'[end]}"
        said = "off" if is_deaf else "on"
        names = ("flood", "mcast_flood", "bcast_flood", "learning")
        words = [each for name in names for each in (name, said)]
        run("ip", "netns", "exec", wires, "bridge", "link", "set", "dev", port, *words)
        run("ip", "-n", wires, "link", "set", port, "type", "bridge_slave", "fdb_flush")

    def start_wires(self) -> None:
        words = [sys.executable, str(HOST / "tests" / "wire.py"), *self._pairs]
        self._wires = self.start(
            self.name("wires"), words, self.work / "wires.log", stdin=-1, stdout=-1
        )
        self._answer()

    def wire(self, *words: object) -> str:
        """Gives the wires a line, and their answer."""
        if self._wires is None or self._wires.stdin is None:
            raise CannotTry("no wires were started")
        self._wires.stdin.write(" ".join(str(each) for each in words) + "\n")
        self._wires.stdin.flush()
        return self._answer()

    def _answer(self) -> str:
        if self._wires is None or self._wires.stdout is None:
            raise CannotTry("no wires were started")
        line = self._wires.stdout.readline()
        if not line:
            raise CannotTry("the wires have ended")
        return line.strip()

    def carrier(self, number: int, is_up: bool) -> None:
        """Takes the carrier of both ends of a wire away, or gives it back."""
        for end in self._pairs[number - 1].split(":"):
            run("ip", "-n", self.name("wires"), "link", "set", end, "up" if is_up else "down")

    def start(
        self,
        namespace: str,
        words: list[str],
        log: Path,
        stdin: int = subprocess.DEVNULL,
        stdout: int | None = None,
    ) -> subprocess.Popen[str]:
        """A program in a namespace, in a session of its own, so that a Ctrl-C comes here alone."""
        with open(log, "a", encoding="utf-8") as it:
            started = subprocess.Popen(
                ["ip", "netns", "exec", namespace, *words],
                stdin=stdin,
                stdout=it if stdout is None else stdout,
                stderr=it,
                text=True,
                bufsize=1,
                start_new_session=True,
            )
        self._running.append(started)
        return started

    def stop(
        self, one: subprocess.Popen[str], by: int = signal.SIGTERM, seconds: float = 20
    ) -> int:
        """Ends a program; its status. One that doesn't end is killed."""
        if one.poll() is None:
            one.send_signal(by)
        try:
            status = one.wait(seconds)
        except subprocess.TimeoutExpired:
            one.kill()
            status = one.wait()
        for pipe in (one.stdin, one.stdout):
            if pipe:
                with contextlib.suppress(OSError):
                    pipe.close()
        if one in self._running:
            self._running.remove(one)
        return status

    def left_behind(self) -> list[str]:
        """Processes that are still in a namespace, or were started in a folder of this network."""
        found = []
        inside = {each for name in self._namespaces for each in pids_in(name)}
        for process in sorted(inside | set(started_below(self.work))):
            command = Path("/proc", process, "cmdline")
            with contextlib.suppress(OSError):
                found.append(command.read_bytes().replace(b"\0", b" ").decode(errors="replace"))
        return found

    def close(self) -> list[str]:
        """Ends all programs, removes all namespaces and files; what was still running after
        that."""
        for one in reversed(self._running[:]):
            self.stop(one)
        time.sleep(0.2)
        left = self.left_behind()
        for name in self._namespaces:
            kill_all_in(name)
            output("ip", "netns", "del", name)
        shutil.rmtree(self.work, ignore_errors=True)
        self._namespaces.clear()
        if self in self.made:
            self.made.remove(self)
        return left


def pids_in(namespace: str) -> list[str]:
    """The processes in a namespace."""
    return output("ip", "netns", "pids", namespace).split()


def started_below(folder: Path) -> list[str]:
    """The processes whose own folder is one below this: each `routerd` is in that of its box, and
    in a network namespace without a name."""
    found = []
    for process in Path("/proc").iterdir():
        with contextlib.suppress(OSError):
            if process.name.isdigit() and (process / "cwd").resolve().is_relative_to(folder):
                found.append(process.name)
    return found


def kill_all_in(namespace: str) -> None:
    """Kills what runs in a namespace of this network."""
    for process in pids_in(namespace):
        with contextlib.suppress(OSError, ValueError):
            os.kill(int(process), signal.SIGKILL)


def family(started: subprocess.Popen[str] | None) -> list[str]:
    """A process that was started here, and its children (proc(5), the file `children`)."""
    if started is None:
        return []
    tasks = Path("/proc", str(started.pid), "task").glob("*/children")
    return [str(started.pid), *(child for each in tasks for child in each.read_text().split())]


class Waiting:
    """How long programs wait for a processor from now on (proc(5), the file `schedstat`): a busy
    machine's part of what they take. Of each program that thread counts which waited longest, as
    its threads wait side by side; where one program needs the other, both wait."""

    def __init__(self, programs: Iterable[str], places: Path = Path("/proc")) -> None:
        self._programs, self._places = list(programs), places
        self._before = {each: self._of(each) for each in self._programs}

    def _of(self, program: str) -> dict[str, int]:
        """The nanoseconds of each of its threads."""
        found = {}
        for task in self._places.glob(f"{program}/task/*"):
            with contextlib.suppress(OSError):
                found[task.name] = int((task / "schedstat").read_text().split()[1])
        return found

    def seconds(self) -> float:
        total = 0
        for each, before in self._before.items():
            now = self._of(each).items()
            total += max((there - before.get(task, 0) for task, there in now), default=0)
        return total / 1e9


def within_own(
    seconds: float, succeeds: Callable[[], object], programs: Iterable[str], each: float = 0.2
) -> tuple[bool, str]:
    """Whether it succeeds within that time, without what these programs waited for a processor
    meanwhile; and after how long it did."""
    waiting = Waiting(programs)
    took = within(3 * seconds, succeeds, each)
    kept = waiting.seconds()
    said = f"not within {3 * seconds:g} s" if took is None else f"after {took:.2f} s"
    said += f", of which they waited {kept:.2f} s for a processor" if kept >= 1 else ""
    return took is not None and took - kept <= seconds, said


def remove_stale() -> None:
    """Removes what an earlier try left that was killed: namespaces, their programs, and
    folders, whose names have its number."""
    for line in output("ip", "netns", "list").splitlines():
        if is_stale(line):
            name = line.split()[0]
            kill_all_in(name)
            output("ip", "netns", "del", name)
    for folder in Path(tempfile.gettempdir()).glob(f"{PREFIX}-*"):
        if is_stale(folder.name):
            shutil.rmtree(folder, ignore_errors=True)


def is_stale(name: str) -> bool:
    """Whether a name has the number of a try that doesn't run any more."""
    found = re.match(rf"{PREFIX}-(\d+)-", name)
    return found is not None and not Path("/proc", found[1]).exists()


@dataclass(frozen=True, order=True)
class Lsa:
    """An LSA as a database lists it."""

    type: int
    id: str
    router: str
    sequence: str


LSA_TITLES = {"router": 1, "network": 2, "summary": 3, "asbr-summary": 4, "external": 5}


def states_in(table: str) -> dict[str, str]:
    """Of BIRD's or FRR's table of neighbors: their states by Router ID."""
    lines = (line.split() for line in table.splitlines())
    return {
        words[0]: words[2].split("/")[0] for words in lines if len(words) > 4 and "/" in words[2]
    }


class Bird:
    """BIRD in a namespace."""

    def __init__(
        self, network: Network, namespace: str, router_id: str, sides: Iterable[Side]
    ) -> None:
        self.network, self.namespace, self.router_id = network, namespace, router_id
        self.sides = list(sides)
        self.externals: list[str] = []
        self.stub_networks: list[str] = []
        self.area, self.imported = "area 0", "all"
        self.table = ""
        """The number of another table of the kernel than the main one."""
        self.folder = network.work / "bird"
        self.folder.mkdir(exist_ok=True)
        self._ran: subprocess.Popen[str] | None = None

    def _interface(self, side: Side) -> str:
        if side.is_passive:
            return f'interface "{side.name}" {{ stub; }};'
        said = f"hello {side.hello}; dead {side.dead}; retransmit {side.retransmit};"
        said += f" cost {side.cost};"
        if side.keys:
            keys = " ".join(key.of_bird() for key in side.keys)
            said += f" authentication cryptographic; {keys}"
        said += " bfd yes;" if side.bfd else ""
        return f'interface "{side.name}" {{ type pointopoint; {said} }};'

    def configure(self) -> str:
        """Writes its configuration anew; BIRD reads it again where it runs, and says what of it."""
        self.write()
        return self.says("configure") if self._ran else ""

    def send_signal(self, number: int) -> None:
        if self._ran:
            self._ran.send_signal(number)

    def write(self) -> None:
        """Writes its configuration alone."""
        stubs = " ".join(f"stubnet {each};" for each in self.stub_networks)
        interfaces = "\n".join(self._interface(side) for side in self.sides)
        routes = "\n".join(f"route {each} blackhole;" for each in self.externals)
        bfd = " ".join(side.bfd.of_bird(side.name) for side in self.sides if side.bfd)
        table = f"kernel table {self.table};" if self.table else ""
        (self.folder / "conf").write_text(
            f"protocol bfd {{ {bfd} }}\n"
            f'log "{self.folder}/log" all; router id {self.router_id}; protocol device {{ scan time 1; }}\n'
            f"protocol kernel {{ {table} ipv4 {{ export where source != RTS_STATIC; import none; }}; }}\n"
            f"protocol static {{ ipv4; {routes} }}\n"
            f"protocol ospf v2 {{ ipv4 {{ import {self.imported}; export where source = RTS_STATIC; }};\n"
            f"{self.area} {{ {stubs} {interfaces} }}; }}\n"
        )

    def start(self) -> None:
        self.configure()
        words = ["bird", "-f", "-c", f"{self.folder}/conf", "-s", f"{self.folder}/ctl"]
        words += ["-P", f"{self.folder}/pid"]
        self._ran = self.network.start(self.namespace, words, self.folder / "out")

    def stop(self, by: int = signal.SIGTERM) -> None:
        if self._ran:
            self.network.stop(self._ran, by)
        self._ran = None

    def programs(self) -> list[str]:
        """The processes that do its work."""
        return family(self._ran)

    def says(self, *words: str) -> str:
        return output("birdc", "-s", f"{self.folder}/ctl", *words)

    def neighbors(self) -> dict[str, str]:
        """The states of its neighbors by Router ID."""
        return states_in(self.says("show", "ospf", "neighbors"))

    def database(self) -> set[Lsa]:
        """The LSAs of `show ospf lsadb`, those of age 3600 apart."""
        found = set()
        for line in self.says("show", "ospf", "lsadb").splitlines():
            words = line.split()
            if len(words) == 6 and words[0].isdigit() and int(words[4]) < 3600:
                found.add(Lsa(int(words[0], 16), words[1], words[2], words[3].lower()))
        return found


class Frr:
    """FRR's zebra and ospfd in a namespace, with a /run/frr of their own."""

    def __init__(
        self, network: Network, namespace: str, router_id: str, sides: Iterable[Side]
    ) -> None:
        self.network, self.namespace, self.router_id = network, namespace, router_id
        self.sides = list(sides)
        self.externals: list[str] = []
        self.more: list[str] = []
        """More lines of `router ospf`."""
        self.gateway = ""
        """The next hop of its externals, in a network behind it."""
        self.folder = network.work / "frr"
        self._ran: list[subprocess.Popen[str]] = []

    def _interface(self, side: Side) -> list[str]:
        lines = [f"interface {side.name}", "ip ospf area 0", f"ip ospf cost {side.cost}"]
        if side.is_passive:
            return [*lines, "ip ospf passive", "exit"]
        lines += ["ip ospf network point-to-point", f"ip ospf hello-interval {side.hello}"]
        lines += [f"ip ospf dead-interval {side.dead}"]
        lines += [f"ip ospf retransmit-interval {max(side.retransmit, 3)}"]
        if side.keys:
            lines.append("ip ospf authentication message-digest")
            lines += [
                f"ip ospf message-digest-key {each.id} md5 {each.secret}" for each in side.keys
            ]
        lines += ["ip ospf bfd"] if side.bfd else []
        return [*lines, "exit"]

    def start(self) -> None:
        routes = [f"route add {each} via {self.gateway}" for each in self.externals]
        if routes:
            run("ip", "-n", self.namespace, "-batch", "-", lines="\n".join(routes) + "\n")
        lines = [line for side in self.sides for line in self._interface(side)]
        lines += ["router ospf", f"ospf router-id {self.router_id}", "redistribute kernel"]
        lines += [*self.more, "exit"]
        self.folder.mkdir(exist_ok=True)
        (self.folder / "conf").write_text("\n".join(lines) + "\n")
        shutil.chown(self.folder, "frr", "frr")
        has_bfd = any(side.bfd for side in self.sides)
        for daemon in ("zebra", *(("bfdd",) if has_bfd else ()), "ospfd"):
            self._start(daemon)
            within(10, (self.folder / f"{daemon}.vty").exists)

    def _start(self, daemon: str) -> None:
        script = 'mount --bind "$1" /run/frr; exec "$2" -f "$3" -P 0 --log "file:$1/$4.log"'
        words = ["unshare", "-m", "bash", "-c", script, "-", str(self.folder)]
        words += [str(FRR_DAEMONS / daemon), str(self.folder / "conf"), daemon]
        self._ran.append(self.network.start(self.namespace, words, self.folder / "out"))

    def stop(self, by: int = signal.SIGTERM) -> None:
        for each in reversed(self._ran):
            self.network.stop(each, by)
        self._ran.clear()

    def programs(self) -> list[str]:
        """The processes that do its work."""
        return [each for ran in self._ran for each in family(ran)]

    def says(self, line: str) -> str:
        return output("vtysh", "--vty_socket", str(self.folder), "-c", line)

    def neighbors(self) -> dict[str, str]:
        """The states of its neighbors by Router ID."""
        return states_in(self.says("show ip ospf neighbor"))

    def database(self) -> set[Lsa]:
        """The LSAs of `show ip ospf database`, those of age 3600 apart."""
        found, kind = set(), 0
        for line in self.says("show ip ospf database").splitlines():
            if line.strip().startswith("Router Link States"):
                kind = 1
            elif line.strip().startswith("AS External Link States"):
                kind = 5
            # the first column has 15 characters, and nothing separates a longest ID from the next
            words = [line[:15].strip(), *line[15:].split()]
            if len(words) >= 5 and words[3].startswith("0x") and words[2].isdigit():
                if int(words[2]) < 3600:
                    found.add(Lsa(kind, words[0], words[1], words[3][2:]))
        return found


@dataclass(frozen=True)
class Announce:
    """A destination that a box announces."""

    prefix: str
    metric: int = 20
    type: int = 2
    tag: int = 0


class Box:
    """A Leafrunt box: `leafrunt up` in a namespace."""

    def __init__(
        self,
        network: Network,
        routerd: Path,
        namespace: str,
        name: str,
        router_id: str,
        sides: Iterable[Side],
    ) -> None:
        self.network, self.routerd, self.namespace = network, routerd, namespace
        self.name, self.router_id, self.sides = name, router_id, list(sides)
        self.announced: list[Announce] = []
        self.more = self.top = ""
        """More of its configuration: tables, and what stands above them."""
        self.folder = network.work / f"box-{name}"
        self.folder.mkdir(mode=0o700)
        self.log = self.folder / "log"
        self.process: subprocess.Popen[str] | None = None

    def configure(self) -> None:
        """Writes its TOML file, and its keys'."""
        keys = {key: f"key-{key.id}-{number}" for number, key in enumerate(self._secrets())}
        lines = [f'router_id = "{self.router_id}"', f'routerd = "{self.routerd}"', self.top]
        if keys:
            lines.append('keys = "keys.toml"')
        for side in self.sides:
            lines += ["", "[[interface]]", f'name = "{side.name}"']
            lines += [f"hello_interval = {side.hello}", f"dead_interval = {side.dead}"]
            lines += [f"retransmit_interval = {side.retransmit}", f"cost = {side.cost}"]
            if side.is_passive is not None:
                lines.append(f"passive = {str(side.is_passive).lower()}")
            if side.keys:
                lines.append(f"keys = {[keys[key] for key in side.keys]}".replace("'", '"'))
            if side.bfd:
                lines += ["[interface.bfd]", f"transmit_interval = {side.bfd.interval}"]
                lines += [f"receive_interval = {side.bfd.interval}"]
                lines += [f"detect_multiplier = {side.bfd.multiplier}"]
                lines += [f'keys = ["{keys[side.bfd.key]}"]'] if side.bfd.key else []
        for each in self.announced:
            lines += ["", "[[announce]]", f'prefix = "{each.prefix}"', f"metric = {each.metric}"]
            lines += [f"type = {each.type}", f"tag = {each.tag}"]
        text = "\n".join([*lines, self.more]) + "\n"
        (self.folder / f"{self.name}.toml").write_text(text)
        secrets = [key.of_box(name) for key, name in keys.items()]
        path = self.folder / "keys.toml"
        path.touch(mode=0o600)
        path.write_text("\n".join(secrets))

    def _secrets(self) -> list[Secret]:
        bfd = [side.bfd.key for side in self.sides if side.bfd and side.bfd.key]
        return list(dict.fromkeys([*(key for side in self.sides for key in side.keys), *bfd]))

    def start(self) -> None:
        self.configure()
        words = [
            sys.executable,
            str(HOST / "leafrunt"),
            "up",
            str(self.folder / f"{self.name}.toml"),
        ]
        words += ["--run-directory", str(self.network.work / "run")]
        words += ["--state-directory", str(self.network.work / "state")]
        self.process = self.network.start(self.namespace, words, self.log)

    def stop(self, by: int = signal.SIGTERM) -> int:
        """Ends it; its status."""
        status = self.network.stop(self.process, by) if self.process else 0
        self.process = None
        return status

    def runs(self) -> bool:
        """Whether anything of it runs: `leafrunt` or `routerd`."""
        folder = self.network.work / "run" / self.name
        return bool(pids_in(self.namespace) or started_below(folder))

    def programs(self) -> list[str]:
        """The processes that do its work: `leafrunt`, and what it started."""
        return family(self.process)

    def send_signal(self, number: int) -> None:
        if self.process:
            self.process.send_signal(number)

    def after_its_end(self) -> None:
        """What systemd runs once its unit has ended, however that came (`ExecStopPost`)."""
        folders = ["--run-directory", str(self.network.work / "run")]
        for line in (HOST / "leafrunt@.service").read_text().splitlines():
            name, _, said = line.partition("=-")
            if name == "ExecStopPost":
                words = said.replace("%i", self.name).replace(UNITS_PROGRAM, str(HOST)).split()
                output("ip", "netns", "exec", self.namespace, *words, *folders)

    def wait(self, seconds: float = 30) -> int | None:
        """Its status, once it ended by itself; None where it doesn't within that time."""
        process = self.process
        if process is None:
            return None
        try:
            process.wait(seconds)
        except subprocess.TimeoutExpired:
            return None
        return self.stop()

    def command(self, *words: str, lines: str | None = None) -> str:
        """What `leafrunt WORDS` prints."""
        return self.answers(*words, lines=lines)[1]

    def answers(self, *words: str, lines: str | None = None) -> tuple[int, str, str]:
        """The status of `leafrunt WORDS`, what it prints, and what it prints as errors."""
        said = [sys.executable, str(HOST / "leafrunt"), *words, "--box", self.name]
        said += ["--run-directory", str(self.network.work / "run")]
        try:
            ran = subprocess.run(
                said,
                input=lines,
                capture_output=True,
                text=True,
                timeout=TOTAL_SECONDS,
                check=False,
            )
        except subprocess.TimeoutExpired:
            return -1, "", ""
        return ran.returncode, ran.stdout, ran.stderr

    def ask(self, line: str) -> list[str]:
        """The console's answer to a line."""
        return self.command("console", lines=line + "\n").splitlines()

    def says(self, line: str) -> list[str]:
        """The same, asked for by this process: what is looked at again and again would cost a fifth
        of a second of processor each time by a `leafrunt` of its own, and keep the box from its
        work."""
        try:
            client = Client(self.network.work / "run", self.name)
            with closing(client):
                return client.ask(line, seconds=TOTAL_SECONDS)
        except Stopped:
            return []

    def reported(self) -> Json:
        """Its status as `leafrunt status --json` has it; without interfaces where it doesn't
        answer."""
        try:
            client = Client(self.network.work / "run", self.name)
            with closing(client):
                return box_status(client)
        except Stopped:
            return {"interfaces": []}

    def neighbors(self) -> dict[str, str]:
        """The states of its neighbors by Router ID."""
        lines = (line.split() for line in self.says("neighbors"))
        return {
            words[2]: words[3] for words in lines if len(words) == 4 and words[0] == "neighbor"
        }

    def status(self) -> str:
        return self.command("status")

    def log_lines(self) -> list[str]:
        return self.log.read_text(errors="replace").splitlines()

    def database(self) -> set[Lsa]:
        """The LSAs of `leafrunt database`."""
        found = set()
        for line in self.says("database"):
            words = line.split()
            kind = LSA_TITLES.get(words[0]) if words else None
            if kind and len(words) == 6:
                found.add(Lsa(kind, words[1], words[2], words[3]))
        return found

    def kernel_routes(self) -> dict[str, list[str]]:
        """The next hops of its routes in the kernel's table, by prefix."""
        found: dict[str, list[str]] = {}
        prefix = ""
        own = ("table", "main", "proto", "89", "metric", "89")
        for line in output("ip", "-n", self.namespace, "-4", "route", "show", *own).splitlines():
            words = line.split()
            prefix = prefix if words[0] == "nexthop" else words[0]
            hops = found.setdefault(prefix, [])
            hops += [words[at + 1] for at, each in enumerate(words) if each == "via"]
        return found


@dataclass
class Looks:
    """What was looked at: a line each, and how many were as they must be."""

    good: int = 0
    bad: list[str] = field(default_factory=list)

    def look(self, what: str, is_good: object, measured: str = "") -> bool:
        """Prints `yes` or `NO`, what was looked at, and what was measured."""
        print(
            f"{'yes' if is_good else 'NO '}  {what}{f': {measured}' if measured else ''}",
            flush=True,
        )
        if is_good:
            self.good += 1
        else:
            self.bad.append(what)
        return bool(is_good)

    def timed(
        self, what: str, seconds: float, succeeds: Callable[[], object], each: float = 0.2
    ) -> bool:
        """Whether it succeeds within that time, and after how long it did."""
        took = within(seconds, succeeds, each)
        measured = f"not within {seconds:g} s" if took is None else f"after {took:.1f} s"
        return self.look(what, took is not None, measured)


@dataclass
class Try:
    """What each part is given."""

    looks: Looks
    routerd: Path
    network: Network

    def anew(self, part: Callable[[], None]) -> None:
        """A part of a part in a network of its own."""
        self.network = Network()
        try:
            part()
        finally:
            self.network.close()


def prefixes(first: int, count: int) -> list[str]:
    """So many prefixes of length 24 below FIRST.0.0.0."""
    return [f"{first}.{64 + at // 256}.{at % 256}.0/24" for at in range(count)]


def is_full(router: Box | Bird | Frr, *neighbors: str) -> bool:
    states = router.neighbors()
    return all(states.get(each) == "Full" for each in neighbors)


def is_said(box: Box, *texts: str) -> bool:
    """Whether the box's status says all of that."""
    status = "\n".join(box.says("status"))
    return all(each in status for each in texts)


def line_of(box: Box, text: str) -> str:
    """The line of `leafrunt status` that says it."""
    return next((each.strip() for each in box.status().splitlines() if text in each), "not said")
