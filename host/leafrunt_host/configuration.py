"""The configuration of a box: one TOML file, and one more for its authentication keys.

Everything that can be wrong with them is found before anything is started, all of it at once, and
told with its key, what was found there and what is allowed.
"""
from __future__ import annotations

import os
import re
import stat
import subprocess
from collections.abc import Callable, Mapping
from dataclasses import dataclass, field
from hashlib import sha256
from ipaddress import IPv4Address, IPv4Interface, IPv4Network
from itertools import product
from pathlib import Path
from typing import Any

from leafrunt_host import bfd_session, bfd_settings
from leafrunt_host.authentication import MD5_KEY_LENGTH, Algorithm, Key, Lifetime
from leafrunt_host.bfd_packets import BfdKey, KeyType
from leafrunt_host.bfd_settings import AnyKey
from leafrunt_host.counter_names import counter_names
from leafrunt_host.destinations import MOST_EXTERNALS, Announcement
from leafrunt_host.interface_names import INTERFACE_NAME, is_pattern, matches
from leafrunt_host.isolation import Account, account_of
from leafrunt_host.journal import LEVELS
from leafrunt_host.kernel import KernelInterface
from leafrunt_host.kernel_settings import KernelSettings, kernel_settings_of, look_at_vrf
from leafrunt_host.meanings import hint
from leafrunt_host.redistribution import (
    MARTIANS,
    NOT_ANNOUNCED,
    Redistribution,
    redistribution_of,
    source_of,
)
from leafrunt_host.rooms import BOX_NAME, LONGEST_OBJECT
from leafrunt_host.statuses import Status, Stopped
from leafrunt_host.tables import Mistake, Table, shown, toml_of

LONGEST_FILE = 1 << 20
MOST_INTERFACES = 63
LEAST_MTU, MOST_MTU = 576, 65535
ALONE = 32
"""The length of a prefix that has one address alone."""
LONGEST_SECRET = 256
KEY_NAME = re.compile(r"[A-Za-z0-9_-]{1,64}")
HOOKS = ("count", "tag", "price", "veto")
OBJECT_HEAD = b"BPFH\x01"
ELF_HEAD = b"\x7fELF"
ACCEPTED = re.compile(r"accepted bound (\d+)")
ANNOUNCED = f"A.B.C.D/L whose bits after the first L are 0, not in {', '.join(NOT_ANNOUNCED)}"
ROUTERD = "/usr/local/bin/routerd"
SECONDS_TO_VERIFY = 60


@dataclass(frozen=True)
class InterfaceSettings:
    """An interface of the file, with its address and MTU as the kernel has them. Times are in
    seconds (RFC 2328, C.3)."""

    name: str
    address: IPv4Interface
    mtu: int
    cost: int
    hello_interval: int
    dead_interval: int
    retransmit_interval: int
    transmit_delay: int
    passive: bool
    keys: tuple[Key, ...]
    network: IPv4Network | None = None
    """What the neighbor's address is in; None on an unnumbered link, where it may be any."""
    peer: IPv4Address | None = None
    """The neighbor's address, if it's configured."""
    bfd: bfd_session.Settings | None = None


@dataclass(frozen=True)
class Program:
    """An object file, to be attached at its hook, and what it had when it was checked."""

    object: Path
    hook: str
    digest: str = ""
    bound: int = 0


@dataclass(frozen=True)
class Configuration:
    """What a box is started with: everything in it has been checked."""

    name: str
    path: Path
    router_id: IPv4Address
    routerd: Path
    kernel: bool
    interfaces: tuple[InterfaceSettings, ...]
    announcements: tuple[Announcement, ...]
    programs: tuple[Program, ...]
    advice: tuple[str, ...]
    """What isn't wrong, and yet should be known."""
    account: Account | None = None
    """Whom `routerd` runs as, in a world of its own; None: as this process, and beside it."""
    counters: Mapping[str, int] = field(default_factory=dict)
    """Names of the programs' counters, each with its number."""
    redistribution: Redistribution = Redistribution()
    log_level: str = "info"
    table: KernelSettings = KernelSettings()
    """Which table of the kernel's is kept, and how, if one is."""
    awaited: tuple[str, ...] = ()
    """Names of interfaces that aren't there yet, and patterns of names."""

    def text(self, ports: list[tuple[int, int]]) -> str:
        """The configuration of `routerd`: an interface's datagrams come to the first port of its
        pair, and go to the second."""
        lines = [f"router {self.router_id}"]
        for number, (each, (port, peer)) in enumerate(zip(self.interfaces, ports, strict=True), 1):
            lines.append(
                f"interface {number} {each.address} cost {each.cost} hello {each.hello_interval} "
                f"dead {each.dead_interval} rxmt {each.retransmit_interval} delay {each.transmit_delay} "
                f"port {port} peer {peer}"
            )
        return "\n".join(lines) + "\n"


class Mistaken(Stopped):
    """The configuration has these mistakes."""

    def __init__(self, mistakes: list[Mistake]) -> None:
        super().__init__("\n".join(map(str, mistakes)), Status.REFUSED)
        self.mistakes = mistakes


def verdict_of(routerd: Path, path: Path) -> str:
    """What `routerd verify` says of an object: `accepted bound N`, or why it isn't accepted."""
    words = [str(routerd), "verify", str(path)]
    try:
        ran = subprocess.run(
            words,
            stdin=subprocess.DEVNULL,
            capture_output=True,
            timeout=SECONDS_TO_VERIFY,
            check=False,
        )
    except (OSError, subprocess.TimeoutExpired) as error:
        return f"{words[0]} can't be run: {error}"
    said = (ran.stdout or ran.stderr).decode(errors="replace").split("\n", 1)[0]
    return said or f"status {ran.returncode} of {words[0]}, and no word"


Judge = Callable[[Path, Path], str]


def read_bytes(path: Path) -> bytes:
    """A file of the operator's, which may be any file: a regular one, not too long, that others
    can't change."""
    try:
        with open(os.open(path, os.O_RDONLY | os.O_NONBLOCK | os.O_CLOEXEC), "rb") as it:
            status = os.fstat(it.fileno())
            if not stat.S_ISREG(status.st_mode):
                raise Stopped(f"cannot read {path}: it is no regular file")
            if status.st_mode & stat.S_IWOTH:
                raise Stopped(
                    f"{path}: others can change it (mode {mode_of(status)}): chmod o-w it",
                    Status.REFUSED,
                )
            data = it.read(LONGEST_FILE + 1)
    except OSError as error:
        raise Stopped(f"cannot read {path}: {error.strerror}") from error
    if len(data) > LONGEST_FILE:
        raise Stopped(f"cannot read {path}: it has more than {LONGEST_FILE} bytes")
    return data


def mode_of(status: os.stat_result) -> str:
    return f"{stat.S_IMODE(status.st_mode):04o}"


def read_configuration(
    path: Path, kernel: Mapping[str, KernelInterface], judge: Judge = verdict_of
) -> Configuration:
    """Reads a file and all that it names, and starts nothing. `Mistaken` if anything is wrong with
    them, `Stopped` if the file can't be read. `kernel` are the kernel's interfaces, `judge` says
    whether an object is accepted.
    """
    path = path.absolute()
    data = read_bytes(path)
    mistakes: list[Mistake] = []
    items = toml_of(path.name, data, mistakes)
    if mistakes:
        raise Mistaken(mistakes)
    read = _Reader(path, Table(path.name, "", items, mistakes), mistakes, kernel, judge).read()
    if mistakes or read is None:
        raise Mistaken(mistakes)
    return read


def peer_of(text: str) -> IPv4Address:
    """The address of a neighbor: one of a host, not of a group or of nobody."""
    address = IPv4Address(text)
    if address.is_multicast or address.is_unspecified or address.is_loopback:
        raise ValueError(text)
    return address


def router_id_of(text: str) -> IPv4Address:
    address = IPv4Address(text)
    if address == IPv4Address(0):
        raise ValueError(text)
    return address


class _Reader:
    """Reads one file. Each part is read even if an earlier one is mistaken, so that all mistakes
    are told at once."""

    def __init__(
        self,
        path: Path,
        top: Table,
        mistakes: list[Mistake],
        kernel: Mapping[str, KernelInterface],
        judge: Judge,
    ) -> None:
        self._path, self._top, self._mistakes, self._kernel, self._judge = (
            path,
            top,
            mistakes,
            kernel,
            judge,
        )
        self._folder = path.parent
        self._is_passive = False
        """What interfaces are that don't say it."""
        self._advice: list[str] = []
        self._awaited: list[str] = []

    def read(self) -> Configuration | None:
        self._box_name()
        router_id = self._top.parsed(
            "router_id", "an address of four numbers that isn't 0.0.0.0, in quotes", router_id_of
        )
        account = self._account()
        routerd = self._routerd(account)
        keeps_kernel, settings = kernel_settings_of(self._top, self._kernel)
        log_level = self._top.one_of("log_level", LEVELS, "info")
        self._is_passive = self._top.truth("passive", False)
        keys = self._keys()
        interfaces = self._interfaces(keys)
        announcements = self._announcements()
        inside = [self._kernel[each.name] for each in interfaces]
        self._advice += look_at_vrf(self._top, settings, inside)
        programs = self._programs(routerd)
        counters = counter_names(self._top.table("counters"))
        networks = [each.address.network for each in interfaces]
        redistribution = redistribution_of(self._top, networks)
        self._top.end()
        if self._mistakes or router_id is None or routerd is None:
            return None
        return Configuration(
            self._path.stem,
            self._path,
            router_id,
            routerd,
            keeps_kernel,
            tuple(interfaces),
            tuple(announcements),
            tuple(programs),
            tuple(self._advice),
            account,
            counters,
            redistribution,
            log_level=log_level or "info",
            table=settings,
            awaited=tuple(self._awaited),
        )

    def _box_name(self) -> None:
        """The file's name without its ending is the box's, and those of its folders and its socket."""
        if not BOX_NAME.fullmatch(self._path.stem):
            allowed = "letters, digits, `.`, `_` and `-`, at most 64, first a letter or a digit, then .toml"
            self._mistakes.append(
                Mistake(self._path.name, "the file's name", shown(self._path.name), allowed)
            )

    def _in_folder(self, text: str) -> Path:
        return self._folder / text

    def _account(self) -> Account | None:
        """Whom `routerd` runs as; None if it isn't to have a world of its own."""
        is_isolated = self._top.truth("isolated", True)
        name = self._top.text("user", "a user of this machine", "")
        if not is_isolated:
            self._advice.append(
                "isolated = false: every user of this machine can send to routerd as if a "
                "neighbor did"
            )
            if name:
                self._top.note("user", shown(name), "none where isolated = false")
            return None
        try:
            return account_of(name or None, self._path.stem)
        except ValueError as error:
            self._top.note("user", f"{shown(name)}, {error}", "a user of this machine")
            return None

    def _routerd(self, account: Account | None) -> Path | None:
        """The program, which must be there."""
        allowed = "the path of the program `routerd`"
        text = self._top.text("routerd", allowed, ROUTERD)
        if text is None:
            return None
        path = self._in_folder(text)
        why = why_no_program(path)
        if not why and account and not account.runs(path):
            why = f"which the user {account.name} can't run: let others pass each folder on the way"
        if why:
            self._top.note("routerd", f"{shown(text)}, {why}", allowed)
            return None
        return path

    # -- keys

    def _keys(self) -> dict[str, AnyKey] | None:
        """The keys by their names; None if their file is mistaken."""
        if not self._top.has("keys"):
            return {}
        allowed = "a file of keys that only its owner can read"
        text = self._top.text("keys", allowed)
        if text is None:
            return None
        path = self._in_folder(text)
        try:
            with open(os.open(path, os.O_RDONLY | os.O_NONBLOCK | os.O_CLOEXEC), "rb") as it:
                why = why_not_private(os.fstat(it.fileno()))
                data = b"" if why else it.read(LONGEST_FILE)
        except (OSError, ValueError) as error:
            why, data = str(getattr(error, "strerror", None) or error), b""
        if why:
            self._top.note("keys", f"{shown(text)}: {why}", allowed)
            return None
        before = len(self._mistakes)
        items = toml_of(path.name, data, self._mistakes)
        keys = {}
        for name, each in items.items():
            key = self._key(path, name, each)
            if key:
                keys[name] = key
        return keys if len(self._mistakes) == before else None

    def _key(self, path: Path, name: str, items: object) -> AnyKey | None:
        where = name if KEY_NAME.fullmatch(name) else shown(name)
        if not isinstance(items, dict) or not KEY_NAME.fullmatch(name):
            found = "no table" if not isinstance(items, dict) else "this name"
            allowed = "a table for each key, begun with its name: [letters, digits, `_`, `-`]"
            self._mistakes.append(Mistake(path.name, where, found, allowed))
            return None
        table = Table(path.name, where, items, self._mistakes)
        number = table.whole("id", 0, 255)
        algorithms: dict[str, Algorithm | KeyType] = {each.value[0]: each for each in Algorithm}
        algorithms |= {each.value: each for each in KeyType}
        algorithm = algorithms.get(table.one_of("algorithm", algorithms) or "")
        if isinstance(algorithm, KeyType):
            return bfd_settings.key_of(table, number, algorithm)
        most = MD5_KEY_LENGTH if algorithm is Algorithm.KEYED_MD5 else LONGEST_SECRET
        secret = table.secret("secret", most, f"a text of 1 to {most} bytes")
        lifetime = self._lifetime(table)
        table.end()
        if not table.is_sound or algorithm is None or secret is None:
            return None
        try:
            key = Key(number, algorithm, secret, lifetime)
        except ValueError as error:
            table.note("", str(error), "a key as docs/use/CONFIGURATION.md describes it")
            return None
        advice = key.advice()
        if advice:
            self._advice.append(f"{path.name}: {where}: {advice}")
        return key

    @staticmethod
    def _lifetime(table: Table) -> Lifetime:
        moments = {
            each: table.moment(each)
            for each in ("generate_from", "generate_to", "accept_from", "accept_to")
        }
        for verb in ("generate", "accept"):
            first, last = moments[f"{verb}_from"], moments[f"{verb}_to"]
            if first is not None and last is not None and first >= last:
                table.note(
                    f"{verb}_to",
                    f"a moment that isn't after {verb}_from",
                    f"a moment after {verb}_from",
                )
                return Lifetime()
        return Lifetime(**moments)

    # -- interfaces

    def _interfaces(self, keys: dict[str, AnyKey] | None) -> list[InterfaceSettings]:
        tables = self._top.tables("interface", interface_title)
        if tables is not None and not 1 <= len(tables) <= MOST_INTERFACES:
            self._top.note(
                "interface",
                str(len(tables) or "nothing"),
                f"1 to {MOST_INTERFACES} tables [[interface]]",
            )
        read: list[InterfaceSettings] = []
        by_pattern: list[InterfaceSettings] = []
        names: set[str] = set()
        for table in tables or []:
            found, name = self._interface(table, keys)
            table.end()
            if is_pattern(name):
                by_pattern += found
            elif name is not None:
                self._look_at_others(table, name, found, names, read)
                names.add(name)
                read += found
        return self._with_patterns(read, by_pattern, names)

    @staticmethod
    def _look_at_others(
        table: Table,
        name: str,
        found: list[InterfaceSettings],
        names: set[str],
        others: list[InterfaceSettings],
    ) -> None:
        """Notes what an earlier section has too."""
        if name in names:
            told = f"{shown(name)}, as in an earlier [[interface]]"
            table.note("name", told, "each interface once")
            return
        for one, other in product(found, others):
            if one.address.ip == other.address.ip:
                told = f"{one.address}, which {other.name} has too"
                table.note("address", told, "an address of each interface's own")

    def _with_patterns(
        self, read: list[InterfaceSettings], more: list[InterfaceSettings], names: set[str]
    ) -> list[InterfaceSettings]:
        """Those that are named, then those of patterns that no section names: as many as there may
        be, each with an address of its own."""
        found = list(read)
        for one in more:
            if one.name in names or one.name in (each.name for each in found):
                continue
            other = next((each for each in found if each.address.ip == one.address.ip), None)
            if other:
                self._advice.append(f"{one.name} is left out: {other.name} has its address too")
            elif len(found) >= MOST_INTERFACES:
                self._advice.append(f"{one.name} is left out: {MOST_INTERFACES} are the most")
            else:
                found.append(one)
        return found

    def _interface(
        self, table: Table, keys: dict[str, AnyKey] | None
    ) -> tuple[list[InterfaceSettings], str | None]:
        """What a section says of an interface that is there, or of each that its pattern names; and
        the name or pattern."""
        name = self._name(table)
        inside = self._kernel.get(name) if name and not is_pattern(name) else None
        passive = table.truth("passive", self._is_passive)
        address = self._address(table, inside, is_pattern(name))
        cost = table.whole("cost", 1, 65535, 10)
        hello = table.whole("hello_interval", 1, 65535, 10)
        dead = table.whole("dead_interval", 1, 4294967295, 4 * hello)
        retransmit = table.whole("retransmit_interval", 1, 65535, 5)
        delay = table.whole("transmit_delay", 1, 3600, 1)
        chosen = self._chosen_keys(table, keys, passive)
        bfd = bfd_settings.settings_of(table, keys, passive)
        peer = self._peer(table, address, passive)
        if dead <= hello and not table.is_wrong("hello_interval"):
            table.note("dead_interval", str(dead), f"more than hello_interval, which is {hello}")
        if inside and not passive and not LEAST_MTU <= inside.mtu <= MOST_MTU:
            found = f"{shown(inside.name)}, whose MTU is {inside.mtu}"
            table.note(
                "name",
                found,
                f"an interface with an MTU of {LEAST_MTU} to {MOST_MTU}, or passive = true",
            )
        if not table.is_sound or name is None or chosen is None:
            return [], name
        return [
            InterfaceSettings(
                each.name,
                its,
                each.mtu,
                cost,
                hello,
                dead,
                retransmit,
                delay,
                passive,
                chosen,
                self._network(each, its, passive or peer is not None),
                peer,
                bfd,
            )
            for each, its in self._there(name, inside, address, passive)
        ], name

    def _there(
        self,
        name: str,
        inside: KernelInterface | None,
        address: IPv4Interface | None,
        passive: bool,
    ) -> list[tuple[KernelInterface, IPv4Interface]]:
        """The kernel's interfaces of that name or pattern, each with its address. The others are
        awaited."""
        if is_pattern(name):
            self._awaited.append(name)
            return [
                (each, each.addresses[0])
                for each in sorted(self._kernel.values(), key=lambda each: each.name)
                if matches(name, each.name)
                and len(each.addresses) == 1
                and (passive or LEAST_MTU <= each.mtu <= MOST_MTU)
            ]
        if inside and address and address in inside.addresses + inside.secondary:
            return [(inside, address)]
        why = "it has no IPv4 address" if inside else "the kernel doesn't have it"
        self._awaited.append(name)
        self._advice.append(f"{name}: {why}: the box runs without it, and takes it once it comes")
        return []

    @staticmethod
    def _peer(table: Table, address: IPv4Interface | None, passive: bool) -> IPv4Address | None:
        """The neighbor's address, if it's given."""
        if not table.has("peer"):
            table.text("peer", "", "none")
            return None
        peer = table.parsed("peer", "the neighbor's address, A.B.C.D in quotes", peer_of)
        if peer is not None and passive:
            table.note("peer", shown(str(peer)), "none where passive = true: nobody is heard there")
        elif peer is not None and address and peer == address.ip:
            table.note("peer", f"{shown(str(peer))}, this interface's own", "the neighbor's address")
        return peer

    def _network(
        self, inside: KernelInterface, address: IPv4Interface, is_settled: bool
    ) -> IPv4Network | None:
        """The network of the link: if the kernel has a peer for the address, the peer's."""
        network = dict(inside.peers).get(address, address.network)
        if network.prefixlen < ALONE or address.ip not in network:
            return network
        if not is_settled:
            self._advice.append(
                f"{inside.name}: no network has its address {address}, so OSPF packets count from "
                "any address of the link; `peer` may name the neighbor's"
            )
        return None

    @staticmethod
    def _name(table: Table) -> str | None:
        """The name of an interface, or a pattern of names."""
        allowed = "an interface's name, or a pattern of names: at most 15 bytes, no space, / or :"
        name = table.text("name", allowed)
        if name is not None and not INTERFACE_NAME.fullmatch(name):
            table.note("name", shown(name), allowed)
            return None
        return name

    @staticmethod
    def _address(
        table: Table, inside: KernelInterface | None, is_of_many: bool
    ) -> IPv4Interface | None:
        """The address that is asked for, or the only one that the kernel's interface has; None if
        it has none yet."""
        everything = inside.addresses + inside.secondary if inside else ()
        those = ", ".join(map(str, everything))
        if table.has("address"):
            allowed = "none for a pattern of names" if is_of_many else "A.B.C.D/L"
            if those:
                allowed = f"an address of the interface with its prefix length: {those}"
            address = table.parsed("address", allowed, IPv4Interface)
            is_other = address is not None and (address.is_loopback or (those and address not in everything))
            if address is not None and (is_of_many or is_other):
                why = "" if is_of_many else ", which the interface doesn't have"
                why = ", of the loopback, which no neighbor reaches" if address.is_loopback else why
                table.note("address", f"{shown(str(address))}{why}", allowed)
                return None
            return address
        table.text("address", "", "none")
        if inside is None or not everything:
            return None
        if len(inside.addresses) != 1:
            table.note(
                "address", f"nothing, and the interface has {those}", f"one of these: {those}"
            )
            return None
        return inside.addresses[0]

    def _chosen_keys(
        self, table: Table, keys: dict[str, AnyKey] | None, passive: bool
    ) -> tuple[Key, ...] | None:
        """The keys of an interface, of which the first signs."""
        known = (
            f"names of keys: {', '.join(keys) or 'none, as there is no file of keys'}"
            if keys is not None
            else "names of keys"
        )
        names = table.texts("keys", known)
        if names is None or keys is None:
            return None
        chosen: list[Key] = []
        for name in names:
            key = keys.get(name)
            if key is None:
                table.note("keys", shown(name), known)
                return None
            if isinstance(key, BfdKey):
                found = f"{shown(name)}, whose algorithm {key.type.value} is BFD's"
                table.note("keys", found, "names of keys with another algorithm")
                return None
            if any(key.id == other.id for other in chosen):
                table.note(
                    "keys",
                    f"{shown(name)}, whose ID {key.id} an earlier one has",
                    "keys with different IDs",
                )
                return None
            chosen.append(key)
        if chosen and passive:
            table.note(
                "keys",
                f"a list of {len(chosen)}",
                "none where passive = true, as no packet is sent there",
            )
            return None
        return tuple(chosen)

    # -- destinations and programs

    def _announcements(self) -> list[Announcement]:
        tables = self._top.tables("announce", announce_title)
        if tables is not None and len(tables) > MOST_EXTERNALS:
            self._top.note(
                "announce", str(len(tables)), f"at most {MOST_EXTERNALS} tables [[announce]]"
            )
        prefixes: dict[IPv4Address, IPv4Network] = {}
        read: list[Announcement] = []
        for table in tables or []:
            allowed = ANNOUNCED
            prefix = table.parsed("prefix", allowed, announced_prefix)
            source = source_of(table)
            table.end()
            if prefix is not None and prefix.network_address in prefixes:
                other = prefixes[prefix.network_address]
                found = f"{prefix}, and {other} in an earlier [[announce]]"
                table.note(
                    "prefix",
                    found,
                    "one destination for each address (their Link State ID would be the same)",
                )
            elif prefix is not None:
                prefixes[prefix.network_address] = prefix
            if table.is_sound and prefix is not None:
                read.append(source.announcement(prefix))
        return read

    def _programs(self, routerd: Path | None) -> list[Program]:
        read: list[Program] = []
        for table in self._top.tables("program", lambda at, _: f"program {at}") or []:
            program = self._program(table, routerd)
            table.end()
            if program is None:
                continue
            if any(program.hook == other.hook for other in read):
                found = (
                    f"{shown(program.object.name)}, for the hook {program.hook}, as an earlier one"
                )
                table.note("object", found, "one program for each hook")
            read.append(program)
        return read

    def _program(self, table: Table, routerd: Path | None) -> Program | None:
        allowed = "the path of an object file that `routerd verify` accepts, without a space in it"
        text = table.text("object", allowed)
        if text is None:
            return None
        path = self._in_folder(text)
        found, hook = object_hook(path)
        wanted = table.one_of("hook", HOOKS, hook or HOOKS[0])
        bound = 0
        if hook and routerd:
            verdict = self._judge(routerd, path)
            accepted = ACCEPTED.fullmatch(verdict)
            bound = int(accepted[1]) if accepted else 0
            found = "" if accepted else refusal_text(verdict)
        if found:
            table.note("object", f"{shown(text)}: {found}", allowed)
            return None
        if wanted not in (None, hook):
            table.note("object", f"{shown(text)}, for the hook {hook}", f"one for the hook {wanted}")
        return Program(path, hook, digest_of(path), bound)


def refusal_text(verdict: str) -> str:
    """A refusal of `routerd verify` with what its number means."""
    meaning = hint("", verdict) if verdict.startswith(("object", "code", "refused slot")) else ""
    return f"{verdict}: {meaning}" if meaning else verdict


def interface_title(at: int, items: dict[str, Any]) -> str:
    name = items.get("name")
    is_name = isinstance(name, str) and INTERFACE_NAME.fullmatch(name)
    return f"interface {at} ({shown(name)[1:-1]})" if is_name else f"interface {at}"


def announce_title(at: int, _items: dict[str, Any]) -> str:
    return f"announce {at}"


def prefix_of(text: str) -> IPv4Network:
    """A prefix with its length, in the form that `routerd` reads."""
    prefix = IPv4Network(text)
    if str(prefix) != text:
        raise ValueError(text)
    return prefix


def announced_prefix(text: str) -> IPv4Network:
    """The same of a destination that may be announced."""
    prefix = prefix_of(text)
    if prefix.prefixlen and any(each.has(prefix) for each in MARTIANS):
        raise ValueError(text)
    return prefix


def why_no_program(path: Path) -> str | None:
    """Why a path is no program that may be run; None if it is one."""
    try:
        status = path.stat()
    except OSError as error:
        return f"which can't be had: {error.strerror}"
    except ValueError as error:
        return f"which can't be had: {error}"
    if not stat.S_ISREG(status.st_mode) or not os.access(path, os.X_OK):
        return "which is no program that can be run"
    if status.st_mode & stat.S_IWOTH:
        return f"which others can change (mode {mode_of(status)})"
    return None


def why_not_private(status: os.stat_result) -> str | None:
    """Why a file may be read by others than its owner and this process; None if it may not."""
    if not stat.S_ISREG(status.st_mode):
        return "it is no regular file"
    if status.st_uid not in (0, os.geteuid()):
        return f"its owner is the user {status.st_uid}"
    if status.st_mode & 0o077:
        return f"others can use it (mode {mode_of(status)}): chmod 600 it"
    return None


def object_hook(path: Path) -> tuple[str, str]:
    """Why a file is no object, and the hook of one that is (docs/reference/FORMATS.md, 'Object files')."""
    if re.search(r"\s", str(path)) or not str(path).isprintable():
        return "a path with spaces, which `routerd`'s console can't be given", ""
    try:
        with open(os.open(path, os.O_RDONLY | os.O_NONBLOCK | os.O_CLOEXEC), "rb") as it:
            status = os.fstat(it.fileno())
            head = it.read(16) if stat.S_ISREG(status.st_mode) else b""
    except (OSError, ValueError) as error:
        return str(getattr(error, "strerror", None) or error), ""
    if head.startswith(ELF_HEAD):
        return "an ELF file: `hooktool build` makes objects of it", ""
    if not head.startswith(OBJECT_HEAD) or len(head) < 16 or not 1 <= head[5] <= len(HOOKS):
        return "no object file", ""
    if status.st_size > LONGEST_OBJECT:
        return f"more than {LONGEST_OBJECT} bytes", ""
    if status.st_mode & stat.S_IWOTH:
        return f"others can change it (mode {mode_of(status)})", ""
    return "", HOOKS[head[5] - 1]


def digest_of(path: Path) -> str:
    """What tells one object from another of the same path; of a file that can't be read the same
    as of an empty one."""
    try:
        with open(os.open(path, os.O_RDONLY | os.O_NONBLOCK | os.O_CLOEXEC), "rb") as it:
            return sha256(it.read(LONGEST_OBJECT)).hexdigest()
    except OSError:
        return sha256().hexdigest()
