"""A configuration that changes while the box runs: what is taken over, and what is not."""
from __future__ import annotations

import contextlib
import os
import shutil
import signal
import socket
import sys
import tempfile
import threading
import time
import unittest
from collections.abc import Callable
from dataclasses import replace
from ipaddress import IPv4Address, IPv4Interface, IPv4Network
from pathlib import Path
from types import SimpleNamespace
from typing import Any
from unittest import mock

from leafrunt_host.authentication import Algorithm, Key
from leafrunt_host.bridge import CannotOpen
from leafrunt_host.client import Client
from leafrunt_host.bfd_session import Settings
from leafrunt_host.configuration import Configuration, InterfaceSettings, Program
from leafrunt_host.destinations import Announcement, Owner
from leafrunt_host.differences import (
    OF_BRIDGE,
    OF_OTHERS,
    OF_ROUTERD,
    for_bridge,
    for_routerd,
    in_order_of,
)
from leafrunt_host.forwarding import Hop, KernelTable
from leafrunt_host.handover import Handover, Prepared
from leafrunt_host.isolation import Account
from leafrunt_host.redistribution import Redistribution, Source
from leafrunt_host.kernel_settings import KernelSettings
from leafrunt_host.programs import Attached
from leafrunt_host.reloading import Reloader, claims_of
from leafrunt_host.rooms import Room
from leafrunt_host.router import RouterGone
from leafrunt_host.statuses import Status, Stopped
from leafrunt_host.work_queue import WorkQueue
from tests.fake_kernel import FakeKernel, FakeNotices
from tests.test_box import TEXT, Boxes, is_running, within

HEAD = b"BPFH\x01"
VETO, COUNT = 4, 1
ANNOUNCE = '[[announce]]\nprefix = "{}"\nmetric = {}\n'
KEYS = (Key(1, Algorithm.HMAC_SHA_256, b"one"), Key(2, Algorithm.HMAC_SHA_256, b"two"))


class Running(Boxes):
    """A box in a process of its own."""

    def write(self, more: str = "", text: str = TEXT) -> None:
        (self.folder / "one.toml").write_text(text.format("1.1.1.1") + more)

    def object(self, name: str, hook: int, more: bytes = b"") -> str:
        (self.folder / name).write_bytes(HEAD + bytes([hook]) + bytes(10) + more)
        return f'[[program]]\nobject = "{name}"\n'

    def announced(self) -> list[str]:
        client = Client(self.run_folder, None)
        try:
            return client.ask("announced")[:-1]
        finally:
            client.close()

    def reloaded(self, *lines: str, status: int = 0) -> None:
        """What `leafrunt reload` prints."""
        said = self.leafrunt("reload")
        self.assertEqual(said[0], status, said)
        self.assertEqual((said[2] if status else said[1]).splitlines(), list(lines))

    def test_destinations(self) -> None:
        """The file's follow it; those of the console stay."""
        self.up(more=ANNOUNCE.format("10.1.0.0/16", 1) + ANNOUNCE.format("10.2.0.0/16", 2))
        self.reloaded("nothing differs")
        self.client().ask("add 10.9.0.0/16 9 2 0")
        self.client().ask("add 10.2.0.0/16 7 2 0")
        self.write(ANNOUNCE.format("10.3.0.0/16", 3) + ANNOUNCE.format("10.2.0.0/16", 4))
        self.reloaded("destinations: 2 new or changed, 1 withdrawn")
        wanted = [
            "10.2.0.0/16 7 2 0 originated console",
            "10.3.0.0/16 3 2 0 originated configuration",
            "10.9.0.0/16 9 2 0 originated console",
        ]
        self.assertTrue(within(30, lambda: self.announced() == wanted), self.announced())
        self.write()
        self.reloaded("destinations: 0 new or changed, 2 withdrawn")
        self.assertTrue(within(30, lambda: self.announced() == [wanted[0], wanted[2]]))

    def test_an_interface_that_is_not_there(self) -> None:
        self.up()
        self.write('[[interface]]\nname = "tun9"\n')
        self.reloaded("tun9: is awaited")
        self.reloaded("nothing differs")

    def test_4096_destinations(self) -> None:
        self.up()
        many = (ANNOUNCE.format(f"11.{at >> 8}.{at & 255}.0/24", 1) for at in range(4096))
        self.write("".join(many))
        self.reloaded("destinations: 4096 new or changed, 0 withdrawn")
        self.assertTrue(within(60, lambda: len(self.announced()) == 4096))
        self.write()
        self.reloaded("destinations: 0 new or changed, 4096 withdrawn")
        self.assertTrue(within(60, lambda: not self.announced()))

    def test_programs(self) -> None:
        """Attached where the file names another object, or the same with other bytes; a program of
        the console stays. (The stand-in's programs are all at the hook `veto`.)"""
        self.up(more=self.object("veto.o", VETO))
        programs = self.client().ask("programs")
        self.object("veto.o", VETO, b"more")
        self.reloaded(f"{self.folder}/veto.o: attached veto bound 7")
        self.reloaded("nothing differs")
        self.write(self.object("other.o", VETO))
        self.reloaded(f"{self.folder}/other.o: attached veto bound 7")
        self.client().ask("attach /by/hand.o")
        self.write()
        self.reloaded("veto: /by/hand.o, which was attached by hand, stays")
        self.assertEqual(self.client().ask("programs"), ["veto bound 7 /by/hand.o", "end"])
        self.write(self.object("other.o", VETO))
        self.reloaded("veto: /by/hand.o, which was attached by hand, stays")
        self.client().ask("detach veto")
        self.write()
        self.reloaded("veto: detached veto")
        self.assertEqual(programs, [f"veto bound 7 {self.folder}/veto.o", "end"])

    def test_a_wrong_file_changes_nothing(self) -> None:
        """All mistakes are told; a file that can't be read has another status."""
        self.up(more=ANNOUNCE.format("10.1.0.0/16", 1))
        before = self.announced(), self.client().ask("interfaces")
        self.write("cost = 0\n" + ANNOUNCE.format("10.2.0.0/16", -1))
        allowed = "allowed: a whole number from"
        self.reloaded(
            f"leafrunt: one.toml: interface 1 (lan0), cost: found 0; {allowed} 1 to 65535",
            f"leafrunt: one.toml: announce 1, metric: found -1; {allowed} 0 to 16777214",
            status=1,
        )
        self.write("", 'keys = "keys.toml"\n' + TEXT)
        (self.folder / "keys.toml").write_text("")
        (self.folder / "keys.toml").chmod(0o644)
        self.assertIn("chmod 600", self.leafrunt("reload")[2])
        (self.folder / "one.toml").unlink()
        self.reloaded(
            f"leafrunt: cannot read {self.folder}/one.toml: No such file or directory", status=3
        )
        (self.folder / "one.toml").mkdir()
        self.assertEqual(self.leafrunt("reload")[0], 3)
        self.assertEqual((self.announced(), self.client().ask("interfaces")), before)

    def test_another_router(self) -> None:
        """No running one can become that."""
        self.up()
        (self.folder / "one.toml").write_text(TEXT.format("2.2.2.2"))
        needs = "needs a new start: `leafrunt down`, then `leafrunt up`"
        self.reloaded(f"leafrunt: router_id: 2.2.2.2 in place of 1.1.1.1: {needs}", status=1)

    def test_a_new_routerd(self) -> None:
        """It takes the place of the one that runs, with all that was done by hand."""
        box = self.up(more=self.object("veto.o", VETO) + ANNOUNCE.format("10.1.0.0/16", 1))
        client = self.client()
        client.ask("add 10.9.0.0/16 9 2 0")
        client.ask("attach /by/hand.o")
        before, announced = self.routerd_of(client), self.announced()
        more = self.object("veto.o", VETO) + ANNOUNCE.format("10.1.0.0/16", 1)
        self.write("cost = 20\n" + more)
        self.reloaded("lan0: cost 20 in place of 10")
        self.assertNotEqual(self.routerd_of(client), before)
        self.assertTrue(within(10, lambda: not is_running(before)))
        self.assertIn("cost 20", client.ask("interfaces")[0])
        self.assertTrue(within(30, lambda: self.announced() == announced), self.announced())
        self.assertEqual(client.ask("programs"), ["veto bound 7 /by/hand.o", "end"])
        self.assertEqual(client.ask("neighbors"), ["neighbor 1 2.2.2.2 Full", "end"])
        self.reloaded("nothing differs")
        self.assertEqual(self.leafrunt("down")[0], 0)
        self.assertEqual(self.ended(box)[0], 0)

    def test_attached_by_hand_meanwhile(self) -> None:
        """It waits for the new one, and is attached there."""
        self.up()
        self.write("", TEXT.replace('"routerd"', f'"{self.slow()}"'))
        thread = threading.Thread(target=lambda: self.leafrunt("reload"))
        thread.start()
        time.sleep(0.5)
        client = self.client()
        self.assertEqual(client.ask("attach /by/hand.o"), ["attached veto bound 7"])
        thread.join()
        self.assertEqual(client.ask("programs"), ["veto bound 7 /by/hand.o", "end"])
        self.reloaded("nothing differs")

    def slow(self) -> Path:
        """A `routerd` that takes a second to start."""
        slow = self.folder / "slow"
        text = (self.folder / "routerd").read_text()
        slow.write_text(text.replace("def answer(line", "time.sleep(1)\n\n\ndef answer(line", 1))
        slow.chmod(0o755)
        return slow

    def test_a_new_routerd_that_does_not_start(self) -> None:
        """The one before goes on, with its configuration."""
        box = self.up()
        before = self.routerd_of(self.client())
        broken = self.folder / "broken"
        broken.write_text(f"#!{sys.executable} -IS\nprint('hello')\n")
        broken.chmod(0o755)
        text = TEXT.replace('routerd = "routerd"', f'routerd = "{broken}"')
        self.write(ANNOUNCE.format("10.1.0.0/16", 1), text)
        status, _, said = self.leafrunt("reload")
        self.assertEqual(status, 3)
        self.assertIn("didn't start (routerd has ended, status 0): hello", said)
        self.assertEqual((self.routerd_of(self.client()), self.announced()), (before, []))
        self.write()
        self.reloaded("nothing differs")
        self.assertIsNone(box.poll())

    def test_many_new_ones(self) -> None:
        """Nothing is left behind of those that were before."""
        box, client = self.up(), self.client()

        def held() -> tuple[int, int]:
            return len(os.listdir(f"/proc/{box.pid}/fd")), len(os.listdir(f"/proc/{box.pid}/task"))

        self.write("cost = 20\n")
        self.reloaded("lan0: cost 20 in place of 10")
        before = held()
        for cost in range(30, 36):
            self.write(f"cost = {cost}\n")
            self.assertEqual(self.leafrunt("reload")[0], 0)
        self.assertTrue(within(10, lambda: held() <= before), (before, held()))
        self.assertIn("cost 35", client.ask("interfaces")[0])
        tasks = Path(f"/proc/{box.pid}/task").glob("*/children")
        self.assertEqual(sum(len(each.read_text().split()) for each in tasks), 1)

    def test_one_that_ends_meanwhile(self) -> None:
        """The box ends, and leaves no `routerd` behind."""
        box = self.up()
        slow = self.slow()
        self.write("", TEXT.replace('"routerd"', f'"{slow}"'))
        thread = threading.Thread(target=lambda: self.leafrunt("reload"))
        thread.start()
        time.sleep(0.7)
        box.terminate()
        self.assertEqual(self.ended(box)[0], 0)
        thread.join()

        def left() -> list[str]:
            found = []
            for each in Path("/proc").glob("[0-9]*/cmdline"):
                with contextlib.suppress(OSError):
                    found += [str(each)] * (str(slow).encode() in each.read_bytes())
            return found

        self.assertTrue(within(20, lambda: not left()), left())

    def test_a_hundred_times(self) -> None:
        """With SIGHUP in between; nothing is left behind of any."""
        box, client = self.up(), self.client()
        pid = box.pid

        def held() -> tuple[int, int]:
            return len(os.listdir(f"/proc/{pid}/fd")), len(os.listdir(f"/proc/{pid}/task"))

        self.leafrunt("reload")
        before = held()
        for at in range(100):
            self.write(ANNOUNCE.format("10.1.0.0/16", at))
            # (one is refused while a signal's is under way)
            self.assertTrue(within(30, lambda: self.leafrunt("reload")[0] == 0))
            if at % 10 == 0:
                for _ in range(20):
                    box.send_signal(signal.SIGHUP)
        last = ["10.1.0.0/16 99 2 0 originated configuration", "end"]
        self.assertTrue(within(30, lambda: client.ask("announced") == last))
        self.assertTrue(within(10, lambda: held() <= before), (before, held()))
        self.assertIsNone(box.poll())

    def test_several_at_once(self) -> None:
        """One of them does it; the others are done later, or are told that they aren't."""
        self.up()
        self.write(ANNOUNCE.format("10.1.0.0/16", 5))
        said: list[list[str]] = []

        def asks() -> None:
            client = self.client()
            said.extend(client.ask("reload") for _ in range(10))

        threads = [threading.Thread(target=asks) for _ in range(6)]
        for each in threads:
            each.start()
        for each in threads:
            each.join()
        under_way = ["refused: another reload is under way: try again"]
        done = [each for each in said if each != under_way]
        first = ["destinations: 1 new or changed, 0 withdrawn", "end"]
        self.assertEqual(done.count(first), 1)
        self.assertEqual(done.count(["nothing differs", "end"]), len(done) - 1)
        self.assertEqual(len(said), 60)

    def test_by_sighup(self) -> None:
        """The outcome is in the log, where nobody is answered."""
        box = self.up()
        self.write(ANNOUNCE.format("10.1.0.0/16", 5))
        box.send_signal(signal.SIGHUP)
        self.assertTrue(within(30, lambda: len(self.announced()) == 1))
        self.write("cost = 0\n")
        box.send_signal(signal.SIGHUP)
        wrong = "error: not reloaded: one.toml: interface 1 (lan0), cost: found 0; allowed"
        self.assertTrue(within(30, lambda: wrong in " ".join(self.client().ask("log"))))
        self.assertIsNone(box.poll())

    def test_by_sighup_while_another_is_under_way(self) -> None:
        """It comes after that, and finds the file as it is then."""
        box = self.up()
        slow = self.slow()
        new = TEXT.replace('"routerd"', f'"{slow}"')
        self.write("", new)
        thread = threading.Thread(target=lambda: self.leafrunt("reload"))
        thread.start()
        time.sleep(0.5)
        self.write(ANNOUNCE.format("10.1.0.0/16", 5), new)
        for _ in range(50):
            box.send_signal(signal.SIGHUP)
        self.assertTrue(within(90, lambda: len(self.announced()) == 1), self.client().ask("log"))
        thread.join()
        self.assertNotIn("not reloaded", " ".join(self.client().ask("log")))

    def test_no_box(self) -> None:
        self.assertEqual(self.leafrunt("reload")[0], 3)
        self.assertEqual(self.leafrunt("reload", "now")[0], 2)


def settings(name: str, address: str, **others: Any) -> InterfaceSettings:
    inside = IPv4Interface(address)
    one = InterfaceSettings(name, inside, 1500, 10, 10, 40, 5, 1, False, (), inside.network)
    return replace(one, **others)


def configuration(*interfaces: InterfaceSettings, **others: Any) -> Configuration:
    one = IPv4Address("1.1.1.1")
    both = interfaces or (settings("eth1", "10.0.1.1/24"), settings("eth2", "10.0.2.1/24"))
    made = Configuration("one", Path("/x/one.toml"), one, Path("/routerd"), False, both, (), (), ())
    return replace(made, **others)


class Differing(unittest.TestCase):
    def said(self, **others: Any) -> list[str]:
        """What differs where the first interface differs in that."""
        old = configuration()
        new = replace(old, interfaces=(replace(old.interfaces[0], **others), old.interfaces[1]))
        pair = old.interfaces[0], new.interfaces[0]
        return [*for_routerd(old, new), *for_bridge(*pair)]

    def test_of_an_interface(self) -> None:
        for others, said in (
            ({"cost": 11}, "eth1: cost 11 in place of 10"),
            ({"hello_interval": 2}, "eth1: hello_interval 2 in place of 10"),
            ({"dead_interval": 8}, "eth1: dead_interval 8 in place of 40"),
            ({"retransmit_interval": 2}, "eth1: retransmit_interval 2 in place of 5"),
            ({"transmit_delay": 2}, "eth1: transmit_delay 2 in place of 1"),
            (
                {"address": IPv4Interface("10.0.1.1/25")},
                "eth1: address 10.0.1.1/25 in place of 10.0.1.1/24",
            ),
            ({"passive": True}, "eth1: passive now"),
            ({"keys": KEYS}, "eth1: keys 1, 2"),
            ({"peer": IPv4Address("10.0.1.2")}, "eth1: packets count from 10.0.1.2"),
            ({"network": None}, "eth1: packets count from any address"),
            ({"mtu": 9000}, "eth1: MTU 9000 in place of 1500"),
            ({"bfd": Settings()}, "eth1: BFD now"),
        ):
            self.assertEqual(self.said(**others), [said])
        self.assertEqual(self.said(), [])

    def test_each_field_is_somebodys(self) -> None:
        """A new field of an interface has to be taken over by a reload, too."""
        known = {*OF_BRIDGE, *OF_OTHERS, *OF_ROUTERD}
        self.assertEqual(known, set(InterfaceSettings.__dataclass_fields__))
        taken = {"announcements", "programs", "counters", "redistribution", "kernel", "interfaces"}
        taken |= {"log_level", "table"}
        anew = {"name", "path", "router_id", "routerd", "account"}
        told = {"advice", "awaited"}
        self.assertEqual(taken | anew | told, set(Configuration.__dataclass_fields__))

    def test_interfaces_that_come_and_go(self) -> None:
        one, two = configuration().interfaces
        three = settings("eth3", "10.0.3.1/24")
        said = [*for_routerd(configuration(one, two), configuration(three, one))]
        self.assertEqual(said, ["eth2: no longer an interface", "eth3: a new interface"])
        turned = in_order_of(configuration(two, one), configuration(one, two))
        self.assertEqual(turned, configuration(one, two))

    def test_of_whom_routerd_runs_as(self) -> None:
        """A number that nobody has is another one at each look."""
        some = [Account("61190", 61190, 61190), Account("61191", 61191, 61191)]
        named = Account("leafrunt", 990, 990)
        for one, other, count in ((some[0], some[1], 0), (some[0], named, 1), (None, named, 1)):
            old, new = configuration(account=one), configuration(account=other)
            self.assertEqual(len(list(for_routerd(old, new))), count)


class Fakes:
    """Everything that a reload changes, and in which order it did."""

    def __init__(self, room: Room, old: Configuration) -> None:
        self.did: list[object] = []
        self.fails: Callable[[], None] = lambda: None
        self.new = old
        self.sinks = {
            number: socket.socket(socket.AF_INET, socket.SOCK_DGRAM)
            for number, each in enumerate(old.interfaces, 1)
            if each.passive
        }
        self.opened = list(self.sinks.values())
        work = SimpleNamespace(do=lambda act: act())
        self.bridge = SimpleNamespace(
            work=work, open=self.open, shut=self.shut, change=lambda link, to: self.did.append(to)
        )
        links = {
            number: f"link {number}"
            for number, each in enumerate(old.interfaces, 1)
            if not each.passive
        }
        self.known = SimpleNamespace(
            configuration=old,
            links=links,
            by_hand=frozenset(),
            programs={},
            sessions=None,
            history=SimpleNamespace(note=lambda *said: self.noted.append(said)),
        )
        self.parts = SimpleNamespace(
            bridge=self.bridge,
            links=links,
            sinks=self.sinks,
            ports=[(7001, 7002), (7003, 7004)],
            link_of=lambda interface: f"link {interface.number}",
        )
        self.noted: list[tuple[object, ...]] = []
        self.kernel: KernelTable | None = None
        self.answer = "attached veto bound 7"
        self.reloader = Reloader(
            lambda _path: self.new,
            room,
            self.parts,
            self.known,
            SimpleNamespace(keep=self.keep, has_kept=self.has_kept),
            SimpleNamespace(want=self.did.append, ask_again=lambda: self.did.append("again")),
            SimpleNamespace(redistribute=lambda it: self.did.append(("redistribute", it))),
            SimpleNamespace(passed_on=self.passed_on),
            SimpleNamespace(run=self.hand_over),
        )

    def hand_over(self, new: Configuration, programs: Callable[[], dict[str, str]]) -> None:
        self.fails()
        self.did.append(("handover", programs()))

    def open(self, link: str, udp: socket.socket) -> None:
        self.fails()
        self.did.append(("open", link))

    def shut(self, link: str) -> socket.socket:
        self.did.append(("shut", link))
        self.opened.append(socket.socket(socket.AF_INET, socket.SOCK_DGRAM))
        return self.opened[-1]

    def keep(self, kernel: KernelTable | None) -> KernelTable | None:
        before, self.kernel = self.kernel, kernel
        return before

    def has_kept(self, _seconds: float) -> bool:
        self.did.append(("kept", self.kernel))
        return True

    def passed_on(self, line: str) -> list[str]:
        self.fails()
        self.did.append(line)
        return [self.answer]

    def close(self) -> None:
        for each in self.opened:
            each.close()


class Taking(unittest.TestCase):
    """The reload alone, with all else made up."""

    def setUp(self) -> None:
        self.folder = Path(tempfile.mkdtemp(prefix="lb-"))
        self.addCleanup(shutil.rmtree, self.folder)
        self.room = Room("one", self.folder / "run" / "one", self.folder / "state")
        self.addCleanup(lambda: self.room.give_back(self.room.claimed))

    def fakes(self, old: Configuration) -> Fakes:
        self.room.claim(claims_of(old))
        fakes = Fakes(self.room, old)
        self.addCleanup(fakes.close)
        return fakes

    def test_keys(self) -> None:
        old = configuration()
        it = self.fakes(old)
        it.new = replace(old, interfaces=(replace(old.interfaces[0], keys=KEYS), old.interfaces[1]))
        self.assertEqual(it.reloader.reload(), ["eth1: keys 1, 2"])
        (interface,) = it.did
        self.assertEqual((interface.number, interface.keys, interface.port), (1, KEYS, 7001))
        self.assertEqual(it.known.configuration, it.new)
        self.assertEqual(it.reloader.reload(), ["nothing differs"])

    def test_passive(self) -> None:
        """An interface gets a link and a claim, or loses both."""
        one, two = configuration().interfaces
        silent = replace(two, passive=True)
        it = self.fakes(configuration(one, silent))
        self.assertNotIn("interface eth2", self.room.claimed)
        it.new = configuration(one, two)
        self.assertEqual(it.reloader.reload(), ["eth2: active now"])
        self.assertEqual((it.did, it.sinks), ([("open", "link 2")], {}))
        self.assertEqual(it.known.links, {1: "link 1", 2: "link 2"})
        self.assertIn("interface eth2", self.room.claimed)
        it.new = configuration(replace(one, passive=True), two)
        self.assertEqual(it.reloader.reload(), ["eth1: passive now"])
        self.assertEqual((it.did[1:], it.known.links), ([("shut", "link 1")], {2: "link 2"}))
        self.assertEqual(self.room.claimed, {"interface eth2"})
        self.assertEqual(set(it.sinks), {1})

    def test_what_cannot_be_opened(self) -> None:
        """Nothing is changed then: neither keys, nor claims, nor who keeps the kernel's table."""
        one, two = configuration().interfaces
        old = configuration(one, replace(two, passive=True))
        it = self.fakes(old)
        it.new = replace(configuration(replace(one, keys=KEYS), two), kernel=True)

        def fails() -> None:
            raise CannotOpen("eth2: no raw socket")

        it.fails = fails
        table = mock.Mock(spec=KernelTable)
        with mock.patch("leafrunt_host.reloading.KernelTable", return_value=table):
            with self.assertRaises(Stopped) as raised:
                it.reloader.reload()
        self.assertEqual(str(raised.exception), "nothing is changed: eth2: no raw socket")
        self.assertEqual(raised.exception.status, Status.FAILED)
        self.assertEqual((it.did, it.kernel, it.known.configuration), ([], None, old))
        self.assertEqual(self.room.claimed, set(claims_of(old)))
        table.close.assert_called_once()

    def test_a_claim_of_another_box(self) -> None:
        one, two = configuration().interfaces
        other = Room("two", self.folder / "run" / "two", self.folder / "state")
        other.claim(KernelSettings().claims)
        old = configuration(one, replace(two, passive=True))
        it = self.fakes(old)
        it.new = replace(configuration(one, two), kernel=True)
        with self.assertRaises(Stopped) as raised:
            it.reloader.reload()
        self.assertIn("the box two", str(raised.exception))
        self.assertEqual(raised.exception.status, Status.REFUSED)
        self.assertEqual((it.did, self.room.claimed), ([], {"interface eth1"}))
        other.leave()
        with mock.patch("leafrunt_host.reloading.KernelTable"):
            self.assertEqual(len(it.reloader.reload()), 2)

    def test_the_kernels_table(self) -> None:
        """It is kept from now on, or its routes are taken away."""
        old = configuration()
        it = self.fakes(old)
        it.new = replace(old, kernel=True)
        made = KernelTable(kernel := FakeKernel("eth1"), FakeNotices(kernel))
        with mock.patch("leafrunt_host.reloading.KernelTable", return_value=made):
            self.assertEqual(it.reloader.reload(), ["kernel: table main is kept from now on"])
        self.assertIs(it.kernel, made)
        self.assertLessEqual(set(KernelSettings().claims), self.room.claimed)
        it.new = replace(it.new, table=KernelSettings(ecmp=2))
        again = KernelTable(kernel, FakeNotices(kernel))
        with mock.patch("leafrunt_host.reloading.KernelTable", return_value=again):
            said = "kernel: table main is kept by other settings from now on"
            self.assertEqual(it.reloader.reload()[0], said)
        it.new = old
        said = "kernel: table main is left alone from now on (0 routes removed)"
        self.assertEqual(it.reloader.reload()[0], said)
        self.assertIsNone(it.kernel)
        self.assertTrue(self.room.claimed.isdisjoint(KernelSettings().claims))

    def test_another_table(self) -> None:
        """The one before has its routes until the other has them."""
        old = replace(configuration(), kernel=True)
        it = self.fakes(old)
        kernels = [FakeKernel("eth1"), FakeKernel("eth1")]
        hops = {1: Hop(IPv4Address("10.0.1.2"), "eth1")}
        before, after = (KernelTable(each, FakeNotices(each)) for each in kernels)
        before.keep([b"172.16.2.0/24 ext2 20 via 1"], hops)
        seen: list[int] = []

        def has_kept(_seconds: float) -> bool:
            seen.append(len(kernels[0].table))
            return True

        it.kernel = before
        it.reloader.keeper.has_kept = has_kept
        it.new = replace(old, table=KernelSettings(100))
        with mock.patch("leafrunt_host.reloading.KernelTable", return_value=after):
            said = it.reloader.reload()
        self.assertEqual(said, ["kernel: table main is left alone from now on (1 routes removed)"])
        self.assertEqual((seen, kernels[0].table, it.kernel), ([1], {}, after))

    def test_bfd(self) -> None:
        """Told what is asked for now."""
        one, two = configuration().interfaces
        it = self.fakes(configuration(one, two))
        asks = replace(two, bfd=Settings())
        it.new = configuration(one, asks)
        it.known.sessions = SimpleNamespace(take_over=lambda asked, _: it.did.append(asked))
        self.assertEqual(it.reloader.reload(), ["eth2: BFD now"])
        self.assertEqual(it.did, [{2: Settings()}])
        it.new = configuration(replace(one, bfd=Settings(detect_mult=5)), two)
        self.assertEqual(it.reloader.reload(), ["eth1: BFD now", "eth2: no BFD now"])
        self.assertEqual(it.did[1:], [{1: Settings(detect_mult=5)}])

    def test_workers_of_the_one_before(self) -> None:
        """What is told of them ends with it."""
        known = SimpleNamespace(stopped=("worker 1 stopped", "worker 2 stopped"))
        parts = SimpleNamespace(links={}, router=SimpleNamespace())
        keeper = SimpleNamespace(serve=lambda _router, changed, _seconds: changed())
        fresh = SimpleNamespace(router=SimpleNamespace(pid=7))
        handover = Handover(
            *(SimpleNamespace(begin_beside=lambda *_: fresh), parts, known, keeper),
            *(mock.Mock(), mock.Mock(changing=threading.Lock()), mock.Mock(left_out=0)),
            *(threading.Event(), lambda _router: None, lambda _why: None),
        )  # type: ignore[arg-type]

        def taken_over(*_: object) -> Prepared:
            known.stopped += ("worker 3 stopped",)
            return Prepared({}, {})

        known.told = lambda line: None
        with mock.patch.object(handover, "_taken_over", taken_over):
            handover.run(configuration(), dict)
        self.assertEqual((known.stopped, known.routerd), (("worker 3 stopped",), 7))

    def test_redistribution(self) -> None:
        old = configuration()
        it = self.fakes(old)
        some = Redistribution(((Owner.STATIC, Source()),))
        it.new = replace(old, redistribution=some)
        with mock.patch("leafrunt_host.reloading.redistributor_of") as made:
            said = ["redistribution: as it is configured now"]
            self.assertEqual(it.reloader.reload(), said)
            made.assert_called_once_with(some, old.table)
            self.assertEqual(it.did, [("redistribute", made.return_value)])
            made.side_effect = Stopped("the kernel can't be asked")
            it.new = old
            with self.assertRaises(Stopped):
                it.reloader.reload()
        self.assertEqual((len(it.did), it.known.configuration.redistribution), (1, some))

    def test_destinations_and_programs(self) -> None:
        old = configuration(programs=(Program(Path("/a.o"), "veto", "1"),))
        it = self.fakes(old)
        one = Announcement(IPv4Network("10.1.0.0/16"), 1, 2, 0)
        it.new = replace(old, announcements=(one,), programs=(Program(Path("/a.o"), "veto", "2"),))
        said = ["destinations: 1 new or changed, 0 withdrawn", "/a.o: attached veto bound 7"]
        self.assertEqual(it.reloader.reload(), said)
        self.assertEqual(it.did, [{Owner.CONFIGURATION: (one,)}, "attach /a.o", "again"])

    def test_a_program_that_routerd_refuses(self) -> None:
        """It was changed after it was checked: told, and tried again by the next reload."""
        old = configuration(programs=(Program(Path("/a.o"), "veto", "1"),))
        it = self.fakes(old)
        it.new = replace(old, programs=(Program(Path("/a.o"), "veto", "2"),))
        it.answer = "object refusal 3"
        for _ in range(2):
            with self.assertRaises(Stopped) as raised:
                it.reloader.reload()
            said = "/a.o: object refusal 3\nthe rest was taken over"
            self.assertEqual((str(raised.exception), raised.exception.status), (said, Status.FAILED))
        it.answer = "attached veto bound 9"
        self.assertEqual(it.reloader.reload(), ["/a.o: attached veto bound 9"])
        self.assertEqual(it.reloader.reload(), ["nothing differs"])

    def test_dry_run(self) -> None:
        """What would change, and nothing does."""
        one, two = configuration().interfaces
        it = self.fakes(configuration(one, two))
        self.assertEqual(it.reloader.dry_run(), ["nothing differs"])
        program = Program(Path("/a.o"), "veto", "1")
        it.new = configuration(replace(one, cost=20, keys=KEYS), two, programs=(program,), log_level="debug")
        said = [
            "eth1: cost 20 in place of 10",
            "another routerd takes over for that, and adjacencies stay",
            "eth1: keys 1, 2",
            "log_level: debug",
            "veto: /a.o",
        ]
        self.assertEqual(it.reloader.dry_run(), said)
        it.known.programs = {"veto": Attached("/b.o", 5, "root")}
        it.known.by_hand = {"veto"}
        self.assertIn("attached by hand stays", it.reloader.dry_run()[-1])
        self.assertEqual(it.did, [])
        it.new = replace(it.new, router_id=IPv4Address("9.9.9.9"))
        self.assertRaisesRegex(Stopped, "needs a new start", it.reloader.dry_run)

    def test_until_it_is_confirmed(self) -> None:
        """It stays if that comes in time; else what was before stands again."""
        one, two = configuration().interfaces
        old = configuration(one, two)
        new = configuration(one, two, log_level="debug")
        it = self.fakes(old)
        it.known.not_reloaded = it.known.unconfirmed = None
        self.assertEqual(it.reloader.reload_until_confirmed(60), ["nothing differs"])
        self.assertRaisesRegex(Stopped, "no reload waits", it.reloader.keep)
        it.new = new
        with mock.patch("leafrunt_host.reloading.set_level"):
            said = it.reloader.reload_until_confirmed(60)
            self.assertRegex(said[-1], r"^the last reload is taken back at \d{4}-")
            self.assertEqual(it.known.unconfirmed, said[-1])
            self.assertRaisesRegex(Stopped, "waits to be confirmed", it.reloader.reload)
            self.assertEqual(it.reloader.keep(), ["the reload is confirmed"])
            self.assertEqual(it.noted, [("box", "reload", None, "log_level: debug")])
            self.assertIsNone(it.known.unconfirmed)
            self.assertEqual(it.known.configuration.log_level, "debug")
            it.new = old
            it.reloader.reload()
            it.new = new
            with self.assertLogs("leafrunt.reload", "WARNING") as logged:
                it.reloader.reload_until_confirmed(0.05)
                it.reloader._taking_back.join(5)
        self.assertEqual(it.known.configuration.log_level, "info")
        self.assertIn("nobody confirmed the reload", logged.output[-1])
        self.assertIn("the file has another one", it.known.not_reloaded)
        self.assertEqual(it.reloader.dry_run(), ["log_level: debug"])

    def test_a_refused_one_is_remembered(self) -> None:
        """Until one is done: whoever looks at three in the morning has no other way to know."""
        one, two = configuration().interfaces
        it = self.fakes(configuration(one, two))
        it.known.not_reloaded = None

        def broken(_path: Path) -> Configuration:
            raise Stopped("one.toml: cost: found 0\none.toml: name: found 1", Status.REFUSED)

        read, it.reloader.read = it.reloader.read, broken
        with self.assertLogs("leafrunt.reload", "WARNING"), self.assertRaises(Stopped) as stopped:
            it.reloader.reload()
        self.assertEqual(stopped.exception.status, Status.REFUSED)
        said = r"^the last reload was refused at \d{4}-.*: one.toml: cost: found 0 \(and 1 more"
        self.assertRegex(it.known.not_reloaded, said)
        it.reloader.read = read
        it.reloader.reload()
        self.assertIsNone(it.known.not_reloaded)

    def test_what_a_new_routerd_gets(self) -> None:
        """The programs of the file as it is now, but those of the console where it has others; one
        that was detached there stays so while the file doesn't change."""
        one, two = configuration().interfaces
        files = {hook: Program(Path(f"/{hook}.o"), hook, "1") for hook in ("veto", "tag", "price")}
        it = self.fakes(configuration(one, two, programs=tuple(files.values())))
        it.known.programs = {"veto": Attached("/by/hand.o", 7, "root"), "tag": Attached("/tag.o", 7)}
        it.known.by_hand = frozenset({"veto"})
        files["veto"] = Program(Path("/other.o"), "veto", "1")
        files["count"] = Program(Path("/count.o"), "count", "1")
        others = replace(one, cost=20, keys=KEYS)
        it.new = configuration(others, two, programs=tuple(files.values()))
        said = ["eth1: cost 20 in place of 10", "eth1: keys 1, 2", "count: /count.o"]
        self.assertEqual(it.reloader.reload(), said)
        programs = {"veto": "/by/hand.o", "tag": "/tag.o", "count": "/count.o"}
        self.assertEqual(it.did, [("handover", programs)])
        self.assertEqual(it.reloader.reload(), ["nothing differs"])

    def test_a_handover_that_fails(self) -> None:
        one, two = configuration().interfaces
        old = configuration(one, replace(two, passive=True))
        it = self.fakes(old)
        it.new = configuration(replace(one, cost=20), two)

        def fails() -> None:
            raise Stopped("the new routerd isn't Full within 20 s")

        it.fails = fails
        with self.assertRaises(Stopped):
            it.reloader.reload()
        self.assertEqual((it.known.configuration, it.did), (old, []))
        self.assertEqual(self.room.claimed, set(claims_of(old)))

    def test_routerd_that_ends_meanwhile(self) -> None:
        old = configuration(programs=())
        it = self.fakes(old)
        it.new = replace(old, programs=(Program(Path("/a.o"), "veto", "2"),))

        def fails() -> None:
            raise RouterGone("routerd has ended")

        it.fails = fails
        for _ in range(2):
            with self.assertRaises(RouterGone):
                it.reloader.reload()


class Handing(unittest.TestCase):
    """The handover alone: whatever fails on the way, one `routerd` serves all, or the box ends and
    says why."""

    def setUp(self) -> None:
        self.ended: list[object] = []
        self.given_up: list[str] = []
        self.old, self.new = (mock.Mock(**{"status.return_value": None}) for _ in range(2))
        self.fresh = mock.Mock(router=self.new, udp={}, sinks={}, ports=[(1, 2), (3, 4)])
        self.fresh.close = lambda: self.ended.append(self.new)
        self.bridge = mock.Mock(work=SimpleNamespace(do=lambda act: act()))
        self.parts = mock.Mock(router=self.old, bridge=self.bridge, links={}, sinks={}, ports=[])
        self.known = mock.Mock(
            configuration=configuration(), stopped=(), neighbors={}, announced={}, programs={}
        )
        self.keeper, self.desk = mock.Mock(), mock.Mock(changing=threading.Lock())
        self.keeper.serve = mock.Mock(side_effect=self.serve)
        self.is_stuck, self.unowed = lambda: False, list[bytes]()
        self.announcements, self.ending = mock.Mock(), threading.Event()
        self.handover = Handover(
            *(mock.Mock(begin_beside=lambda *_: self.fresh), self.parts, self.known, self.keeper),
            *(self.announcements, self.desk, mock.Mock(left_out=0), self.ending),
            *(self.ended.append, self.given_up.append),
        )

    def serve(self, _router: object, changed: Callable[[], None], *_: float) -> None:
        if self.is_stuck():
            raise Stopped("no answer within 10 seconds: nothing more is done")
        changed()

    def run_it(self, *interfaces: InterfaceSettings) -> mock.Mock:
        """The rehearsal."""
        with mock.patch("leafrunt_host.handover.Rehearsal") as made:
            made.return_value = mock.Mock(numbers=set(), unowed=lambda: self.unowed)
            self.handover.run(configuration(*interfaces), dict)
            return made.return_value

    def assert_complete(self) -> None:
        """All go by the new one, and the old one has ended, once."""
        self.assertEqual((self.ended, self.given_up), ([self.old], []))
        self.assertIs(self.parts.router, self.new)
        self.assertEqual(self.known.routerd, self.new.pid)
        self.desk.serve.assert_called_once_with(self.new)
        self.announcements.started_anew.assert_called_once_with({})

    def test_all_of_it(self) -> None:
        self.run_it()
        self.keeper.serve.assert_called_once()
        self.assert_complete()

    def test_what_it_has_to_find(self) -> None:
        """All that the old one has, but where an interface is another one: nobody else may announce
        the network that it had, or what was behind it."""
        one, two = configuration().interfaces
        for other, is_to_find in (
            (replace(two, cost=20), True),
            (replace(two, passive=True), False),
            (settings("eth2", "10.0.9.1/24"), False),
            (settings("eth3", "10.0.2.1/24"), False),
        ):
            self.setUp()
            self.known.neighbors = {1: None}
            self.assertEqual(self.run_it(one, other).find.called, is_to_find, other)

    def test_what_nobody_would_owe(self) -> None:
        """The old one goes on, and owes it."""
        self.unowed = [bytes(9)]
        with self.assertRaisesRegex(Stopped, "a neighbor hasn't acknowledged 1 LSAs: try again"):
            self.run_it()
        self.assertEqual((self.ended, self.given_up), ([self.new], []))
        self.bridge.hand_over.assert_not_called()

    def test_a_look_that_waits_for_the_old_one(self) -> None:
        """That ends, and so does the look: the new one is served then."""
        self.is_stuck = lambda: self.old not in self.ended
        self.run_it()
        self.assertEqual(self.keeper.serve.call_count, 2)
        self.assert_complete()

    def test_a_keeper_that_does_not_follow(self) -> None:
        """The bridge serves the new one by then: there is no way back."""
        self.is_stuck = lambda: True
        for is_ending in (False, True):
            self.setUp() if is_ending else None
            self.is_stuck = lambda: True
            if is_ending:
                self.ending.set()
            with self.assertRaises(Stopped):
                self.run_it()
            self.assertEqual(self.ended, [self.old])
            self.assertEqual(len(self.given_up), 0 if is_ending else 1)
        self.assertIs(self.parts.router, self.new)

    def test_a_mistake_half_way(self) -> None:
        for where in ("hand_over", "send_of_router", "sessions"):
            with self.subTest(where):
                self.setUp()
                wrong = mock.Mock(side_effect=KeyError(7))
                if where == "sessions":
                    self.known.sessions.take_over = wrong
                else:
                    setattr(self.bridge, where, wrong)
                with self.assertRaises(KeyError):
                    self.run_it()
                self.assertEqual(len(self.given_up), 1)
                self.assertIn("KeyError: 7", self.given_up[0])
                left = {self.old, self.new} - {self.parts.router}
                self.assertEqual(set(self.ended), left)

    def test_what_is_refused_before(self) -> None:
        """The old one goes on as if nothing had been."""
        for what in ("an interface", "a new one that has ended"):
            with self.subTest(what):
                self.setUp()
                if what == "an interface":
                    self.bridge.hand_over.side_effect = CannotOpen("eth1: no raw socket")
                else:
                    self.new.status.return_value = 1
                with self.assertRaises(Stopped):
                    self.run_it()
                self.assertEqual((self.ended, self.given_up), ([self.new], []))
                self.assertIs(self.parts.router, self.old)
                self.keeper.serve.assert_not_called()


class Queues(unittest.TestCase):
    def test_work(self) -> None:
        """Done by whoever runs it, with what came of it; not once it's over."""
        queue, over = WorkQueue(), threading.Event()

        def runs() -> None:
            while not over.is_set():
                queue.run()
                time.sleep(0.01)
            queue.close()

        thread = threading.Thread(target=runs)
        thread.start()
        self.assertEqual(queue.do(lambda: threading.current_thread()), thread)
        with self.assertRaises(ValueError):
            queue.do(lambda: int("x"))
        over.set()
        thread.join()
        for _ in range(2):
            with self.assertRaisesRegex(Stopped, "the box is ending"):
                queue.do(lambda: 1)

    def test_work_that_was_begun(self) -> None:
        """It's waited for to its end, whatever that is."""
        for come_of_it in (7, TimeoutError("of the work itself")):
            queue, begun = WorkQueue(), threading.Event()

            def takes_long() -> int:
                begun.set()
                time.sleep(0.3)
                if isinstance(come_of_it, Exception):
                    raise come_of_it
                return come_of_it

            def runs() -> None:
                while not begun.is_set():
                    queue.run()

            thread = threading.Thread(target=runs)
            thread.start()
            if isinstance(come_of_it, Exception):
                with self.assertRaisesRegex(TimeoutError, "of the work itself"):
                    queue.do(takes_long, 0.1)
            else:
                self.assertEqual(queue.do(takes_long, 0.1), come_of_it)
            thread.join()

    def test_nobody_runs_it(self) -> None:
        queue, done = WorkQueue(), []
        with self.assertRaisesRegex(Stopped, "no answer within 0.05 seconds"):
            queue.do(lambda: done.append(1), 0.05)
        queue.run()
        self.assertEqual(done, [])


if __name__ == "__main__":
    unittest.main()
