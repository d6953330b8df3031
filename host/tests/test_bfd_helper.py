"""The process of BFD's sessions, and how a box holds it: by sockets of the loopback interface."""
from __future__ import annotations

import contextlib
import json
import logging
import os
import select
import signal
import socket
import threading
import time
import unittest
from collections.abc import Callable, Iterator
from dataclasses import dataclass, replace
from ipaddress import IPv4Address, IPv4Interface
from typing import Any
from unittest import mock

from leafrunt_host import bfd
from leafrunt_host.bfd import Neighbor, Sessions, change_of, report_of
from leafrunt_host.bfd_helper import (
    KEPT_SIZE,
    LARGEST_MESSAGE,
    OTHERS_AT_ONCE,
    REST,
    Helper,
    main,
    message_of,
    settings_of,
)
from leafrunt_host.bfd_packets import BfdKey, Bits, ControlPacket, KeyType, State, decode
from leafrunt_host.bfd_session import Settings, kept_of
from leafrunt_host.bfd_sockets import (
    CONTROL_PORT,
    FIRST_PORT,
    TTL,
    hearing_sockets,
    sending_socket,
)
from leafrunt_host.packet_filter import Bpf, assembled

THEIRS = 77
PATIENT = 200
"""A Detect Mult with which no session falls while a busy machine keeps a test waiting."""
EVERYTHING = assembled([], {"all": Bpf.ALL})
OWN_NETWORK = f"127.{100 + os.getpid() // 256 % 150}.{os.getpid() % 256}"
"""Another run of these tests on this machine has another one."""
HERE, THERE, STRANGER = (f"{OWN_NETWORK}.{at}" for at in (1, 2, 3))


@dataclass(frozen=True)
class Loopback:
    name: str = "lo"
    address: IPv4Interface = IPv4Interface(f"{HERE}/8")


def neighbor_socket(address: str = THERE, ttl: int = TTL) -> socket.socket:
    """A neighbor's: it hears at the usual port."""
    one = socket.socket(socket.AF_INET, socket.SOCK_DGRAM)
    one.setsockopt(socket.IPPROTO_IP, socket.IP_TTL, ttl)
    one.bind((address, CONTROL_PORT if address == THERE else 0))
    one.settimeout(5)
    return one


def packet(state: State, yours: int, multiplier: int = PATIENT) -> ControlPacket:
    bits = Bits.AUTHENTICATION
    return ControlPacket(state, multiplier, THEIRS, yours, 300_000, 300_000, bits=bits)


def said_by_neighbor(state: State, yours: int = 0, multiplier: int = PATIENT) -> bytes:
    return replace(packet(state, yours, multiplier), bits=Bits.NONE).encode()


class OneHelper:
    """A helper in this process, with one session."""

    def __init__(self, test: unittest.TestCase, settings: Settings = Settings()) -> None:
        self.box, self.own = socket.socketpair(socket.AF_UNIX, socket.SOCK_SEQPACKET)
        self.memory = os.memfd_create("test")
        self.neighbor = neighbor_socket()
        for each in (self.box.close, self.own.close, self.neighbor.close, self.end):
            test.addCleanup(each)
        test.addCleanup(os.close, self.memory)
        self.helper = Helper(self.own, self.memory)
        self.settings, self.discriminator = settings, 4242
        self.add()

    def end(self) -> None:
        """As if the process were killed."""
        for each in self.helper._ends.values():
            for one in (each.hears, each.hears_others, each.sends):
                one.close()

    def add(self, resumes: bool = False) -> None:
        place = Loopback()
        hear = hearing_sockets(place, IPv4Address(THERE), self.discriminator)
        sockets = [*hear, sending_socket(place)]
        said = {"do": "add", "number": 1, "neighbor": THERE, "resumes": resumes}
        said |= {"discriminator": self.discriminator, **message_of(self.settings)}
        files = [each.fileno() for each in sockets]
        socket.send_fds(self.box, [json.dumps(said).encode()], files)
        for each in sockets:
            each.close()
        self.helper.turn()
        self.helper.turn()

    def told(self) -> list[dict[str, Any]]:
        """What the box has been told since."""
        found = []
        try:
            while data := self.box.recv(8192, socket.MSG_DONTWAIT):
                found.append(json.loads(data))
        except BlockingIOError:
            pass
        return found

    def hear(self, state: State, multiplier: int = PATIENT) -> None:
        """The neighbor's packet comes."""
        said = said_by_neighbor(state, self.discriminator, multiplier)
        self.neighbor.sendto(said, (HERE, CONTROL_PORT))

    def come_up(self, multiplier: int = PATIENT) -> None:
        for state in (State.DOWN, State.INIT):
            self.hear(state, multiplier)
            self.helper.turn()

    @property
    def state(self) -> State:
        return self.helper._ends[1].session.variables.session_state


class InThisProcess(unittest.TestCase):
    def setUp(self) -> None:
        try:
            for each in hearing_sockets(Loopback(), IPv4Address(THERE), 1):
                each.close()
        except PermissionError as error:
            self.skipTest(f"no socket of one interface: {error}")

    def test_a_machine_that_stands_still(self) -> None:
        """After the look at the sockets: what has come since counts as come before the time that
        has ended meanwhile, and nothing else does."""
        it = OneHelper(self)
        it.come_up(multiplier=3)
        for later, is_heard, state in ((5, True, State.UP), (10, False, State.DOWN)):
            if is_heard:
                it.hear(State.UP, multiplier=3)
            with mock.patch.object(it.helper, "_clock", lambda: time.monotonic() + later):
                it.helper._act(1, it.helper._ends[1])
            self.assertIs(it.state, state)

    def test_up_and_told(self) -> None:
        it = OneHelper(self)
        data, (_, port) = it.neighbor.recvfrom(100)
        self.assertEqual(decode(data)[0].my_discriminator, it.discriminator)
        self.assertGreaterEqual(port, FIRST_PORT)
        it.come_up()
        changes = [each for each in it.told() if "before" in each]
        self.assertEqual([(each["before"], each["after"]) for each in changes], [(1, 2), (2, 3)])
        it.neighbor.sendto(said_by_neighbor(State.DOWN, it.discriminator), (HERE, CONTROL_PORT))
        it.helper.turn()
        change = next(each for each in it.told() if "before" in each)
        self.assertEqual(change_of(change)[:4], (State.UP, State.DOWN, 3, True))

    def test_packets_that_dont_count(self) -> None:
        """Of another source, over a router, of another session: none reaches the session."""
        for source, ttl, discriminator in ((STRANGER, TTL, 0), (THERE, 254, 0), (THERE, TTL, 9)):
            with self.subTest(source=source, ttl=ttl, discriminator=discriminator):
                it = OneHelper(self)
                it.come_up()
                it.neighbor.setsockopt(socket.IPPROTO_IP, socket.IP_TTL, ttl)
                with neighbor_socket(STRANGER) as stranger:
                    sender = stranger if source == STRANGER else it.neighbor
                    data = said_by_neighbor(State.DOWN, discriminator)
                    sender.sendto(data, (HERE, CONTROL_PORT))
                it.helper.turn()
                self.assertEqual(it.state, State.UP)
                it.helper._remove(1, is_told=False)
                it.neighbor.close()

    def test_the_filter_is_not_alone(self) -> None:
        """Where the kernel would let such a packet through the process doesn't."""
        with mock.patch("leafrunt_host.bfd_sockets.control_filter", return_value=EVERYTHING):
            it = OneHelper(self)
        it.come_up()
        it.neighbor.setsockopt(socket.IPPROTO_IP, socket.IP_TTL, 254)
        data = said_by_neighbor(State.DOWN, it.discriminator)
        it.neighbor.sendto(data, (HERE, CONTROL_PORT))
        it.helper.turn()
        with neighbor_socket(STRANGER) as stranger:
            stranger.sendto(data, (HERE, CONTROL_PORT))
            it.helper.turn()
        self.assertEqual(it.state, State.UP)
        counted = {why.name: count for why, count in it.helper._ends[1].session.discarded.items()}
        self.assertEqual(counted, {"TTL": 1, "SOURCE": 1})

    def test_a_flood_without_the_discriminator(self) -> None:
        """It keeps none of the session's own packets waiting."""
        key = BfdKey(1, KeyType.METICULOUS_KEYED_SHA1, b"secret")
        it = OneHelper(self, Settings(keys=(key,)))
        forged = replace(key, secret=b"forged").signed(packet(State.DOWN, 0), 1)
        for _ in range(200):
            it.neighbor.sendto(forged, (HERE, CONTROL_PORT))
        good = key.signed(packet(State.DOWN, it.discriminator), 1)
        it.neighbor.sendto(good, (HERE, CONTROL_PORT))
        it.helper.turn()
        self.assertEqual(it.state, State.INIT)
        self.assertEqual(it.helper._ends[1].session.discarded.total(), OTHERS_AT_ONCE)

    def test_a_flood_leaves_time(self) -> None:
        it = OneHelper(self)
        it.come_up()
        for _ in range(40):
            it.neighbor.sendto(said_by_neighbor(State.UP, it.discriminator), (HERE, CONTROL_PORT))
        now = time.monotonic()
        with mock.patch.object(it.helper, "_clock", return_value=now):
            it.helper.turn()
            with mock.patch("time.sleep") as sleep:
                it.helper.turn()
        sleep.assert_called_once()
        self.assertAlmostEqual(sleep.call_args.args[0], REST)
        self.assertEqual(it.state, State.UP)

    def test_removed(self) -> None:
        """The neighbor is told that the path hasn't failed, and nothing is kept."""
        it = OneHelper(self)
        it.come_up()
        it.neighbor.settimeout(0.2)
        it.box.send(json.dumps({"do": "remove", "number": 1}).encode())
        self.assertTrue(it.helper.turn())
        states = []
        try:
            while True:
                states.append(decode(it.neighbor.recv(100))[0].state)
        except TimeoutError:
            pass
        self.assertEqual(states[-3:], [State.ADMIN_DOWN] * 3)
        self.assertEqual(os.pread(it.memory, KEPT_SIZE, KEPT_SIZE).strip(b"\0"), b"")
        it.box.close()
        self.assertFalse(it.helper.turn())

    def test_goes_on(self) -> None:
        it = OneHelper(self)
        it.come_up()
        before = kept_of(os.pread(it.memory, KEPT_SIZE, KEPT_SIZE))
        self.assertEqual(before.session_state, State.UP)
        it.end()
        it.helper = Helper(it.own, it.memory)
        it.add(resumes=True)
        self.assertEqual(it.state, State.UP)
        self.assertEqual(it.helper._ends[1].session.variables.remote_discr, THEIRS)
        it.end()
        it.helper, it.discriminator = Helper(it.own, it.memory), 4243
        it.add(resumes=True)
        self.assertEqual(it.state, State.DOWN)

    def test_a_box_that_is_behind(self) -> None:
        """A loss that couldn't be told is told later."""
        it = OneHelper(self)
        it.come_up()
        with mock.patch.object(Helper, "_say", return_value=False):
            it.neighbor.sendto(said_by_neighbor(State.DOWN), (HERE, CONTROL_PORT))
            it.helper.turn()
        it.told()
        it.neighbor.sendto(said_by_neighbor(State.DOWN), (HERE, CONTROL_PORT))
        it.helper.turn()
        changes = [each for each in it.told() if "before" in each]
        self.assertEqual([each["is_lost"] for each in changes], [True, False])

    def test_messages(self) -> None:
        key = BfdKey(3, KeyType.METICULOUS_KEYED_SHA1, b"\xffsecret")
        for settings in (Settings(), Settings(50_000, 70_000, 9, (key,))):
            self.assertEqual(settings_of(json.loads(json.dumps(message_of(settings)))), settings)
        keys = tuple(replace(key, id=number, secret=b"\xff" * 20) for number in range(256))
        self.assertLess(len(json.dumps(message_of(Settings(keys=keys)))) + 200, LARGEST_MESSAGE)
        for said in ({}, {"before": 1, "after": 9, "remote": 1, "diagnostic": 0, "is_lost": True}):
            with self.subTest(said), self.assertRaises((KeyError, ValueError)):
                change_of(said)
        with self.assertRaises((KeyError, ValueError)):
            report_of({"diagnostic": "1"})


class Begun(unittest.TestCase):
    def test_a_box_that_is_gone(self) -> None:
        """A process that is begun as its box ends does so too, without a word."""
        own, other = socket.socketpair(socket.AF_UNIX, socket.SOCK_SEQPACKET)
        own.close()
        memory = os.memfd_create("test")
        self.addCleanup(os.close, memory)
        with mock.patch.multiple(
            "leafrunt_host.bfd_helper",
            take_class=lambda: "",
            give_up_privileges=lambda _user: None,
            gc=mock.Mock(),
            signal=mock.Mock(),
            Path=mock.Mock(),
        ):
            self.assertEqual(main([str(other.detach()), str(memory), "0"]), 1)


class StandInBridge:
    """What a box's bridge does for it."""

    def __init__(self) -> None:
        self.waiting: dict[int, Callable[[], None]] = {}

    def follow(self, file: socket.socket, act: Callable[[], None]) -> None:
        self.waiting[file.fileno()] = act

    def leave(self, file: socket.socket) -> None:
        del self.waiting[file.fileno()]

    def turn(self) -> None:
        ready, _, _ = select.select(list(self.waiting), [], [], 0.02)
        for each in ready:
            self.waiting[each]()


class AsAProcess(unittest.TestCase):
    def setUp(self) -> None:
        logging.disable(logging.CRITICAL)
        self.addCleanup(logging.disable, logging.NOTSET)
        self.neighbor = neighbor_socket()
        self.addCleanup(self.neighbor.close)
        self.bridge, self.lost = StandInBridge(), list[int]()
        self.sessions = Sessions(
            "test", {1: Loopback()}, {1: Settings()}, self.bridge, self.lost.append
        )
        self.addCleanup(self.sessions.close)
        self.sessions.tick()

    def until(self, succeeds: Callable[[], object], seconds: float = 20) -> None:
        end = time.monotonic() + seconds
        while not succeeds():
            self.assertLess(time.monotonic(), end, "not in time")
            self.bridge.turn()
            self.sessions.tick()

    def state(self) -> str | None:
        said = self.sessions.report(1)
        return said["state"] if said else None

    def diagnostic(self) -> str | None:
        said = self.sessions.report(1)
        return said["diagnostic"] if said else None

    def come_up(self, multiplier: int = PATIENT) -> int:
        """The session is Up; its discriminator."""
        self.sessions.follow(1, Neighbor(IPv4Address(THERE), 1), is_two_way=True)
        self.until(lambda: self.state() == "Down")
        mine = self.sessions._held[1].discriminator
        for state in (State.DOWN, State.INIT):
            data = said_by_neighbor(state, mine, multiplier)
            self.neighbor.sendto(data, (HERE, CONTROL_PORT))
        self.until(lambda: self.state() == "Up" or self.lost)
        return mine

    def test_a_loss_is_told_once(self) -> None:
        self.sessions.follow(1, Neighbor(IPv4Address(THERE), 1), is_two_way=False)
        self.assertIsNone(self.state())
        self.assertFalse(self.sessions.is_cut(1))
        self.come_up(multiplier=3)
        self.until(lambda: self.lost)
        self.assertTrue(self.sessions.is_cut(1))
        self.sessions.is_known(1)
        self.assertFalse(self.sessions.is_cut(1))
        # (the process tells of the loss before its next report says why)
        self.until(lambda: self.diagnostic() == "control detection time expired")
        self.sessions.follow(1, None, is_two_way=False)
        self.assertIsNone(self.state())
        self.assertEqual(self.lost, [1])

    def test_the_neighbors_wish_is_no_loss(self) -> None:
        mine = self.come_up()
        self.neighbor.sendto(said_by_neighbor(State.ADMIN_DOWN, mine), (HERE, CONTROL_PORT))
        self.until(lambda: self.state() == "Down")
        self.assertEqual(self.lost, [])

    def test_a_process_that_is_killed(self) -> None:
        """The next one goes on; where several are killed the neighbor is told. None is lost."""
        with mock.patch.object(bfd, "MOST_ENDS", 2):
            mine = self.come_up()
            helper = self.sessions._helper
            assert helper
            os.kill(helper._ran.pid, signal.SIGKILL)
            self.until(lambda: self.sessions._helper not in (helper, None))
            while decode(self.neighbor.recv(100))[0].state != State.UP:
                pass
        self.until(lambda: self.state() == "Up")
        self.neighbor.sendto(said_by_neighbor(State.UP, mine), (HERE, CONTROL_PORT))
        helper = self.sessions._helper
        assert helper
        os.kill(helper._ran.pid, signal.SIGKILL)
        with mock.patch.object(bfd, "MOST_ENDS", 2):
            self.until(lambda: self.sessions._helper is None)
        self.assertEqual(self.state(), "AdminDown")
        while decode(self.neighbor.recv(100))[0].state != State.ADMIN_DOWN:
            pass
        self.assertEqual(self.lost, [])
        self.until(lambda: self.state() == "Down")

    def standing_by(self) -> bfd.Helper:
        """The process that stands by, once it has said that it started."""
        self.until(lambda: self.sessions._standby and self.sessions._standby.started)
        assert self.sessions._standby
        return self.sessions._standby

    def test_one_stands_by(self) -> None:
        """A process that ends is followed by the one that stood by then, and that by another."""
        self.come_up()
        helper, standby = self.sessions._helper, self.standing_by()
        assert helper
        os.kill(helper._ran.pid, signal.SIGKILL)
        self.until(lambda: self.sessions._helper is not helper)
        self.assertIs(self.sessions._helper, standby)
        self.assertIsNot(self.standing_by(), standby)
        self.assertEqual((self.state(), self.lost), ("Up", []))

    def test_both_are_killed(self) -> None:
        """Then a third goes on with the sessions."""
        self.come_up()
        both = (self.sessions._helper, self.standing_by())
        for each in both:
            assert each
            os.kill(each._ran.pid, signal.SIGKILL)
        self.until(lambda: self.sessions._helper not in (*both, None))
        self.assertIsNot(self.standing_by(), both[1])
        said = self.sessions.report(1)
        assert said
        self.assertEqual((said["state"], said["error"], self.lost), ("Up", None, []))

    def test_the_one_that_stands_by_is_killed_first(self) -> None:
        """Once the other one is killed too, and a third goes on, another stands by at once."""
        self.come_up()
        first, standby = self.sessions._helper, self.standing_by()
        assert first
        os.kill(standby._ran.pid, signal.SIGKILL)
        self.until(lambda: self.sessions._standby is None)
        os.kill(first._ran.pid, signal.SIGKILL)
        self.until(lambda: self.sessions._helper not in (first, None))
        self.assertIsNot(self.standing_by(), standby)
        self.assertEqual((self.state(), self.lost), ("Up", []))

    @unittest.skipIf(os.geteuid(), "this needs root")
    def test_each_process_is_a_user_of_its_own(self) -> None:
        helper, standby = self.sessions._helper, self.standing_by()
        assert helper
        users = [self.user_of(each._ran.pid) for each in (helper, standby)]
        self.assertEqual(len({*users, "0"}), 3, users)

    def user_of(self, process: int) -> str:
        return next(
            line.split()[1] for line in self.status_of(process).splitlines() if line.startswith("Uid:")
        )

    def test_one_that_stands_by_is_killed(self) -> None:
        """That changes nothing, and after a while another stands by."""
        self.come_up()
        helper, standby = self.sessions._helper, self.standing_by()
        os.kill(standby._ran.pid, signal.SIGKILL)
        self.until(lambda: self.sessions._standby is None)
        self.sessions.tick()
        self.assertIsNone(self.sessions._standby)
        self.sessions._stands_by_again = 0.0
        self.assertIsNot(self.standing_by(), standby)
        self.assertIs(self.sessions._helper, helper)
        self.assertEqual((self.state(), self.lost), ("Up", []))

    def test_a_process_without_privileges(self) -> None:
        helper = self.sessions._helper
        assert helper
        self.until(lambda: "leafrunt-bfd" in self.status_of(helper._ran.pid))
        self.until(lambda: "NoNewPrivs:\t1" in self.status_of(helper._ran.pid))
        self.assertIn("CapEff:\t0000000000000000", self.status_of(helper._ran.pid))
        self.until(lambda: "Seccomp:\t2" in self.status_of(helper._ran.pid))
        if os.geteuid() == 0:
            self.assertNotIn("Uid:\t0", self.status_of(helper._ran.pid))

    @staticmethod
    def status_of(process: int) -> str:
        with open(f"/proc/{process}/status", encoding="ascii") as it:
            return it.read()

    def test_other_settings(self) -> None:
        """A session goes on with them; one that isn't asked for any more ends."""
        mine = self.come_up()
        places = self.sessions._places
        self.sessions.take_over({1: Settings(600_000, 600_000, 200)}, places)
        while decode(self.neighbor.recv(100))[0].detect_mult != 200:
            pass
        self.neighbor.sendto(said_by_neighbor(State.UP, mine), (HERE, CONTROL_PORT))
        self.bridge.turn()
        self.assertEqual((self.state(), self.lost), ("Up", []))
        self.sessions.take_over({}, places)
        while decode(self.neighbor.recv(100))[0].state != State.ADMIN_DOWN:
            pass
        self.assertIsNone(self.state())
        self.sessions.follow(1, Neighbor(IPv4Address(THERE), 1), is_two_way=True)
        self.assertIsNone(self.state())

    @contextlib.contextmanager
    def behind(self) -> Iterator[None]:
        """The process stands still meanwhile, and its socket has no room."""
        helper = self.sessions._helper
        assert helper
        os.kill(helper._ran.pid, signal.SIGSTOP)
        try:
            with self.assertRaises(BlockingIOError):
                while True:
                    helper.say({"do": "remove", "number": 99})
            yield
        finally:
            os.kill(helper._ran.pid, signal.SIGCONT)

    def heard(self, seconds: float = 2.5) -> list[ControlPacket]:
        """What the neighbor hears in that time."""
        found, end = list[ControlPacket](), time.monotonic() + seconds
        while (left := end - time.monotonic()) > 0:
            if select.select([self.neighbor], [], [], left)[0]:
                found.append(decode(self.neighbor.recv(100))[0])
        return found

    def test_other_settings_of_a_process_that_is_behind(self) -> None:
        """It's told of them once it goes on, and so is one that is begun for another neighbor."""
        mine, places = self.come_up(), self.sessions._places
        with self.behind():
            for multiplier in (150, 200):
                self.sessions.take_over({1: Settings(600_000, 600_000, multiplier)}, places)
                self.sessions.tick()
        self.until(lambda: decode(self.neighbor.recv(100))[0].detect_mult == 200)
        self.assertEqual((self.state(), self.sessions._held[1].discriminator), ("Up", mine))
        with self.behind():
            self.sessions.follow(1, Neighbor(IPv4Address(STRANGER), 1), is_two_way=True)
            self.sessions.tick()
        self.until(lambda: self.state() == "Down", 8)
        said = self.sessions.report(1)
        assert said
        self.assertEqual((said["neighbor"], said["error"], self.lost), (STRANGER, None, []))

    def test_what_a_process_that_is_behind_is_to_end(self) -> None:
        """It ends it once it goes on; the neighbor is told of that at once."""
        mine, places = self.come_up(), self.sessions._places
        with self.behind():
            self.sessions.take_over({}, places)
            self.sessions.tick()
            while decode(self.neighbor.recv(100))[0].state != State.ADMIN_DOWN:
                pass
            self.sessions.take_over({1: Settings()}, places)
            self.sessions.follow(1, Neighbor(IPv4Address(THERE), 1), is_two_way=True)
        self.until(lambda: self.state() == "Down", 8)
        others = [each for each in self.heard() if each.state != State.ADMIN_DOWN]
        self.assertNotEqual(others[-1].my_discriminator, mine, others)
        self.assertEqual(self.lost, [])

    def test_the_end_of_a_process_that_is_behind(self) -> None:
        self.come_up()
        self.addCleanup(lambda: setattr(self.sessions, "_memory", os.memfd_create("test")))
        with self.behind():
            ends = threading.Thread(target=self.sessions.close)
            ends.start()
            time.sleep(0.3)
        ends.join()
        self.assertIn(State.ADMIN_DOWN, [each.state for each in self.heard()])

    def test_a_process_that_ends_before_it_is_told(self) -> None:
        """The next one has the settings of now, and nothing of a session that has ended."""
        mine, places = self.come_up(), self.sessions._places
        standby, settings = self.standing_by(), {1: Settings(600_000, 600_000, 200)}
        with self.behind():
            helper = self.sessions._helper
            assert helper
            os.kill(helper._ran.pid, signal.SIGKILL)
            self.sessions.take_over(settings, places)
        self.until(lambda: self.sessions._helper is standby)
        self.until(lambda: decode(self.neighbor.recv(100))[0].detect_mult == 200)
        self.assertEqual(self.sessions._held[1].discriminator, mine)
        self.neighbor.sendto(said_by_neighbor(State.UP, mine), (HERE, CONTROL_PORT))
        standby = self.standing_by()
        with self.behind():
            helper = self.sessions._helper
            assert helper
            os.kill(helper._ran.pid, signal.SIGKILL)
            self.sessions.take_over({}, places)
        self.until(lambda: self.sessions._helper is standby)
        self.assertEqual(self.heard()[-1].state, State.ADMIN_DOWN)
        self.assertEqual((self.sessions.report(1), self.lost), (None, []))

    def test_another_number(self) -> None:
        """As after a reload with an interface less before it: a session goes on, and its neighbor
        notices nothing."""
        mine = self.come_up()
        two, other = {2: Settings(), 3: Settings()}, Loopback("none", IPv4Interface("10.0.9.1/24"))
        self.sessions.take_over(two, {1: Loopback("eth8"), 2: other, 3: Loopback()})
        self.sessions.follow(2, Neighbor(IPv4Address("10.0.9.2"), 7), is_two_way=True)
        self.sessions.follow(3, Neighbor(IPv4Address(THERE), 1), is_two_way=True)
        self.assertIsNone(self.state())
        self.assertEqual(self.sessions._held[3].discriminator, mine)
        self.neighbor.sendto(said_by_neighbor(State.UP, mine), (HERE, CONTROL_PORT))
        self.sessions.take_over({1: Settings(600_000, 600_000, 99)}, {1: Loopback()})
        while (said := decode(self.neighbor.recv(100))[0]).detect_mult != 99:
            self.assertNotEqual(said.state, State.ADMIN_DOWN)
        self.assertEqual((said.my_discriminator, said.state), (mine, State.UP))
        self.neighbor.sendto(said_by_neighbor(State.DOWN, mine), (HERE, CONTROL_PORT))
        self.until(lambda: self.lost)
        self.assertEqual((self.lost, self.sessions.is_cut(1)), ([1], True))
        self.sessions.take_over({2: Settings()}, {2: Loopback()})
        self.assertEqual([self.sessions.is_cut(number) for number in (1, 2)], [False, True])

    def test_another_address(self) -> None:
        """A session's sockets are bound to the interface's: it begins anew, with others."""
        self.come_up()
        before, there = self.sessions._held[1], Neighbor(IPv4Address(THERE), 1)
        longer = Loopback(address=IPv4Interface(f"{HERE}/9"))
        self.sessions.take_over(self.sessions.settings, {1: longer})
        self.sessions.follow(1, there, is_two_way=True)
        self.assertIs(self.sessions._held[1], before)
        self.sessions.take_over(
            self.sessions.settings, {1: Loopback(address=IPv4Interface(f"{OWN_NETWORK}.4/8"))}
        )
        self.sessions.follow(1, there, is_two_way=True)
        hears, *_ = self.sessions._held[1].sockets
        self.assertEqual(hears.getsockname(), (f"{OWN_NETWORK}.4", CONTROL_PORT))
        self.assertEqual(before.sockets, ())

    def test_messages_that_are_none(self) -> None:
        """They end nothing."""
        mine = self.come_up()
        helper = self.sessions._helper
        assert helper
        for said in (
            b"no JSON",
            b"[]",
            b"{}",
            b'{"number": 1}',
            b'{"number": 9, "discriminator": 1}',
            b'{"started": "x", "class": ""}',
            b'{"failed": 5}',
            json.dumps({"number": 1, "discriminator": mine, "before": 9}).encode(),
            json.dumps({"number": 1, "discriminator": mine, "state": 3}).encode(),
        ):
            with mock.patch.object(socket.socket, "recv", side_effect=[said, BlockingIOError]):
                self.sessions._read()
        self.assertEqual(self.state(), "Up")
        self.assertEqual(self.lost, [])

    def test_messages_without_an_end(self) -> None:
        """Of a process that was taken over: they keep the bridge from nothing, and fill no log."""
        logging.disable(logging.NOTSET)
        self.until(lambda: self.sessions._standby)
        for read in (self.sessions._read, self.sessions._read_standby):
            for said in (b'{"failed": "x"}', b'{"started": 1, "class": "x"}', b'{"number": 9}'):
                heard = mock.Mock(side_effect=[said] * 9999 + [BlockingIOError])
                with mock.patch.object(socket.socket, "recv", heard):
                    with self.assertLogs("leafrunt.bfd") as told:
                        bfd.log.warning("(one line at least)")
                        read()
                self.assertLess(heard.call_count, 1000)
                self.assertLess(len(told.output), 30)

    def test_a_port_that_another_has(self) -> None:
        with mock.patch.object(bfd, "hearing_sockets", side_effect=OSError(98, "Address in use")):
            self.sessions.follow(1, Neighbor(IPv4Address(THERE), 1), is_two_way=True)
        said = self.sessions.report(1)
        assert said
        self.assertIn("Address in use", said["error"])
        with mock.patch.object(bfd, "OPENED_AGAIN", 0.0):
            self.until(lambda: self.state() == "Down")


if __name__ == "__main__":
    unittest.main()
