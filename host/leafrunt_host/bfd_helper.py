"""The process that speaks BFD: it alone has the times of the sessions, so that nothing else that a
box does keeps a packet waiting.

The box starts it as root and gives it one end of a socket pair. Before it reads anything it takes a
real-time class (sched(7)) and gives up all privileges. Sockets and sessions come from the box over
that socket, and what changes goes back, each message a value in JSON. When the box is gone it ends.
"""
from __future__ import annotations

import contextlib
import ctypes
import gc
import json
import os
import resource
import select
import signal
import socket
import struct
import sys
import time
from collections.abc import Callable
from dataclasses import dataclass
from ipaddress import IPv4Address
from pathlib import Path
from typing import Any

from leafrunt_host.bfd_packets import BfdKey, KeyType, State, Why
from leafrunt_host.bfd_session import Session, Settings, kept, kept_of
from leafrunt_host.bfd_sockets import CONTROL_PORT, TTL
from leafrunt_host.confined import confine
from leafrunt_host.isolation import (
    CLONE_NEWNET,
    PR_CAP_AMBIENT,
    PR_CAP_AMBIENT_CLEAR_ALL,
    PR_SET_NO_NEW_PRIVS,
    libc_call,
)
from leafrunt_host.journal import where_it_failed

PRIORITY = 10
"""Of the real-time class, 1 to 99: above nothing that the kernel's own threads need."""
LARGEST = 512
LARGEST_MESSAGE = 32_768
"""Bytes: with each of 256 keys a session's settings have some 20,000."""
AT_ONCE, OTHERS_AT_ONCE = 32, 8
"""Packets of a session that are taken in one turn, and of those without its discriminator."""
REST = 0.002
"""Seconds without a look at the sockets after a turn with this many: a flood takes a quarter of a
processor at most, and not all of it by the real-time class."""
KEPT_SIZE = 1024
"""Bytes for the variables of a session in the file from which, if this process ends, the next goes
on."""
TOLD_EACH = 1.0
"""Seconds between two messages on a session that tell of counters alone."""
FAREWELLS = 3
SECONDS_OF_PROCESSOR = 1
"""After so long without a wait a real-time process is killed by the kernel (RLIMIT_RTTIME)."""
LINUX_CAPABILITY_VERSION_3 = 0x20080522  # <linux/capability.h>
ADDRESS_SPACE = 512 << 20
MOST_FILES = 256


@dataclass
class Ends:
    """A session with its sockets: one for packets that have its discriminator, one for those that
    have none, one that it sends by."""

    session: Session
    neighbor: str
    discriminator: int
    hears: socket.socket
    hears_others: socket.socket
    sends: socket.socket
    told: dict[str, Any] | None = None
    counted: float = 0.0
    late: float = 0.0
    """By how many seconds something was done too late, at most."""


def ttl_of(ancillary: list[tuple[int, int, bytes]]) -> int:
    """The TTL that a packet came with, by IP_RECVTTL (ip(7)); 0 if the kernel doesn't say it."""
    for level, kind, data in ancillary:
        if (level, kind) == (socket.IPPROTO_IP, socket.IP_TTL) and len(data) == 4:
            return int.from_bytes(data, sys.byteorder)
    return 0


def settings_of(said: dict[str, Any]) -> Settings:
    """A session's settings from a message."""
    keys = tuple(
        BfdKey(number, KeyType(kind), bytes.fromhex(secret))
        for number, kind, secret in said["keys"]
    )
    return Settings(said["transmit"], said["receive"], said["multiplier"], keys)


def message_of(settings: Settings) -> dict[str, Any]:
    """The same as a message."""
    keys = [(each.id, each.type.value, each.secret.hex()) for each in settings.keys]
    return {
        "transmit": settings.transmit_interval,
        "receive": settings.receive_interval,
        "multiplier": settings.detect_mult,
        "keys": keys,
    }


class Helper:
    """All sessions, and the wait for them."""

    def __init__(
        self, box: socket.socket, memory: int, clock: Callable[[], float] = time.monotonic
    ) -> None:
        """`memory` is the file that outlives this process."""
        self._box, self._memory, self._clock = box, memory, clock
        self._ends: dict[int, Ends] = {}
        self._kept: dict[int, bytes] = {}
        self._waiting = select.poll()
        self._waiting.register(box.fileno(), select.POLLIN)
        self._rests_until = 0.0

    def turn(self) -> bool:
        """Waits until something comes or is due, and does it; False once the box is gone."""
        now = self._clock()
        dues = {number: each.session.due for number, each in self._ends.items()}
        due = min(dues.values(), default=now + 1.0)
        if now < self._rests_until:
            time.sleep(max(0.0, min(due, self._rests_until) - now))
            ready = {file for file, _ in self._waiting.poll(0)}
        else:
            ready = {file for file, _ in self._waiting.poll(max(0.0, min(due - now, 1.0)) * 1000)}
        # (what has come counts as come before a time that has ended meanwhile)
        for ends in self._ends.values():
            if ends.hears.fileno() in ready:
                self._take(ends, ends.hears, AT_ONCE)
            if ends.hears_others.fileno() in ready:
                self._take(ends, ends.hears_others, OTHERS_AT_ONCE)
        for number, ends in self._ends.items():
            ends.late = max(ends.late, self._clock() - dues[number])
            self._act(number, ends)
        return self._box.fileno() not in ready or self._obey()

    def _take(self, ends: Ends, one: socket.socket, most: int) -> None:
        for _ in range(most):
            try:
                data, ancillary, _, source = one.recvmsg(LARGEST, 64)
            except OSError:
                return
            if source[0] != ends.neighbor:
                ends.session.discarded[Why.SOURCE] += 1
            elif ttl_of(ancillary) != TTL:
                ends.session.discarded[Why.TTL] += 1
            else:
                ends.session.received(data, self._clock())
        self._rests_until = self._clock() + REST

    def _act(self, number: int, ends: Ends) -> None:
        session, now = ends.session, self._clock()
        if session.is_over(now):
            # (the machine may have stood still since the look at the sockets, above all in a flood)
            self._take(ends, ends.hears, AT_ONCE)
        sent = session.act(now)
        # (first: a sequence number may be left out, and none may be used twice)
        self._keep(number, kept(session.variables))
        for data in sent:
            self._send(ends, data)
        self._tell(number, ends, now)

    @staticmethod
    def _send(ends: Ends, data: bytes) -> None:
        """Sends; what can't be sent now is lost, as on the wire."""
        try:
            ends.sends.sendto(data, (ends.neighbor, CONTROL_PORT))
        except OSError:
            pass

    def _keep(self, number: int, data: bytes) -> None:
        if self._kept.get(number) != data:
            self._kept[number] = data
            os.pwrite(self._memory, data, number * KEPT_SIZE)

    def _tell(self, number: int, ends: Ends, now: float) -> None:
        """Tells the box each change of state, and what else is new of the session."""
        them, changes = ends.session.variables, ends.session.changes
        while changes and self._say(
            number=number,
            discriminator=ends.discriminator,
            before=changes[0].before,
            after=changes[0].after,
            diagnostic=changes[0].diagnostic,
            is_lost=changes[0].is_lost,
            remote=them.remote_session_state,
        ):
            changes.pop(0)
        said = {
            "number": number,
            "discriminator": ends.discriminator,
            "state": them.session_state,
            "remote_state": them.remote_session_state,
            "diagnostic": them.local_diag,
            "remote_diagnostic": them.remote_diag,
            "detection_time": ends.session.detection_time,
            "transmit_interval": ends.session.transmit_interval,
        }
        counted = {each.value: count for each, count in ends.session.discarded.items()}
        whole = {**said, "discarded": counted, "late": int(ends.late * 1_000_000)}
        if ends.told is None or {**ends.told, **said} != ends.told:
            is_news = True
        else:
            is_news = whole != ends.told and now - ends.counted >= TOLD_EACH
        if is_news and self._say(**whole):
            ends.told, ends.counted = whole, now

    def _say(self, **said: object) -> bool:
        """Tells the box; False if it's gone, or so far behind that it's to be told later."""
        try:
            self._box.send(json.dumps(said).encode(), socket.MSG_DONTWAIT)
        except OSError:
            return False
        return True

    # -- what the box wants

    def _obey(self) -> bool:
        try:
            data, files, _, _ = socket.recv_fds(self._box, LARGEST_MESSAGE, 3)
        except OSError:
            data, files = b"", []
        if not data:
            return False
        said = json.loads(data)
        if said["do"] == "add":
            self._remove(said["number"], is_told=False)
            self._add(said, [socket.socket(fileno=each) for each in files])
        elif said["do"] == "change":
            if ends := self._ends.get(said["number"]):
                ends.session.change(settings_of(said))
                self._act(said["number"], ends)
        elif said["do"] == "remove":
            self._remove(said["number"], is_told=True)
        else:
            for number in list(self._ends):
                self._remove(number, is_told=True)
            return False
        return True

    def _add(self, said: dict[str, Any], sockets: list[socket.socket]) -> None:
        number, now = said["number"], self._clock()
        session = Session(settings_of(said), said["discriminator"], now)
        if said["resumes"]:
            before = os.pread(self._memory, KEPT_SIZE, number * KEPT_SIZE)
            with contextlib.suppress(ValueError):
                session.resume(kept_of(before), now)
        neighbor = str(IPv4Address(said["neighbor"]))
        self._ends[number] = ends = Ends(session, neighbor, said["discriminator"], *sockets)
        for each in (ends.hears, ends.hears_others):
            self._waiting.register(each.fileno(), select.POLLIN)

    def _remove(self, number: int, is_told: bool) -> None:
        """Ends a session; the neighbor may be told, and then knows that the path hasn't failed."""
        ends = self._ends.pop(number, None)
        if ends is None:
            return
        for each in (ends.hears, ends.hears_others):
            self._waiting.unregister(each.fileno())
        self._keep(number, bytes(KEPT_SIZE))
        has_neighbor = ends.session.variables.remote_discr != 0
        for _ in range(FAREWELLS if is_told and has_neighbor else 0):
            them = ends.session.variables
            self._send(ends, ends.session.farewell())
            them.xmit_auth_seq = (them.xmit_auth_seq + 1) & 0xFFFFFFFF
        for each in (ends.hears, ends.hears_others, ends.sends):
            each.close()


def take_class() -> str:
    """Takes a real-time class; what kept it from that, empty if nothing did."""
    try:
        limits = (SECONDS_OF_PROCESSOR * 1_000_000, SECONDS_OF_PROCESSOR * 1_000_000)
        resource.setrlimit(resource.RLIMIT_RTTIME, limits)
        os.sched_setscheduler(0, os.SCHED_RR, os.sched_param(PRIORITY))
        return ""
    except OSError as error:
        why = str(error.strerror)
    try:
        os.setpriority(os.PRIO_PROCESS, 0, -20)
    except OSError:
        pass  # it runs like any other
    return why


def drop_capabilities() -> None:
    """Those that a box that isn't root was given (capset(2))."""
    header = struct.pack("Ii", LINUX_CAPABILITY_VERSION_3, 0)
    if ctypes.CDLL(None, use_errno=True).capset(header, bytes(24)):
        number = ctypes.get_errno()
        raise OSError(number, os.strerror(number))


def give_up_privileges(user: int) -> None:
    """Becomes a user that nobody else is, in a network namespace with nothing in it: the sockets
    that the box hands over stay in its own."""
    if os.geteuid() == 0:
        with contextlib.suppress(OSError):  # (a container may have none)
            libc_call("unshare", CLONE_NEWNET)
        os.setgroups([])
        os.setresgid(user, user, user)
        os.setresuid(user, user, user)
    drop_capabilities()
    libc_call("prctl", PR_SET_NO_NEW_PRIVS, 1, 0, 0, 0)
    libc_call("prctl", PR_CAP_AMBIENT, PR_CAP_AMBIENT_CLEAR_ALL, 0, 0, 0)
    resource.setrlimit(resource.RLIMIT_AS, (ADDRESS_SPACE, ADDRESS_SPACE))
    resource.setrlimit(resource.RLIMIT_NOFILE, (MOST_FILES, MOST_FILES))
    confine([os.path.dirname(__file__), os.path.dirname(os.__file__)])


def main(arguments: list[str]) -> int:
    """Runs with the descriptors of the socket and of the file that outlives it, and the number of
    the user to become."""
    number, memory, user = map(int, arguments)
    box = socket.socket(fileno=number)
    try:
        for each in (signal.SIGINT, signal.SIGTERM, signal.SIGHUP):
            # (the box says when to end, after the last packet to the neighbors)
            signal.signal(each, signal.SIG_IGN)
        Path("/proc/self/comm").write_text("leafrunt-bfd", encoding="ascii")
        why = take_class()
        give_up_privileges(user)
        gc.collect()
        gc.freeze()
        box.send(json.dumps({"started": os.getpid(), "class": why}).encode())
        helper = Helper(box, memory)
        while helper.turn():
            pass
        return 0
    except Exception as error:
        with contextlib.suppress(OSError):  # (the box may be gone)
            box.send(json.dumps({"failed": where_it_failed(error)}).encode(), socket.MSG_DONTWAIT)
        return 1
