"""BFD (RFC 5880 to 5882) as a box has it: the sessions that are wanted, one for each neighbor at an
interface that asks for it, the process that holds them (`bfd_helper`), and what comes of changes.

A session that goes from Up to Down has lost its neighbor. One that the neighbor ends, or whose
process is gone, changes nothing, and neither does a neighbor that doesn't speak BFD.
"""
from __future__ import annotations

import contextlib
import itertools
import json
import logging
import os
import secrets
import socket
import subprocess
import sys
import time
from collections.abc import Callable, Iterable
from dataclasses import dataclass, field
from ipaddress import IPv4Address
from pathlib import Path
from threading import RLock
from typing import Protocol

from leafrunt_host.bfd_helper import KEPT_SIZE, LARGEST_MESSAGE, PRIORITY, message_of
from leafrunt_host.bfd_packets import LARGEST_NUMBER, State, diagnostic_text
from leafrunt_host.bfd_session import MICROSECONDS, Session, Settings, kept_of
from leafrunt_host.bfd_sockets import CONTROL_PORT, hearing_sockets, sending_socket
from leafrunt_host.isolation import free_number
from leafrunt_host.journal import where_it_failed
from leafrunt_host.kernel import Json
from leafrunt_host.observing import Limiter
from leafrunt_host.sockets import Place

log = logging.getLogger("leafrunt.bfd")
CODE = (
    "import sys; sys.path.insert(0, sys.argv[1]); "
    "from leafrunt_host.bfd_helper import main; sys.exit(main(sys.argv[2:]))"
)
MOST_ENDS, ENDS_WITHIN = 3, 60.0
"""A process that ends is followed at once by the next, which goes on with its sessions, unless it's
the third that ends within this many seconds. The next one stands by, since on a busy machine it
takes longer to start a process than a neighbor waits."""
FIRST_WAIT, LONGEST_WAIT = 1.0, 60.0
"""Seconds until the next is started then, doubled with each more that ends."""
OPENED_AGAIN = 10.0
"""Seconds after which sockets that couldn't be had are tried again."""
MOST_MESSAGES = 256
"""Of a process in one turn: one that was taken over may send them without an end."""
CUT_SECONDS = 5.0
"""For so long after a loss there is no next hop while `routerd` hasn't said that it knows."""
SECONDS_TO_END = 2.0
ADD, CHANGE = "add", "change"


class CannotHold(Exception):
    """The process of the sessions doesn't run; the text says why."""


class Bridge(Protocol):
    """What waits for the process's messages, in the thread that passes on packets."""

    def follow(self, file: socket.socket, act: Callable[[], None]) -> None: ...

    def leave(self, file: socket.socket) -> None: ...


@dataclass(frozen=True)
class Neighbor:
    """Whom a session is with, and the index of the kernel's interface there."""

    address: IPv4Address
    index: int


@dataclass
class Held:
    """A session that is wanted: its own discriminator, what the process said of it last, and why it
    has no sockets."""

    neighbor: Neighbor
    slot: int
    """Its number to the process, which stays if the interface gets another."""
    discriminator: int = 0
    sockets: tuple[socket.socket, ...] = ()
    """Two that it hears by, and one that it sends by; none if they can't be had."""
    report: Json = field(default_factory=lambda: dict(NOTHING))
    since: float = field(default_factory=time.time)
    """The moment of its last change, in seconds since 1970."""
    error: str | None = None
    tried: float = 0.0
    untold: str = ""
    """What the process had no room to be told of it, `ADD` or `CHANGE`; empty if it's told all."""

    def close(self) -> None:
        for each in self.sockets:
            each.close()
        self.sockets = ()


def place_of(place: Place) -> tuple[str, IPv4Address]:
    """What the sockets of a session there are bound to."""
    return place.name, place.address.ip


def state_of(value: object) -> State:
    """A state from a message. `ValueError` if it's none."""
    return State(value)


def change_of(said: Json) -> tuple[State, State, int, bool, State]:
    """A change of state from a message; `KeyError` or `ValueError` if it's none."""
    before, after, remote = (state_of(said[each]) for each in ("before", "after", "remote"))
    diagnostic, is_lost = said["diagnostic"], said["is_lost"]
    if not isinstance(diagnostic, int) or not isinstance(is_lost, bool):
        raise ValueError(said)
    return before, after, diagnostic, is_lost, remote


def report_of(said: Json) -> Json:
    """What is said of a session, for `status`; `KeyError` or `ValueError` if it's nothing."""
    numbers = ("diagnostic", "remote_diagnostic", "detection_time", "transmit_interval", "late")
    if not all(type(said[each]) is int and said[each] >= 0 for each in numbers):
        raise ValueError(said)
    discarded = {str(why): int(count) for why, count in said["discarded"].items()}
    return {
        "state": str(state_of(said["state"])),
        "remote_state": str(state_of(said["remote_state"])),
        "diagnostic": diagnostic_text(said["diagnostic"]),
        "remote_diagnostic": diagnostic_text(said["remote_diagnostic"]),
        "detection_time_seconds": said["detection_time"] / MICROSECONDS,
        "transmit_interval_seconds": said["transmit_interval"] / MICROSECONDS,
        "late_seconds": said["late"] / MICROSECONDS,
        "discarded": discarded,
    }


NOTHING = report_of(
    {
        "state": State.ADMIN_DOWN,
        "remote_state": State.DOWN,
        "diagnostic": 0,
        "remote_diagnostic": 0,
        "detection_time": 0,
        "transmit_interval": 0,
        "late": 0,
        "discarded": {},
    }
)
"""Of a session that no process holds."""


class Helper:
    """The process, from its start to its end. `CannotHold` if it can't be started."""

    def __init__(self, box: str, memory: int) -> None:
        self.own, other = socket.socketpair(socket.AF_UNIX, socket.SOCK_SEQPACKET)
        folder = str(Path(__file__).resolve().parent.parent)
        words = [sys.executable, "-I", "-c", CODE, folder]
        words += map(str, (other.fileno(), memory, free_number(f"{box} bfd")))
        try:
            self._ran = subprocess.Popen(
                words,
                stdin=subprocess.DEVNULL,
                pass_fds=(other.fileno(), memory),
                env={"LANG": "C.UTF-8"},
                start_new_session=True,
            )
        except OSError as error:
            self.own.close()
            raise CannotHold(f"{sys.executable} can't be run: {error.strerror}") from error
        finally:
            other.close()
        with contextlib.suppress(OSError):
            # (it does so itself, and says what keeps it from that: so its start isn't kept waiting)
            os.sched_setscheduler(self._ran.pid, os.SCHED_RR, os.sched_param(PRIORITY))
        self.own.setblocking(False)
        self.started: Json | None = None
        """What it said once it had given up its privileges."""

    def say(self, said: Json, files: Iterable[socket.socket] = ()) -> None:
        """`OSError` if it's gone."""
        socket.send_fds(self.own, [json.dumps(said).encode()], [each.fileno() for each in files])

    def heard(self) -> Json | None:
        """Its next message; None if there is none now. `CannotHold` if it's gone."""
        try:
            data = self.own.recv(LARGEST_MESSAGE)
        except BlockingIOError:
            return None
        except OSError:
            data = b""
        if not data:
            raise CannotHold(self._end())
        said = json.loads(data)
        if not isinstance(said, dict):
            raise ValueError("no message")
        return said

    def _end(self, seconds: float = SECONDS_TO_END) -> str:
        """Waits for its end, and says how it was."""
        try:
            status = self._ran.wait(seconds)
        except subprocess.TimeoutExpired:
            self._ran.kill()
            status = self._ran.wait()
        return f"killed by signal {-status}" if status < 0 else f"status {status}"

    def quit(self) -> None:
        """Ends it in order: it tells the neighbors. One that is behind may take its time."""
        try:
            self.own.settimeout(SECONDS_TO_END)
            self.say({"do": "end"})
        except OSError:
            pass  # it has ended
        self._end()
        self.own.close()


class Sessions:
    """The sessions of a box. `follow` is for the thread of routes; the rest is the bridge's."""

    def __init__(
        self,
        box: str,
        places: dict[int, Place],
        settings: dict[int, Settings],
        bridge: Bridge,
        lost: Callable[[int], None],
        clock: Callable[[], float] = time.monotonic,
    ) -> None:
        """Interfaces by their numbers; `lost` is called with that of a neighbor that is lost."""
        self._box, self._places, self.settings = box, places, settings
        self._bridge, self._lost, self._clock = bridge, lost, clock
        self._lock = RLock()
        self._held: dict[int, Held] = {}
        self._removed: set[int] = set()
        """The slots of sessions that have ended, and that the process had no room to be told of."""
        self._cut: dict[int, float] = {}
        self._helper: Helper | None = None
        self._standby: Helper | None = None
        self._memory = os.memfd_create("bfd")
        """What each session's variables are, in case the process ends."""
        self._again, self._ends = 0.0, list[float]()
        self._stands_by_again = 0.0
        self._limiter = Limiter()
        self.error: str | None = None

    # -- what is wanted

    def follow(self, number: int, neighbor: Neighbor | None, is_two_way: bool) -> None:
        """Says what neighbor an interface has: a session begins once it's 2-Way (RFC 5882, 4.1),
        and goes on until the neighbor is gone."""
        with self._lock:
            held = self._held.get(number)
            if held and held.neighbor != neighbor:
                self._remove(number)
                held = None
            if held is None and neighbor and is_two_way and number in self.settings:
                slots = {each.slot for each in self._held.values()} | self._removed
                free = next(each for each in itertools.count(1) if each not in slots)
                self._held[number] = Held(neighbor, free)
                self._add(number)

    def is_at(self, number: int, name: str) -> bool:
        """Whether this is the interface of that number: it may get another by a reload."""
        return number in self._places and self._places[number].name == name

    def take_over(self, settings: dict[int, Settings], places: dict[int, Place]) -> None:
        """Sessions of interfaces that ask for it no longer, or have another address, end. Others go
        on, with what is asked for now; `follow` begins those that aren't there."""
        with self._lock:
            numbers = {place_of(place): number for number, place in places.items()}
            after = {
                number: numbers[place_of(place)]
                for number, place in self._places.items()
                if place_of(place) in numbers
            }
            for number in list(self._held):
                if after.get(number) not in settings:
                    self._remove(number)
            differ = [
                after[number]
                for number in self._held
                if self.settings[number] != settings[after[number]]
            ]
            self._held = {after[number]: held for number, held in self._held.items()}
            self._cut = {after[each]: at for each, at in self._cut.items() if each in after}
            self.settings, self._places = settings, places
            for number in differ:
                self._change(number)

    def _say(self, said: Json, files: Iterable[socket.socket] = ()) -> bool:
        """Tells the process, if there is one. False if it has no room now, or has ended: that is
        seen where its messages are read, and the next one is told all."""
        try:
            if self._helper:
                self._helper.say(said, files)
        except OSError:
            return False
        return True

    def _say_again(self) -> None:
        """Tells it what it had no room for, as far as it has some now."""
        for slot in list(self._removed):
            if not self._say({"do": "remove", "number": slot}):
                return
            self._removed.discard(slot)
        for number, held in self._held.items():
            if held.untold:
                (self._add if held.untold == ADD else self._change)(number)
                if held.untold:
                    return

    def _change(self, number: int) -> None:
        held = self._held[number]
        if held.sockets and held.untold != ADD:
            said = {"do": CHANGE, "number": held.slot, **message_of(self.settings[number])}
            held.untold = "" if self._say(said) else CHANGE

    def _add(self, number: int) -> None:
        """Gives a session to the process: one that has its sockets goes on."""
        held = self._held[number]
        if self._helper is None:
            return
        resumes = bool(held.sockets)
        held.tried, held.error, held.untold = self._clock(), None, ""
        try:
            self._open(number, held)
        except OSError as error:
            held.error = f"no socket for UDP port {CONTROL_PORT}: {error.strerror}"
            self._tell(number, held.error, logging.ERROR)
            return
        said = {
            "do": ADD,
            "number": held.slot,
            "neighbor": str(held.neighbor.address),
            "discriminator": held.discriminator,
            "resumes": resumes,
            **message_of(self.settings[number]),
        }
        if not self._say(said, held.sockets):
            held.untold, held.error = ADD, "its process can't be told of it now"

    def _open(self, number: int, held: Held) -> None:
        """Opens the sockets of a session that has none. `OSError` if they can't be had."""
        if held.sockets:
            return
        place, held.discriminator = self._places[number], 1 + secrets.randbelow(LARGEST_NUMBER)
        sends = sending_socket(place)
        try:
            hear = hearing_sockets(place, held.neighbor.address, held.discriminator)
        except OSError:
            sends.close()
            raise
        held.sockets = (*hear, sends)

    def _remove(self, number: int) -> None:
        held = self._held.pop(number)
        if not self._say({"do": "remove", "number": held.slot}):
            self._say_farewell(number, held)
            if held.untold != ADD:
                self._removed.add(held.slot)
        held.close()

    # -- the neighbor's loss

    def is_cut(self, number: int) -> bool:
        """Whether the neighbor there was lost a moment ago, and `routerd` may not know it yet."""
        return self._clock() - self._cut.get(number, float("-inf")) < CUT_SECONDS

    def is_known(self, number: int) -> None:
        """`routerd` doesn't have that neighbor as Full."""
        self._cut.pop(number, None)

    # -- the process

    def tick(self) -> None:
        """Starts the process if it doesn't run, and tries again what couldn't be had."""
        with self._lock:
            self._guarded(self._looked_after)

    def _looked_after(self) -> None:
        now = self._clock()
        if self._helper is None and self.settings and now >= self._again:
            self._start(now)
        elif self._helper and self._helper.started and not self._standby:
            # (once it's a user of its own, which the second one isn't to be)
            if now >= self._stands_by_again:
                self._have_standby(now)
        self._say_again()
        for number, held in self._held.items():
            if held.error and now - held.tried >= OPENED_AGAIN:
                self._add(number)

    def _guarded(self, act: Callable[[], None]) -> None:
        """A mistake in this program, or a message that is none, ends no box."""
        try:
            act()
        except Exception as error:
            self._log(f"BFD: {where_it_failed(error)}", logging.ERROR)

    def _log(self, line: str, level: int) -> None:
        """Logs what a process says, or what comes of it, within bounds."""
        for each in self._limiter.passing("BFD", [line], self._clock()):
            log.log(level, "%s", each)

    def _start(self, now: float) -> None:
        helper, self._standby = self._standby, None
        if helper:
            self._bridge.leave(helper.own)
        try:
            self._helper = helper or Helper(self._box, self._memory)
        except (CannotHold, OSError) as why:
            self.error, self._again = str(why), now + LONGEST_WAIT
            log.error("BFD: its process can't be started: %s", why)
            return
        self.error = None
        # (how one that stood by before has ended says nothing of one beside this)
        self._stands_by_again = 0.0
        self._bridge.follow(self._helper.own, self._read)
        for number in self._held:
            self._add(number)
        if self._helper.started:
            self._tell_class(self._helper.started)

    def _have_standby(self, now: float) -> None:
        """Starts a process that holds no session, and waits for the other one's end."""
        try:
            self._standby = Helper(self._box, self._memory)
        except (CannotHold, OSError) as why:
            self._stands_by_again = now + LONGEST_WAIT
            log.warning("BFD: no second process can be started: %s", why)
            return
        self._bridge.follow(self._standby.own, self._read_standby)

    def _read_standby(self) -> None:
        """Takes what the process that stands by has to say: that it started, and that it's gone."""
        with self._lock:
            self._guarded(self._heard_standby)

    def _heard_standby(self) -> None:
        standby = self._standby
        try:
            for _ in range(MOST_MESSAGES):
                if standby is None or (said := standby.heard()) is None:
                    break
                if "started" in said:
                    standby.started = said
                else:
                    self._take(said)
        except CannotHold as why:
            if standby:
                self._bridge.leave(standby.own)
                standby.own.close()
                self._standby, self._stands_by_again = None, self._clock() + LONGEST_WAIT
                log.warning("BFD: the process that stands by has ended (%s)", why)

    def _read(self) -> None:
        """Takes what the process has to say."""
        with self._lock:
            self._guarded(self._heard)

    def _heard(self) -> None:
        helper = self._helper
        try:
            for _ in range(MOST_MESSAGES):
                if helper is None or (said := helper.heard()) is None:
                    break
                self._take(said)
            self._say_again()
        except CannotHold as why:
            if helper:
                self._ended(helper, str(why))

    def _ended(self, helper: Helper, how: str) -> None:
        """The process is gone. The next one is started before a neighbor notices; if several have
        ended, the neighbors are told that the path hasn't failed, and it's waited."""
        self._bridge.leave(helper.own)
        helper.own.close()
        self._helper, self.error, now = None, f"its process has ended ({how})", self._clock()
        self._removed.clear()
        self._ends = [each for each in self._ends if now - each < ENDS_WITHIN] + [now]
        more = len(self._ends) - MOST_ENDS
        if more < 0:
            log.error("BFD: %s: the next one goes on with its sessions", self.error)
            self._start(now)
            return
        for number, held in self._held.items():
            self._say_farewell(number, held)
            held.close()
            held.report = dict(NOTHING)
        wait = min(FIRST_WAIT * 2**more, LONGEST_WAIT)
        self._again = now + wait
        log.error("BFD: %s: it's started again in %.0f s", self.error, wait)

    def _say_farewell(self, number: int, held: Held) -> None:
        """Ends a session in place of the process that held it."""
        if not held.sockets:
            return
        session = Session(self.settings[number], held.discriminator, self._clock())
        try:
            data = os.pread(self._memory, KEPT_SIZE, held.slot * KEPT_SIZE)
            session.resume(kept_of(data), self._clock())
            to = (str(held.neighbor.address), CONTROL_PORT)
            held.sockets[-1].sendto(session.farewell(), to)
        except (OSError, ValueError):
            pass  # it held none, or as if it were lost on the wire

    def _take(self, said: Json) -> None:
        if "started" in said:
            self._tell_class(said)
            if self._helper:
                self._helper.started = said
            return
        if "failed" in said:
            self._log(f"BFD: {str(said['failed'])[:200]}", logging.ERROR)
            return
        slot, known = said["number"], self._held.items()
        number, held = next((each for each in known if each[1].slot == slot), (0, None))
        if held is None or held.discriminator != said["discriminator"]:
            return
        if "before" in said:
            self._changed(number, held, said)
        else:
            held.report = report_of(said)

    def _tell_class(self, said: Json) -> None:
        process, why = int(said["started"]), str(said["class"])[:80]
        if why:
            line = (
                f"BFD: process {process} has no real-time class ({why}): on a busy machine it may "
                "be late, and sessions fall"
            )
            self._log(line, logging.WARNING)
        else:
            self._log(f"BFD: process {process}, of a real-time class", logging.INFO)

    def _changed(self, number: int, held: Held, said: Json) -> None:
        before, after, diagnostic, is_lost, remote = change_of(said)
        held.since = time.time()
        if is_lost:
            self._cut[number] = self._clock()
            self._lost(number)
        elif after is State.UP:
            self._cut.pop(number, None)
        why = f": {diagnostic_text(diagnostic)}" if after is State.DOWN else ""
        if after is State.DOWN and not is_lost and before is State.UP:
            why += f" ({remote} there, so the adjacency stays)"
        self._tell(number, f"{before} -> {after}{why}", logging.INFO)

    def _tell(self, number: int, text: str, level: int) -> None:
        held = self._held[number]
        self._log(f"{self._places[number].name}: BFD with {held.neighbor.address}: {text}", level)

    def report(self, number: int) -> Json | None:
        """What `status` says of an interface's session; None if there is none."""
        with self._lock:
            held = self._held.get(number)
            if held is None:
                return None
            keys = self.settings[number].keys
            return {
                "neighbor": str(held.neighbor.address),
                "since": held.since,
                "authentication": keys[0].type.value if keys else None,
                "error": held.error or self.error,
                **held.report,
            }

    def close(self) -> None:
        """Ends all sessions in order; no bridge waits for them any more."""
        with self._lock:
            helpers = (self._helper, self._standby)
            self._helper = self._standby = None
            for each in helpers:
                if each:
                    each.quit()
            for held in self._held.values():
                held.close()
            self._held.clear()
            os.close(self._memory)
