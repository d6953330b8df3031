"""Brings `routerd` what is to be announced, and follows what is redistributed: in a thread of its
own, which is woken when either changes."""
from __future__ import annotations

import logging
import select
import threading
import time

from leafrunt_host.announcements import TRIED_AGAIN, Announcements
from leafrunt_host.destinations import Owner
from leafrunt_host.journal import where_it_failed
from leafrunt_host.keeper import SECONDS_TO_STOP
from leafrunt_host.redistributor import Redistributor
from leafrunt_host.router import RouterGone
from leafrunt_host.rtnetlink import CannotAsk
from leafrunt_host.waker import Waker

log = logging.getLogger("leafrunt.announcements")
TOGETHER = 0.1
"""Seconds that changes are waited for after the first one: they are brought together."""
REST = 5
"""After a turn the thread rests this many times what it took of a processor: a storm of changes
costs a sixth of one at most."""


class Announcer:
    """The thread."""

    def __init__(
        self, announcements: Announcements, redistributor: Redistributor | None = None
    ) -> None:
        self._announcements, self._waker = announcements, Waker()
        self._redistributor = self._next = redistributor
        self._ending = threading.Event()
        self._thread = threading.Thread(target=self._announce, name="announcer", daemon=True)
        announcements.changed = self._waker.wake

    def start(self) -> None:
        self._thread.start()

    def redistribute(self, redistributor: Redistributor | None) -> None:
        """From now on what this one finds is announced; None: nothing is redistributed."""
        before, self._next = self._next, redistributor
        if before is not self._redistributor and before:
            before.close()
        self._waker.wake()

    def stop(self) -> None:
        """Ends it; one that waits for an answer is left behind."""
        self._ending.set()
        self._waker.wake()
        if self._thread.is_alive():
            self._thread.join(SECONDS_TO_STOP)
        if self._redistributor and not self._thread.is_alive():
            self._redistributor.close()

    def _announce(self) -> None:
        waiting = self._waits()
        pause: float | None = 0.0
        while True:
            waiting.poll(None if pause is None else pause * 1000)
            if self._ending.wait(TOGETHER):
                return
            self._waker.clear()
            if self._next is not self._redistributor:
                self._change()
                waiting = self._waits()
            began = time.thread_time()
            try:
                pause = self._turn()
            except RouterGone:
                pause = TRIED_AGAIN  # (the box ends, or another one takes its place)
            except Exception as error:  # told, and tried again
                log.error("%s", where_it_failed(error))
                pause = TRIED_AGAIN
            if self._ending.wait(REST * (time.thread_time() - began)):
                return

    def _waits(self) -> select.poll:
        waiting = select.poll()
        for each in filter(None, (self._waker, self._redistributor)):
            waiting.register(each.fileno(), select.POLLIN)
        return waiting

    def _change(self) -> None:
        before, self._redistributor = self._redistributor, self._next
        self._announcements.trouble = ""
        if before:
            before.close()
        if self._redistributor is None:
            self._announcements.take({each: () for each in Owner if each.is_redistributed})

    def _turn(self) -> float | None:
        """Brings what changed; after how many seconds there is something to do without a change."""
        pauses = [self._follow(self._redistributor)] if self._redistributor else []
        pauses.append(self._announcements.give(time.monotonic()))
        return min((each for each in pauses if each is not None), default=None)

    def _follow(self, redistributor: Redistributor) -> float | None:
        if not redistributor.is_changed():
            return None
        try:
            self._announcements.take(redistributor.asked_for())
            self._announcements.trouble = ""
            return None
        except CannotAsk as error:
            self._announcements.trouble = f"what is redistributed isn't followed: {error}"
            return TRIED_AGAIN
