"""Work that any thread gives to one that waits at descriptors."""
from __future__ import annotations

import threading
from collections.abc import Callable
from concurrent.futures import Future, InvalidStateError
from concurrent.futures import TimeoutError as NotInTime
from contextlib import suppress
from typing import Any, TypeVar

from leafrunt_host.statuses import Stopped
from leafrunt_host.waker import Waker

T = TypeVar("T")
SECONDS = 30.0
"""For which an answer is waited for."""


class WorkQueue:
    """The thread that the work is for waits at `fileno` until it can be read, and calls `run`."""

    def __init__(self) -> None:
        self._waker = Waker()
        self._lock = threading.Lock()
        self._waiting: list[tuple[Callable[[], Any], Future[Any]]] = []
        self._is_over = False

    def fileno(self) -> int:
        return self._waker.fileno()

    def do(self, work: Callable[[], T], seconds: float = SECONDS) -> T:
        """Has it done by that thread, and what came of it, its error included. `Stopped` if that
        thread has ended, or doesn't begin it in time; then it isn't done any more. What was begun
        is waited for to its end: whoever gave it has to know what became of it."""
        future: Future[T] = Future()
        with self._lock:
            if self._is_over:
                raise Stopped("the box is ending")
            self._waiting.append((work, future))
            self._waker.wake()
        try:
            return future.result(seconds)
        except NotInTime:
            if not future.cancel():
                return future.result()
            raise Stopped(f"no answer within {seconds:g} seconds: nothing more is done") from None

    def run(self) -> None:
        """Does what waits, in its order."""
        self._waker.clear()
        with self._lock:
            work, self._waiting = self._waiting, []
        for each, future in work:
            if future.set_running_or_notify_cancel():
                try:
                    future.set_result(each())
                except Exception as error:  # whoever gave the work gets it
                    future.set_exception(error)

    def close(self) -> None:
        """Nothing more is done: who waits for an answer is told."""
        with self._lock:
            self._is_over, waiting, self._waiting = True, self._waiting, []
        for _, future in waiting:
            with suppress(InvalidStateError):
                future.set_exception(Stopped("the box is ending"))
