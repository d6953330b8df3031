"""What ends the wait of a thread."""
from __future__ import annotations

import os
from contextlib import suppress


class Waker:
    """Who waits at `fileno` is woken by any thread, until it clears that."""

    def __init__(self) -> None:
        self._event = os.eventfd(0, os.EFD_CLOEXEC | os.EFD_NONBLOCK)

    def fileno(self) -> int:
        return self._event

    def wake(self) -> None:
        with suppress(BlockingIOError):  # it is awake
            os.eventfd_write(self._event, 1)

    def clear(self) -> None:
        with suppress(BlockingIOError):  # nobody has called
            os.eventfd_read(self._event)

    def close(self) -> None:
        os.close(self._event)
