"""Small files that are written while packets wait: a disk may stand still for seconds, or for good,
and the router goes on meanwhile."""
from __future__ import annotations

import os
import threading
from pathlib import Path


def replace_file(path: Path, text: str, is_synced: bool) -> None:
    """Writes a file anew, so that it's the old one or the new one at each moment. `OSError`
    if it can't be written."""
    part = path.with_name(path.name + ".part")
    with open(part, "w", encoding="utf-8") as it:
        it.write(text)
        it.flush()
        if is_synced:
            os.fsync(it.fileno())
    part.replace(path)


class Written:
    """A file that is written by a thread of its own, for which nobody waits long."""

    def __init__(self, path: Path, is_synced: bool) -> None:
        self._path, self._is_synced = path, is_synced
        self._changed = threading.Condition()
        self._next: str | None = None
        self._error: OSError | None = None
        self._is_busy = self._is_slow = False

    def write(self, text: str, seconds: float, is_last: bool = False) -> bool:
        """Whether the file has this text within that time. If it hasn't, it gets the last text that
        was given once the disk goes on, and until then nobody waits but for the last one. `OSError`
        if it can't be written."""
        with self._changed:
            self._next = text
            if self._is_slow and not is_last:
                return False
            if not self._is_busy:
                self._begin()
            self._is_slow = not self._changed.wait_for(lambda: not self._is_busy, seconds)
            error, self._error = self._error, None
            if error:
                raise error
            return not self._is_slow

    def _begin(self) -> None:
        self._error = None
        try:
            threading.Thread(target=self._write_all, name="file", daemon=True).start()
        except RuntimeError as error:
            raise OSError(None, str(error)) from error
        self._is_busy = True

    def _write_all(self) -> None:
        """Until there is nothing more to write."""
        while (text := self._taken()) is not None:
            try:
                replace_file(self._path, text, self._is_synced)
            except OSError as error:
                self._error = error
            except Exception as error:  # such as want of memory: the next text is written
                self._error = OSError(None, f"{type(error).__name__} {error}".strip())

    def _taken(self) -> str | None:
        with self._changed:
            text, self._next = self._next, None
            if text is None:
                self._is_busy = self._is_slow = False
                self._changed.notify_all()
            return text
