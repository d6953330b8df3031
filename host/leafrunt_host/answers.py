"""The lines that a program prints, read by a thread of its own in pieces as large as they come, so
that a table of ten thousand lines costs what a copy of it does. What waits here is bounded: a
program that prints more has to wait."""
from __future__ import annotations

import queue
import threading
from typing import BinaryIO

LARGEST_PIECE = 1 << 18
MOST_BYTES = 64 << 20
"""That wait, and of one answer: a table of 16,384 routes has one million."""
LONGEST_LINE = 16 << 20


class Answers:
    """Lines, for one asker at a time. `TimeoutError` if none comes in time, `EOFError` once there
    are no more, or if an answer is too long."""

    def __init__(self, stream: BinaryIO) -> None:
        self._stream = stream
        self._pieces: queue.SimpleQueue[bytes | None] = queue.SimpleQueue()
        self._waiting, self._changed = 0, threading.Condition()
        self._left = b""
        """What came and wasn't taken yet: whole lines, each with its line feed."""
        self._is_over = False
        self.last = b""
        """The last line that came, taken or not."""
        self.reader = threading.Thread(target=self._read, name="answers", daemon=True)
        self.reader.start()

    def _read(self) -> None:
        begun = b""
        while data := self._stream.read1(LARGEST_PIECE):  # type: ignore[attr-defined]
            whole, line_feed, begun = (begun + data).rpartition(b"\n")
            if line_feed:
                self._put(whole)
            if len(begun) > LONGEST_LINE:
                self._put(begun)
                begun = b""
        if begun:
            self._put(begun)
        self._pieces.put(None)

    def _put(self, lines: bytes) -> None:
        self.last = lines[lines.rfind(b"\n") + 1 :]
        with self._changed:
            self._changed.wait_for(lambda: self._waiting < MOST_BYTES)
            self._waiting += len(lines) + 1
        self._pieces.put(lines + b"\n")

    def _piece(self, seconds: float) -> bytes:
        if self._is_over:
            raise EOFError
        try:
            piece = self._pieces.get(timeout=seconds)
        except queue.Empty:
            raise TimeoutError from None
        if piece is None:
            self._is_over = True
            raise EOFError
        with self._changed:
            self._waiting -= len(piece)
            self._changed.notify()
        return piece

    def next(self, seconds: float) -> bytes:
        """The next line, without its line feed."""
        if not self._left:
            self._left = self._piece(seconds)
        line, _, self._left = self._left.partition(b"\n")
        return line

    def up_to(self, end: bytes, seconds: float) -> bytes:
        """The lines up to one that is `end`, without that one, which nothing follows until more is
        asked for."""
        last, pieces = end + b"\n", [b"\n", self._left]
        length, self._left = len(self._left), b""
        while not (pieces[-1].endswith(b"\n" + last) or pieces[-1] == last):
            pieces.append(self._piece(seconds))
            length += len(pieces[-1])
            if length > MOST_BYTES:
                raise EOFError
        return b"".join(pieces)[1 : -len(last)]

    def rest(self) -> list[bytes]:
        """The lines that are left once the program has ended."""
        pieces = [self._left]
        try:
            while True:
                pieces.append(self._piece(0))
        except (EOFError, TimeoutError):
            return b"".join(pieces).splitlines()
