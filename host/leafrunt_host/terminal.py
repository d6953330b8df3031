"""A terminal's whole screen: lines painted over the last ones, keys and its size, by the sequences
of ECMA-48 that every terminal of today knows. The terminal is left as it was, however this ends."""
from __future__ import annotations

import os
import select
import signal
import sys
import termios
import unicodedata
from collections.abc import Iterator, Sequence
from contextlib import contextmanager
from types import FrameType
from typing import NamedTuple

from leafrunt_host.journal import one_line
from leafrunt_host.statuses import Status, Stopped
from leafrunt_host.waker import Waker

ENTER, LEAVE = "\x1b[?1049h\x1b[?25l\x1b[?7l", "\x1b[?7h\x1b[?25h\x1b[?1049l"
"""Another screen, no cursor, no wrapped lines; and back."""
HOME, CLEAR_LINE, CLEAR_BELOW, BOLD, PLAIN = "\x1b[H", "\x1b[K", "\x1b[J", "\x1b[1m", "\x1b[0m"
LONGEST_KEYS = 64
USUAL = os.terminal_size((80, 24))
"""Of a terminal that doesn't know its size."""
ENDING = (signal.SIGTERM, signal.SIGHUP)


class Row(NamedTuple):
    """A line of the screen."""

    text: str
    is_bold: bool = False


def width_of(character: str) -> int:
    """How many columns a character takes (Unicode, annex 11)."""
    if unicodedata.combining(character):
        return 0
    return 2 if unicodedata.east_asian_width(character) in "WF" else 1


def cut(text: str, columns: int) -> str:
    """As much of a text as the columns have room for; nothing of it acts on the terminal."""
    left, kept = columns, []
    for each in one_line(text):
        left -= width_of(each)
        if left < 0:
            break
        kept.append(each)
    return "".join(kept)


def painted(rows: Sequence[Row], columns: int, lines: int) -> str:
    """What paints the rows over the screen. Of those that have no room it's said how many there
    are."""
    shown = list(rows)
    if len(shown) > lines:
        left_out = len(shown) - lines + 1
        shown[max(0, lines - 1) :] = [Row(f".. and {left_out} more lines", is_bold=True)]
    said = [
        f"{BOLD if each.is_bold else ''}{cut(each.text, columns)}{PLAIN}{CLEAR_LINE}"
        for each in shown
    ]
    return HOME + "\r\n".join(said) + CLEAR_BELOW


def why_no_screen() -> str | None:
    """Why there is no screen to paint; None if there is one."""
    if not (sys.stdin.isatty() and sys.stdout.isatty()):
        return "standard input and output are no terminal"
    if os.environ.get("TERM", "dumb") in ("", "dumb"):
        return f"the terminal can't move its cursor (TERM={os.environ.get('TERM', '')})"
    return None


class Screen:
    """The terminal while it is used. Other threads may end a wait by `wake`."""

    def __init__(self, keys: int, output: int) -> None:
        self._keys, self._output = keys, output
        self._waker = Waker()
        self._waiting = select.poll()
        self._waiting.register(self._waker, select.POLLIN)
        self._waiting.register(keys, select.POLLIN)

    def wake(self) -> None:
        self._waker.wake()

    def _write(self, text: str) -> None:
        data = text.encode("utf-8", "replace")
        while data:
            data = data[os.write(self._output, data) :]

    def paint(self, rows: Sequence[Row]) -> None:
        size = os.get_terminal_size(self._output)
        columns, lines = size.columns or USUAL.columns, size.lines or USUAL.lines
        self._write(painted(rows, columns, lines))

    def key(self, seconds: float) -> str | None:
        """What was typed; an empty text if something else ended the wait, None if the terminal is
        gone."""
        ready = dict(self._waiting.poll(seconds * 1000))
        if self._waker.fileno() in ready:
            self._waker.clear()
        if self._keys not in ready:
            return ""
        try:
            return os.read(self._keys, LONGEST_KEYS).decode("utf-8", "replace") or None
        except OSError:
            return None

    def close(self) -> None:
        self._waker.close()

    @contextmanager
    def in_use(self) -> Iterator[None]:
        """Keys come one by one and aren't echoed, and the lines from before stay below."""
        before = termios.tcgetattr(self._keys)
        mode = termios.tcgetattr(self._keys)
        mode[3] &= ~(termios.ICANON | termios.ECHO)
        mode[6][termios.VSUSP] = b"\0"
        signals = {each: signal.signal(each, ended) for each in ENDING}
        signals[signal.SIGWINCH] = signal.signal(signal.SIGWINCH, lambda *_: self.wake())
        try:
            termios.tcsetattr(self._keys, termios.TCSADRAIN, mode)
            self._write(ENTER)
            yield
        finally:
            for number, handler in signals.items():
                signal.signal(number, handler)
            try:
                self._write(LEAVE)
                termios.tcsetattr(self._keys, termios.TCSADRAIN, before)
            except (OSError, termios.error):
                pass  # the terminal is gone


def ended(number: int, _frame: FrameType | None) -> None:
    raise Stopped(f"ended by {signal.Signals(number).name}", Status.REFUSED)
