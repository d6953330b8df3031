"""What passes through the bridge as a pcap file, for `tcpdump -r` and Wireshark."""
from __future__ import annotations

import logging
import os
import queue
import stat
import struct
import threading
import time

log = logging.getLogger("leafrunt.console")
MAGIC = 0xA1B2C3D4
LINKTYPE_RAW = 101
"""Whole IP packets with nothing before them: tcpdump.org's list of link-layer header types."""
LONGEST = 65_535
LARGEST_FILE = 256 << 20
"""Bytes, after which nothing more is written: a capture that is forgotten fills no disk."""
MOST_WAITING = 4096
"""Packets that may wait to be written; what comes beyond that is left out."""
SECONDS_TO_WRITE = 5.0
"""How long the end waits until what came is written."""
FILE_HEADER = struct.Struct("=IHHiIII")
PACKET_HEADER = struct.Struct("=IIII")


class Capture:
    """A file that packets are written to, through a descriptor that a client opened with its own
    rights: by a thread of its own, since the bridge may not wait for a disk."""

    def __init__(self, descriptor: int, name: str) -> None:
        if not stat.S_ISREG(os.fstat(descriptor).st_mode):
            os.close(descriptor)
            raise ValueError("no regular file")
        self._descriptor = descriptor
        self._waiting: queue.Queue[bytes | None] = queue.Queue(MOST_WAITING)
        self._is_over = False
        self._length = 0
        self.name = name
        self.count = self.left_out = 0
        self.why_ended: str | None = None
        self._thread = threading.Thread(target=self._write_all, name="capture", daemon=True)
        self._thread.start()

    def take(self, packet: bytes) -> None:
        """Takes a packet with the moment, if there is room for it."""
        if self._is_over or self.why_ended:
            return
        seconds, rest = divmod(time.time_ns(), 1_000_000_000)
        head = PACKET_HEADER.pack(seconds & 0xFFFFFFFF, rest // 1000, len(packet), len(packet))
        try:
            self._waiting.put_nowait(head + packet)
        except queue.Full:
            self.left_out += 1

    def _write_all(self) -> None:
        try:
            self._write(FILE_HEADER.pack(MAGIC, 2, 4, 0, 0, LONGEST, LINKTYPE_RAW))
            while (data := self._waiting.get()) is not None:
                if self.why_ended:
                    continue
                if self._write(data):
                    self.count += 1
                else:
                    log.warning("capture to %s: %s", self.name, self.why_ended)
        finally:
            os.close(self._descriptor)

    def _write(self, data: bytes) -> bool:
        """Whether all of it was written. After an error, or at the largest length, nothing more
        is."""
        if self._length + len(data) > LARGEST_FILE:
            self.why_ended = f"the file had its largest length, {LARGEST_FILE} bytes"
            return False
        try:
            while data:
                written = os.write(self._descriptor, data)
                self._length += written
                data = data[written:]
        except OSError as error:
            self.why_ended = f"writing failed: {error.strerror}"
            return False
        return True

    def end(self) -> str:
        """Closes the file; the answer that says how many packets it has."""
        self._is_over = True
        try:
            self._waiting.put(None, timeout=SECONDS_TO_WRITE)
            self._thread.join(SECONDS_TO_WRITE)
        except queue.Full:
            pass  # the disk waits still: its thread ends once it doesn't
        left_out = f"; {self.left_out} came too fast and were left out" if self.left_out else ""
        why = f", then {self.why_ended}" if self.why_ended else ""
        return f"captured {self.count} packets to {self.name}{left_out}{why}"
