"""Packets in so far as the tools read them."""
import struct

UPDATE = 4


def packet(kind: int, body: bytes) -> bytes:
    return struct.pack("!BBH", 2, kind, 24 + len(body)) + bytes(20) + body


def update(*lsas: bytes) -> bytes:
    return packet(UPDATE, struct.pack("!I", len(lsas)) + b"".join(lsas))
