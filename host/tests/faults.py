"""Faults of other routers' OSPF code, as packets: each that Debian's source packages of FRR (the
changelog, from Quagga on, and the patches of 8.4.4-1.1~deb12u2 and 10.3-3+deb13u1) and of BIRD
(the ChangeLog of 2.0.12-7) name with a CVE or the fix of a crash, and that concerns what a router
of point-to-point links reads. docs/use/SAFETY.md has what stops each here.

The neighbor is 2.2.2.2, this router 1.1.1.1.
"""
from __future__ import annotations

import struct
from collections.abc import Callable, Iterator
from dataclasses import replace
from ipaddress import IPv4Address

from leafrunt_host.packets import (
    HEADER,
    Description,
    Flags,
    Hello,
    Packet,
    PacketType,
    packet_checksum,
)
from tests import captured
from tests.test_topology import external, lsa, router_lsa, sealed

NEIGHBOR, OWN, NOBODY = IPv4Address("2.2.2.2"), IPv4Address("1.1.1.1"), IPv4Address(0)
TRAFFIC, INFORMATION, PREFIX, LINK = 1, 4, 7, 8
"""Opaque types: RFC 3630, 7770 and 7684."""
LAST, RESERVED = 0x7FFFFFFF, -0x80000000
LONGEST = 65_515
"""The payload of the longest IP packet."""
MASKS = ("0.255.255.255", "255.0.255.0", "0.0.0.1", "255.255.255.253", "127.255.255.255")


def of_neighbor(kind: PacketType, body: bytes) -> bytes:
    return Packet(kind, NEIGHBOR, NOBODY, body).encode()


def update(*lsas: bytes, count: int | None = None) -> bytes:
    number = len(lsas) if count is None else count
    return of_neighbor(PacketType.LINK_STATE_UPDATE, number.to_bytes(4, "big") + b"".join(lsas))


def headed(data: bytes, **fields: int) -> bytes:
    """The packet with other fields in its header, and the checksum that belongs to them."""
    version, kind, length, router, area, _, autype, rest = HEADER.unpack_from(data)
    head = HEADER.pack(
        fields.get("version", version),
        fields.get("type", kind),
        fields.get("length", length),
        router,
        area,
        0,
        fields.get("autype", autype),
        rest,
    )
    made = head + data[HEADER.size :]
    length = fields.get("length", length)
    covered = made[:length] if HEADER.size <= length < len(made) else made
    return made[:12] + packet_checksum(covered).to_bytes(2, "big") + made[14:]


def named(data: bytes, router: IPv4Address) -> bytes:
    """The packet in the name of another router; what is too short for a header stays."""
    return headed(data[:4] + router.packed + data[8:]) if len(data) >= HEADER.size else data


def plain() -> list[bytes]:
    return [bytes.fromhex(each) for each in captured.PLAIN.values()]


def cut_short(data: bytes) -> Iterator[bytes]:
    """The packet's first bytes, as its length field says, and as it doesn't."""
    for length in [*range(80), len(data) - 1]:
        part = data[:length]
        yield part
        if length >= HEADER.size:
            yield headed(part, length=length)


def tlv(kind: int, body: bytes = b"", length: int | None = None) -> bytes:
    said = len(body) if length is None else length
    return struct.pack(">HH", kind, said) + body + bytes(-len(body) % 4)


def opaque(kind: int, *tlvs: bytes) -> list[bytes]:
    """Opaque LSAs of a link, of the area and of the routing domain."""
    return [lsa(scope, f"{kind}.0.0.1", "2.2.2.2", b"".join(tlvs)) for scope in (9, 10, 11)]


def in_updates(*lists: list[bytes]) -> Iterator[bytes]:
    for lsas in lists:
        yield update(*lsas)


def traffic_engineering() -> Iterator[bytes]:
    yield from in_updates(
        opaque(TRAFFIC, tlv(2, tlv(1, b"\1"))),
        opaque(TRAFFIC, tlv(2, tlv(2, bytes(4)) + tlv(3, bytes(4)))),
        opaque(TRAFFIC, tlv(2)),
        [router_lsa("2.2.2.2", (1, "1.1.1.1", "0.0.0.0", 10), (1, "0.0.0.0", "0.0.0.0", 1))],
    )


def segment_routing() -> Iterator[bytes]:
    for kind in (8, 9, 12, 14):
        for length in (0, 1, 7, 200):
            yield from in_updates(opaque(INFORMATION, tlv(kind, bytes(length))))


def extended_links() -> Iterator[bytes]:
    head = b"\1\0\0\0" + bytes([3, 3, 3, 3]) * 2
    for kind in (1, 2, 3, 8):
        for length in (0, 3, 6, 200):
            inner = tlv(kind, bytes(length))
            yield from in_updates(
                opaque(LINK, tlv(1, head + inner)),
                opaque(PREFIX, tlv(1, head[:8] + inner)),
                opaque(LINK, tlv(1, head + inner, 4)),
            )


def lengths_that_wrap() -> Iterator[bytes]:
    for kind in (TRAFFIC, INFORMATION, PREFIX, LINK):
        for length in (0x7FFF, 0x8000, 0xFFFC, 0xFFFD, 0xFFFF):
            yield from in_updates(opaque(kind, tlv(1, bytes(8), length), tlv(1, bytes(8), length)))


def malformed_updates() -> Iterator[bytes]:
    good = external("203.0.113.0/24", "2.2.2.2")
    for length in [*range(40), 0x7FFF, 0xFFFF]:
        said = good[:18] + length.to_bytes(2, "big") + good[20:]
        yield from (update(said), update(sealed(said)), update(good, said))
    for count in (0, 2, 0x7FFFFFFF, 0xFFFFFFFF):
        yield update(good, count=count)
    for at in range(len(good)):
        yield update(good[:at], count=1)


def malformed_networks() -> Iterator[bytes]:
    for length in range(12):
        body = bytes([255, 255, 255, 0, 2, 2, 2, 2, 1, 1, 1, 1])[:length]
        made = lsa(2, "10.0.1.2", "2.2.2.2", body)
        longer = sealed(made[:18] + (len(made) + 4).to_bytes(2, "big") + made[20:])
        yield from (update(made), update(longer))


def unknown_types() -> Iterator[bytes]:
    for kind in range(256):
        yield headed(plain()[0], type=kind)
        yield update(lsa(kind, "10.0.1.2", "2.2.2.2", bytes(16)))
    for data in plain():
        yield from cut_short(data)


def router_lsas_in_others_names() -> Iterator[bytes]:
    links = ((1, "1.1.1.1", "10.0.1.2", 1), (3, "66.66.66.0", "255.255.255.0", 1))
    made = router_lsa("2.2.2.2", *links, sequence=LAST - 1)
    for identity in ("1.1.1.1", "3.3.3.3", "0.0.0.0", "255.255.255.255"):
        packed = IPv4Address(identity).packed
        yield update(sealed(made[:4] + packed + made[8:]))
        yield update(sealed(made[:8] + packed + made[12:]))


def long_packets() -> Iterator[bytes]:
    hello = Hello.decode(bytes.fromhex(captured.BIRD_HELLO_PLAIN)[HEADER.size :])
    for length in (1_501, 8_188, 8_192, 8_193, 20_000, LONGEST):
        names = tuple(IPv4Address(0x0A000000 + each) for each in range((length - 44) // 4))
        yield of_neighbor(PacketType.HELLO, replace(hello, neighbors=names).encode())
        lsas = [external(f"198.{at}.0.0/16", "2.2.2.2") for at in range((length - 28) // 36 % 200)]
        yield update(*lsas * ((length - 28) // 36 // max(len(lsas), 1)))


def other_mtus() -> Iterator[bytes]:
    for mtu in (0, 1, 575, 1_500, 1_501, 9_000, 65_535):
        for flags in range(8):
            body = Description(mtu, 2, Flags(flags), 7).encode()
            yield of_neighbor(PacketType.DATABASE_DESCRIPTION, body)


def malformed_prefixes() -> Iterator[bytes]:
    for mask in MASKS:
        packed = IPv4Address(mask).packed
        for identity in ("203.0.113.1", "255.255.255.255", "0.0.0.0", "224.0.0.5", "127.0.0.1"):
            yield update(
                router_lsa("2.2.2.2", (1, "1.1.1.1", "10.0.1.2", 10), (3, identity, mask, 1)),
                lsa(2, identity, "2.2.2.2", packed + NEIGHBOR.packed),
                lsa(3, identity, "2.2.2.2", packed + b"\0\0\0\5"),
                lsa(4, identity, "2.2.2.2", packed + b"\0\0\0\5"),
                lsa(5, identity, "2.2.2.2", packed + b"\x80\0\0\x14" + bytes(8)),
            )


def long_lsas() -> Iterator[bytes]:
    for links in (119, 120, 677, 678, 679, 5_000):
        found = ((3, f"10.{at // 256}.{at % 256}.0", "255.255.255.0", 1) for at in range(links))
        yield update(router_lsa("2.2.2.2", *found))
    for blocks in (0, 1, 2, 700, 5_000):
        body = bytes([255, 255, 255, 0]) + b"\x80\0\0\x14" + bytes(8) + bytes(12 * blocks)
        yield update(lsa(5, "203.0.113.0", "2.2.2.2", body))


def wrong_headers() -> Iterator[bytes]:
    for data in plain():
        for length in [*range(64), len(data) - 1, len(data) + 1, 0x7FFF, 0xFFFF]:
            yield headed(data, length=length)
        for version in (0, 1, 3, 255):
            yield headed(data, version=version)


def last_sequence_numbers() -> Iterator[bytes]:
    for of in ("1.1.1.1", "2.2.2.2"):
        for sequence in (LAST, RESERVED, RESERVED + 1, -1, 0):
            for age in (0, 3_599, 3_600):
                fields = {"sequence": sequence, "age": age}
                yield update(
                    router_lsa(of, (3, "10.0.1.0", "255.255.255.0", 1), **fields),
                    external("203.0.113.0/24", of, **fields),
                )


def other_routers() -> Iterator[bytes]:
    """The neighbor with one Router ID after the other, back and forth."""
    for at in (*range(40), 0, 1, 0):
        for data in plain():
            yield named(data, IPv4Address(f"9.9.9.{at}"))


FAULTS: dict[str, Callable[[], Iterator[bytes]]] = {
    "VU#229804": router_lsas_in_others_names,
    "CVE-2011-3323 to CVE-2011-3327": unknown_types,
    "CVE-2012-0249": malformed_updates,
    "CVE-2012-0250": malformed_networks,
    "CVE-2024-27913, CVE-2024-34088": traffic_engineering,
    "CVE-2024-31950": segment_routing,
    "CVE-2024-31951, CVE-2025-61099 to CVE-2025-61107": extended_links,
    "CVE-2026-28532": lengths_that_wrap,
    "Quagga 0.98.1, #290566": long_packets,
    "BIRD 0ac9cb2c1f65": other_mtus,
    "BIRD 1fba34a7a1e2, d5356072ac18": long_lsas,
    "BIRD 52572e94ec75, 8bd718b3ba34": last_sequence_numbers,
    "BIRD 82937b465b3a, a6bc04d59130, ae85e28cf410": wrong_headers,
    "BIRD ab164971891c": malformed_prefixes,
    "BIRD e550a3720652": other_routers,
}
"""By what the packages call them: CVE numbers, entries of changelogs, commits."""
