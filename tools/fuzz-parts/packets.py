"""OSPF packets for tools/fuzz: other routers' faults first, then packets of theirs that are changed, put together anew or made up."""
import random
import struct
from collections.abc import Iterator
from ipaddress import IPv4Address

import family
from tests import captured, faults, test_withheld
from tests.test_topology import lsa, sealed

HEADER, LSA_HEADER = 24, 20
UPDATE = 4
LSAS = [*test_withheld.UNREAD.values(), test_withheld.ROUTER, test_withheld.NETWORK, test_withheld.OTHER, test_withheld.EXTERNAL]
PACKETS = [bytes.fromhex(each) for each in captured.PLAIN.values()]
damaged = family.tool("try-hooktool").damaged


def sealed_packet(data: bytes, router: bytes) -> bytes:
    """The packet of that router, with its length and checksum if it has a header."""
    if len(data) < HEADER:
        return data
    return faults.headed(data[:4] + router + data[8:], length=len(data) & 0xFFFF)


def any_lsa(rng: random.Random) -> bytes:
    """An LSA, mostly with a checksum that holds and the length that it has."""
    kind = rng.randrange(4)
    if kind == 0:
        body = bytes(rng.randrange(256) for _ in range(4 * rng.randrange(12)))
        sequence = rng.choice((-0x7FFFFFFF, -0x80000000, 0x7FFFFFFF, rng.randrange(-(2**31), 2**31)))
        names = (f"{rng.randrange(256)}.{rng.randrange(4)}.0.0", rng.choice(("1.1.1.1", "2.2.2.2", "9.9.9.9", "3.3.3.3")))
        return lsa(rng.choice((1, 2, 3, 4, 5, rng.randrange(256))), *names, body, sequence, rng.choice((0, 1, 3599, 3600, rng.randrange(65536))))
    made = rng.choice(LSAS)
    made = family.changed(rng, made) if kind < 3 else damaged(rng, made)
    if len(made) >= LSA_HEADER and rng.random() < 0.8:
        made = sealed(made[:18] + struct.pack(">H", len(made) & 0xFFFF) + made[20:])
    return made


def made_up(rng: random.Random) -> bytes:
    """A packet of LSAs or of their headers."""
    lsas = [any_lsa(rng) for _ in range(rng.choice((0, 1, 1, 2, 5, 40)))]
    kind = rng.randrange(1, 6)
    head = faults.of_neighbor(kind, b"")
    if kind == UPDATE:
        count = len(lsas) if rng.random() < 0.9 else rng.choice((0, 1, 0xFFFFFFFF))
        return head + count.to_bytes(4, "big") + b"".join(lsas)
    if kind == 2:
        flags, number = rng.randrange(8), rng.choice((7, 8, rng.randrange(2**32)))
        head += struct.pack(">HBBI", rng.choice((1500, 0, 8192)), 2, flags, number)
    if kind == 3:
        return head + b"".join(bytes(3) + each[3:12] for each in lsas)
    return head + b"".join(each[:LSA_HEADER] for each in lsas)


def packets(rng: random.Random, router: str = "2.2.2.2") -> Iterator[bytes]:
    """Packets in that neighbor's name, without end."""
    name = bytes(map(int, router.split(".")))
    for make in faults.FAULTS.values():
        for data in make():
            yield data if router == "2.2.2.2" else faults.named(data, IPv4Address(router))
    while True:
        kind = rng.randrange(10)
        if kind < 4:
            yield sealed_packet(made_up(rng), name)
        elif kind < 7:
            yield sealed_packet(family.changed(rng, rng.choice(PACKETS)), name)
        elif kind == 7:
            yield sealed_packet(family.spliced(rng, rng.choice(PACKETS), rng.choice(PACKETS)), name)
        elif kind == 8:
            yield damaged(rng, rng.choice(PACKETS))
        else:
            yield bytes(rng.randrange(256) for _ in range(rng.choice((0, 1, 23, 24, 44, 200, 1500, 9000))))
