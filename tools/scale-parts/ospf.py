"""OSPFv2 packets and LSAs as bytes (RFC 2328, appendix A and section 12.1.7), as far as tools/scale needs them."""
import struct

HELLO, DESCRIPTION, REQUEST, UPDATE, ACKNOWLEDGMENT = 1, 2, 3, 4, 5
LEAST = {HELLO: 44, DESCRIPTION: 32, REQUEST: 24, UPDATE: 28, ACKNOWLEDGMENT: 24}
OPTIONS = 2
MTU = 8192
HEADER = 20
"""The bytes of an LSA's header."""


def dotted(number: int) -> str:
    return ".".join(str(number >> shift & 255) for shift in (24, 16, 8, 0))


def number_of(text: str) -> int:
    a, b, c, d = (int(word) for word in text.split("."))
    return a << 24 | b << 16 | c << 8 | d


def word(data: bytes, at: int, size: int = 4) -> int:
    return int.from_bytes(data[at : at + size], "big")


def packet_checksum(data: bytes) -> int:
    """The checksum for bytes 12 and 13; bytes 16 to 23 aren't in the sum."""
    covered = data[:12] + b"\0\0" + data[14:16] + data[24:]
    covered += b"\0" * (len(covered) % 2)
    total = sum(struct.unpack(f">{len(covered) // 2}H", covered))
    while total >> 16:
        total = (total & 0xFFFF) + (total >> 16)
    return ~total & 0xFFFF


def lsa_checksum(data: bytes) -> int:
    """Fletcher's checksum: two bytes from 1 to 255 by which both sums over the LSA but its age become 0."""
    covered = bytearray(data[2:])
    covered[14:16] = b"\0\0"
    length = len(covered)
    plain, weighted = sum(covered), sum((length - at) * byte for at, byte in enumerate(covered))
    first = (-weighted + (length - 15) * plain) % 255
    return (first or 255) << 8 | ((-plain - first) % 255 or 255)


def sealed(kind: int, identifier: str, router: str, sequence: int, body: bytes) -> bytes:
    """Returns an LSA of age 0."""
    head = struct.pack(">HBBIIIHH", 0, OPTIONS, kind, number_of(identifier), number_of(router), sequence, 0, HEADER + len(body))
    whole = head + body
    return whole[:16] + lsa_checksum(whole).to_bytes(2, "big") + whole[18:]


def router_lsa(router: str, sequence: int, links: list[list]) -> bytes:
    """Returns the LSA of an AS boundary router. Links are of Link ID, Link Data, type and metric."""
    body = struct.pack(">BBH", 2, 0, len(links))
    for identifier, data, kind, metric in links:
        body += struct.pack(">IIBBH", number_of(identifier), number_of(data), kind, 0, metric)
    return sealed(1, router, router, sequence, body)


def network_lsa(router: str, address: str, sequence: int, attached: list[str]) -> bytes:
    """Returns the LSA of a transit network of prefix length 30, by its designated router."""
    body = struct.pack(">I", number_of("255.255.255.252"))
    return sealed(2, address, router, sequence, body + b"".join(number_of(it).to_bytes(4, "big") for it in attached))


def external_lsa(router: str, prefix: str, sequence: int, kind: int, metric: int) -> bytes:
    """Returns the LSA of a prefix of length 24, of metric type 1 or 2."""
    kind_and_metric = (0x80000000 if kind == 2 else 0) | metric
    body = struct.pack(">IIII", number_of("255.255.255.0"), kind_and_metric, 0, 0)
    return sealed(5, prefix, router, sequence, body)


def write(kind: int, router: str, body: bytes) -> bytes:
    data = struct.pack(">BBHIIHH", 2, kind, 24 + len(body), number_of(router), 0, 0, 0) + b"\0" * 8 + body
    return data[:12] + packet_checksum(data).to_bytes(2, "big") + data[14:]


def hello(router: str, interval: int, dead: int, neighbors: list[str]) -> bytes:
    body = struct.pack(">IHBBIII", number_of("255.255.255.0"), interval, OPTIONS, 1, dead, 0, 0)
    return write(HELLO, router, body + b"".join(number_of(it).to_bytes(4, "big") for it in neighbors))


def description(router: str, flags: int, sequence: int, headers: list[bytes]) -> bytes:
    return write(DESCRIPTION, router, struct.pack(">HBBI", MTU, OPTIONS, flags, sequence) + b"".join(headers))


def update(router: str, lsas: list[bytes]) -> bytes:
    return write(UPDATE, router, struct.pack(">I", len(lsas)) + b"".join(lsas))


def acknowledgment(router: str, headers: list[bytes]) -> bytes:
    return write(ACKNOWLEDGMENT, router, b"".join(headers))


def headers_of(data: bytes) -> list[bytes]:
    """Returns the headers of the LSAs in an Update."""
    found, at = [], 28
    while at + HEADER <= len(data):
        found.append(data[at : at + HEADER])
        at += max(word(data, at + 18, 2), HEADER)
    return found


def keys_of(data: bytes) -> list[tuple[int, str, str]]:
    """Returns type, Link State ID and Advertising Router of each LSA that a Request names."""
    return [(word(data, at), dotted(word(data, at + 4)), dotted(word(data, at + 8))) for at in range(24, len(data) - 11, 12)]


def type_of(data: bytes) -> int:
    """Returns a packet's type, 0 for what is none."""
    kind = data[1] if len(data) >= 24 and data[0] == 2 else 0
    return kind if len(data) >= LEAST.get(kind, 24) and word(data, 2, 2) == len(data) else 0
