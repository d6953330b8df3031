import contextlib
import socket
import struct
import sys
import unittest
from collections.abc import Callable
from ipaddress import IPv4Interface, IPv4Network
from unittest import mock

from leafrunt_host import rtnetlink
from leafrunt_host.rtnetlink import (
    NEW_LINK,
    OF_LINKS,
    AddRoute,
    Address,
    CannotAsk,
    Change,
    DeleteNextHop,
    DeleteRoute,
    Kernel,
    Link,
    News,
    NextHop,
    Notices,
    Refusal,
    ReplaceNextHop,
    ReplaceRoute,
    Route,
    SetNextHop,
    attribute,
    filter_of_others,
    id_of,
    link_of,
    messages,
    number,
    request,
)

# What Linux 6.18 sent, of a veth pair e1, e2 whose far end was taken down in between; of a link's
# attributes the name, the MTU and one more.
LINKS = (
    "38000000100002000200000050350000" "00000100020000004310010000000000" "0700030065320000"
    "08000d00e8030000" "08000400dc050000"
)
LINK_DOWN = (
    "2c000000100000000000000000000000" "00000100030000000310000000000000" "0700030065310000"
    "08000400dc050000"
)
ADDRESSES = (
    "4c0000001400020002000000503500000218800003000000080001000a000101080002000a000101070003006531"
    "0000080008008000000014000600ffffffffffffffff7ca202007ca20200"
    "4c0000001400020002000000503500000218810003000000080001000a000107080002000a000107070003006531"
    "0000080008008100000014000600ffffffffffffffff7ca202007ca20200"
)
ROUTES = (
    "3400000018002200030000005035000002000000fe0300010000000008000f00fe000000080005000a0001090800"
    "040003000000"
    "4c00000018002200030000005035000002180000fe5900010400000008000f00fe00000008000100010204000800"
    "06005900000008001e005b000000080005000a0001030800040003000000"
    "5800000018002200030000005035000002180000fe5900010000000008000f00fe00000008000100010205000800"
    "060059000000240009001000000003000000080005000a0001031000000003000000080005000a000104"
)
NEXT_HOPS = (
    "3000000068000200040000005035000002fd590004000000080001005a0000000800050003000000080006000a00"
    "0103"
    "3c0000006800020004000000503500000000590000000000080001005b00000006000300000000000c0002005a00"
    "00000000000008000e0000000080"
)
REFUSED = (
    "44000000020000030500000050350000eaffffff340000001800050605000000000000001e0001004e657874686f"
    "7020696420646f6573206e6f74206578697374000000"
)
ROUTE_DELETED = (
    "4c000000190000007c4d0a6b8c35000002180000fe5900010400000008000f00fe00000008000100010204000800"
    "06005900000008001e005b000000080005000a0001030800040003000000"
)
END = "1400000003000200010000005035000000000000"
PREFIX = bytes([1, 2, 4, 0, 24])

# What iproute2 6.1 sends, by strace(1): the body and the flags of each.
IPROUTE2: list[tuple[Change, int, str]] = [
    (
        SetNextHop(NextHop(0x054E0841, 3, bytes([10, 0, 1, 3]))),
        0x600,
        "0200590004000000" "0800010041084e05" "0800050003000000" "080006000a000103",
    ),
    (
        SetNextHop(NextHop(0x054E0842, members=(0x054E0841,))),
        0x600,
        "0000590000000000" "0800010042084e05" "0c00020041084e0500000000",
    ),
    (
        ReplaceNextHop(NextHop(0x054E0842, members=(0x054E0841,))),
        0x100,
        "0000590000000000" "0800010042084e05" "0c00020041084e0500000000",
    ),
    (DeleteNextHop(0x054E0842), 0, "0000000000000000" "0800010042084e05"),
    (
        AddRoute(PREFIX, 0x054E0842),
        0x600,
        "02180000fe59000100000000" "0800010001020400" "0800060059000000" "08001e0042084e05",
    ),
    (
        ReplaceRoute(PREFIX, 0x054E0842),
        0x100,
        "02180000fe59000100000000" "0800010001020400" "0800060059000000" "08001e0042084e05",
    ),
    (DeleteRoute(PREFIX), 0, "02180000fe59000100000000" "0800010001020400" "0800060059000000"),
]


class Answering(socket.socket):
    """A socket whose other end answers by a function of what was sent: no answer, none of its."""

    def __init__(self, answer: Callable[[bytes], list[bytes]]) -> None:
        one, self.other = socket.socketpair(socket.AF_UNIX, socket.SOCK_SEQPACKET)
        super().__init__(fileno=one.detach())
        self.answer = answer

    def send(self, data: bytes, *_: int) -> int:  # type: ignore[override]
        for each in self.answer(data):
            self.other.send(each)
        return len(data)

    def close(self) -> None:
        self.other.close()
        super().close()


def numbered(data: bytes, sequence: int) -> bytes:
    """The same messages, as an answer to that question."""
    found = b""
    for each in messages(data):
        head = struct.pack("=IHHII", 16 + len(each.body), each.kind, each.flags, sequence, 1)
        found += head + each.body + bytes(-len(each.body) % 4)
    return found


def listing(text: str) -> Callable[[bytes], list[bytes]]:
    """Answers a question by a list, in one message and its end in the next."""

    def answer(data: bytes) -> list[bytes]:
        (sequence,) = struct.unpack_from("=I", data, 8)
        return [numbered(bytes.fromhex(each), sequence) for each in (text, END)]

    return answer


def listing_of(end: Callable[[int], bytes]) -> Callable[[bytes], list[bytes]]:
    """Answers a question by a list without a message, and this end."""
    return lambda data: [end(struct.unpack_from("=I", data, 8)[0])]


@unittest.skipIf(sys.byteorder == "big", "the bytes are those of a machine of the other order")
class Kernels(unittest.TestCase):
    def kernel(self, answer: Callable[[bytes], list[bytes]]) -> Kernel:
        kernel = Kernel(89, 89, Answering(answer))
        self.addCleanup(kernel.close)
        return kernel

    def test_links(self) -> None:
        self.assertEqual(self.kernel(listing(LINKS)).links(), [Link(2, "e2", 1500, True)])

    def test_addresses(self) -> None:
        one, other = IPv4Interface("10.0.1.1/24"), IPv4Interface("10.0.1.7/24")
        self.assertEqual(
            self.kernel(listing(ADDRESSES)).addresses(),
            [Address(3, one, False), Address(3, other, True)],
        )

    def test_an_address_with_a_peer(self) -> None:
        """As `ip address add 192.0.2.1 peer 198.51.100.7/30` makes it."""
        text = "280000001400020002000000503500000" "21e800003000000" "08000100c6336407" "08000200c0000201"
        there = IPv4Network("198.51.100.4/30")
        self.assertEqual(
            self.kernel(listing(text)).addresses(),
            [Address(3, IPv4Interface("192.0.2.1/30"), False, there)],
        )

    def test_routes(self) -> None:
        kernel = self.kernel(listing(ROUTES))
        first, second = bytes([10, 0, 1, 3]), bytes([10, 0, 1, 4])
        by_object = Route(PREFIX, 89, 89, 91, ((first, 3),), live=(3,))
        both = ((first, 3), (second, 3))
        by_itself = Route(bytes([1, 2, 5, 0, 24]), 89, 89, 0, both, live=(3, 3))
        default = Route(bytes(5), 3, 0, 0, ((bytes([10, 0, 1, 9]), 3),), live=(3,))
        self.assertEqual(kernel.routes(), [default, by_object, by_itself])
        self.assertEqual(kernel.own_routes(), [by_object, by_itself])

    def test_another_table(self) -> None:
        """Its number is in a byte or, where it's larger, in an attribute, in questions, changes and
        answers; one without routes isn't there, and a list that ends with another error is none."""
        far = bytes.fromhex(ROUTE_DELETED).replace(bytes([254, 89, 0, 1]), bytes([252, 89, 0, 1]))
        far = far.replace(bytes([15, 0, 254, 0, 0, 0]), bytes([15, 0, 0xE8, 3, 0, 0]))
        listed = listing(far.hex())

        for table, byte, more in ((100, 100, b""), (1000, 0, bytes.fromhex("08000f00e8030000"))):
            asked: list[bytes] = []

            def answer(data: bytes) -> list[bytes]:
                asked.append(data)
                return listed(data)

            kernel = Kernel(89, 89, Answering(answer), table)
            self.addCleanup(kernel.close)
            self.assertEqual(len(kernel.routes()), table == 1000)
            self.assertEqual((asked[0][20], asked[0][28:]), (byte, more))
            for change in (AddRoute(PREFIX, 7), ReplaceRoute(PREFIX, 7), DeleteRoute(PREFIX)):
                body = request(change, 89, 89, table)[2]
                self.assertEqual((body[4], body.endswith(more)), (byte, True))
                self.assertEqual(len(body), len(request(change, 89, 89)[2]) + len(more))

    def test_a_list_that_ends_with_an_error(self) -> None:
        for number, is_empty in ((2, True), (22, False)):
            end = bytes.fromhex(END)[:16] + struct.pack("=i", -number)
            kernel = self.kernel(listing_of(lambda sequence: numbered(end, sequence)))
            if is_empty:
                self.assertEqual(kernel.routes(), [])
                continue
            with self.assertRaisesRegex(CannotAsk, "can't be asked: Invalid argument") as raised:
                kernel.routes()
            self.assertEqual(raised.exception.number, number)

    def test_a_list_that_changes_while_it_is_given(self) -> None:
        """By NLM_F_DUMP_INTR, on its last message alone: it's asked for again, and is refused if it
        is so each time, since it may lack what is there."""
        for marked in (1, rtnetlink.TRIES - 1, rtnetlink.TRIES):
            asked: list[bytes] = []

            def answer(data: bytes) -> list[bytes]:
                asked.append(data)
                first, end = listing(NEXT_HOPS)(data)
                is_marked = len(asked) <= marked
                return [first, end[:6] + bytes([0x12]) + end[7:] if is_marked else end]

            with self.subTest(marked=marked):
                kernel = self.kernel(answer)
                if marked < rtnetlink.TRIES:
                    self.assertEqual(len(kernel.next_hops()), 2)
                    continue
                with self.assertRaisesRegex(CannotAsk, "the kernel's list changes each time"):
                    kernel.next_hops()
                kernel.patience, asked[:] = 5.0, []
                self.assertEqual(len(kernel.next_hops()), 2)
                self.assertEqual(len(asked), marked + 1)

    def test_a_vrf(self) -> None:
        """Of <linux/if_link.h>: a VRF device, and an interface that is enslaved to it."""
        head = bytes.fromhex(LINK_DOWN)[16:32]
        name, table = attribute(3, b"red\0"), attribute(0x8002, number(1, 1000))
        device = head + name + attribute(18, attribute(1, b"vrf\0") + table)
        slave = head + attribute(3, b"e1\0") + number(10, 3)
        bridge = head + name + attribute(18, attribute(1, b"bridge\0") + table)
        self.assertEqual(link_of(device)[4:], (0, 1000))
        self.assertEqual(link_of(slave)[4:], (3, 0))
        self.assertEqual(link_of(bridge)[4:], (0, 0))

    def test_next_hops(self) -> None:
        both = [NextHop(90, 3, bytes([10, 0, 1, 3])), NextHop(91, members=(90,))]
        self.assertEqual(self.kernel(listing(NEXT_HOPS)).next_hops(), both)
        of_another = NEXT_HOPS.replace("02fd5900", "02fd0b00")
        kernel = self.kernel(listing(of_another))
        self.assertEqual(kernel.next_hops(), both[1:])
        self.assertEqual(kernel.next_hops(also={91}), both[1:])
        self.assertEqual(kernel.next_hops(also={90}), both)
        self.assertEqual(kernel.next_hops(is_own=False), both)
        body = next(messages(bytes.fromhex(NEXT_HOPS))).body
        self.assertEqual([id_of(body), id_of(body[:8] + body[16:] + body[8:16])], [90, 90])

    def test_changes_are_iproute2s(self) -> None:
        for change, flags, body in IPROUTE2:
            with self.subTest(change):
                self.assertEqual(request(change, 89, 89)[1:], (flags, bytes.fromhex(body)))

    def test_refusals(self) -> None:
        """Of 450 changes, the second and the last are refused, with the kernel's words."""

        def answer(data: bytes) -> list[bytes]:
            sequences = [each.sequence for each in messages(data)]
            asks = [each.sequence for each in messages(data) if each.flags & 4]
            refused = [each for each in sequences if each in (2, 450)]
            done = [each for each in asks if each not in refused]
            good = "24000000020000000000000000000000" "00000000" "340000001800050605000000"
            found = [numbered(bytes.fromhex(REFUSED), each) for each in refused]
            return found + [numbered(bytes.fromhex(good) + bytes(4), each) for each in done]

        said = self.kernel(answer).change([AddRoute(PREFIX, 77)] * 450)
        self.assertEqual(len(said), 450)
        there = {at: each for at, each in enumerate(said) if each}
        words = Refusal(22, "Nexthop id does not exist")
        self.assertEqual(there, {1: words, 449: words})

    def test_a_kernel_that_does_not_answer(self) -> None:
        with mock.patch.object(rtnetlink, "SECONDS", 0.05):
            kernel = self.kernel(lambda data: [])
            for asked in (kernel.links, lambda: kernel.change([DeleteRoute(PREFIX)])):
                with self.assertRaisesRegex(CannotAsk, "hasn't answered for 0.05 seconds"):
                    asked()

    def test_answers_to_another_question(self) -> None:
        """What was still on its way when an earlier one was given up."""

        def answer(data: bytes) -> list[bytes]:
            return [numbered(bytes.fromhex(NEXT_HOPS), 0), *listing(LINKS)(data)]

        self.assertEqual(len(self.kernel(answer).links()), 1)

    def test_any_bytes(self) -> None:
        for cut in range(0, len(ROUTES), 2):
            for each in messages(bytes.fromhex(ROUTES[:cut])):
                self.assertLessEqual(len(each.body), cut // 2)


def place_of(kind: int, data: bytes, at: int) -> int:
    """Where an attribute begins; 0 if there is none."""
    while at + 4 <= len(data):
        length, its = struct.unpack_from("=HH", data, at)
        if its == kind:
            return at
        at += (length + 3) & ~3
    return 0


def runs(program: list[tuple[int, int, int, int]], data: bytes) -> bool:
    """Whether a classic BPF program takes the packet (bpf(4)), of the instructions used here."""
    at = value = index = 0
    while True:
        code, if_so, if_not, number = program[at]
        at += 1
        if code == 0x06:
            return number > 0
        if code == 0x15:
            at += if_so if value == number else if_not
        elif code == 0x00:
            value = number
        elif code == 0x54:
            value &= number
        elif code in (0x01, 0x07):
            index = value if code == 0x07 else number
        elif number == 0xFFFFF00C:
            value = place_of(index, data, value)
        elif code in (0x40, 0x50):
            width = {0x40: 4, 0x50: 1}[code]
            value = int.from_bytes(data[index + number : index + number + width], "big")
        else:
            width = {0x20: 4, 0x28: 2, 0x30: 1}[code]
            value = int.from_bytes(data[number : number + width], "big")


@unittest.skipIf(sys.byteorder == "big", "the bytes are those of a machine of the other order")
class Noticed(unittest.TestCase):
    def test_which_notices_come(self) -> None:
        port, deleted = 0x358C, bytes.fromhex(ROUTE_DELETED)
        of_bgp = deleted[:21] + b"\xba" + deleted[22:]
        next_hop = bytes.fromhex(NEXT_HOPS)[:48]
        for data, own, is_taken in (
            (deleted, 1, True),
            (deleted, port, False),
            (of_bgp, 1, False),
            (next_hop, 1, False),
            (bytes.fromhex(LINK_DOWN), port, True),
            (bytes.fromhex(ADDRESSES)[:76], 1, True),
        ):
            with self.subTest(data.hex()):
                program = filter_of_others(own, 89, ids=range(89_000_000, 90_000_000))
                self.assertEqual(runs(program, data), is_taken)

    def test_next_hops_by_their_numbers(self) -> None:
        """Whatever their protocol: `ip nexthop replace` gives one of the box's another. The filter
        goes by the highest byte, and what it lets through is looked at."""
        ids = range(0x05FF_FFF0, 0x0600_0010)
        for first, is_let, news in (
            (0x05FF_FFEF, True, News.NOTHING),
            (0x05FF_FFF0, True, News.NEXT_HOPS),
            (0x0600_000F, True, News.NEXT_HOPS),
            (0x0600_0010, True, News.NOTHING),
            (0x0005_0606, False, None),
            (0x0700_0000, False, None),
        ):
            body = struct.pack("=BBBxI", 2, 0, 4, 0) + number(5, 3) + number(1, first)
            for kind in (104, 105):
                data = struct.pack("=IHHII", 16 + len(body), kind, 0, 1, 9) + body
                taken = [runs(filter_of_others(own, 89, ids=ids), data) for own in (1, 9)]
                self.assertEqual(taken, [is_let, False], hex(first))
                if news is not None:
                    one, kernel = socket.socketpair(socket.AF_UNIX, socket.SOCK_SEQPACKET)
                    with contextlib.closing(Notices(1, 89, one, ids=ids)) as notices, kernel:
                        kernel.send(data)
                        self.assertEqual(notices.read(), news, hex(first))

    def test_a_socket_that_cannot_be_prepared_is_closed(self) -> None:
        def refused(one: socket.socket) -> None:
            raise OSError(1, "Operation not permitted")

        for opened in (mock.Mock(), OSError(24, "Too many open files")):
            with self.subTest(opened), mock.patch.object(rtnetlink, "netlink", side_effect=[opened]):
                with self.assertRaisesRegex(CannotAsk, "^no socket for the kernel's notices: "):
                    rtnetlink.notice_socket(OF_LINKS, refused)
                if isinstance(opened, mock.Mock):
                    opened.close.assert_called_once_with()

    def test_routes_that_take_the_place_of_own_ones(self) -> None:
        """Another program's, with the box's metric: `ip route replace` tells of no other one."""
        deleted = bytes.fromhex(ROUTE_DELETED)
        of_bgp = deleted[:21] + b"\xba" + deleted[22:]
        for metric, own, is_taken in ((89, 1, True), (88, 1, False), (89, 0x358C, False)):
            for kind in (24, 25):
                notice = of_bgp[:4] + bytes([kind]) + of_bgp[5:]
                taken = runs(filter_of_others(own, 89, metric=metric), notice)
                self.assertEqual(taken, is_taken, (metric, own, kind))
        without = of_bgp.replace(bytes.fromhex("0800060059000000"), b"")
        self.assertFalse(runs(filter_of_others(1, 89, metric=89), without))

    def test_what_they_say(self) -> None:
        one, kernel = socket.socketpair(socket.AF_UNIX, socket.SOCK_SEQPACKET)
        notices = Notices(7, 89, one)
        self.addCleanup(notices.close)
        self.addCleanup(kernel.close)
        self.assertEqual(notices.read(), News.NOTHING)
        for text, news in ((LINK_DOWN, News.LINKS), (ROUTE_DELETED, News.ROUTES)):
            kernel.send(bytes.fromhex(text))
            self.assertEqual(notices.read(), news)
        kernel.send(numbered(bytes.fromhex(ROUTE_DELETED), 1).replace(b"\1\0\0\0\2", b"\7\0\0\0\2"))
        self.assertEqual(notices.read(), News.NOTHING)

    def test_notices_of_other_programs(self) -> None:
        """As root, who may send to any port: another user is refused for that."""
        with contextlib.closing(Notices(groups=OF_LINKS)) as notices:
            port = notices._socket.getsockname()[0]
            kind = socket.AF_NETLINK, socket.SOCK_RAW, socket.NETLINK_ROUTE
            with contextlib.closing(socket.socket(*kind)) as forger:
                forger.bind((0, 0))
                with self.assertRaises((ConnectionRefusedError, PermissionError)):
                    forger.sendto(struct.pack("=IHHII", 16, NEW_LINK, 0, 0, 0), (port, 0))
            self.assertEqual(notices.read(), News.NOTHING)

    def test_the_kernels_own(self) -> None:
        """A socket to the real kernel, which any user may have."""
        kernel = Kernel(89, 89)
        self.addCleanup(kernel.close)
        self.assertIn("lo", [each.name for each in kernel.links()])
        notices = Notices(kernel.port, 89)
        self.addCleanup(notices.close)
        self.assertIn(notices.read(), [News.NOTHING, *News, News.ALL])


if __name__ == "__main__":
    unittest.main()
