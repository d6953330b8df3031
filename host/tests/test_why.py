"""`leafrunt why`: causes for which a destination is missing, by LSAs as bytes (RFC 2328, A.4)."""
import hashlib
import json
import struct
import tempfile
import unittest
from dataclasses import replace
from ipaddress import IPv4Address, IPv4Network
from pathlib import Path
from unittest import mock

from leafrunt_host import why as whys
from leafrunt_host.announcements import Announced
from leafrunt_host.destinations import Announcement, Owner
from leafrunt_host.exchange import Side
from leafrunt_host.kernel import DST, DST_KIND, Holding, Json, KernelRoute, Way, may_hold
from leafrunt_host.lines_of_c import Lines
from leafrunt_host.lsas import MAX_AGE
from leafrunt_host.observing import Report
from leafrunt_host.programs import Attached
from leafrunt_host.rtnetlink import ROUTE, number
from leafrunt_host.status import Kept, Known
from leafrunt_host.topology import Topology
from leafrunt_host.veto_trial import Question, Verdict, is_test, leans_on, test_at
from leafrunt_host.why import Heard, Why, heard_of, prefix_asked
from leafrunt_host.why_lines import why_lines
from tests import schemas
from tests.test_desk import THERE, TWO, known
from tests.test_topology import external, lsa, router_lsa, update

FULL = ("neighbor 1 2.2.2.2 Full",)
POINT, STUB = 1, 3
MASK = "255.255.255.0"
DESTINATION = "203.0.113.0/24"
TO_TWO = (POINT, "2.2.2.2", "10.0.1.1", 10)
TO_ONE = (POINT, "1.1.1.1", "10.0.1.2", 10)
BOUNDARY = 2
"""The flag of an AS boundary router (A.4.2)."""
NO_LONG = bytes.fromhex(
    "42504648010400000000000005000000"
    "6112080000000000b700000000000000b502010018000000b7000000010000009500000000000000"
)
"""An object whose program is: r2 = *u32 r1 8; r0 = 0; if r2 <= 24 goto +1; r0 = 1; exit
(docs/reference/FORMATS.md, "Code")."""


class Whys(unittest.TestCase):
    def setUp(self) -> None:
        self.now = 100.0
        self.topology = Topology(lambda: self.now)
        self.known: Known = known(Report("eth1", TWO, THERE, 1.0), neighbors=FULL)
        self.kernel: list[Holding] = []
        patched = mock.patch.object(whys, "routes_to", lambda *_: self.kernel)
        patched.start()
        self.addCleanup(patched.stop)

    def sent(self, *lsas: bytes) -> None:
        self.topology.watch(Side.ROUTER, update(*lsas), self.now)

    def two(self, *links: tuple[int, str, str, int], flags: int = BOUNDARY) -> None:
        """The box's router-LSA and its neighbor's."""
        self.sent(router_lsa("1.1.1.1", TO_TWO))
        self.sent(router_lsa("2.2.2.2", TO_ONE, *links, flags=flags))

    def why(self, prefix: str = DESTINATION, table: tuple[str, ...] = (), silence: str = "") -> Json:
        lists = {"table": list(table), "counters": ["counter 3 7"]}
        heard = Heard({}, [], silence) if silence else heard_of(lambda line: lists[line])
        net = prefix_asked(prefix, heard, self.topology)
        said: Json = json.loads(json.dumps(Why(self.known, self.topology, heard, net).document()))
        self.assertEqual(schemas.faults(schemas.schema("why"), said), [])
        return said

    def lines(self, *words: str, **named: tuple[str, ...]) -> str:
        return "\n".join(why_lines(self.why(*words, **named)))

    def test_no_lsa(self) -> None:
        self.two()
        self.sent(external("203.0.112.0/20", "2.2.2.2"))
        said = self.lines(table=("203.0.113.128/25 ext2 20 via 1",))
        self.assertIn("no LSA of the 3 here announces 203.0.113.0/24", said)
        self.assertIn("near: 203.0.112.0/20, announced by 2.2.2.2", said)
        self.assertIn("near: 203.0.113.128/25, in the table", said)
        self.assertIn("no route to 203.0.113.0/24, and no shorter one: packets are dropped", said)

    def test_no_router_lsa(self) -> None:
        self.two()
        self.sent(external(DESTINATION, "9.0.0.9"))
        self.assertIn("not used: there is no router-LSA of 9.0.0.9", self.lines())

    def test_two_way_check(self) -> None:
        """RFC 2328, 16.1, step 2b: a link counts if the other end links back."""
        self.two((POINT, "9.0.0.4", "10.0.4.2", 5))
        self.sent(router_lsa("9.0.0.4", flags=BOUNDARY), external(DESTINATION, "9.0.0.4"))
        broken = "2.2.2.2 lists a link to 9.0.0.4, and 9.0.0.4 lists none to 2.2.2.2"
        self.assertIn(f"not used: no way to 9.0.0.4: {broken}", self.lines())

    def test_a_link_back_alone_behind_another(self) -> None:
        self.two()
        one, other = (POINT, "9.0.0.5", "10.0.5.4", 5), (POINT, "9.0.0.4", "10.0.5.5", 5)
        back = (POINT, "2.2.2.2", "10.0.4.4", 5)
        self.sent(router_lsa("9.0.0.4", one, back), router_lsa("9.0.0.5", other, flags=BOUNDARY))
        self.sent(external(DESTINATION, "9.0.0.5"))
        broken = "9.0.0.4 lists a link to 2.2.2.2, and 2.2.2.2 lists none to 9.0.0.4"
        self.assertIn(f"not used: no way to 9.0.0.5: {broken}", self.lines())

    def test_no_adjacency(self) -> None:
        """The router-LSA that was sent last says otherwise: nobody was there to be sent a new one."""
        self.two()
        self.sent(external(DESTINATION, "2.2.2.2"))
        self.known = known(Report("eth1", TWO, THERE, 1.0, ("HelloInterval 3 there and 2 here",)))
        said = self.lines()
        self.assertIn("2.2.2.2 lists a link to 1.1.1.1, and 1.1.1.1 lists none to 2.2.2.2", said)
        self.assertIn("eth1: no neighbor: HelloInterval 3 there and 2 here: what lies behind", said)

    def test_no_boundary_router(self) -> None:
        self.two(flags=0)
        self.sent(external(DESTINATION, "2.2.2.2"))
        said = self.lines()
        self.assertIn("router-LSA of 2.2.2.2 doesn't say that it is an AS boundary router", said)

    def test_ls_infinity(self) -> None:
        self.two()
        self.sent(external(DESTINATION, "2.2.2.2", metric=0xFFFFFF))
        self.assertIn("its metric is LSInfinity", self.lines())

    def test_forwarding_address(self) -> None:
        """RFC 2328, 16.4, step 3."""
        self.two((STUB, "10.9.0.0", MASK, 5))
        self.sent(external(DESTINATION, "2.2.2.2", forwarding="10.99.0.1"))
        nobody = "not used: no network of the area has its forwarding address 10.99.0.1"
        self.assertIn(nobody, self.lines())
        self.sent(external(DESTINATION, "2.2.2.2", forwarding="10.9.0.1", sequence=-0x7FFFFFFE))
        (one,) = self.why()["announced_by"]
        self.assertEqual((one["cost"], one["is_best"], one["why_not"]), (20, True, None))

    def test_withdrawn_and_run_out(self) -> None:
        self.two()
        self.sent(external(DESTINATION, "2.2.2.2"), external("10.7.0.0/16", "2.2.2.2", age=3000))
        self.now += 10
        self.sent(external(DESTINATION, "2.2.2.2", age=MAX_AGE))
        self.assertRegex(self.lines(), r"of 2\.2\.2\.2: withdrawn at \d{4}-.*\(flushed at MaxAge\)")
        self.now += 700
        self.assertIn("ran out, an hour after its last refresh, at ", self.lines("10.7.0.0/16"))

    def test_a_better_one(self) -> None:
        """RFC 2328, 11: intra-area before type 1 before type 2, then the metric, the distance."""
        self.two((STUB, "203.0.113.0", MASK, 40))
        self.sent(external(DESTINATION, "2.2.2.2", 1), external(DESTINATION, "1.1.1.1", 1))
        offers = self.why(table=(f"{DESTINATION} intra 50 via 1",))["announced_by"]
        kinds = [(each["path_type"], each["cost"], each["why_not"]) for each in offers]
        worse = "not used: a better one is above"
        self.assertEqual(
            kinds, [("intra", 50, None), ("ext2", 1, worse), ("ext2", None, "this router's own")]
        )

    def test_other_areas(self) -> None:
        """16.2: by the area border router's distance; a boundary router behind it by 16.4."""
        self.two(flags=1)
        mask = IPv4Address(MASK).packed
        self.sent(lsa(3, "203.0.113.0", "2.2.2.2", mask + struct.pack(">I", 7)))
        self.sent(lsa(4, "5.5.5.5", "2.2.2.2", bytes(4) + struct.pack(">I", 30)))
        self.sent(external("10.8.0.0/16", "5.5.5.5", kind=1))
        (one,) = self.why()["announced_by"]
        self.assertEqual((one["type"], one["path_type"], one["cost"]), ("summary", "inter", 17))
        (far,) = self.why("10.8.0.0/16")["announced_by"]
        self.assertEqual((far["path_type"], far["cost"]), ("ext1", 10 + 30 + 20))

    def test_an_address(self) -> None:
        """Its longest prefix, also where that is vetoed and a shorter one is in the table."""
        self.two((STUB, "203.0.113.64", "255.255.255.192", 1))
        self.sent(external("203.0.113.0/24", "2.2.2.2"), external("203.0.0.0/16", "2.2.2.2"))
        table = ("203.0.0.0/16 ext2 20 via 1",)
        for address, prefix in (
            ("203.0.113.70", "203.0.113.64/26"),
            ("203.0.113.1", "203.0.113.0/24"),
            ("203.0.9.1", "203.0.0.0/16"),
            ("10.1.1.1", "10.1.1.1/32"),
        ):
            self.assertEqual(self.why(address, table)["prefix"], prefix)
        for wrong in ("203.0.113.1/24", "203.0.113", "", "x", "10.0.0.0/33"):
            heard = Heard({}, [])
            self.assertRaises(ValueError, prefix_asked, wrong, heard, self.topology)

    # -- the kernel

    def test_another_programs_route(self) -> None:
        self.two()
        self.sent(external(DESTINATION, "2.2.2.2"))
        route = KernelRoute(IPv4Network(DESTINATION), (Way("eth3", None),))
        self.kernel = [Holding(route, 4, 89, 1)]
        self.known.kept = Kept(refused=(f"{DESTINATION} via 10.0.1.2 dev eth1: File exists",))
        said = self.lines(table=(f"{DESTINATION} ext2 20 via 1",))
        self.assertIn("dev eth3 (another program's: proto static, metric 89)", said)
        self.assertIn(f"the kernel refuses the box's: {DESTINATION} via 10.0.1.2", said)

    def test_on_purpose(self) -> None:
        table = (f"{DESTINATION} ext2 20 via 1", "10.0.2.0/24 intra 10 via 0")
        net = IPv4Network(DESTINATION)
        for answer, words in (("originated", "announces 203.0.113.0/24 itself"), ("withheld", "price")):
            it = Announced(Announcement(net, 1, 2, 0), answer, Owner.STATIC)
            self.known.announced = {net: it}
            said = self.why(table=table)["kernel"]["left_out"]
            self.assertIn(words, said)
            self.assertIn("static", said)
        self.assertIn("own interfaces", self.why("10.0.2.0/24", table)["kernel"]["left_out"])
        self.known.announced = {}
        self.known.kept = Kept(without_hop=(DESTINATION.encode(),))
        self.assertIn("isn't Full", self.why(table=table)["kernel"]["left_out"])
        self.known.configuration = replace(self.known.configuration, kernel=False)
        self.assertIn("kernel = false", self.why(table=table)["kernel"]["left_out"])

    def test_routerd_is_silent(self) -> None:
        said = "\n".join(why_lines(self.why(silence="routerd hasn't answered `table` for 9 s")))
        self.assertIn("\nrouterd hasn't answered `table` for 9 s\n", said)

    # -- the program

    def test_a_program(self) -> None:
        self.two()
        self.sent(external(DESTINATION, "2.2.2.2", metric=33))
        self.known.programs = {"veto": Attached("/gone.o", 5, "alice as root", 1e9, NO_LONG)}
        asked: list[Question] = []

        def trial(_program: object, question: Question, *_: object) -> mock.Mock:
            asked.append(question)
            verdict = Verdict("not installed, used 5 of 5", False)
            return mock.Mock(verdict=lambda *_: verdict)

        with mock.patch.object(whys, "Trial", trial):
            said = self.lines()
        self.assertIn("/gone.o (attached at the console by alice as root at 2001-09-0", said)
        self.assertIn("bound 5) keeps it out, asked again now: not installed", said)
        self.assertIn("its file has changed since, or is gone", said)
        net = IPv4Network(DESTINATION)
        self.assertEqual(asked, [Question(net, "ext2", 33, 0, 10, (1,))])

    def test_its_question_in_bytes(self) -> None:
        """docs/reference/FORMATS.md, "Contexts"."""
        question = Question(IPv4Network("198.51.100.128/25"), "ext2", 20, 7, 30, (2, 3))
        context = bytes.fromhex(question.context())
        self.assertEqual(len(context), 64)
        self.assertEqual(context[:24].hex(), "04000000" "806433c6" "19000000" "14000000" "07000000" "04000000")
        self.assertEqual(context[32:].hex(), "1e000000" "02000000" "02000000" + "00" * 20)

    def test_what_it_goes_by(self) -> None:
        def program(*slots: str) -> bytes:
            code = b"".join(map(bytes.fromhex, slots))
            return b"BPFH\1\4\0\0\0\0\0\0" + (len(code) // 8).to_bytes(4, "little") + code

        self.assertEqual(leans_on(NO_LONG), [])
        for slots, goes_by in (
            (["8500000002000000"], ["counters"]),
            (["8500000004000000"], ["the routing table"]),
            (["1826000001000000", "0000000000000000"], ["cells"]),
            (["7912180000000000"], ["the moment"]),
            (["1802000085000000", "0000000004000000"], []),
            (["8500"], []),
        ):
            with self.subTest(slots):
                self.assertEqual(leans_on(program(*slots)), goes_by)

    def test_tests(self) -> None:
        """RFC 9669, 4.3: by 64 and 32 bits, signed and unsigned."""
        self.assertEqual([is_test(each) for each in (0xB5, 0x05, 0x85, 0x95, 0x56, 0x06, 0xB7)], [True, False, False, False, True, False, False])
        low, negative = 5, 0xFFFF_FFFF_FFFF_FFFF
        for opcode, number_, held, holds in (
            (0xB5, 24, {"r2": 25}, False),
            (0xB5, 24, {"r2": 24}, True),
            (0x25, 24, {"r2": negative}, True),
            (0x65, 24, {"r2": negative}, False),
            (0xC5, 0, {"r2": negative}, True),
            (0x16, -1, {"r2": 0xFFFF_FFFF}, True),
            (0x15, -1, {"r2": 0xFFFF_FFFF}, False),
            (0x45, 4, {"r2": low}, True),
            (0x55, 5, {"r2": low}, False),
        ):
            with self.subTest(opcode=opcode, held=held):
                self.assertEqual(test_at(0, (opcode, 2, 1, number_), "", held).is_taken, holds)
        both = test_at(0, (0x2D, 0x32, 1, 0), "", {"r2": 9, "r3": 8})
        self.assertEqual((both.is_taken, both.values), (True, {"r2": 9, "r3": 8}))


class LinesOfC(unittest.TestCase):
    def test_beside_an_object(self) -> None:
        """A slot's line holds up to the next one; a file of another object says nothing."""
        with tempfile.TemporaryDirectory() as folder:
            path = Path(folder) / "no_long.o"
            program = Attached(str(path), 5, "", 0.0, NO_LONG)
            self.assertEqual(Lines(program).at(2), "")
            head = f"lines 1\nobject {hashlib.sha256(NO_LONG).hexdigest()}\nfile 1 /src/no_long.c\n"
            beside = Path(folder) / "no_long.lines"
            beside.write_text(head + "slot 0 1 8\nslot 1 1 9 return route->length > 24;\nslot 4 0 0\n")
            lines = Lines(program)
            said = [lines.at(slot) for slot in range(6)]
            test = "no_long.c:9: return route->length > 24;"
            self.assertEqual(said, ["no_long.c:8: ", test, test, test, "", ""])
            beside.write_text(head.replace("object ", "object 0") + "slot 0 1 8 x\n")
            self.assertEqual(Lines(program).at(0), "")
            for damaged in ("slot", "slot x 1 1 y", "slot 1 7 1 y", "slot 999999999 1 1 y", "file", "\0"):
                beside.write_text(f"{head}{damaged}\n")
                self.assertEqual(Lines(program).at(3), "")


class Bodies(unittest.TestCase):
    def test_which_of_ten_thousand_are_read(self) -> None:
        """A look at the bytes lets none out that holds the destination."""
        may = may_hold(IPv4Network("10.1.2.0/24"))
        for prefix, length, holds in (
            ("10.1.2.0", 24, True),
            ("10.1.0.0", 16, True),
            ("0.0.0.0", 0, True),
            ("10.1.3.0", 24, False),
            ("10.1.2.0", 25, False),
            ("11.0.0.0", 8, False),
        ):
            head = ROUTE.pack(2, length, 0, 0, 254, 89, 0, 1, 0)
            table, to = number(15, 254), number(1, 0)[:4] + IPv4Address(prefix).packed
            with self.subTest(prefix):
                self.assertEqual(may(head + table + to), holds)
                # (in another order the whole is read)
                self.assertTrue(may(head + to + table) or length > 24)
        self.assertEqual((DST_KIND.start, DST.start), (ROUTE.size + 8, ROUTE.size + 12))


if __name__ == "__main__":
    unittest.main()
