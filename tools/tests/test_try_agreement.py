"""tools/try-agreement: how it compares instances, what it takes for at rest, how it follows what is owed, and what it refuses."""
import pathlib
import random
import struct
import subprocess
import sys
import tempfile
import unittest

TOP = pathlib.Path(__file__).resolve().parents[2]
TOOL = TOP / "tools/try-agreement"
sys.dont_write_bytecode = True
sys.path.insert(0, str(TOP / "tools/agreement-parts"))
from histories import Act, FIELDS, SHAPES, Setting, act_of, head_of, links_of, setting_in, setting_of  # noqa: E402
from judging import Judge, Miscounted, Packet, agree  # noqa: E402
from ospf_bytes import packet, update  # noqa: E402
from packets import ACKNOWLEDGMENT, DESCRIPTION, Said, compare, instance_of, said_by  # noqa: E402
from routers import EX_START, FULL, LOADING, Shown  # noqa: E402

LINK = ((0, 1), (1, 1))
ONE, OTHER = "0.0.0.1", "0.0.0.2"


def lsa(sequence: int, age: int = 1, checksum: int = 7, number: int = 1, rest: bytes = b"") -> bytes:
    """The bytes of an AS-external-LSA of router 1, in so far as the tool reads them."""
    return struct.pack("!HBBIIiHH", age, 2, 5, 0x0a090000 + 256 * number, 1, sequence - 0x80000000, checksum, 20 + len(rest)) + rest


def description(flags: int, number: int, *headers: bytes) -> bytes:
    return packet(DESCRIPTION, struct.pack("!HBBI", 1500, 2, flags, number) + b"".join(headers))


def shown(neighbor: str, state: int, held=(), outs=(), owed: int = 0) -> Shown:
    database = {it.key: it for it in map(instance_of, held)}
    return Shown([(1, text) for text in outs], {1: (neighbor, state)}, {1: owed}, database)


class Two:
    """Two routers that are Full with each other, told to the judge as the program would tell it."""

    def __init__(self, one=(), other=()):
        self.judge, self.held = Judge([LINK]), [list(one), list(other)]
        for place in (0, 1):
            self.judge.begins(place, 1000, Shown([], {}, {}, {it.key: it for it in map(instance_of, self.held[place])}))
        opening = [self.happens(place, EX_START, outs=[description(7, 1000)])[0] for place in (0, 1)]
        answer = self.happens(0, FULL, outs=[description(0, 1000)], came=opening[1])[0]
        self.happens(1, FULL, came=answer)

    def happens(
        self, place: int, state: int = FULL, outs=(), came: Packet | None = None, owed: int = 0, is_tick: bool = False
    ) -> list[Packet]:
        told = shown((OTHER, ONE)[place], state, self.held[place], outs, owed)
        return [it for _, it in self.judge.happens(place, 1000, told, 1 if came else 0, came, is_tick)]

    def differences(self) -> list[tuple[int, set[str]]]:
        return [(it.key[1] >> 8 & 0xff, set(it.names)) for it in self.judge.differences(LINK)] if self.judge.is_full(LINK) else []


class Instances(unittest.TestCase):
    def test_13_1_compares_sequence_numbers_then_checksums_then_ages(self) -> None:
        rows = [((2, 1), (1, 1), 1), ((1, 1, 8), (1, 1, 7), 1), ((1, 3600), (1, 1), 1), ((1, 5), (1, 905), 0), ((1, 4), (1, 905), 1)]
        for one, other, wanted in rows:
            with self.subTest(one=one, other=other):
                left, right = instance_of(lsa(*one)), instance_of(lsa(*other))
                self.assertEqual((compare(left, right), compare(right, left)), (wanted, -wanted))

    def test_the_laws_words_on_two_copies(self) -> None:
        young, old, next_one = instance_of(lsa(1)), instance_of(lsa(1, 3600)), instance_of(lsa(2))
        other = instance_of(lsa(1, rest=b"other"))
        rows = [(None, None, True), (young, young.after(9), True), (young, None, False), (None, old, True), (young, old, False),
                (young, next_one, False), (young, other, False)]
        for one, other, wanted in rows:
            with self.subTest(one=one, other=other):
                self.assertEqual((agree(one, other), agree(other, one)), (wanted, wanted))

    def test_packets_are_read(self) -> None:
        longer = lsa(2, rest=bytes(16))
        self.assertEqual(said_by(update(lsa(1), longer)).instances, (instance_of(lsa(1)), instance_of(longer)))
        self.assertEqual(said_by(packet(ACKNOWLEDGMENT, lsa(1) + lsa(2))).instances, (instance_of(lsa(1)), instance_of(lsa(2))))
        self.assertEqual(said_by(description(3, 77, lsa(1))).description, (3, 77))


class Judged(unittest.TestCase):
    def test_what_nothing_explains_has_no_name(self) -> None:
        self.assertEqual(Two([lsa(1)], []).differences(), [(1, set())])
        self.assertEqual(Two([lsa(2)], [lsa(1)]).differences(), [(1, set())])

    def test_a_flushed_copy_is_owed_where_exchange_begins(self) -> None:
        with self.assertRaises(Miscounted):
            Two([lsa(1, 3600)], [])

    def test_a_link_that_owes_or_is_not_full_is_not_at_rest(self) -> None:
        two = Two()
        self.assertTrue(two.judge.is_at_rest(LINK))
        two.held[0] = [lsa(1)]
        two.happens(0, outs=[update(lsa(1, 2))], owed=1)
        self.assertFalse(two.judge.is_at_rest(LINK))
        two = Two()
        two.happens(1, EX_START, outs=[description(7, 1001)])
        self.assertFalse(two.judge.is_at_rest(LINK))

    def test_an_update_of_a_forgotten_key(self) -> None:
        two = Two()
        two.held[0] = [lsa(1)]
        first = two.happens(0, outs=[update(lsa(1, 2))], owed=1)[0]
        two.held[0] = [lsa(1, 3600)]
        flush = two.happens(0, outs=[update(lsa(1, 3600))], owed=1)[0]
        answer = two.happens(1, outs=[packet(ACKNOWLEDGMENT, lsa(1, 3600))], came=flush)[0]
        two.held[0] = []
        two.happens(0, came=answer)
        two.held[1] = [lsa(1, 2)]
        two.happens(1, came=first)
        self.assertEqual(two.differences(), [(1, {"update"})])

    def test_an_acknowledgment_that_waits_is_as_old_as_the_lsa_that_came_in(self) -> None:
        two = Two()
        two.held[0] = [lsa(1)]
        first = two.happens(0, outs=[update(lsa(1, 2))], owed=1)[0]
        two.held[1] = [lsa(1, 2)]
        two.happens(1, came=first)
        two.held[0] = two.held[1] = []
        two.happens(0)
        two.happens(1)
        two.held[0] = [lsa(1)]
        two.happens(0, outs=[update(lsa(1, 2))], owed=1)
        late = two.happens(1, outs=[packet(ACKNOWLEDGMENT, lsa(1, 2))], is_tick=True)[0]
        two.happens(0, came=late)
        self.assertEqual(two.differences(), [(1, {"acknowledgment"})])

    def test_an_acknowledgment_with_which_the_copy_at_max_age_leaves(self) -> None:
        two = Two([lsa(1)], [lsa(1)])
        two.held[0] = [lsa(1, 3600)]
        flush = two.happens(0, outs=[update(lsa(1, 3600))], owed=1)[0]
        two.held[1] = []
        two.happens(1, came=flush)
        two.held[1] = [lsa(1, 5)]
        two.happens(1)
        late = two.happens(1, outs=[packet(ACKNOWLEDGMENT, lsa(1, 3600))], is_tick=True)[0]
        two.held[0] = []
        two.happens(0, came=late)
        self.assertEqual(two.differences(), [(1, {"acknowledgment"})])

    def test_13_4_installs_at_max_age_what_none_is_held_of_only_where_a_neighbor_is_in_exchange_or_loading(self) -> None:
        for state in (LOADING, FULL):
            with self.subTest(state=state):
                two = Two()
                two.held[1] = [lsa(1, 3600)]
                twice = two.happens(1, outs=[update(lsa(1, 3600), lsa(1, 3600))], owed=1)[0]
                two.happens(0, state)
                two.happens(0, came=twice, outs=[packet(ACKNOWLEDGMENT, lsa(1, 3600))])
                if state == LOADING:
                    two.happens(0, outs=[packet(ACKNOWLEDGMENT, lsa(1, 3600))], is_tick=True)
                    continue
                with self.assertRaises(Miscounted):
                    two.happens(0, outs=[packet(ACKNOWLEDGMENT, lsa(1, 3600))], is_tick=True)

    def test_13_8_a_copy_that_answers_an_older_instance_is_not_owed_where_one_at_max_age_takes_its_place(self) -> None:
        two = Two([lsa(1, 2)], [lsa(1, 2)])
        two.held[0] = [lsa(1, 3600)]
        both = two.happens(0, outs=[update(lsa(1, 1805), lsa(1, 3600))], owed=1)[0]
        two.held[1] = [lsa(1, 3600)]
        two.happens(1, came=both, outs=[update(lsa(1, 3))], owed=0)
        self.assertEqual(two.differences(), [])

    def test_a_description_of_another_conversation(self) -> None:
        two = Two([lsa(1)], [])
        two.happens(0, came=two.happens(1, EX_START, outs=[description(7, 1000)])[0])
        two.happens(1, came=two.happens(0, outs=[description(0, 1000)])[0])
        self.assertEqual(two.differences(), [(1, {"description"})])

    def test_what_is_owed_is_counted(self) -> None:
        two = Two()
        two.held[0] = [lsa(1)]
        with self.assertRaises(Miscounted):
            two.happens(0, outs=[update(lsa(1, 2))], owed=0)
        with self.assertRaises(Miscounted):
            Two().happens(1, outs=[packet(ACKNOWLEDGMENT, lsa(1))], is_tick=True)

    def test_requested_lsas_are_owed_until_they_come(self) -> None:
        for owed in (0, 1):
            with self.subTest(owed=owed):
                two = Two([], [lsa(1)])
                opening = [two.happens(place, EX_START, outs=[description(7, 1001)])[0] for place in (0, 1)]
                answer = two.happens(1, LOADING, outs=[description(0, 1001, lsa(1))], came=opening[0])[0]
                if not owed:
                    with self.assertRaises(Miscounted):
                        two.happens(0, LOADING, came=answer)
                    continue
                two.happens(0, LOADING, came=answer, owed=1)
                two.held[0] = [lsa(1)]
                two.happens(0)
                two.happens(1)
                self.assertTrue(two.judge.is_at_rest(LINK))

    def test_two_bodies_of_one_name(self) -> None:
        two = Two([lsa(1, rest=b"a")], [lsa(1, rest=b"a")])
        two.judge.begins(0, 1001, Shown([], {}, {}, {}))
        self.assertEqual(two.differences(), [])
        again = Two([lsa(1, rest=b"a")], [lsa(1, rest=b"a")])
        again.held[0] = []
        again.happens(0)
        again.held[0] = [lsa(1, rest=b"b")]
        again.happens(0, outs=[update(lsa(1, 2, rest=b"b"))], owed=1)
        again.happens(0, came=again.happens(1, outs=[packet(ACKNOWLEDGMENT, lsa(1))])[0])
        self.assertEqual(again.differences(), [(1, {"two bodies"})])


class Histories(unittest.TestCase):
    def test_an_act_is_read_as_it_is_printed(self) -> None:
        for name, fields in FIELDS.items():
            act = Act(name, **{field: number for number, field in enumerate(fields, 1)})
            self.assertEqual(act_of(str(act)), act)

    def test_a_network_is_read_as_it_is_printed(self) -> None:
        for seed in range(50):
            setting = setting_of(random.Random(seed))
            self.assertEqual(setting_in(head_of(setting))[:3], setting[:3])

    def test_each_end_is_of_one_link(self) -> None:
        for shape in SHAPES:
            for routers in (3, 4):
                setting = Setting(routers, shape, (2, 10, 2), (0, 0, 0), (0, 0, 0, 0, 0), (), False)
                ends = [end for link in links_of(setting) for end in link]
                self.assertEqual(len(ends), len(set(ends)))
                for place in range(routers):
                    numbers = sorted(number for at, number in ends if at == place)
                    self.assertEqual(numbers, list(range(1, len(numbers) + 1)))


class Words(unittest.TestCase):
    def refuses(self, *words: str, status: int = 2) -> str:
        said = subprocess.run([TOOL, *words], stdin=subprocess.DEVNULL, capture_output=True, text=True, check=False, timeout=20)
        self.assertEqual((said.returncode, said.stdout), (status, ""), said.stderr)
        return said.stderr

    def test_words_that_are_wrong(self) -> None:
        self.assertIn("numbers begin at 1", self.refuses("--histories", "0"))
        self.assertIn("--show takes one of", self.refuses("--show", "nothing"))
        self.assertIn("there is no program", self.refuses("--program", "/nowhere", status=3))

    def test_a_program_that_is_none_and_a_file_that_is_no_history(self) -> None:
        with tempfile.TemporaryDirectory() as folder:
            file = pathlib.Path(folder) / "history"
            file.write_text("second 1\n")
            self.assertIn("has no history", self.refuses("--program", "/bin/cat", "--play", str(file)))
            file.write_text("network 2 row 2 10 2\nsecond 1\n")
            self.assertIn("a router", self.refuses("--program", "/bin/true", "--play", str(file), status=3))


if __name__ == "__main__":
    unittest.main()
