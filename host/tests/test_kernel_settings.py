"""`kernel` in the configuration: which table is kept, and of which VRF."""
import tomllib
import unittest
from ipaddress import IPv4Interface

from leafrunt_host.kernel import KernelInterface, interfaces_of
from leafrunt_host.kernel_settings import (
    FIRST_ID,
    SPAN,
    KernelSettings,
    kernel_settings_of,
    look_at_vrf,
)
from leafrunt_host.rtnetlink import Link
from leafrunt_host.tables import Mistake, Table

RED, BLUE = KernelInterface("red", 1, (), vrf="red", vrf_table=10), "blue"
KERNEL = {
    "red": RED,
    "blue": KernelInterface("blue", 1, (), vrf="blue", vrf_table=1000),
    "eth1": KernelInterface("eth1", 1500, (IPv4Interface("10.0.1.1/24"),), vrf="red"),
    "eth2": KernelInterface("eth2", 1500, (), vrf="blue"),
    "eth3": KernelInterface("eth3", 1500, ()),
}
NAMES = "the name of a VRF device: blue, red"


class Sections(unittest.TestCase):
    def read(self, text: str) -> tuple[bool, KernelSettings]:
        self.mistakes: list[Mistake] = []
        top = Table("one.toml", "", tomllib.loads(text), self.mistakes)
        return kernel_settings_of(top, KERNEL)

    def test_each(self) -> None:
        main = KernelSettings()
        for text, wanted in (
            ("", (True, main)),
            ("kernel = true", (True, main)),
            ("kernel = false", (False, main)),
            ("[kernel]", (True, main)),
            ("[kernel]\necmp = 2", (True, KernelSettings(254, "", 2))),
            ("[kernel]\ntable = 100", (True, KernelSettings(100))),
            ("[kernel]\ntable = 4294967295", (True, KernelSettings(4294967295))),
            ('[kernel]\nvrf = "blue"', (True, KernelSettings(1000, "blue"))),
        ):
            with self.subTest(text):
                self.assertEqual(self.read(text), wanted)
                self.assertEqual(self.mistakes, [])

    def test_each_mistake(self) -> None:
        for text, *told in (
            ("kernel = 1", ("kernel", "1", "true or false")),
            ("[kernel]\necmp = 0", ("kernel, ecmp", "0", "a whole number from 1 to 63")),
            ("[kernel]\necmp = 64", ("kernel, ecmp", "64", "a whole number from 1 to 63")),
            ("[kernel]\ntable = 0", ("kernel, table", "0", "a whole number from 1 to 4294967295")),
            (
                "[kernel]\ntable = 255",
                (
                    "kernel, table",
                    "255, the kernel's table of local addresses",
                    "a whole number from 1 to 4294967295 but 255",
                ),
            ),
            (
                "[kernel]\ntable = 4294967296",
                ("kernel, table", "4294967296", "a whole number from 1 to 4294967295"),
            ),
            ("[kernel]\nvrf = 1", ("kernel, vrf", "1", NAMES)),
            (
                '[kernel]\nvrf = "eth1"',
                ("kernel, vrf", '"eth1", which the kernel doesn\'t have', NAMES),
            ),
            (
                '[kernel]\nvrf = "red"\ntable = 10\necpm = 1',
                ("kernel, table", "10", "none where `vrf` is given, whose table it is"),
                ("kernel, ecpm", "an unknown key", "ecmp, table, vrf (ecmp, maybe)"),
            ),
        ):
            with self.subTest(text):
                self.read(text)
                found = [(each.where, each.found, each.allowed) for each in self.mistakes]
                self.assertEqual(found, list(told))

    def test_interfaces_of_a_vrf(self) -> None:
        mistakes: list[Mistake] = []
        top = Table("one.toml", "", {}, mistakes)
        red = KernelSettings(10, "red")
        self.assertEqual(look_at_vrf(top, red, [KERNEL["eth1"], RED]), [])
        self.assertEqual(mistakes, [])
        look_at_vrf(top, red, [KERNEL["eth2"], KERNEL["eth3"]])
        self.assertEqual(
            [str(each) for each in mistakes],
            [
                'one.toml: kernel, vrf: found "red", and eth2 is in blue; '
                "allowed: a VRF that each interface is in: ip link set eth2 master red",
                'one.toml: kernel, vrf: found "red", and eth3 is in none; '
                "allowed: a VRF that each interface is in: ip link set eth3 master red",
            ],
        )

    def test_an_interface_of_a_vrf_where_none_is_given(self) -> None:
        advice = look_at_vrf(Table("", "", {}, []), KernelSettings(), [KERNEL["eth1"], KERNEL["eth3"]])
        self.assertEqual(
            advice, ['eth1 is in the VRF red, and routes go to table main: [kernel] vrf = "red"']
        )


class Devices(unittest.TestCase):
    def test_by_the_kernel(self) -> None:
        links = [
            Link(1, "lo", 65536, True),
            Link(2, "red", 65575, True, 0, 10),
            Link(3, "eth1", 1500, True, 2),
            Link(4, "eth2", 1500, True, 5),
            Link(5, "bridge", 1500, True),
        ]
        found = interfaces_of(links, [])
        vrfs = {name: (it.vrf, it.vrf_table) for name, it in found.items() if it.vrf}
        self.assertEqual(vrfs, {"red": ("red", 10), "eth1": ("red", 0)})


class Claims(unittest.TestCase):
    def test_numbers_of_next_hops(self) -> None:
        """Each table's are its own, within 32 bits; where two tables would share theirs, they share
        a claim."""
        tables = [1, 99, 100, 253, 254, 256, 3999, 4000, 4095, 4294967295]
        firsts = [KernelSettings(each).first_id for each in tables]
        self.assertEqual(KernelSettings().first_id, FIRST_ID)
        for at, one in enumerate(firsts):
            self.assertLess(one + SPAN, 1 << 32)
            for other in firsts[:at]:
                self.assertGreaterEqual(abs(one - other), SPAN)
        one, other = KernelSettings(100).claims, KernelSettings(4100).claims
        self.assertEqual(len({*one, *other}), 3)
        self.assertFalse({*one} & {*KernelSettings().claims})

    def test_in_words(self) -> None:
        for it, words in (
            (KernelSettings(), "table main"),
            (KernelSettings(100), "table 100"),
            (KernelSettings(10, "red"), "table 10 of the VRF red"),
        ):
            self.assertEqual(str(it), words)


if __name__ == "__main__":
    unittest.main()
