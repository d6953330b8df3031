"""The passes over clang's assembly text: remainders, and searches in the place of tables."""
from __future__ import annotations

import unittest

from leafrunt_hookcc import clang, searches, tables
from leafrunt_hookcc.assembly import Line
from leafrunt_hookcc.lines import places_of

TABLE = ("\t.section\t.rodata,\"a\"\nt:\n\t.long\t7\n\t.long\t7\n\t.long\t4294967295\n"
         "\t.size\tt, 12\n\t.data\nvariable:\n\t.long\t3\n")
ROWS = "\t.section\t.rodata,\"a\"\nt:\n" + "".join(
    f"\t.long\t{100 + at}\n\t.long\t{at % 3}\n" for at in range(6)) + "\t.size\tt, 48\n"
ALL_DATA = """\t.section\t.rodata,"a",@progbits
a:
\t.byte\t1                               # 0x1
\t.byte\t2
\t.zero\t1
\t.long\t-1
\t.short\t0
\t.zero\t5
\t.short\t0x8000
\t.size\ta, 16
\t.section\t.rodata.str1.1,"aMS",@progbits,1
s:
\t.asciz\t"a\\"\\n\\001z"               # text
\t.size\ts, 6
\t.section\t.rodata,"a",@progbits
p:
\t.quad\ts+2
\t.size\tp, 8
\t.section\t.rodata.cst16,"aM",@progbits,16
.LCPI0_0:
\t.quad\t1
\t.quad\t2"""


class Passes(unittest.TestCase):
    def passed(self, *lines: str, data: str = "") -> tuple[list[str], searches.Searches]:
        """Returns the instructions that are left of a function, and what is told of tables."""
        told = searches.Searches()
        body = "".join(f"{it}\n" if it.endswith(":") else f"\t{it}\n" for it in lines)
        text = f"\t.section\tveto,\"ax\"\n\t.type\tf,@function\nf:\n{body}.Lfunc_end0:\n{data}"
        made = clang.passed(text, told).split("\n")
        lines_left = made[3:made.index(".Lfunc_end0:")]
        return [it.strip().split("\t")[0] for it in lines_left], told

    def test_a_remainder(self) -> None:
        steps = ["r2 = r1", "r2 /= 21", "r2 *= 21", "r1 -= r2"]
        made, _ = self.passed(*steps)
        byte = ".byte 0x97, 0x1, 0x0, 0x0, 0x15, 0x0, 0x0, 0x0"
        self.assertEqual(made, [*steps[:3], byte])
        made, _ = self.passed("w4 = w3", "w4 /= w5", "w4 *= w5", "w3 -= w4")
        self.assertEqual(made[3], ".byte 0x9c, 0x53, 0x0, 0x0, 0x0, 0x0, 0x0, 0x0")

    def test_what_is_no_remainder(self) -> None:
        for steps in (("r2 = r1", "r2 /= 21", "r2 *= 20", "r1 -= r2"),
                      ("r2 = r1", "r2 /= 21", "r2 *= 21", "r3 -= r2"),
                      ("r2 = r1", "w2 /= 21", "r2 *= 21", "r1 -= r2"),
                      ("r2 = r1", "r2 /= 21", "r2 *= 21", "r1 += 1", "r1 -= r2"),
                      ("r2 = r1", "r2 /= r6", "r6 = 3", "r2 *= r6", "r1 -= r2"),
                      ("r2 = r1", "r2 /= 21", "r2 *= 21", "call 1", "r1 -= r2")):
            self.assertEqual(self.passed(*steps)[0], list(steps))

    def test_a_load_from_a_table(self) -> None:
        made, told = self.passed("r1 <<= 2", "r2 = t ll", "r2 += r1", "w0 = *(u32 *)(r2 + 4)",
                                 "exit", data=TABLE)
        first = int(made[1].split()[-1])
        self.assertEqual(made[3], f"if r2 > {first + 3} goto .Ltable_2")
        self.assertEqual(made[4:], ["w0 = 7", "goto .Ltable_1", ".Ltable_2:", "w0 = -1",
                                    ".Ltable_1:", "exit"])
        self.assertEqual(told.layouts, ["f: t: 2 values, 4 slots"])

    def test_of_rows_one_field_is_searched(self) -> None:
        _, told = self.passed("r1 <<= 3", "r2 = t ll", "r2 += r1", "w0 = *(u32 *)(r2 + 0)", "exit",
                              data=ROWS)
        # (six values of the first field, none of the second one)
        self.assertEqual(told.layouts, ["f: t: 6 values, 16 slots"])

    def test_two_fields_of_a_row_are_searched_once(self) -> None:
        made, told = self.passed("r1 <<= 3", "r2 = t ll", "r2 += r1", "w3 = *(u32 *)(r2 + 4)",
                                 "w0 = *(u32 *)(r2 + 0)", "exit", data=ROWS)
        self.assertEqual(made[-4:], ["r3 = r2", "r3 >>= 32", "w0 = w2", "exit"])
        self.assertEqual(len(told.layouts), 1)
        self.assertEqual([it for it in made if "*(u32" in it], [])

    def test_what_may_be_another_address_stays(self) -> None:
        steps = ["r2 = t ll", "if r1 == 0 goto L", "r2 = *(u64 *)(r1 + 8)", "L:",
                 "r0 = *(u32 *)(r2 + 0)", "exit"]
        made, told = self.passed(*steps, data=TABLE)
        self.assertEqual((made, told.layouts), (steps, []))
        steps = ["r2 = variable ll", "r0 = *(u32 *)(r2 + 0)", "exit"]
        self.assertEqual(self.passed(*steps, data=TABLE)[0], steps)

    def test_a_table_that_is_too_large_is_told_with_the_rows_that_fit(self) -> None:
        rows = "".join(f"\t.long\t{7 * at}\n" for at in range(2000))
        data = f"\t.section\t.rodata,\"a\"\nt:\n{rows}\t.size\tt, 8000\n"
        _, told = self.passed("r1 <<= 2", "r2 = t ll", "r2 += r1", "w0 = *(u32 *)(r2 + 0)", "exit",
                              data=data)
        self.assertRegex(told.refused["f"], r"^t has 2000 rows, .* At most 136\d rows fit$")

    def test_data_of_each_kind(self) -> None:
        data = tables.Data([Line(it) for it in ALL_DATA.split("\n")])
        held = {name: bytes(data.held[at - tables.FIRST:at - tables.FIRST + data.sizes[name]])
                for name, at in data.names.items()}
        whole = [1, 2, 0, 255, 255, 255, 255, 0, 0, 0, 0, 0, 0, 0, 0, 128]
        self.assertEqual(held["a"], bytes(whole))
        self.assertEqual(held["s"], b"a\"\n\x01z\0")
        self.assertEqual(data.value(data.names["p"], 8), data.names["s"] + 2)
        self.assertEqual(data.value(data.names[".LCPI0_0"] + 8, 8), 2)

    def test_a_symbol_as_clang_22_writes_it(self) -> None:
        made = clang.passed("map_into_r0 = 96\n\tr0 = 96\n", searches.Searches())
        self.assertEqual(made, "\t.set map_into_r0, 96\n\tr0 = 96\n")

    def test_a_load_with_its_sign(self) -> None:
        made, _ = self.passed("r2 = t ll", "r0 = *(s8 *)(r2 + 8)", "exit", data=TABLE)
        self.assertEqual([it for it in made if not it.endswith(":")][1:], ["r0 = -1", "exit"])


class Places(unittest.TestCase):
    def test_each_slot_has_its_line(self) -> None:
        text = ('\t.file\t1 "/a" "b.c"\n\t.type\tf,@function\nf:\n\t.loc\t1 3 0\n\tr1 = 5 ll\n'
                "\t.loc\t1 4 2\n\t.byte 0x97, 0x1, 0x0, 0x0, 0x15, 0x0, 0x0, 0x0\n\texit\n"
                ".Lfunc_end0:\n")
        found = places_of(text)["f"]
        self.assertEqual({at: it.line for at, it in found.items()}, {0: 3, 1: 3, 2: 4, 3: 4})
        self.assertEqual(found[0].path, "/a/b.c")


if __name__ == "__main__":
    unittest.main()
