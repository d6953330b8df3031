"""What hookcc says to write instead: done to the line that it shows, it compiles and helps."""
from __future__ import annotations

import json
import os
import pathlib
import subprocess
import tempfile
import unittest

from tests.inputs import HEADER, HOOKCC, has_clang, hooktool_path

# (the rule that refuses a program, a part of what is said, what is there and what to write)
LOOP = """SEC_VETO(f, r) {
u64 s = 0;
for (u64 i = 0; i < r->cost; i++) s = s * 3 + i;
return s > 9;
}"""
ROWS: tuple[tuple[int, str, str, str, str], ...] = (
    (7, 'SEC_VETO(f, r) {\nu64 i = r->tag;\nreturn cells()[i];\n}', "KEEP(i) & 63 for a cell",
     "cells()[i]", "cells()[KEEP(i) & 63]"),
    (7, 'SEC_VETO(f, r) {\nu64 i = r->tag;\nreturn counters()[i];\n}', "& 255 for a counter",
     "counters()[i]", "counters()[KEEP(i) & 255]"),
    (10, 'SEC_COUNT(f, p) {\nu64 k = p->length;\nreturn counter_add(k, 1);\n}',
     "KEEP(k) & 255 for a counter", "counter_add(k, 1)", "counter_add(KEEP(k) & 255, 1)"),
    (10, 'SEC_COUNT(f, p) {\nu64 n = p->moment;\nreturn counter_add(1, n);\n}',
     "KEEP(n) & 0xffffff for an amount", "counter_add(1, n)", "counter_add(1, KEEP(n) & 0xffffff)"),
    (5, 'SEC_TAG(f, d) {\nvolatile u32 a[2];\na[0] = d->tag;\nreturn a[0] + a[1];\n}',
     "write it first (= { 0 })", "a[2];", "a[2] = { 0 };"),
    (5, 'SEC_COUNT(f, p) {\nu64 a = packet_byte(0), b = packet_byte(1), e = packet_byte(2);\n'
     'u64 g = packet_byte(3);\nif (a == 1)\n\tcounter_add(9, b & 255);\nif (p->length > 90)\n'
     '\tcounter_add(8, (a + e + g) & 255);\n'
     'return counter_add(p->type & 7, (b + e + g + a) & 255);\n}',
     "struct datagram c = *p; first, and c. for p-> after it", "p->", "c."),
    (6, 'SEC_TAG(f, d) {\nvolatile u64 a[4] = { 1, 2, 3, 4 };\nreturn a[d->tag & 3];\n}',
     "use cells for others", "volatile u64 a[4] = { 1, 2, 3, 4 };", "volatile u64 *a = cells();"),
    (8, 'SEC_COUNT(f, p) {\nu32 *a = (u32 *)cells();\nreturn a[3];\n}',
     "a word of 8 bytes: read it as u64", "u32 *a = (u32 *)", "u64 *a = "),
    (12, LOOP, "as i < n && i < 64", "i < r->cost;", "i < r->cost && i < 64;"),
    (12, LOOP, "EACH(i, n) of leafrunt.h with an n that has one, as n & 63",
     "for (u64 i = 0; i < r->cost; i++)", "EACH(i, r->cost & 63)"),
)


@unittest.skipUnless(has_clang() and hooktool_path(), "clang or hooktool is not here")
class Hints(unittest.TestCase):
    def told(self, text: str) -> dict[str, object]:
        """Returns what hookcc says of the one program of a text, without what it does by itself."""
        with tempfile.TemporaryDirectory() as room:
            source = pathlib.Path(room, "a.c")
            source.write_text(HEADER + text + "\n")
            environment = {**os.environ, "HOOKTOOL": hooktool_path() or ""}
            done = subprocess.run([HOOKCC, source, room, "--plain", "--json"], env=environment,
                                  capture_output=True, text=True, timeout=300, check=False)
        found = json.loads(done.stdout)
        self.assertEqual((len(found), done.stderr), (1, ""))
        return dict(found[0])

    def test_each_hint_helps(self) -> None:
        for rule, text, hint, old, new in ROWS:
            with self.subTest(rule=rule, hint=hint):
                before = self.told(text)
                self.assertEqual((before["accepted"], before["rule"]), (False, rule), before)
                self.assertIn(hint, str(before["hint"]))
                after = text.replace(old, new)
                if new == "c.":
                    begin = after.index("{") + 1
                    after = f"{after[:begin]} struct datagram c = *p; {after[begin:]}"
                self.assertTrue(self.told(after)["accepted"], after)


if __name__ == "__main__":
    unittest.main()
