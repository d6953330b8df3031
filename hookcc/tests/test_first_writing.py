"""Programs as an author writes them at first, which the verifier refuses as clang makes them."""
from __future__ import annotations

import json
import os
import pathlib
import subprocess
import tempfile
import unittest

from tests.inputs import HEADER, HOOKCC, has_clang, hooktool_path

# (a program, and what hookcc does for it)
ROWS = (
    ('SEC_TAG(bits_of_a_range, d) { u64 i = d->tag; if (i > 23) return 0;'
     ' return cells()[i | 32]; }',
     "1 guard"),
    ('SEC_TAG(two_ends, d) { u64 i = d->tag; if (i < 10 || i > 73) return 0;'
     ' return cells()[i - 10]; }',
     "1 guard"),
    ('SEC_TAG(signed_index, d) { int i = d->tag; if (i < 0 || i > 63) return 0;'
     ' return cells()[i]; }',
     "1 guard"),
    ('SEC_COUNT(rows_of_three, p) { struct { u64 a, b, c; } *it = (void *)cells();'
     ' return it[p->type & 15].b; }', "1 guard"),
    ('SEC_COUNT(pointer_against_0, p) { u64 *c = cells(); if (!KEEP(c)) return 0; return *c; }',
     "1 guard"),
    ('SEC_COUNT(number_plus_pointer, p) { u64 k = (p->type & 7) * 8; KEEP(k); k += (u64)cells();'
     ' return *(u64 *)k; }', "1 guard"),
    ('SEC_COUNT(bytes_with_continue, p) { u64 a = 0, n = 0;\n'
     'for (u64 i = 0; i < p->length && i < 40; i++) {\nu64 b = packet_byte(i);\n'
     'if (b == 3) continue;\n'
     'a += b; n++;\nif (a > 5000) break;\n}\n'
     'counter_add(1, a & 0xffff); return counter_add(2, n & 0xff); }', "r9 is left free"),
    ('SEC_COUNT(kept_context, p) {\n'
     'u64 a = packet_byte(0), b = packet_byte(1), e = packet_byte(2);\n'
     'u64 g = packet_byte(3);\nif (a == 1) counter_add(9, b & 255);\n'
     'if (p->length > 90) counter_add(8, (a + e + g) & 255);\n'
     'return counter_add(p->type & 7, (b + e + g + a) & 255); }', "its context is copied first"),
    ('static const struct { u32 prefix, length; } rows[] = { ROWS };\n'
     'SEC_VETO(search, r)\n{\nu32 lo = 0, hi = sizeof(rows) / sizeof(rows[0]);\n'
     'while (lo < hi) {\n'
     'u32 mid = (lo + hi) / 2;\n'
     'if (rows[mid].prefix <= r->prefix) lo = mid + 1;\nelse hi = mid;\n}\n'
     'return lo && WITHIN(r->prefix, r->length, rows[lo - 1].prefix, rows[lo - 1].length);\n}',
     "turns counted, at most 5"),
)
LOOP = ('SEC_VETO(f, r) { u32 x = r->cost; u64 l = 0; while (x > 1) { x >>= 1; l++; }\n'
        'counter_add(l, 1); return 0; }')


@unittest.skipUnless(has_clang() and hooktool_path(), "clang or hooktool is not here")
class FirstWriting(unittest.TestCase):
    def told(self, text: str, *words: str) -> dict[str, dict[str, object]]:
        with tempfile.TemporaryDirectory() as room:
            source = pathlib.Path(room, "a.c")
            source.write_text(HEADER + text + "\n")
            environment = {**os.environ, "HOOKTOOL": hooktool_path() or ""}
            done = subprocess.run([HOOKCC, source, room, "--json", *words], env=environment,
                                  capture_output=True, text=True, timeout=900, check=False)
        return {it["function"]: it for it in json.loads(done.stdout)}

    def test_what_is_done_for_each(self) -> None:
        table = ", ".join(f"{{ {at << 27}u, 5 }}" for at in range(30))
        text = "\n".join(row for row, _ in ROWS).replace("ROWS", table)
        before, after = self.told(text, "--plain"), self.told(text)
        self.assertEqual(len(after), len(ROWS))
        for name, (_, way) in zip(after, ROWS):
            with self.subTest(name=name):
                self.assertFalse(before[name]["accepted"])
                self.assertTrue(after[name]["accepted"], after[name])
        for row, way in ROWS:
            name = next(it for it in after if f"({it}, " in row)
            self.assertIn(way, str(after[name]["way"]), name)

    def test_the_reason_is_that_of_the_try_that_came_furthest(self) -> None:
        self.assertEqual(self.told(LOOP, "--plain")["f"]["rule"], 12)
        self.assertEqual(self.told(LOOP)["f"]["rule"], 10)


if __name__ == "__main__":
    unittest.main()
