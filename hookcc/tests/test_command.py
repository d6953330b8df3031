"""hookcc: what it hands to clang and to hooktool, what it prints, and its statuses."""
from __future__ import annotations

import hashlib
import json
import os
import pathlib
import signal
import subprocess
import tempfile
import time
import unittest

from leafrunt_hookcc import source
from tests.inputs import HEADER, HOOKCC, has_clang, hooktool_path, stand_in

# They write down their words; clang makes what -o names.
CLANG = """printf '%s\\n' "$@" >>"{room}/clang.words"; cat >"{room}/clang.text"
[ {status} = 0 ] || {{ echo 'a.c:1:5: error: no such thing' >&2; exit {status}; }}
while [ $# -gt 1 ]; do [ "$1" = -o ] && cp "{room}/made" "$2"; shift; done
exit 0
"""
HOOKTOOL = 'printf "%s\\n" "$@" >>"{room}/hooktool.words"; cat "{room}/said"; exit {status}\n'


class Room(unittest.TestCase):
    def setUp(self) -> None:
        room = tempfile.TemporaryDirectory()
        self.addCleanup(room.cleanup)
        self.room = pathlib.Path(room.name)

    def ran(self, text: str, *words: object,
            **environment: str) -> subprocess.CompletedProcess[str]:
        """Runs hookcc over a program, and returns what it ended with."""
        (self.room / "a.c").write_text(text)
        said = [str(HOOKCC), str(self.room / "a.c"), *map(str, words)]
        return subprocess.run(said, env={**os.environ, **environment}, capture_output=True,
                              text=True, timeout=600, check=False)


class Faults(Room):
    def stand_ins(self, clang: int = 0, hooktool: int = 0) -> dict[str, str]:
        (self.room / "made").write_text("\t.text\n")
        (self.room / "said").write_text("")
        how = {"room": self.room}
        scripts = {"clang": CLANG.format(status=clang, **how),
                   "hooktool": HOOKTOOL.format(status=hooktool, **how)}
        return {name.upper(): stand_in(self.room / name, it) for name, it in scripts.items()}

    def test_words_for_clang(self) -> None:
        self.ran("int x;\n", "--cpu", "v2", "-Iinc", "-DN=3", "-Os", "-fwrapv", **self.stand_ins())
        words = (self.room / "clang.words").read_text().split("\n")
        for word in ("-Iinc", "-DN=3", "-Os", "-fwrapv", "-mcpu=v2", "-Wall", "-disable-lsr"):
            self.assertIn(word, words)

    def test_a_program_that_is_not_there(self) -> None:
        done = subprocess.run([HOOKCC, self.room / "none.c"], capture_output=True, text=True,
                              env={**os.environ, **self.stand_ins()}, timeout=60, check=False)
        self.assertEqual(done.returncode, 3)
        self.assertIn("cannot read", done.stderr)

    def test_clang_that_is_not_there_names_its_package(self) -> None:
        done = self.ran("int x;\n", **{**self.stand_ins(), "CLANG": str(self.room / "none")})
        self.assertEqual(done.returncode, 3)
        self.assertIn("package clang", done.stderr)

    def test_wrong_words(self) -> None:
        self.assertEqual(self.ran("int x;\n", "--cpu", "v9").returncode, 2)

    def test_what_clang_refuses_outside_of_functions(self) -> None:
        done = self.ran("int x;\n", **self.stand_ins(clang=1))
        self.assertEqual((done.returncode, done.stderr), (1, "a.c:1:5: error: no such thing\n"))

    def test_nothing_is_left_where_it_is_ended(self) -> None:
        stand_ins = self.stand_ins()
        stand_in(self.room / "clang", f"echo $$ >'{self.room}/pid'; exec sleep 60\n")
        (self.room / "a.c").write_text("int x;\n")
        temporary = self.room / "temporary"
        temporary.mkdir()
        ran = subprocess.Popen([HOOKCC, self.room / "a.c"],
                               env={**os.environ, **stand_ins, "TMPDIR": str(temporary)})
        until = time.monotonic() + 60
        while not (self.room / "pid").exists() and time.monotonic() < until:
            time.sleep(0.05)
        time.sleep(0.2)
        ran.terminate()
        self.assertEqual(ran.wait(60), 128 + signal.SIGTERM)
        self.assertEqual(list(temporary.iterdir()), [])
        with self.assertRaises(ProcessLookupError):
            os.kill(int((self.room / "pid").read_text()), 0)


@unittest.skipUnless(has_clang() and hooktool_path(), "clang or hooktool is not here")
class Programs(Room):
    def built(self, text: str, *words: object) -> subprocess.CompletedProcess[str]:
        environment = {"HOOKTOOL": hooktool_path() or ""}
        return self.ran(HEADER + text, self.room, *words, **environment)

    def accepted(self, done: subprocess.CompletedProcess[str]) -> list[str]:
        return [line.split(":")[0].rsplit("/", 1)[-1] for line in done.stdout.splitlines()
                if ", accepted bound " in line]

    def test_objects_and_lines(self) -> None:
        done = self.built('SEC("veto") u64 f(const struct route *r)\n{\n\treturn r->cost > 3;\n}\n')
        self.assertEqual((done.returncode, self.accepted(done)), (0, ["f.o"]), done.stderr)
        lines = (self.room / "f.lines").read_text().splitlines()
        digest = hashlib.sha256((self.room / "f.o").read_bytes()).hexdigest()
        self.assertEqual(lines[:3], ["lines 1", f"object {digest}", f"file 1 {self.room}/a.c"])
        self.assertIn("slot 0 1 4 return r->cost > 3;", lines)

    def test_a_function_that_clang_refuses_takes_itself_alone(self) -> None:
        done = self.built('SEC("veto") u64 f(const struct route *r) { return r->none; }\n'
                          'SEC("veto") u64 g(const struct route *r) { return r->cost > 3; }\n'
                          'SEC("price") u64 h(const struct destination *d)\n'
                          "{ int m = d->metric; return m / 3; }\n")
        self.assertEqual((done.returncode, self.accepted(done)), (1, ["g.o"]))
        told = [it for it in done.stdout.splitlines() if "clang refuses it" in it]
        self.assertEqual(len(told), 2)
        self.assertRegex(told[0], r"function f: .*a\.c:2:\d+: error: no member named")
        self.assertRegex(told[1], r"^section price, function h: .*convert to unsigned div/mod")
        self.assertNotIn("bug report", done.stdout + done.stderr)

    def test_a_file_whose_one_function_clang_refuses(self) -> None:
        done = self.built("SEC_VETO(f, r) { return r->none; }\n")
        self.assertEqual((done.returncode, len(done.stdout.splitlines())), (1, 1), done.stdout)

    def test_a_context_of_another_hook(self) -> None:
        done = self.built('SEC("veto") u64 f(const struct destination *d) { return d->metric; }\n'
                          'SEC("veto") u64 g(void) { return 0; }\n'
                          "SEC_VETO(h, r) { return r->cost; }\n")
        self.assertEqual((done.returncode, self.accepted(done)), (1, ["g.o", "h.o"]), done.stdout)
        self.assertIn("its context is struct route, and it takes struct destination", done.stdout)

    def test_a_typed_macro_and_a_field_of_another_context(self) -> None:
        done = self.built("SEC_VETO(f, r) { return r->metric; }\n")
        self.assertEqual(done.returncode, 1)
        self.assertIn("no member named 'metric' in 'struct route'", done.stdout)

    def test_json_and_tap(self) -> None:
        text = ('SEC("veto") u64 f(const struct route *r) { return cells()[r->tag]; }\n'
                'SEC("veto") u64 g(const struct route *r) { return r->cost > 3; }\n')
        told = json.loads(self.built(text, "--json").stdout)
        rows = {it["function"]: it for it in told}
        self.assertEqual((rows["g"]["accepted"], rows["g"]["object"]), (True, f"{self.room}/g.o"))
        refused = [rows["f"][it] for it in ("accepted", "rule", "line")]
        self.assertEqual(refused, [False, 7, 2])
        lines = self.built(text, "--tap").stdout.splitlines()
        self.assertEqual(lines[:2], ["TAP version 13", "1..2"])
        points = sorted(it for it in lines if it.startswith(("ok", "not ok")))
        self.assertEqual([it.split(" - ")[1] for it in points], ["veto f", "veto g"])

    def test_each_clang_that_is_here(self) -> None:
        text = ('SEC_TAG(f, d) { return cells()[d->tag & 63] + __builtin_bswap32(d->prefix); }\n'
                "SEC_COUNT(g, p) { return counter_add(p->type & 7, packet_byte(1) & 255); }\n")
        for number in (it for it in ("14", "15", "16", "19", "22") if has_clang(f"clang-{it}")):
            with self.subTest(clang=number):
                cpu = "v4" if int(number) > 18 else "v3"
                done = self.built(text, "--clang", number, "--cpu", cpu)
                self.assertEqual(sorted(self.accepted(done)), ["f.o", "g.o"], done.stdout)

    def test_an_explanation_has_lines_of_c(self) -> None:
        done = self.built('SEC("veto") u64 f(const struct route *r)\n{\n\treturn r->cost > 3;\n}\n',
                          "--explain")
        self.assertRegex(done.stdout, r"a\.c:4: return r->cost > 3;\nslot 0: ")
        self.assertEqual(list(self.room.glob("*.o")), [])


class Source(unittest.TestCase):
    def test_functions_are_found_among_all_else(self) -> None:
        text = ('/* int no() { */ struct it { int a; };\nstatic const int t[] = { 1, 2 };\n'
                '#define X {\n'
                'char *s = "{";\nSEC("veto") u64 f(int a)\n{\n\tif (a) { return \'}\'; }\n}\n'
                "SEC_TAG(g, d) { return 1; }\n")
        found = list(source.functions_of(text))
        self.assertEqual([source.hook_in(it.head) for it in found], ["veto", "tag"])
        self.assertEqual([it.has("f") for it in found], [True, False])
        self.assertEqual(source.without(text, found[0]).count("\n"), text.count("\n"))
        first = source.at_line(text, 7)
        self.assertEqual(first, found[0])
        self.assertIsNone(source.at_line(text, 2))


if __name__ == "__main__":
    unittest.main()
