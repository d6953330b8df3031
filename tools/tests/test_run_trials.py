"""tools/run-trials over a program that prints its words: what it finds, and what it takes for no row."""
import pathlib
import subprocess
import tempfile
import unittest

TOOL = pathlib.Path(__file__).resolve().parents[1] / "run-trials"
PRINTS = """#!/bin/sh
[ "$1" = fail ] && { echo "usage" >&2; exit 2; }
[ "$1" = read ] && { cat "$2"; exit 0; }
[ "$1" = input ] && exec cat
[ "$1" = talk ] && { while read -r line; do echo "$2 $line"; done; exit 0; }
echo "$@"
"""


class RunTrials(unittest.TestCase):
    def setUp(self):
        room = tempfile.TemporaryDirectory()
        self.addCleanup(room.cleanup)
        self.room = pathlib.Path(room.name)
        for name in ("routerd", "hooktool", "simulation"):
            program = self.room / name
            program.write_text(PRINTS)
            program.chmod(0o755)

    def play(self, rows, *words):
        (self.room / "some.rows").write_text(rows)
        ran = subprocess.run([TOOL, "--bin", self.room, *words, self.room / "some.rows"], capture_output=True, text=True, check=False)
        return ran.returncode, ran.stdout + ran.stderr

    def test_what_is_as_expected_is_right(self):
        rows = """let SIX 060606
== all words
$ routerd {0a*3}b
> {0a*2}0ab
= 0
file bytes hex 0102*2 {SIX}
length bytes 7
holds bytes at 3 hex 0206
copy bytes front 2
holds front hex 0102
change bytes at 0 hex ff
holds bytes at 0 hex ff02
file text
| one
|*2 address {address 10.0.0.0 256}
$ routerd read text
> one
> address 10.0.0.0
> address 10.0.{n}.0
= 0
$ routerd a b
~ a b
- c
= 0
$ routerd fail
! usage
= 2
folder new
remove new
nothing new
"""
        self.assertEqual(self.play(rows), (0, "run-trials: 1 cases, 4 commands, 0 wrong\n"))

    def test_a_packet_has_its_length_and_checksum(self):
        rows = """let HELLO {packet 1 1.1.1.1 ffffff00000a0201000000280000000000000000 02020202}
== a Hello and an empty Database Description of the documents, and an Update of one LSA, as {update} makes it
file text
| {HELLO} {packet 2 1.1.1.1 2000 02 07 00000000}
| {update 1 7 1}
$ routerd read text
> 020100300101010100000000f69400000000000000000000ffffff00000a020100000028000000000000000002020202 {packet 2 1.1.1.1 20000207 00000000}
> {packet 4 2.2.2.2 00000001 lsas:1:2.2.2.2:7:1}
~ d9d4000000000000000000002000020700000000
= 0
"""
        self.assertEqual(self.play(rows), (0, "run-trials: 1 cases, 1 commands, 0 wrong\n"))

    def test_what_is_otherwise_is_told(self):
        for wrong in ("> 8\n= 0", "> 7\n= 1", "~ 8\n= 0", "- 7\n= 0", "= 0", "> 7\n! usage\n= 0"):
            with self.subTest(wrong):
                status, told = self.play(f"== seven\n$ routerd 7\n{wrong}\n")
                self.assertEqual(status, 1)
                self.assertIn("some.rows: seven: line 2", told)
                self.assertIn("1 cases, 1 commands, 1 wrong", told)
        for wrong in ("holds it hex 08", "length it 2", "nothing it", "same it other"):
            with self.subTest(wrong):
                self.assertEqual(self.play(f"== files\nfile it hex 07\nfile other hex 08\n{wrong}\n")[0], 1)

    def test_lines_that_say_nothing_end_it(self):
        for line in ("fly", "file it bits 01", "$ nobody", "holds it hex 0", "$ routerd 7\n> 7"):
            with self.subTest(line):
                status, told = self.play(f"== none\nfile it hex 07\n{line}\n")
                self.assertEqual((status, "run-trials: " in told), (2, True))
        self.assertEqual(self.play("file it hex 07\n")[0], 2)

    def test_a_program_that_is_not_there_is_told_at_once(self):
        (self.room / "routerd").unlink()
        (self.room / "simulation").unlink()
        status, told = self.play("== one\n$ routerd x\n= 0\n== two\n$ hooktool x\n= 0\n")
        said = f"run-trials: there is no routerd in {self.room} (./check --only rows compiles them without proof)\n"
        self.assertEqual((status, told), (2, said))

    def test_an_input_is_read_and_fails_behind_its_bytes(self):
        rows = """== input
file text
| one
| two
$ routerd input <text
> one
> two
= 0
$ routerd input <text!
> one
> two
! reset
= 1
$ routerd input
= 0
"""
        self.assertEqual(self.play(rows), (0, "run-trials: 1 cases, 3 commands, 0 wrong\n"))
        self.assertEqual(self.play(rows.replace("<text!", "<text"))[0], 1)

    def test_an_output_is_cut_at_each_byte(self):
        rows = "== seven\n$ routerd 7 8\n> 7 8\n= 0\ncut {}\n"
        self.assertEqual(self.play(rows.format(1)), (0, "run-trials: 1 cases, 6 commands, 0 wrong\n"))
        status, told = self.play(rows.format(3))
        self.assertEqual((status, "status 1 in place of 3 where 0 of 4 bytes are taken" in told), (1, True))
        self.assertEqual(self.play("== none\n$ routerd input\n= 0\ncut 1\n")[0], 2)

    def test_ports_are_free_and_the_same_for_a_number(self):
        rows = "== ports\n$ routerd {port 1} {port 2} {port 1}\n> {port 1} {port 2} {port 1}\n- {port 3}\n= 0\n"
        self.assertEqual(self.play(rows)[0], 0)
        self.assertEqual(self.play("== ports\n$ routerd {port 1}\n> {port 2}\n= 0\n")[0], 1)

    def test_bytes_and_where_a_part_stands(self):
        rows = "== bytes\n$ routerd {byte c3}{byte a9} b\n~ \u00e9 b{lf}\n= 0\n$ routerd fail\n! {start}usage{lf}\n= 2\n"
        self.assertEqual(self.play(rows)[0], 0)
        self.assertEqual(self.play(rows.replace("{start}", "{start}s"))[0], 1)

    def test_commands_run_together_until_all_is_printed(self):
        rows = """== two
& routerd talk a
< first
? one
? two
~ a first{lf}a one{lf}a two{lf}
= 0
& routerd talk b
? three
~ b three{lf}b three{lf}
- four
= 0
$ routerd 7
> 7
= 0
"""
        self.assertEqual(self.play(rows), (0, "run-trials: 1 cases, 3 commands, 0 wrong\n"))
        for old, new in (("- four", "- three"), ("= 0\n&", "= 1\n&")):
            with self.subTest(new):
                status, told = self.play(rows.replace(old, new, 1))
                self.assertEqual((status, "some.rows: two: line 2" in told), (1, True))
        self.assertEqual(self.play("== none\n& routerd talk a\n= 0\n")[0], 2)

    def test_planted_faults_are_found(self):
        rows = "== seven\n$ routerd 7 8\n> 7 8\n= 0\nfile it hex 07\nholds it hex 07\n"
        self.assertEqual(self.play(rows, "--plant", "3"), (0, "run-trials: 3 of 3 planted faults found\n"))
        status, told = self.play("== any\n$ routerd 7 8\n> 7 {n}\n- 9\n= 0\n".replace("> 7 {n}", "> {any}7 {n}"), "--plant", "2")
        self.assertEqual((status, told), (0, "run-trials: 2 of 2 planted faults found\n"))


if __name__ == "__main__":
    unittest.main()
