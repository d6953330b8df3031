"""./check: which parts files can break, what each part came to, and how it ends."""
import contextlib
import io
import os
import pathlib
import subprocess
import sys
import tempfile
import unittest
import unittest.mock

from loading import TOOLS, tool

sys.path.append(str(TOOLS / "check-parts"))
import network
import packages
import parts
import playing

TOP = TOOLS.parent
TESTS = """import unittest


class Some(unittest.TestCase):
    def test_good(self): pass
    def test_bad(self): self.fail("it is bad")
    def test_left_out(self): self.skipTest("no gnuplot")
    def test_of_parts(self):
        for it in (1, 2, 3):
            with self.subTest(it): self.assertEqual(it, 1)


class NoneOfThese(unittest.TestCase):
    @classmethod
    def setUpClass(cls): raise OSError("no folder")
    def test_never(self): pass
"""


class Chosen(unittest.TestCase):
    def names(self, *paths: str) -> set[str]:
        return {it.name for it in parts.broken_by(list(paths), parts.everything())}

    def test_a_page_is_read_and_its_answers_are_compared(self) -> None:
        self.assertEqual(self.names("docs/use/TUTORIAL.md"), {"names", "answers", "build-routerd", "build-hooktool"})

    def test_a_row_is_played_by_all_programs(self) -> None:
        self.assertEqual(self.names("trials/texts.rows"), {"names", "rows", *(f"build-{it}" for it in parts.PROGRAMS)})

    def test_a_module_of_the_box_has_its_tests(self) -> None:
        self.assertEqual(self.names("host/leafrunt_host/box.py"), {"names", "host", "lints"})

    def test_code_of_a_crate_is_compiled_where_a_program_has_it(self) -> None:
        crates = {it: parts.crates_below(it) for it in parts.PROGRAMS}
        alone = sorted(crates["hooktool"] - crates["routerd"] - crates["simulation"] - {"hooktool"})[0]
        found = self.names(f"crates/{alone}/src/lib.rt")
        self.assertLessEqual({"build-hooktool", "rows", "answers", "types", "private", "lints"}, found)

    def test_each_part_has_a_file_that_breaks_it_and_stands_on_parts_that_are_there(self) -> None:
        files = subprocess.run([sys.executable, "-c", "import clone; print(*clone.files(), sep='\\n')"], cwd=TOOLS, capture_output=True, text=True).stdout.split("\n")
        known = parts.everything()
        for part in known:
            with self.subTest(part.name):
                self.assertIn(part, parts.broken_by(files, [part]))
                self.assertLessEqual(set(part.after), {it.name for it in known})


class Changed(unittest.TestCase):
    """Which files are meant, by what git says."""

    def setUp(self) -> None:
        self.check = tool("../check")

    def test_what_differs_from_the_last_pushed_commit_and_what_is_new(self) -> None:
        said = {"merge-base": ["0123456789abcdef"], "diff": ["b", "gone"], "ls-files": ["a"]}
        with unittest.mock.patch.object(self.check.clone, "git", side_effect=lambda *words: said[words[0]]) as git:
            self.assertEqual(self.check.changed(), (["a", "b", "gone"], "0123456789ab"))
        self.assertIn("0123456789abcdef", git.call_args_list[1].args)

    def test_where_nothing_was_pushed_the_last_commit_counts(self) -> None:
        said = {"merge-base": None, "diff": ["b"], "ls-files": []}
        with unittest.mock.patch.object(self.check.clone, "git", side_effect=lambda *words: said[words[0]]):
            self.assertEqual(self.check.changed(), (["b"], "HEAD"))

    def test_without_git_the_files_have_to_be_named(self) -> None:
        said = io.StringIO()
        with unittest.mock.patch.object(self.check.clone, "git", return_value=None), contextlib.redirect_stderr(said), self.assertRaises(SystemExit) as ended:
            self.check.changed()
        self.assertEqual((ended.exception.code, "name the files" in said.getvalue()), (3, True))

    def test_a_folder_stands_for_its_files(self) -> None:
        found = self.check.files_of([str(TOP / "host/schemas"), str(TOP / "demo")])
        self.assertEqual(found, ["demo", *sorted(f"host/schemas/{it.name}" for it in (TOP / "host/schemas").iterdir())])


class Clone(unittest.TestCase):
    def test_without_git_the_files_are_those_that_it_would_know(self) -> None:
        import clone

        if clone.git("rev-parse", "HEAD") is None:
            self.skipTest("this is no clone")
        known = [it for it in clone.files() if (TOP / it).exists()]
        with unittest.mock.patch.object(clone, "git", return_value=None):
            self.assertEqual(clone.files(), sorted(known))
            self.assertEqual(clone.commit(), "unknown")


class Counted(unittest.TestCase):
    def part(self, name: str) -> parts.Part:
        return next(it for it in parts.everything() if it.name == name)

    def test_tests_of_a_folder(self) -> None:
        with tempfile.TemporaryDirectory() as room:
            pathlib.Path(room, "test_some.py").write_text(TESTS)
            pathlib.Path(room, "test_broken.py").write_text("import nothing_of_this_name\n")
            results = pathlib.Path(room, "results")
            ran = subprocess.run([sys.executable, TOOLS / "check-parts/unittests.py", results, room, room], capture_output=True, text=True)
            count = playing.of_tests(self.part("tools"), results, ran.stdout, ran.returncode)
        self.assertEqual((ran.returncode, count.passed), (1, 1))
        self.assertIn("it is bad", ran.stdout)
        self.assertEqual(count.skipped, [("tools: test_some.Some.test_left_out", "no gnuplot")])
        names = ["test_broken", "test_some.NoneOfThese", "test_some.Some.test_bad", "test_some.Some.test_of_parts"]
        self.assertEqual(sorted(count.failed), [(f"tools: {it}", f"cd tools/tests && python3 -m unittest {it}") for it in names])

    def test_tests_that_end_without_a_word_failed(self) -> None:
        count = playing.of_tests(self.part("host"), pathlib.Path("/nowhere"), "", -9)
        self.assertEqual((count.passed, count.failed), (0, [("host: ended with status -9", "./check --only host")]))

    def test_rows(self) -> None:
        said = "texts.rows: spells bytes: line 9: 'x'\nrun-trials: 536 cases, 531 commands, 1 wrong\n"
        count = playing.of_numbers(self.part("rows"), said, 1)
        self.assertEqual(count.last_line(), "535 passed, 1 failed, 0 skipped")
        self.assertEqual(count.failed, [("rows: texts.rows: spells bytes: line 9: 'x'", "tools/run-trials --bin build/unproved trials/texts.rows")])

    def test_answers(self) -> None:
        said = "docs/use/TUTORIAL.md:9: $ routerd verify x\n  written: ['a']\n  found:   ['b']\ncheck-answers: 212 answers, 1 differ\n"
        count = playing.of_numbers(self.part("answers"), said, 1)
        self.assertEqual(count.last_line(), "211 passed, 1 failed, 0 skipped")
        self.assertEqual(count.failed[0][0], "answers: docs/use/TUTORIAL.md:9: $ routerd verify x")

    def test_a_tool_that_ends_by_a_fault_of_its_own_failed(self) -> None:
        self.assertEqual(len(playing.of_numbers(self.part("rows"), "Traceback\n", 1).failed), 1)

    def test_looks_of_the_network(self) -> None:
        found, part = network.Played(), ""
        for line in ("== ring: Four routers.", "yes  Full", "NO   a route", "yes  no program is left behind (9 s)", "== peers: Others.", "yes  Full"):
            part = found.see(line, part)
        self.assertEqual((found.good, found.bad), ({"ring": 2, "peers": 1}, {"ring": ["a route"], "peers": []}))
        self.assertEqual((found.has_ended("ring"), found.has_ended("peers")), (True, False))


class OfTheNetwork(unittest.TestCase):
    """The network by a stand-in for try-network, a script of sh for each time that it is played."""

    def played(self, *scripts: str, load: float = 0, **constants: object) -> tuple[playing.Count, str]:
        with tempfile.TemporaryDirectory() as room, contextlib.ExitStack() as mocked:
            for at, text in enumerate(scripts):
                pathlib.Path(room, str(at)).write_text(text)
            program = pathlib.Path(room, "try-network")
            program.write_text(f"import os, pathlib\nat = len(os.listdir('{room}')) - {len(scripts) + 1}\npathlib.Path('{room}', f'begun-{{at}}').touch()\n"
                               f"os.execv('/bin/sh', ['sh', f'{room}/{{at}}'])\n")
            for name, it in {"PROGRAM": str(program), "OF_GATE": ("ring", "peers"), **constants}.items():
                mocked.enter_context(unittest.mock.patch.object(network, name, it))
            mocked.enter_context(unittest.mock.patch.object(network, "why_not", return_value=""))
            mocked.enter_context(unittest.mock.patch("os.getloadavg", return_value=(load, 0, 0)))
            mocked.enter_context(unittest.mock.patch.object(network, "routerd_for_boxes", return_value=f"{room}/routerd"))
            mocked.enter_context(unittest.mock.patch.object(network, "ROUTERD", pathlib.Path(sys.executable)))
            said = io.StringIO()
            with contextlib.redirect_stdout(said):
                return network.played(True, 2), said.getvalue()

    RING, PEERS = "echo '== ring: It.'; echo 'yes  Full'; ", "echo '== peers: It.'; echo 'yes  no program is left behind (1 s)'; "
    ENDS = "echo 'yes  no program is left behind (1 s)'; "

    def test_all_is_as_it_must_be(self) -> None:
        count, _ = self.played(self.RING + self.ENDS + self.PEERS)
        self.assertEqual(count.last_line(), "3 passed, 0 failed, 0 skipped")

    def test_a_part_that_fails_is_played_once_more_alone(self) -> None:
        first = self.RING + "echo 'NO   a route'; " + self.ENDS + self.PEERS + "exit 1"
        count, said = self.played(first, self.RING + self.ENDS)
        self.assertEqual(count.last_line(), "3 passed, 0 failed, 0 skipped")
        self.assertIn("check: network: ring is played once more, alone", said)
        count, _ = self.played(first, self.RING + "echo 'NO   a route'; " + self.ENDS + "exit 1")
        self.assertEqual((len(count.failed), count.failed[0][0]), (1, "network: ring: a route"))

    def test_on_a_machine_that_is_too_busy_it_is_not_judged(self) -> None:
        bad = self.RING + "echo 'NO   a route'; " + self.ENDS + "exit 1"
        count, _ = self.played(bad + "; " + self.PEERS, bad, load=1000)
        self.assertEqual([name for name, _ in count.failed], ["network: peers: it wasn't played: "])
        self.assertRegex(count.skipped[0][1], r"not judged at a load of 1000 on \d+ processors, where it failed twice: a route")

    def test_a_part_that_is_not_played_failed(self) -> None:
        count, _ = self.played(self.PEERS + "echo 'a fault' >&2; exit 1")
        self.assertEqual([name for name, _ in count.failed], ["network: ring: it wasn't played: a fault"])

    def test_what_the_time_cuts_off_is_skipped_by_name(self) -> None:
        count, _ = self.played(self.PEERS + "exec sleep 60", LONGEST=10)
        self.assertEqual((count.last_line(), count.skipped[0][0]), ("1 passed, 0 failed, 1 skipped", "network: ring"))

    def test_where_it_cannot_be_played_each_part_is_skipped_by_name(self) -> None:
        count, _ = self.played("echo 'try-network: no network namespace can be had: no' >&2; exit 2")
        self.assertEqual(count.skipped, [(f"network: {it}", "try-network: no network namespace can be had: no") for it in ("ring", "peers")])


class Packages(unittest.TestCase):
    def test_the_package_that_a_skipped_test_wants(self) -> None:
        with unittest.mock.patch.object(packages, "is_there", return_value=False):
            for reason, package in (("no gnuplot", "gnuplot-nox"), ("clang or llvm-objdump is not here", "clang"), ("no C compiler", "gcc"),
                                    ("no promtool: it's of Debian's prometheus", "prometheus"), ("this needs root", "")):
                self.assertEqual(packages.named_in(reason), package, reason)

    def test_without_root_the_command_is_told(self) -> None:
        with unittest.mock.patch("os.geteuid", return_value=1000), unittest.mock.patch("shutil.which", return_value="/usr/bin/apt-get"):
            self.assertIn("apt-get install --no-install-recommends bird2", packages.install(["bird2"]))


class Rounds(unittest.TestCase):
    """Parts of three lines, each a command of its own."""

    def played(self, *words: tuple[str, tuple[str, ...], str]) -> tuple[playing.Count, str]:
        made = [parts.Part(name, "some", ("sh", "-c", command), (), 1, after=after) for name, after, command in words]
        said = io.StringIO()
        with contextlib.redirect_stdout(said):
            return playing.played(made, 2), said.getvalue()

    def test_what_stands_on_a_part_that_failed_is_skipped(self) -> None:
        count, said = self.played(("one", (), "echo broken; exit 1"), ("two", ("one",), "exit 0"), ("three", ("two",), "exit 0"), ("four", (), "exit 0"))
        self.assertEqual(count.last_line(), "1 passed, 1 failed, 2 skipped")
        self.assertEqual(count.skipped, [("two", "one didn't pass"), ("three", "two didn't pass")])
        self.assertIn("\nbroken\n", said)

    def test_a_part_that_hangs_is_ended_and_failed(self) -> None:
        with unittest.mock.patch.object(playing, "LONGEST", 1):
            count, said = self.played(("one", (), "sleep 60"), ("two", (), "exit 0"))
        self.assertEqual((count.last_line(), count.failed[0][0]), ("1 passed, 1 failed, 0 skipped", "one: some"))
        self.assertIn("check: one is ended", said)

    def test_what_is_begun_ends_with_it(self) -> None:
        with tempfile.TemporaryDirectory() as room, self.assertRaises(KeyboardInterrupt):
            with unittest.mock.patch.object(playing.Round, "end", side_effect=KeyboardInterrupt):
                self.played(("one", (), f"sleep 60; touch {room}/ended"))
        self.assertFalse(os.path.exists(f"{room}/ended"))


class Called(unittest.TestCase):
    def ran(self, *words: str, top: pathlib.Path = TOP) -> subprocess.CompletedProcess[str]:
        return subprocess.run([sys.executable, top / "check", *words], stdin=subprocess.DEVNULL, capture_output=True, text=True, timeout=120)

    def test_a_part_alone(self) -> None:
        ran = self.ran("--only", "rooms")
        self.assertEqual((ran.returncode, ran.stderr, ran.stdout.splitlines()[-1]), (0, "", "1 passed, 0 failed, 0 skipped"))

    def test_what_is_not_there_is_refused(self) -> None:
        for words in (("--only", "elves"), ("no/such/file",), ("/etc/passwd",)):
            ran = self.ran(*words)
            self.assertEqual((ran.returncode, ran.stdout), (2, ""), words)

    def test_planted_faults_are_found_with_what_repeats_them(self) -> None:
        faults = (
            ("rooms", "crates.txt", "lsdb", "lsbd", "tools/check-rooms"),
            ("lints", "host/leafrunt_host/words.py", "def ", "def def ", "lints.py"),
            ("names", "docs/use/HOST.md", "docs/use/OPERATING.md", "docs/use/OPERATION.md", "tools/check-names"),
        )
        with tempfile.TemporaryDirectory() as room:
            copy = tool("try-anywhere").copied(pathlib.Path(room, "copy"))
            for part, file, old, new, command in faults:
                with self.subTest(file):
                    text = (copy / file).read_text()
                    self.assertIn(old, text)
                    (copy / file).write_text(text.replace(old, new, 1))
                    ran = self.ran("--only", part, top=copy)
                    (copy / file).write_text(text)
                    self.assertEqual((ran.returncode, ran.stdout.splitlines()[-1]), (1, "0 passed, 1 failed, 0 skipped"), ran.stdout)
                    self.assertIn(command, ran.stdout.splitlines()[-2])


if __name__ == "__main__":
    unittest.main()
