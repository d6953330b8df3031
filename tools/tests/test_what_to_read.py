"""tools/what-to-read: the definitions on which a contract rests."""
import pathlib
import re
import subprocess
import sys
import unittest

TOP = pathlib.Path(__file__).resolve().parent.parent.parent


def run(*words: str) -> subprocess.CompletedProcess:
    return subprocess.run([sys.executable, TOP / "tools/what-to-read", *words], capture_output=True, text=True)


class TestWhatToRead(unittest.TestCase):
    def test_the_headline(self) -> None:
        ran = run("--names")
        self.assertEqual((ran.returncode, ran.stderr), (0, ""))
        rows = re.findall(r"(?m)^ *(\d+) +(\d+)  (crates/\S+)\n +(.*)", ran.stdout)
        sums = re.search(r"(?m)^ *(\d+) +(\d+)  in (\d+) files$", ran.stdout)
        self.assertEqual(sum(int(it[0]) for it in rows), int(sums[1]))
        self.assertEqual(len(rows), int(sums[3]))
        names = {name for it in rows for name in it[3].split(", ")}
        self.assertLessEqual({"Safe", "Happens", "IsTable", "PacketText"}, names)

    def test_a_file_comes_after_those_that_it_cites(self) -> None:
        files = re.findall(r"crates/\S+\.antt", run("flood::Core::step/ok").stdout)
        order = {it: at for at, it in enumerate(files)}
        self.assertLess(order["crates/lsdb/specs/Order.antt"], order["crates/received/specs/Cases.antt"])
        self.assertLess(order["crates/received/specs/Cases.antt"], order["crates/event_rules/specs/Events.antt"])

    def test_one_clause_rests_on_no_more_than_all(self) -> None:
        counts = [int(re.search(r"(\d+)  in ", run(it).stdout)[1]) for it in ("flood::Core::step/ok", "flood::Core::step")]
        self.assertLess(*counts)

    def test_what_is_not_there(self) -> None:
        for name, why in [("flood::Core::leap", "no public function"), ("nothing::at_all", "no public function"),
                          ("flood::Core::step/high", "no clause high")]:
            ran = run(name)
            self.assertEqual(ran.returncode, 1)
            self.assertIn(why, ran.stderr)


if __name__ == "__main__":
    unittest.main()
