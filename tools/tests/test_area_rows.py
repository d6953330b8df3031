"""tools/area-rows: the rows that trials/ has, others by another seed, and which candidates it calculates."""
import pathlib
import subprocess
import sys
import unittest

from loading import tool

TOP = pathlib.Path(__file__).resolve().parents[2]
TOOL = TOP / "tools/area-rows"
sys.dont_write_bytecode = True


def written(*words):
    return subprocess.run([TOOL, *words], capture_output=True, text=True, check=False)


class AreaRows(unittest.TestCase):
    def test_the_rows_are_those_of_trials(self):
        said = written()
        self.assertEqual((said.returncode, said.stdout), (0, (TOP / "trials/areas.rows").read_text()))

    def test_another_seed_makes_other_areas(self):
        said = written("--areas", "3", "--seed", "7")
        self.assertEqual(said.stdout.count("\n== area "), 3)
        self.assertNotIn(said.stdout.split("== area 0")[1].split("==")[0], (TOP / "trials/areas.rows").read_text())

    def test_areas_with_too_few_routes_of_a_kind_are_told(self):
        self.assertEqual((written("--areas", "20").returncode, written("--areas", "0").returncode), (0, 1))

    def test_a_square_joins_both_next_hops(self):
        it = tool("area-rows")
        links = {1: ((2, 0x0a000001), (3, 0x0a000002)), 2: ((1, 9), (4, 9)), 3: ((1, 9), (4, 9)), 4: ((2, 9), (3, 9))}
        lsas = [it.Lsa(1, 1, router, router, 0, [it.Link(1, to, data, 5) for to, data in ends], 0, [], 0, False, 0, 0)
                for router, ends in links.items()]
        lsas[3].links.append(it.Link(3, 0xc0000200, 0xffffff00, 10))
        self.assertEqual([it[:5] for it in it.Area(lsas).candidates()], [((0xc0000200, 24), 0, 20, 0, 0b110)])


if __name__ == "__main__":
    unittest.main()
