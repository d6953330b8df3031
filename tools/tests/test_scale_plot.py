"""tools/scale-plot: it reads what tools/scale prints, and draws it."""
import pathlib
import shutil
import subprocess
import sys
import tempfile
import unittest

from loading import tool

TOP = pathlib.Path(__file__).resolve().parent.parent.parent
sys.dont_write_bytecode = True
plot = tool("scale-plot")
RUN = """{lsas} LSAs
load average 12.0
routerd  Full, s 1.7 | load {load} | MB loaded 9.5 | external 0.67 | externals, 100/s 0.55 | MB at the end 14.5 | routes 11201
bird     Full, s 7.5 | load 56.5 | MB loaded 13.5 | external 7.26 | externals, 100/s -0.12 | MB at the end 13.7 | routes 11201
of 1 runs: median (least) | routerd | bird | / bird
load | 58.9 (58.9) | 56.5 (56.5) | 1.04
"""


class Plot(unittest.TestCase):
    def setUp(self) -> None:
        room = tempfile.TemporaryDirectory()
        self.addCleanup(room.cleanup)
        self.room = pathlib.Path(room.name)

    def test_it_takes_the_median_of_the_runs_with_as_many_lsas(self) -> None:
        for count, (lsas, load) in enumerate([(1001, 5), (1001, 7), (1001, 30), (2001, 11)]):
            (self.room / f"{count}.scale").write_text(RUN.format(lsas=lsas, load=load))
        figures = plot.figures_of(self.room)
        self.assertEqual(plot.points_of(figures, "routerd", "load"), [(1001, 7), (2001, 11)])
        self.assertEqual(plot.points_of(figures, "routerd", "externals, 100/s"), [(1001, 0.55), (2001, 0.55)])
        self.assertEqual(plot.points_of(figures, "bird", "MB at the end"), [(1001, 13.7), (2001, 13.7)])
        # What is noise isn't drawn.
        self.assertEqual(plot.points_of(figures, "bird", "externals, 100/s"), [])

    def test_sizes_that_hardly_differ_are_one_point(self) -> None:
        for count, (lsas, load) in enumerate([(1001, 5), (16001, 70), (16301, 80)]):
            (self.room / f"{count}.scale").write_text(RUN.format(lsas=lsas, load=load))
        self.assertEqual(plot.points_of(plot.figures_of(self.room), "routerd", "load"), [(1001, 5), (16151, 75)])

    def test_a_folder_without_runs_is_told(self) -> None:
        said = subprocess.run([TOP / "tools/scale-plot", self.room, self.room / "out.svg"], capture_output=True, text=True)
        self.assertEqual((said.returncode, said.stdout), (1, ""))

    @unittest.skipIf(shutil.which("gnuplot") is None, "no gnuplot")
    def test_it_draws(self) -> None:
        (self.room / "1.scale").write_text(RUN.format(lsas=1001, load=5))
        (self.room / "2.scale").write_text(RUN.format(lsas=4001, load=15))
        said = subprocess.run([TOP / "tools/scale-plot", self.room, self.room / "out.svg"], capture_output=True, text=True)
        self.assertEqual(said.returncode, 0, said.stderr)
        self.assertIn("1001 LSAs: 1 run, 4001 LSAs: 1 run", said.stdout)
        self.assertIn("An external, alone", (self.room / "out.svg").read_text())


if __name__ == "__main__":
    unittest.main()
