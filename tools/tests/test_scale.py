"""tools/scale: its area, how it starts routerd, and daemons that load at once."""
import argparse
import pathlib
import sys
import tempfile
import threading
import unittest
from unittest import mock

from loading import tool

sys.dont_write_bytecode = True
scale = tool("scale")
TRANSIT = 2
PRINTS = "#!/bin/sh\nread -r _\nenv\necho end\nread -r _\n"


class Area(unittest.TestCase):
    def test_each_transit_network_has_the_routers_that_link_to_it(self) -> None:
        routers, _, networks = scale.grid(5, 0, 7)
        linked: dict[str, list[str]] = {}
        for name, links in routers.items():
            for identifier, address, kind, _ in links:
                if kind == TRANSIT:
                    linked.setdefault(identifier, []).append(name)
                    self.assertEqual(identifier == address, networks[identifier][0] == name)
        self.assertEqual(len(networks), 7)
        self.assertEqual(linked, networks)

    def test_networks_take_the_place_of_links(self) -> None:
        of_links, externals, _ = scale.grid(5, 20)
        of_both, the_same, _ = scale.grid(5, 20, 7)
        self.assertEqual(externals, the_same)
        for name, links in of_links.items():
            self.assertEqual([it[3] for it in links], [it[3] for it in of_both[name]])
            self.assertNotIn(TRANSIT, (it[2] for it in links))

    def test_a_neighbor_announces_each_network(self) -> None:
        neighbor = scale.Neighbor(None, *scale.grid(5, 0, 7))
        self.assertEqual(sum(kind == 2 for kind, _, _ in neighbor.lsas), 7)
        self.assertEqual(len(neighbor.lsas), 5 * 5 + 1 + 7)


class Routerd(unittest.TestCase):
    def test_it_has_the_environment_of_a_box(self) -> None:
        with tempfile.TemporaryDirectory() as folder:
            program = pathlib.Path(folder, "routerd")
            program.write_text(PRINTS)
            program.chmod(0o755)
            routerd = scale.Routerd(str(program), (1, 2))
            self.addCleanup(routerd.close)
            routerd.start()
            said = routerd.ask("environment")
        for name, value in scale.ENVIRONMENT.items():
            self.assertIn(f"{name}={value}", said)


class Together(unittest.TestCase):
    """All daemons are brought to Full at once."""

    def run_with(self, load) -> list:
        class Measured:
            def __init__(self, name: str, words: argparse.Namespace) -> None:
                self.name, self.neighbor, self.figures, self.is_closed = name, scale.Neighbor(None, *scale.grid(2, 1)), {}, False
                made.append(self)

            def load(self) -> None:
                load(self)

            def end(self) -> None:
                pass

            def close(self) -> None:
                self.is_closed = True

        made: list[Measured] = []
        words = argparse.Namespace(together=True, pause=1)
        with mock.patch.object(scale, "Measure", Measured), mock.patch.object(scale.Changes, "all"), mock.patch("builtins.print"):
            try:
                scale.measured(["routerd", "bird"], words)
            finally:
                self.assertEqual([it.is_closed for it in made], [True, True])
        return made

    def test_each_is_loaded_while_the_others_are(self) -> None:
        both = threading.Barrier(2)
        self.assertEqual([it.name for it in self.run_with(lambda _: both.wait(20))], ["routerd", "bird"])

    def test_one_that_does_not_get_there_is_told(self) -> None:
        def load(measure) -> None:
            if measure.name == "bird":
                raise scale.NotFull("bird: not Full")

        with self.assertRaises(scale.NotFull):
            self.run_with(load)


if __name__ == "__main__":
    unittest.main()
