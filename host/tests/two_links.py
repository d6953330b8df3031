"""A router that is tried beside BIRD, by two links."""
from __future__ import annotations

from tests.network import Bird, Box, End, Network, Side, Try


class TwoLinks:
    """The router that is tried, 1.1.1.1, has two links to 2.2.2.2, a BIRD: the first is the better
    one."""

    def __init__(self, given: Try, is_box: bool, own: str, far: str) -> None:
        """In namespaces with these names."""
        self.network = network = Network()
        self.own, self.far = network.namespace(own), network.namespace(far)
        for at in (1, 2):
            one = End(self.own, f"eth{at}", f"10.0.{at}.1/24")
            network.link(one, End(self.far, f"eth{at}", f"10.0.{at}.2/24"))
        sides = [Side("eth1"), Side("eth2", cost=20)]
        self.bird = Bird(network, self.far, "2.2.2.2", sides)
        self.tried: Box | Bird
        if is_box:
            self.tried = Box(network, given.routerd, self.own, "tried", "1.1.1.1", sides)
        else:
            self.tried = Bird(network, self.own, "1.1.1.1", sides)
            self.tried.folder = network.work / "tried"
            self.tried.folder.mkdir()

    def close(self) -> None:
        self.tried.stop()
        self.bird.stop()
        self.network.close()
