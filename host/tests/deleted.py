"""What the kernel tells of deleted routes and next hops, while something is tried."""
from __future__ import annotations

import time

from tests.network import Network


class Deleted:
    """What the kernel tells of routes that are deleted in a namespace."""

    def __init__(self, network: Network, namespace: str) -> None:
        self._network, self._file = network, network.work / "deleted"
        with open(self._file, "w", encoding="utf-8") as it:
            words = ["ip", "monitor", "route", "nexthop"]
            log = network.work / "monitor"
            self._ran = network.start(namespace, words, log, stdout=it.fileno())
        time.sleep(1)

    def end(self) -> list[str]:
        time.sleep(0.5)
        self._network.stop(self._ran)
        return [each for each in self._file.read_text().splitlines() if "Deleted" in each]
