"""The announcements of `routerd` without `routerd`: what its console answers to `add` and
`withdraw` (docs/use/OPERATING.md)."""
from __future__ import annotations

from ipaddress import IPv4Network

MOST = 4096


class FakeRouter:
    """`refusals` are answered first, one for each line; `withholds` says what its price program
    keeps back."""

    def __init__(self) -> None:
        self.announced: dict[IPv4Network, str] = {}
        self.withheld: set[IPv4Network] = set()
        self.lengths: dict[int, set[IPv4Network]] = {}
        self.lines: list[str] = []
        self.refusals: list[str] = []
        self.most = MOST

    def withholds(self, prefix: IPv4Network) -> bool:
        return False

    def ask(self, line: str) -> list[str]:
        self.lines.append(line)
        if self.refusals:
            return [self.refusals.pop(0)]
        word, _, rest = line.partition(" ")
        text, _, values = rest.partition(" ")
        prefix = IPv4Network(text)
        if word == "withdraw":
            self.announced.pop(prefix, None)
            self.withheld.discard(prefix)
            return ["withdrawn"]
        return [self._added(prefix, values)]

    def _added(self, prefix: IPv4Network, values: str) -> str:
        here = self.lengths.setdefault(int(prefix.network_address), set())
        here &= {each for each in here if each in self.announced or each in self.withheld}
        if here - {prefix}:
            return "refused 3"
        here.add(prefix)
        if self.withholds(prefix):
            self.announced.pop(prefix, None)
            self.withheld.add(prefix)
            return "withheld"
        if prefix not in self.announced and len(self.announced) >= self.most:
            return "refused 5"
        self.announced[prefix] = values
        return "originated"
