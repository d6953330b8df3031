"""Interfaces that a box was started without, since they weren't there: once one comes, with an
address, the configuration is read again and so taken over, as at `leafrunt reload`.
"""
from __future__ import annotations

import time
from collections.abc import Callable, Mapping
from ipaddress import IPv4Address

from leafrunt_host.interface_names import matches
from leafrunt_host.interfaces import KernelState
from leafrunt_host.status import Known

SETTLED = 1.0
"""Seconds without a change of those that come: several may come one after the other."""
AGAIN, LONGEST = 10.0, 300.0
"""Seconds after which those that weren't taken are tried again, first and at most: each time twice as
many."""
Addresses = frozenset[IPv4Address]


class Awaiting:
    """Looks at the kernel's interfaces, as the bridge gives them. One thread's alone."""

    def __init__(
        self,
        known: Known,
        ask: Callable[[str], None],
        clock: Callable[[], float] = time.monotonic,
    ) -> None:
        """`ask` has the configuration read again, for the reason that it is given."""
        self._known, self._ask, self._clock = known, ask, clock
        self._seen: dict[str, Addresses] = {}
        self._due, self._pause = 0.0, AGAIN

    def look(self, states: Mapping[str, KernelState]) -> None:
        """If one of those that are awaited is there, for a moment or since long."""
        if not self._known.configuration.awaited:
            return
        now, come = self._clock(), self._come(states)
        if come.items() - self._seen.items():
            self._due, self._pause = now + SETTLED, AGAIN
        self._seen = come
        if come and now >= self._due:
            self._due, self._pause = now + self._pause, min(2 * self._pause, LONGEST)
            names = sorted(come)
            self._ask(f"{', '.join(names[:4])}{' and more' * (len(names) > 4)}: there now")

    def _come(self, states: Mapping[str, KernelState]) -> dict[str, Addresses]:
        """Those that are awaited and there, with their addresses."""
        configuration = self._known.configuration
        taken = {each.name for each in configuration.interfaces}
        found = {}
        for name, state in states.items():
            addresses = frozenset(each for each in state.addresses if not each.is_loopback)
            is_meant = any(matches(each, name) for each in configuration.awaited)
            if addresses and name not in taken and is_meant:
                found[name] = addresses
        return found
