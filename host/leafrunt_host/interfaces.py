"""The kernel's interfaces as the bridge follows them: by rtnetlink, asked for when a notice tells
of a change."""
from __future__ import annotations

from dataclasses import dataclass
from ipaddress import IPv4Address
from pathlib import Path

from leafrunt_host.rtnetlink import OF_LINKS, Kernel, News, Notices

MEMBERSHIPS = Path("/proc/net/igmp")
ALL_SPF_ROUTERS_LISTED = ("050000E0", "E0000005")
"""224.0.0.5 there, by the order of this machine's bytes."""


@dataclass(frozen=True)
class KernelState:
    """What the kernel says of an interface: its index, 0 if there is none, whether it has a
    carrier, its MTU, and its addresses."""

    index: int = 0
    is_up: bool = False
    mtu: int = 0
    addresses: frozenset[IPv4Address] = frozenset()


class Interfaces:
    """The interfaces of the network namespace that this process is in. `CannotAsk` if the kernel
    can't be asked, and from `states` if it doesn't answer."""

    def __init__(self, kernel: Kernel | None = None, notices: Notices | None = None) -> None:
        self._kernel = kernel or Kernel()
        self._notices = notices or Notices(groups=OF_LINKS)

    def fileno(self) -> int:
        """Of a socket that can be read when something changed."""
        return self._notices.fileno()

    def is_changed(self) -> bool:
        """Whether something changed since the last question."""
        return self._notices.read() != News.NOTHING

    def states(self) -> dict[str, KernelState]:
        """The interfaces by their names."""
        addresses: dict[int, set[IPv4Address]] = {}
        for each in self._kernel.addresses():
            addresses.setdefault(each.index, set()).add(each.address.ip)
        return {
            link.name: KernelState(
                link.index, link.is_up, link.mtu, frozenset(addresses.get(link.index, ()))
            )
            for link in self._kernel.links()
        }

    def close(self) -> None:
        self._notices.close()
        self._kernel.close()


def group_members(listed: Path = MEMBERSHIPS) -> set[int] | None:
    """The indexes of the interfaces that are members of AllSPFRouters (proc(5)); None if the kernel
    doesn't say it. A membership ends with its interface, and isn't there again when the interface
    comes back with its old index."""
    try:
        lines = listed.read_text(encoding="utf-8", errors="replace").splitlines()
    except OSError:
        return None
    found, index = set(), 0
    for line in lines:
        words = line.split()
        if line[:1].isdigit():
            index = int(words[0])
        elif index and words and words[0] in ALL_SPF_ROUTERS_LISTED:
            found.add(index)
    return found
