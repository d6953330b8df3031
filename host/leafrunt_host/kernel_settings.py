"""Which table of the kernel a box keeps, and how: `kernel` in its configuration."""
from __future__ import annotations

import re
from collections.abc import Iterable, Mapping
from dataclasses import dataclass

from leafrunt_host.kernel import KernelInterface
from leafrunt_host.rtnetlink import MAIN
from leafrunt_host.tables import Table, shown

LOCAL = 255
"""The kernel's own table of local addresses."""
LARGEST_TABLE = 0xFFFF_FFFF
MOST_HOPS = 63
"""As many as interfaces: no route has more next hops."""
FIRST_ID, SPAN = 89_000_000, 1_000_000
"""Next hop objects have numbers that all programs of a machine share; zebra begins with 1. Those of
a table are this many from its first one on."""
RANGES = 4000
CLAIM = "kernel's routing table"
OF_CLAIM = re.compile(rf"{CLAIM}(?: ([1-9]\d{{0,9}}))?", re.ASCII)


@dataclass(frozen=True)
class KernelSettings:
    """A table of the kernel, by its number, and how many next hops of a route it gets at most. One
    of a VRF is given by the name of its device."""

    table: int = MAIN
    vrf: str = ""
    ecmp: int = MOST_HOPS

    @property
    def first_id(self) -> int:
        """Of the next hop objects. Tables whose numbers differ by 4,000 share theirs."""
        return FIRST_ID if self.table == MAIN else FIRST_ID + SPAN * (1 + self.table % RANGES)

    @property
    def ids(self) -> range:
        """The numbers that its next hop objects may have."""
        return range(self.first_id, self.first_id + SPAN)

    @property
    def claims(self) -> list[str]:
        """What no other box of this network namespace may have."""
        table = "" if self.table == MAIN else f" {self.table}"
        return [f"{CLAIM}{table}", f"kernel's next hops from {self.first_id}"]

    @classmethod
    def of_claim(cls, claim: str) -> KernelSettings | None:
        """The table that was claimed by this; None if it is another claim."""
        found = OF_CLAIM.fullmatch(claim)
        table = int(found[1] or MAIN) if found else 0
        return cls(table) if 0 < table <= LARGEST_TABLE else None

    def __str__(self) -> str:
        table = "main" if self.table == MAIN else str(self.table)
        return f"table {table}" + (f" of the VRF {self.vrf}" if self.vrf else "")


def kernel_settings_of(
    top: Table, kernel: Mapping[str, KernelInterface]
) -> tuple[bool, KernelSettings]:
    """Reads `kernel`: whether a table is kept, and, if it's a table of the file, which and how.
    Mistakes are noted."""
    if not top.has_table("kernel"):
        return top.truth("kernel", True), KernelSettings()
    section = top.table("kernel")
    ecmp = section.whole("ecmp", 1, MOST_HOPS, MOST_HOPS)
    number = section.whole("table", 1, LARGEST_TABLE, MAIN)
    if number == LOCAL:
        allowed = f"a whole number from 1 to {LARGEST_TABLE} but {LOCAL}"
        section.note("table", f"{LOCAL}, the kernel's table of local addresses", allowed)
    devices = {each.name: each.vrf_table for each in kernel.values() if each.vrf_table}
    names = f"the name of a VRF device: {', '.join(sorted(devices)) or 'there is none'}"
    vrf = section.text("vrf", names, "") or ""
    if vrf and vrf not in devices:
        section.note("vrf", f"{shown(vrf)}, which the kernel doesn't have", names)
    if vrf and section.has("table"):
        section.note("table", str(number), "none where `vrf` is given, whose table it is")
    section.end()
    return True, KernelSettings(devices.get(vrf, number), vrf, ecmp)


def look_at_vrf(
    top: Table, settings: KernelSettings, interfaces: Iterable[KernelInterface]
) -> list[str]:
    """Notes the interfaces that aren't in the VRF; without one, what is to be known of those that
    are in any."""
    advice = []
    for each in interfaces:
        if settings.vrf and each.vrf != settings.vrf:
            found = f"{shown(settings.vrf)}, and {each.name} is in {each.vrf or 'none'}"
            allowed = f"a VRF that each interface is in: ip link set {each.name} master"
            top.note("kernel, vrf", found, f"{allowed} {settings.vrf}")
        elif each.vrf and not settings.vrf:
            advice.append(
                f"{each.name} is in the VRF {each.vrf}, and routes go to {settings}: "
                f'[kernel] vrf = "{each.vrf}"'
            )
    return advice
