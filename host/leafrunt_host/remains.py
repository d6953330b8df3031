"""What a box that was killed left in the kernel's tables: `leafrunt clear` takes it away, as the unit
of systemd asks it to once a box has ended.

A box writes its name into what it claims, and takes it out again when it ends in order. So what is
found there belongs to the box of this name and to no other, whatever its configuration says by now.
"""
from __future__ import annotations

from leafrunt_host.forwarding import CannotKeep, KernelTable
from leafrunt_host.kernel_settings import KernelSettings
from leafrunt_host.rooms import Room
from leafrunt_host.statuses import Stopped


def clear(room: Room) -> list[str]:
    """A line for each table that the box kept. `Stopped` if the box runs, and if the kernel can't
    be asked."""
    claims = map(KernelSettings.of_claim, room.claimed_before())
    said = [cleared(room, each) for each in claims if each]
    return said or [f"the box {room.name} left nothing"]


def cleared(room: Room, table: KernelSettings) -> str:
    """Takes its routes and next hops away, while nobody else may keep that table."""
    room.claim(table.claims)
    try:
        kernel = KernelTable(settings=table)
        try:
            outcome = kernel.clear()
        finally:
            kernel.close()
    except CannotKeep as why:
        raise Stopped(f"{table} has the routes of the box {room.name} still: {why}") from why
    if outcome.refused:
        raise Stopped("\n".join(f"{table}: {each}" for each in outcome.refused))
    room.give_back(table.claims)
    return f"{table}: {outcome.routes} routes removed that the box {room.name} left"
