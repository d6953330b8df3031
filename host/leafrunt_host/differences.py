"""What differs between the configuration that a box runs with and its file as it is now."""
from __future__ import annotations

from collections.abc import Collection, Iterator
from dataclasses import replace

from leafrunt_host.configuration import Configuration, InterfaceSettings
from leafrunt_host.isolation import Account

OF_ROUTERD = (
    "address",
    "cost",
    "hello_interval",
    "dead_interval",
    "retransmit_interval",
    "transmit_delay",
)
"""What `routerd` reads of an interface, at its start alone."""
OF_BRIDGE = ("keys", "network", "peer", "mtu")
"""What the bridge alone goes by, at each packet."""
MOST_NAMED = 4
OF_OTHERS = ("name", "passive", "bfd")


def in_order_of(new: Configuration, old: Configuration) -> Configuration:
    """The new one with the old one's interfaces first, in their order: they are numbered so."""
    by_name = {each.name: each for each in new.interfaces}
    kept = [by_name.pop(each.name) for each in old.interfaces if each.name in by_name]
    return replace(new, interfaces=(*kept, *by_name.values()))


def is_same(one: Account | None, other: Account | None) -> bool:
    """Whether `routerd` runs as the same one: a number that nobody has is chosen at each start."""
    if one is None or other is None:
        return one is other
    return one.name == other.name or (one.name.isdigit() and other.name.isdigit())


def another_router(old: Configuration, new: Configuration) -> Iterator[str]:
    """What makes another router of it: no running one can become that."""
    if old.router_id != new.router_id:
        yield f"router_id: {new.router_id} in place of {old.router_id}"


def for_routerd(old: Configuration, new: Configuration) -> Iterator[str]:
    """What `routerd` reads at its start alone."""
    if old.routerd != new.routerd:
        yield f"routerd: {new.routerd} in place of {old.routerd}"
    if not is_same(old.account, new.account):
        yield f"routerd's user: {name_of(new.account)} in place of {name_of(old.account)}"
    before = {each.name: each for each in old.interfaces}
    after = {each.name: each for each in new.interfaces}
    yield from (f"{name}: no longer an interface" for name in before if name not in after)
    yield from (f"{name}: a new interface" for name in after if name not in before)
    for name in [each for each in before if each in after]:
        for each in OF_ROUTERD:
            one, other = getattr(before[name], each), getattr(after[name], each)
            if one != other:
                yield f"{name}: {each} {other} in place of {one}"


def name_of(account: Account | None) -> str:
    return account.name if account else "that of leafrunt itself (isolated = false)"


def for_bridge(old: InterfaceSettings, new: InterfaceSettings) -> Iterator[str]:
    """What differs of an interface that `routerd` needn't know."""
    if old.passive != new.passive:
        yield f"{new.name}: {'passive' if new.passive else 'active'} now"
    if old.keys != new.keys:
        ids = ", ".join(str(key.id) for key in new.keys)
        yield f"{new.name}: {f'keys {ids}' if ids else 'no keys'}"
    if (old.network, old.peer) != (new.network, new.peer):
        who = new.peer or new.network or "any address"
        yield f"{new.name}: packets count from {who}"
    if old.bfd != new.bfd:
        yield f"{new.name}: {'BFD' if new.bfd else 'no BFD'} now"
    if old.mtu != new.mtu:
        yield f"{new.name}: MTU {new.mtu} in place of {old.mtu}"


def would_change(
    old: Configuration, new: Configuration, by_hand: Collection[str]
) -> Iterator[str]:
    """What a reload would do: a line for each thing."""
    anew = list(for_routerd(old, new))
    yield from anew
    if anew:
        yield "another routerd takes over for that, and adjacencies stay"
    earlier = {each.name: each for each in old.interfaces}
    for each in new.interfaces:
        if each.name in earlier:
            yield from for_bridge(earlier[each.name], each)
    if (old.kernel, old.table) != (new.kernel, new.table):
        yield f"kernel: {new.table if new.kernel else 'no table'} is kept from then on"
    if old.redistribution != new.redistribution:
        yield "redistribution: as it is configured now"
    yield from destinations(old, new)
    if old.counters != new.counters:
        yield "counters: other names"
    if old.log_level != new.log_level:
        yield f"log_level: {new.log_level}"
    before = {each.hook: each for each in old.programs}
    after = {each.hook: each for each in new.programs}
    for hook in sorted(before | after):
        if before.get(hook) != after.get(hook):
            it = after.get(hook)
            stays = ", but one that was attached by hand stays" if hook in by_hand else ""
            yield f"{hook}: {it.object if it else 'no program'}{stays}"


def destinations(old: Configuration, new: Configuration) -> Iterator[str]:
    """What is announced anew, otherwise or no longer: some by their names."""
    before = {each.prefix: each for each in old.announcements}
    after = {each.prefix: each for each in new.announcements}
    changed = [each for each, it in after.items() if before.get(each) != it]
    gone = [each for each in before if each not in after]
    for title, prefixes in (("announced or changed", changed), ("withdrawn", gone)):
        if prefixes:
            names = ", ".join(map(str, prefixes[:MOST_NAMED]))
            more = f" and {len(prefixes) - MOST_NAMED} more" if len(prefixes) > MOST_NAMED else ""
            yield f"{title}: {names}{more}"


def of_bridge(one: InterfaceSettings) -> tuple[object, ...]:
    """What the bridge goes by."""
    return tuple(getattr(one, each) for each in OF_BRIDGE)
