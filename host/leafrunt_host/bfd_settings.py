"""BFD's part of a configuration: `bfd` of an interface, and its keys."""
from __future__ import annotations

from collections.abc import Mapping

from leafrunt_host.authentication import Key
from leafrunt_host.bfd_packets import SHA1_KEY_LENGTH, BfdKey, KeyType
from leafrunt_host.bfd_session import Settings
from leafrunt_host.tables import Table, shown

AnyKey = Key | BfdKey
LEAST_INTERVAL, MOST_INTERVAL = 50, 10_000
"""Milliseconds. A number of seconds by mistake is below these."""
MILLISECOND = 1000
"""Microseconds."""


def key_of(table: Table, number: int, kind: KeyType) -> BfdKey | None:
    """A key of the file of keys whose algorithm is one of BFD's: it has no lifetime."""
    allowed = f"a text of 1 to {SHA1_KEY_LENGTH} bytes"
    secret = table.secret("secret", SHA1_KEY_LENGTH, allowed)
    table.end()
    return BfdKey(number, kind, secret) if table.is_sound and secret is not None else None


def settings_of(
    interface: Table, keys: Mapping[str, AnyKey] | None, passive: bool
) -> Settings | None:
    """What `bfd` of an interface says; None if it asks for no session."""
    table = interface.switch("bfd", f"{interface.where}, bfd")
    if table is None:
        return None
    if passive:
        interface.note("bfd", "BFD", "none where passive = true, as there is no neighbor there")
    transmit = table.whole("transmit_interval", LEAST_INTERVAL, MOST_INTERVAL, 300)
    receive = table.whole("receive_interval", LEAST_INTERVAL, MOST_INTERVAL, 300)
    multiplier = table.whole("detect_multiplier", 1, 255, 3)
    chosen = chosen_keys(table, keys)
    table.end()
    if not table.is_sound:
        interface.spoil("bfd")
    return Settings(transmit * MILLISECOND, receive * MILLISECOND, multiplier, chosen)


def chosen_keys(table: Table, keys: Mapping[str, AnyKey] | None) -> tuple[BfdKey, ...]:
    """The keys of a session, of which the first signs."""
    own = {name: key for name, key in (keys or {}).items() if isinstance(key, BfdKey)}
    kinds = " or ".join(shown(each.value) for each in KeyType)
    allowed = f"names of keys whose algorithm is {kinds}: {', '.join(own) or 'there are none'}"
    chosen: dict[int, BfdKey] = {}
    for name in table.texts("keys", allowed) or []:
        key = own.get(name)
        if key is None and keys is not None:
            table.note("keys", shown(name), allowed)
        elif key and key.id in chosen:
            found = f"{shown(name)}, whose ID {key.id} an earlier one has"
            table.note("keys", found, "keys with different IDs")
        elif key:
            chosen[key.id] = key
    return tuple(chosen.values())
