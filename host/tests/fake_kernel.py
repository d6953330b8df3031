"""A kernel without a kernel: links, next hop objects and routes as Linux keeps them, as far as
`forwarding` goes by them (ip-nexthop(8)), for tests without root."""
from __future__ import annotations

import os
import socket
from collections.abc import Callable, Container

from leafrunt_host.rtnetlink import (
    AddRoute,
    Change,
    DeleteNextHop,
    DeleteRoute,
    Kernel,
    Link,
    News,
    NextHop,
    Notices,
    Refusal,
    ReplaceNextHop,
    ReplaceRoute,
    Route,
    SetNextHop,
)

EXISTS, NO_ENTRY, NO_PROCESS, DOWN, INVALID = 17, 2, 3, 100, 22


class FakeKernel(Kernel):
    """Changes are made at once; `news` is what the notices say next."""

    def __init__(self, *names: str) -> None:
        self.protocol = self.metric = 89
        self.up = {name: True for name in names}
        self.objects: dict[int, NextHop] = {}
        self.of_others: set[int] = set()
        """The numbers of those that have another program's protocol number."""
        self.table: dict[bytes, int] = {}
        self.others: set[bytes] = set()
        """Prefixes that another program has a route to, with our metric."""
        self.vrfs: dict[str, int] = {}
        """VRF devices with their tables."""
        self.inside: set[str] = set()
        """Interfaces that are enslaved to the first one."""
        self.news = News.NOTHING
        self.given: list[Change] = []
        self.reads = 0

    @property
    def port(self) -> int:
        return 1

    def close(self) -> None:
        pass

    def links(self) -> list[Link]:
        names = enumerate(self.up, 1)
        vrfs = enumerate(self.vrfs.items(), 100)
        return [
            *(
                Link(index, name, 1500, self.up[name], 100 if name in self.inside else 0)
                for index, name in names
            ),
            *(Link(index, name, 1500, True, 0, table) for index, (name, table) in vrfs),
        ]

    def own_routes(self) -> list[Route]:
        self.reads += 1
        return [Route(prefix, 89, 89, group, ()) for prefix, group in self.table.items()]

    def next_hops(self, is_own: bool = True, also: Container[int] = ()) -> list[NextHop]:
        objects = self.objects.values()
        return [each for each in objects if each.id not in self.of_others or each.id in also]

    def change(self, changes: list[Change]) -> list[Refusal | None]:
        self.given += changes
        return [self._refusal(self._made(each)) for each in changes]

    @staticmethod
    def _refusal(number: int) -> Refusal | None:
        return Refusal(number, os.strerror(number)) if number else None

    def _made(self, change: Change) -> int:
        match change:
            case AddRoute(prefix, group):
                return EXISTS if prefix in self.table or prefix in self.others else self._set(prefix, group)
            case ReplaceRoute(prefix, group):
                return self._set(prefix, group) if prefix in self.table else NO_ENTRY
            case DeleteRoute(prefix):
                return 0 if self.table.pop(prefix, None) is not None else NO_PROCESS
            case SetNextHop(it):
                return EXISTS if it.id in self.objects else self._object(it)
            case ReplaceNextHop(it):
                return self._object(it) if it.id in self.objects else NO_ENTRY
            case DeleteNextHop(identity):
                return self._remove(identity)
        raise TypeError(change)

    def _set(self, prefix: bytes, group: int) -> int:
        if group not in self.objects:
            return INVALID
        self.table[prefix] = group
        return 0

    def _object(self, it: NextHop) -> int:
        if not it.members and not self.up.get(self._name(it.index), False):
            return DOWN
        if any(each not in self.objects for each in it.members):
            return INVALID
        self.objects[it.id] = it
        self.of_others.discard(it.id)
        return 0

    def _name(self, index: int) -> str:
        return list(self.up)[index - 1]

    def _remove(self, identity: int) -> int:
        """With the last member goes the group, and with that its routes."""
        if self.objects.pop(identity, None) is None:
            return NO_ENTRY
        self.of_others.discard(identity)
        self.table = {each: group for each, group in self.table.items() if group != identity}
        for each in list(self.objects.values()):
            if identity in each.members:
                left = tuple(it for it in each.members if it != identity)
                if left:
                    self.objects[each.id] = each._replace(members=left)
                else:
                    self._remove(each.id)
        return 0

    def carrier(self, name: str, is_up: bool) -> None:
        """A link loses its carrier, or gets it back: the next hops there are gone."""
        self.up[name], self.news = is_up, self.news | News.LINKS
        for each in list(self.objects.values()):
            if not is_up and not each.members and self._name(each.index) == name:
                self._remove(each.id)

    def take_route(self, prefix: bytes) -> None:
        """Another program removes a route."""
        del self.table[prefix]
        self.news |= News.ROUTES

    def replaced(self, it: NextHop) -> None:
        """Another program's `ip nexthop replace`: the object gets its protocol number."""
        self.objects[it.id], self.news = it, self.news | News.NEXT_HOPS
        self.of_others.add(it.id)

    def removed(self, identity: int) -> None:
        """Another program's `ip nexthop del`: the routes go without a word."""
        self._remove(identity)
        self.news |= News.NEXT_HOPS

    def forwards(self) -> dict[str, list[str]]:
        """By each prefix the gateways that packets go by."""
        found = {}
        for prefix, group in self.table.items():
            members = (self.objects[each] for each in self.objects[group].members)
            gateways = sorted(socket.inet_ntoa(each.gateway) for each in members)
            found[f"{socket.inet_ntoa(prefix[:4])}/{prefix[4]}"] = gateways
        return found


class FakeNotices(Notices):
    def __init__(self, kernel: FakeKernel, read: Callable[[], None] = lambda: None) -> None:
        self._kernel = kernel

    def fileno(self) -> int:
        return -1

    def read(self) -> News:
        news, self._kernel.news = self._kernel.news, News.NOTHING
        return news

    def close(self) -> None:
        pass
