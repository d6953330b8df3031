"""Histories of networks of two to four routers: acts by chance, and what comes of them."""
from __future__ import annotations

import random
from typing import NamedTuple

from judging import Difference, End, Judge, Packet
from packets import told
from routers import Router

SHAPES = ROW, RING, MESH, STAR = "row", "ring", "mesh", "star"
INFINITE = 400


class Setting(NamedTuple):
    """A network, its times, and how often what happens: `faults` of a hundred packets each are repeated, lost and out of turn, and of acts
    between packets `shares`, in this order, are Ticks, commands, links that go down, restarts and calm."""

    routers: int
    shape: str
    times: tuple[int, int, int]
    faults: tuple[int, int, int]
    shares: tuple[int, int, int, int, int]
    jumps: tuple[int, ...]
    are_clocks_apart: bool


class Act(NamedTuple):
    """What is done: its name, a router's place, and numbers."""

    name: str
    place: int = 0
    number: int = 0
    value: int = 0

    def __str__(self) -> str:
        return " ".join([self.name, *(str(getattr(self, field) + (field == "place")) for field in FIELDS[self.name])])


FIELDS = {
    # the packet under way to a router's interface that stands behind this many comes, comes and stays under way, or is lost
    **dict.fromkeys(("comes", "again", "lost"), ("place", "number", "value")),
    # this many seconds pass, with a Tick at each router; or at one router, whose clock alone goes on
    "second": ("value",), "tick": ("place", "value"),
    # a router announces the destination of a number with a metric, or withdraws it; its interface goes down; it begins anew after this
    # many seconds
    "announce": ("place", "number", "value"), "withdraw": ("place", "number"), "down": ("place", "number"), "restart": ("place", "value"),
    # all that is under way comes, in order, until nothing is; this many seconds pass, in each of which all comes
    "all": (), "calm": ("value",),
}


def act_of(line: str) -> Act:
    """The act of a line, as it is printed."""
    name, *words = line.split()
    if len(words) != len(FIELDS[name]):
        raise ValueError(f"{name} takes {len(FIELDS[name])} numbers")
    numbers = dict(zip(FIELDS[name], map(int, words)))
    if "place" in numbers:
        numbers["place"] -= 1
    return Act(name, **numbers)


def head_of(setting: Setting) -> str:
    """The first line of a history: `network ROUTERS SHAPE HELLO DEAD RETRANSMIT`."""
    return " ".join(map(str, ("network", setting.routers, setting.shape, *setting.times)))


def setting_in(line: str) -> Setting:
    """The network of a first line."""
    word, routers, shape, *times = line.split()
    hello, dead, retransmit = map(int, times)
    if word != "network" or shape not in SHAPES or not 2 <= int(routers) <= 4:
        raise ValueError("the first line is no network")
    return Setting(int(routers), shape, (hello, dead, retransmit), (0, 0, 0), (0, 0, 0, 0, 0), (), False)


def links_of(setting: Setting) -> list[tuple[End, End]]:
    """The links of the network: interfaces are counted from 1 on, in the order of the links."""
    count = setting.routers
    pairs = {
        ROW: [(at, at + 1) for at in range(count - 1)],
        RING: [(at, (at + 1) % count) for at in range(count)],
        MESH: [(at, to) for at in range(count) for to in range(at + 1, count)],
        STAR: [(0, to) for to in range(1, count)],
    }[setting.shape]
    used = [0] * count
    links = []
    for one, other in pairs:
        used[one] += 1
        used[other] += 1
        links.append(((one, used[one]), (other, used[other])))
    return links


def setting_of(chance: random.Random, are_clocks_apart: bool = False) -> Setting:
    """A network by chance."""
    routers = chance.choice((2, 2, 3, 3, 4))
    shape = chance.choice((ROW, RING, MESH, STAR)) if routers > 2 else ROW
    times = chance.choice(((2, 10, 2), (2, 10, 2), (1, 4, 1), (2, 10, 5), (2, 100_000, 2)))
    faults = chance.choice(((5, 8, 10), (5, 8, 10), (12, 8, 25), (0, 0, 0), (0, 10, 0)))
    shares = (12, 8, 3, chance.choice((0, 1, 1, 3)), 3)
    jumps = chance.choice(((5, 5, 900), (5, 1800, 3590), (900, 1700, 3598)))
    return Setting(routers, shape, times, faults, shares, jumps, are_clocks_apart)


class Network:
    """The routers of a setting, what is under way between them, and the judge that watches."""

    def __init__(self, setting: Setting, routers: list[Router]):
        self.setting, self.routers = setting, routers
        self.links = links_of(setting)
        self.judge = Judge(self.links)
        self.moments = [1000] * setting.routers
        self.wires: dict[End, list[Packet]] = {end: [] for end in self.judge.peers}
        self.touched: set[int] = set()
        self.events = 0
        for place in range(setting.routers):
            self.begin(place)

    def begin(self, place: int) -> None:
        hello, dead, retransmit = self.setting.times
        sides = ((end, f"10.0.{number}.{1 + side}/24") for number, link in enumerate(self.links) for side, end in enumerate(link))
        addresses = " ".join(address for _, address in sorted((end[1], address) for end, address in sides if end[0] == place))
        line = f"router 0.0.0.{place + 1} {self.moments[place]} {hello} {dead} {retransmit} {addresses}"
        self.judge.begins(place, self.moments[place], self.routers[place].ask(line))
        self.touched.add(place)

    def happens(self, place: int, words: str, interface: int = 0, packet: Packet | None = None) -> None:
        moment = self.moments[place]
        shown = self.routers[place].ask(f"{moment} {words}")
        self.touched.add(place)
        self.events += 1
        for number, sent in self.judge.happens(place, moment, shown, interface, packet, words == "tick"):
            self.wires[self.judge.peers[place, number]].append(sent)

    def tick(self, place: int, seconds: int) -> None:
        self.moments[place] += seconds
        self.happens(place, "tick")

    def comes(self, end: End, packet: Packet) -> None:
        self.happens(end[0], f"packet {end[1]} {packet.text.hex()}", end[1], packet)

    def all_come(self) -> None:
        """All that is under way comes, in order, until nothing is."""
        for _ in range(INFINITE):
            if not any(self.wires.values()):
                return
            for end, under_way in self.wires.items():
                coming, under_way[:] = under_way[:], []
                for packet in coming:
                    self.comes(end, packet)

    def meets(self, act: Act) -> None:
        """What becomes of a packet; nothing, if it isn't there."""
        under_way = self.wires.get((act.place, act.number), [])
        if act.value >= len(under_way):
            return
        packet = under_way[act.value] if act.name == "again" else under_way.pop(act.value)
        if act.name != "lost":
            self.comes((act.place, act.number), packet)

    def does(self, act: Act) -> None:
        """Does an act. What it names and isn't there is left alone."""
        if act.name in ("comes", "again", "lost"):
            self.meets(act)
        elif act.name == "second":
            for place in range(self.setting.routers):
                self.tick(place, act.value)
        elif act.name == "tick":
            self.tick(act.place, act.value)
        elif act.name == "announce":
            self.happens(act.place, f"announce 10.9.{act.number}.0/24 {act.value}")
        elif act.name == "withdraw":
            self.happens(act.place, f"withdraw 10.9.{act.number}.0/24")
        elif act.name == "down":
            self.happens(act.place, f"down {act.number}")
        elif act.name == "restart":
            self.moments[act.place] += act.value
            self.begin(act.place)
        elif act.name == "calm":
            self.is_calm(act.value)
        else:
            self.all_come()

    def is_calm(self, seconds: int) -> None:
        self.all_come()
        for _ in range(seconds):
            for place in range(self.setting.routers):
                self.tick(place, 1)
            self.all_come()

    def looks(self) -> tuple[int, int, list[Difference]]:
        """Of the links where something happened since the last look: at how many each end is Full with the other, how many of these are at
        rest, and what their ends hold unlike."""
        touched, self.touched = self.touched, set()
        full = [link for link in self.links if any(place in touched for place, _ in link) and self.judge.is_full(link)]
        return len(full), sum(map(self.judge.is_at_rest, full)), [it for link in full for it in self.judge.differences(link)]

    def packet_of(self, act: Act) -> str:
        under_way = self.wires.get((act.place, act.number), [])
        return told(under_way[act.value].text) if act.name in ("comes", "again", "lost") and act.value < len(under_way) else ""


def start_of(chance: random.Random) -> list[Act]:
    """Some start in calm, and some don't."""
    return [Act("second", value=1), Act("all")] * (9 if chance.random() < 0.75 else 2)


def chosen(chance: random.Random, network: Network) -> Act:
    """The next act."""
    setting = network.setting
    ends = [end for end, under_way in network.wires.items() if under_way]
    if ends and (chance.randrange(100) < 65 or sum(map(len, network.wires.values())) > 12):
        end = chance.choice(ends)
        repeated, lost, out_of_turn = setting.faults
        fate = chance.randrange(100)
        name = "again" if fate < repeated else "lost" if fate < repeated + lost else "comes"
        return Act(name, *end, chance.randrange(len(network.wires[end])) if chance.randrange(100) < out_of_turn else 0)
    place = chance.randrange(setting.routers)
    kind = chance.choices(("tick", "command", "down", "restart", "all"), setting.shares)[0]
    if kind == "tick":
        return chosen_tick(chance, setting, place)
    if kind == "command":
        name, number = chance.choice(("announce", "withdraw")), 1 + chance.randrange(2)
        return Act(name, place, number, chance.choice((1, 2, 256, 511)) if name == "announce" else 0)
    if kind == "down":
        return Act("down", place, 1 + chance.randrange(sum(1 for end in network.wires if end[0] == place)))
    return Act(kind, place, 0, chance.randrange(2)) if kind == "restart" else Act("all")


def chosen_tick(chance: random.Random, setting: Setting, place: int) -> Act:
    seconds = 1 if chance.randrange(15) else chance.choice(setting.jumps)
    if setting.are_clocks_apart:
        return Act("tick", place, 0, seconds if seconds > 1 else chance.randrange(2))
    return Act("second", value=seconds)
