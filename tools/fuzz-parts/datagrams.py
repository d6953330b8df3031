"""Datagrams at a router with a neighbor that is Full: it answers its console all the time, lets the neighbor go afterwards, becomes
Full with it again, and ends with status 0 and not a word on standard error."""
import random
import socket
import time
from collections.abc import Iterator

import neighbor
import packets
from family import Broken, CannotTry, Errors, Family
from leafrunt_host.inbox import waiting_at
from leafrunt_host.router import LISTS, Router, RouterGone

LONGEST = 65_507
LOOKED_EACH = 32
MOST_WAITING = 64 << 10
COMES_UP, GOES_DOWN, TAKES = 40.0, 40.0, 60.0
TEXT = "router 1.1.1.1\ninterface 1 10.0.1.1/24 cost 10 hello {} dead {} rxmt 1 delay 1 port {} peer {}\n"


def free_ports(count: int) -> list[int]:
    """UDP ports of 127.0.0.1 that nobody has at the moment."""
    taken = [socket.socket(socket.AF_INET, socket.SOCK_DGRAM) for _ in range(count)]
    for each in taken:
        each.bind(("127.0.0.1", 0))
    ports = [each.getsockname()[1] for each in taken]
    for each in taken:
        each.close()
    return ports


class Datagrams(Family):
    name = "datagrams"
    round = 20_000

    def inputs(self, rng: random.Random) -> Iterator[bytes]:
        for data in packets.packets(rng, neighbor.NEIGHBOR):
            yield data[:LONGEST]

    def begin(self) -> None:
        self.there: neighbor.Neighbor | None = None
        self.router: Router | None = None
        self.said: list[str] = []
        program, self.count = self.program("routerd"), 0
        self.port, self.peer = free_ports(2)
        path = self.room / "routerd.conf"
        path.write_text(TEXT.format(neighbor.HELLO_INTERVAL, neighbor.DEAD_INTERVAL, self.port, self.peer))
        self.errors = Errors()
        try:
            self.router = Router(program, path, self.said.append)
            self.greet()
        except (OSError, Broken) as why:
            raise CannotTry(f"{program} can't be tried: {why}") from why
        self.socket = socket.socket(socket.AF_INET, socket.SOCK_DGRAM)

    def greet(self) -> None:
        """Lets the neighbor come up."""
        way = neighbor.Datagrams(self.peer, self.port)
        self.there = neighbor.Neighbor(way, *neighbor.grid(3, 5))
        self.there.thread.start()
        self.wait(COMES_UP, lambda lines: any(each.endswith(" Full") for each in lines), "isn't Full with its neighbor")

    def part(self) -> None:
        """Ends the neighbor without a word."""
        if self.there:
            self.there.stop = True
            self.there.thread.join()
            self.there.way.socket.close()
        self.there = None

    def wait(self, seconds: float, holds, what: str) -> None:
        until = time.monotonic() + seconds
        while not holds(lines := self.asked("neighbors")):
            if time.monotonic() > until:
                raise Broken(f"after {seconds:g} s it {what}: {lines}")
            time.sleep(0.2)

    def asked(self, line: str) -> list[str]:
        assert self.router
        try:
            lines = self.router.ask(line)
        except RouterGone as gone:
            time.sleep(0.2)
            status = self.router.status()
            raise Broken(f"{gone}: status {status} {self.said[-1:]}") from gone
        if lines[-1] != "end":
            raise Broken(f"its answer to {line!r} is {lines[:2]}")
        return lines

    def play(self, data: bytes) -> None:
        self.socket.sendto(data, ("127.0.0.1", self.port))
        self.count += 1
        if self.count % LOOKED_EACH == 0 or len(data) > 4096:
            self.drain()
        self.check()

    def check(self) -> None:
        """Whether it still runs."""
        assert self.router
        if self.router.status() is not None:
            raise Broken(f"it ended with status {self.router.status()} {self.said[-1:]}")

    def drain(self) -> None:
        """Waits until it has taken what was sent, so that none is lost."""
        until = time.monotonic() + TAKES
        while waiting_at({self.port}).get(self.port, 0) > MOST_WAITING:
            self.check()
            if time.monotonic() > until:
                raise Broken(f"it takes no datagram for {TAKES:g} s")
            time.sleep(0.001)

    def settle(self) -> None:
        self.drain()
        for line in LISTS:
            self.asked(line)
        self.part()
        self.wait(GOES_DOWN, lambda lines: lines == ["end"], "still has a neighbor that is silent")
        self.greet()
        assert self.router
        ended = self.router.quit()
        if ended.status or self.said:
            raise Broken(f"`quit` ends it with status {ended.status}: {self.said[-1:]}")

    def end(self) -> None:
        self.part()
        if self.router:
            self.router.quit(5)
        if hasattr(self, "socket"):
            self.socket.close()
