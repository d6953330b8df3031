"""Lines at a router's console, and at the box's in front of it: each is answered, in the form that docs/use/OPERATING.md has."""
import random
import re
import types
from collections.abc import Iterator

import datagrams
from family import Broken, CannotTry, Errors, Family, changed
from leafrunt_host.announcements import Announcements
from leafrunt_host.desk import Desk
from leafrunt_host.exchange import Side
from leafrunt_host.router import LISTS, LONGEST_LINE, Router, RouterGone
from leafrunt_host.server import Asked
from leafrunt_host.topology import Topology
from leafrunt_host.words import ROUTERD_WORDS
from tests.test_desk import known
from tests.test_topology import external, router_lsa, update

DESK = 1
"""The first byte of a line for the box; 0 is for the router itself."""
WORDS = [each.partition(" ")[0] for each in ROUTERD_WORDS]
WORDS += "status interfaces announced programs database why changes map log capture reload".split()
LATER = "count tag price veto json off -1 0 1 2 20 16777214 16777215 4294967295 4294967296 10.0.0.0/8 0.0.0.0/0 203.0.113.0/24".split()
LATER += "203.0.113.1/24 255.255.255.255/32 1.1.1.1 300.1.1.1 /dev/null /dev/full / . /proc/self/mem nowhere \0 \x1b[2J \u20ac".split(" ")
FORMS = {
    "attach": r"attached (count|tag|price|veto) bound [0-9]+|object refusal [0-9]+|code refusal [0-9]+ slot [0-9]+"
    r"|refused slot [0-9]+ rule [0-9]+|cannot read .*|refused 8|out of memory|unknown",
    "detach": r"detached (count|tag|price|veto)|refused 8|unknown",
    "add": r"originated|withheld|refused [3-8]|unknown",
    "withdraw": r"withdrawn|refused [3-8]|unknown",
    "table": r"([0-9./]+ (intra|inter|ext1|ext2) [0-9]+ via [0-9,]+\n)*end",
    "neighbors": r"(neighbor [0-9]+ [0-9.]+ (Init|ExStart|Exchange|Loading|Full)\n)*end",
    "counters": r"(counter [0-9]+ [0-9]+\n)*end",
}


def line_of(rng: random.Random) -> str:
    words = [rng.choice(WORDS)]
    if words[0] == "add" and rng.random() < 0.7:
        net = f"{rng.randrange(1, 224)}.{rng.randrange(256)}.{rng.randrange(256)}.0/24"
        words += [net, str(rng.choice((0, 20, 16777214, 16777215))), rng.choice("123"), rng.choice(("0", "4294967295", "x"))]
    else:
        words += [rng.choice(LATER) for _ in range(rng.choice((0, 0, 1, 1, 2, 4)))]
    line = rng.choice((" ", " ", " ", "  ", "\t")).join(words) * rng.choice((*[1] * 40, 60, 900))
    if rng.random() < 0.2:
        line = changed(rng, line.encode()).decode("utf-8", "replace")
    return line.replace("\n", " ").replace("\r", " ")


class Console(Family):
    name = "console"
    round = 3_000

    def inputs(self, rng: random.Random) -> Iterator[bytes]:
        while True:
            yield bytes([rng.randrange(2)]) + line_of(rng).encode()

    def begin(self) -> None:
        self.errors, self.said = Errors(), []
        program, (port, peer) = self.program("routerd"), datagrams.free_ports(2)
        path = self.room / "routerd.conf"
        path.write_text(datagrams.TEXT.format(10, 40, port, peer))
        try:
            self.router = Router(program, path, self.said.append)
            self.router.ask("neighbors")
        except (OSError, RouterGone) as why:
            raise CannotTry(f"{program} can't be tried: {why}") from why
        topology = Topology()
        topology.watch(Side.WIRE, update(external("203.0.113.0/24", "2.2.2.2"), router_lsa("2.2.2.2")), 0)
        kept = types.SimpleNamespace(last=lambda count: ["a line"] * min(count, 40))
        it = known()
        it.links.clear()
        self.desk = Desk(
            known=it,
            router=self.router,
            announcements=Announcements(self.router.ask, it.publish),
            bridge=types.SimpleNamespace(tap=None),
            topology=topology,
            log=kept,
            end=lambda: None,
        )

    def play(self, data: bytes) -> None:
        line = data[1:].decode("utf-8", "replace").replace("\n", " ")
        word = line.partition(" ")[0]
        if word in ("quit", "down"):
            return
        try:
            answer = self.desk.answer(Asked(line)).lines if data[0] % 2 == DESK else self.router.ask(line)
        except RouterGone as gone:
            raise Broken(f"{gone} after {line!r:.200}: {self.said[-1:]}") from gone
        if self.router.status() is not None:
            raise Broken(f"it ended with status {self.router.status()} after {line!r:.200}: {self.said[-1:]}")
        self.errors.check()
        text = "\n".join(answer)
        if word in FORMS and (data[0] % 2 != DESK or not text.startswith("refused: ")):
            form = FORMS[word] if word not in LISTS or line == word else "unknown"
            if not re.fullmatch(form, text) and len(line.encode()) <= LONGEST_LINE:
                raise Broken(f"{line!r:.200} is answered by {text!r:.200}")
        if not answer:
            raise Broken(f"{line!r:.200} isn't answered")

    def settle(self) -> None:
        ended = self.router.quit()
        if ended.status or self.said:
            raise Broken(f"`quit` ends it with status {ended.status}: {self.said[-1:]}")

    def end(self) -> None:
        if hasattr(self, "router"):
            self.router.quit(5)
