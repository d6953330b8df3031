"""What the families of inputs of tools/fuzz share: each has a target that is begun anew for each round, and is given one input after
the other."""
import collections
import importlib.machinery
import importlib.util
import logging
import pathlib
import random
from collections.abc import Iterator
from types import ModuleType

TOOLS = pathlib.Path(__file__).resolve().parent.parent
EDGES = (0, 1, 2, 3, 4, 7, 8, 15, 16, 31, 32, 63, 64, 127, 128, 254, 255)


class Broken(Exception):
    """What the target did that it may not do; the text says it."""


class CannotTry(Exception):
    """What a family needs isn't there; the text is a sentence."""


class Family:
    """One kind of inputs, bytes each. `round` is how many a target gets before it is looked at as a whole and begun anew."""

    name = ""
    round = 1_000

    def __init__(self, programs: dict[str, pathlib.Path], room: pathlib.Path) -> None:
        """`programs` are routerd and hooktool, where they are; files go into the room."""
        self.programs, self.room = programs, room

    def program(self, name: str) -> pathlib.Path:
        if name not in self.programs:
            raise CannotTry(f"there is no {name}: build it (CONTRIBUTING.md), or give its path with --{name}")
        return self.programs[name]

    def inputs(self, rng: random.Random) -> Iterator[bytes]:
        """Inputs without end."""
        raise NotImplementedError

    def begin(self) -> None:
        """A new target. `CannotTry` if there can't be one."""

    def play(self, data: bytes) -> None:
        """Gives the target one input; `Broken` if it doesn't bear it."""
        raise NotImplementedError

    def settle(self) -> None:
        """Looks at the target as a whole, at the end of a round."""

    def end(self) -> None:
        """Ends the target, whatever happened to it."""


def tool(name: str) -> ModuleType:
    """Another tool of this folder, as a module."""
    loader = importlib.machinery.SourceFileLoader(name.replace("-", "_"), str(TOOLS / name))
    spec = importlib.util.spec_from_loader(loader.name, loader)
    assert spec
    module = importlib.util.module_from_spec(spec)
    loader.exec_module(module)
    return module


def changed(rng: random.Random, data: bytes) -> bytes:
    """The bytes with a few others in their place, none added or taken away."""
    out = bytearray(data)
    for _ in range(rng.choice((1, 1, 1, 2, 3, 8))):
        if out:
            at = rng.randrange(len(out))
            out[at] = rng.choice((rng.choice(EDGES), rng.randrange(256), out[at] ^ 1 << rng.randrange(8)))
    return bytes(out)


def spliced(rng: random.Random, one: bytes, other: bytes) -> bytes:
    """The beginning of one and the end of the other."""
    return one[: rng.randrange(len(one) + 1)] + other[rng.randrange(len(other) + 1) :]


class Errors(logging.Handler):
    """Keeps what the box's modules log as errors: that's how a mistake in a thread of theirs is told. One at a time."""

    def __init__(self) -> None:
        super().__init__(logging.ERROR)
        self.said: collections.deque[str] = collections.deque(maxlen=3)
        log = logging.getLogger("leafrunt")
        log.handlers, log.propagate = [self], False
        logging.raiseExceptions = False

    def emit(self, record: logging.LogRecord) -> None:
        self.said.append(record.getMessage())

    def check(self) -> None:
        if self.said:
            raise Broken(f"an error was logged: {self.said[-1]}")
