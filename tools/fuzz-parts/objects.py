"""Object files and bare code at hooktool: as tools/try-hooktool has them, one at a time."""
import argparse
import random
import tempfile
from collections.abc import Iterator

from family import Broken, Family, tool

try_hooktool = tool("try-hooktool")
SEED = 8
"""Bytes before the file: they choose the words of the command lines."""
SECONDS = 20.0


class Objects(Family):
    name = "objects"
    round = 500

    def inputs(self, rng: random.Random) -> Iterator[bytes]:
        self.accepted: list[bytes] = []
        while True:
            yield rng.randbytes(SEED) + try_hooktool.file_of(rng, self.accepted)

    def begin(self) -> None:
        options = argparse.Namespace(program=str(self.program("hooktool")), seconds=SECONDS, seed=0)
        self.folder = tempfile.TemporaryDirectory(dir=self.room)
        self.tries = try_hooktool.Tries(options, self.folder.name, keeps=False)
        self.tries.accepted = getattr(self, "accepted", [])

    def play(self, data: bytes) -> None:
        self.tries.rng = random.Random(data[:SEED])
        self.tries.tried(data[SEED:])
        if self.tries.faults:
            raise Broken(self.tries.faults.pop())

    def end(self) -> None:
        if hasattr(self, "folder"):
            self.folder.cleanup()
