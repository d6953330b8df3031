"""Files of a router's configuration and of the box's, and of keys: each is taken or refused, in words, and what the box makes of one that
it takes the router takes too."""
import os
import random
import re
import subprocess
from collections.abc import Iterator
from unittest import mock

from family import Broken, Errors, Family, changed, spliced
from leafrunt_host.configuration import Mistaken, read_configuration
from leafrunt_host.isolation import Account
from leafrunt_host.statuses import Stopped
from tests import test_configuration as files

ROUTER, BOX, KEYS = range(3)
"""What an input is: its first byte."""
SECONDS = 20.0
FIRST = "router 1.1.1.1\n"
LINE = "interface {0} 10.0.{0}.1/24 cost 10 hello 10 dead 40 rxmt 5 delay 1 port {1} peer {2}\n"
BFD = """[interface.bfd]
transmit_interval = 300
receive_interval = 50
detect_multiplier = 3
"""
REDISTRIBUTED = """[redistribute.connected]
deny = ["10.0.0.0/8 ge 9 le 32"]
[redistribute.kernel]
protocols = ["dhcp", "77"]
metric = 100
[redistribute.default]
always = true
"""
SECOND = '[[interface]]\nname = "eth2"\n'
WHOLE = (files.WHOLE.replace(SECOND, BFD + SECOND) + REDISTRIBUTED).encode()
WORDS = b'router_id isolated user routerd kernel interface announce program name address cost peer keys "eth1" "eth2" "lo" "10.0.9.1/30" '
WORDS += b"true false 0 1 -1 65535 65536 4294967296 1e9 inf nan 2027-01-01T00:00:00Z 99999-01-01 [[interface]] [[announce]] [[program]] [new] "
WORDS += b'"" "\\u0000" \'\'\' """ { } [ ] = . , # \xff \xe2\x82\xac "keyed md5" "hmac sha512" "veto.o" "/dev/zero" "."'
WORDS += b'[redistribute.static] allow log_level "debug" "10.0.0.0/8" "0.0.0.0/0 ge 33" bfd "bgp" 255 256 9999 10000 10001 '
OF_ROUTER = b"router interface cost hello dead rxmt delay port peer 0 1 63 64 65535 65536 00 +1 -1 0.0.0.0 255.255.255.255/32 10.0.1.1/33 1.1.1 \t \r"


def text_of_router(rng: random.Random) -> bytes:
    count = rng.choice((1, 1, 2, 5, 63, 64))
    # (ports that no program of this machine is likely to have)
    return (FIRST + "".join(LINE.format(at, 1 + at, 100 + at) for at in range(1, count + 1))).encode()


def with_words(rng: random.Random, data: bytes, words: list[bytes]) -> bytes:
    """The file with some of its words replaced, left out or doubled."""
    parts = re.split(rb"(\s+)", data)
    for _ in range(rng.choice((1, 1, 2, 4))):
        at = rng.randrange(len(parts))
        parts[at] = rng.choice((rng.choice(words), rng.choice(words), b"", parts[at] * 2, rng.choice(parts)))
    return b"".join(parts)


class Configurations(Family):
    name = "configuration"
    round = 500

    def inputs(self, rng: random.Random) -> Iterator[bytes]:
        while True:
            kind = rng.randrange(3)
            data = (text_of_router(rng), WHOLE, files.KEYS.encode())[kind]
            words = (OF_ROUTER if kind == ROUTER else WORDS).split()
            for _ in range(rng.choice((0, 1, 1, 2, 2, 3))):
                data = with_words(rng, data, words) if rng.random() < 0.7 else changed(rng, data)
            if rng.random() < 0.1:
                data = spliced(rng, data, WHOLE)
            yield bytes([kind]) + data

    def begin(self) -> None:
        self.errors = Errors()
        self.routerd = self.program("routerd")
        self.taken: set[bytes] = set()
        """What the router took already: it takes up to a second to end."""
        for name, data, mode in (
            ("routerd", b"", 0o755),
            ("keys.toml", files.KEYS.encode(), 0o600),
            ("veto.o", files.object_of(4), 0o644),
        ):
            self.write(name, data, mode)

    def write(self, name: str, data: bytes, mode: int = 0o644) -> None:
        path = self.room / name
        path.write_bytes(data)
        path.chmod(mode)

    def play(self, data: bytes) -> None:
        if data[0] % 3 == ROUTER:
            self.routed(data[1:], is_good=False)
        elif data[0] % 3 == BOX:
            self.write("keys.toml", files.KEYS.encode(), 0o600)
            self.read(data[1:])
        else:
            self.write("keys.toml", data[1:], 0o600)
            self.read(WHOLE)
        self.errors.check()

    def read(self, data: bytes) -> None:
        """What the box says of it."""
        self.write("one.toml", data)
        try:
            with mock.patch.object(Account, "runs", return_value=True):
                found = read_configuration(self.room / "one.toml", files.KERNEL, files.judge)
        except (Mistaken, Stopped) as why:
            if not str(why).strip() or not str(why).isprintable() and "\n" not in str(why):
                raise Broken(f"it's refused with {str(why)!r:.200}") from why
            return
        except Exception as error:
            raise Broken(f"{type(error).__name__}: {error}") from error
        ports = [(20_000 + 2 * at, 20_001 + 2 * at) for at in range(len(found.interfaces))]
        self.routed(found.text(ports).encode(), is_good=True)

    def routed(self, data: bytes, is_good: bool) -> None:
        """What the router says of it, given no line of a console."""
        if data in self.taken:
            return
        path = self.room / "routerd.conf"
        path.write_bytes(data)
        words = [str(self.routerd), "route", str(path)]
        try:
            ran = subprocess.run(words, stdin=subprocess.DEVNULL, capture_output=True, timeout=SECONDS, check=False, cwd=self.room)
        except subprocess.TimeoutExpired as error:
            raise Broken(f"routerd doesn't end within {SECONDS:g} s") from error
        text = (ran.stdout + ran.stderr).decode("utf-8", "replace").strip()
        forms = {0: "", 1: r"config refusal line [0-9]+|cannot read .*", 3: r"cannot bind [0-9]+|cannot read .*"}
        if ran.returncode not in forms or not re.fullmatch(forms[ran.returncode], text):
            raise Broken(f"routerd ends with status {ran.returncode}: {text!r:.200}")
        if not ran.returncode:
            self.taken.add(data)
        if is_good and ran.returncode == 1:
            raise Broken(f"the box takes a file whose router refuses: {text!r:.200}")

    def settle(self) -> None:
        left = set(os.listdir(self.room)) - {"routerd", "routerd.conf", "keys.toml", "veto.o", "one.toml"}
        if left:
            raise Broken(f"files are left: {sorted(left)}")
