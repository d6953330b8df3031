import os
import shutil
import subprocess
import tempfile
import tomllib
import unittest
from ipaddress import IPv4Interface, IPv4Network
from pathlib import Path
from unittest import mock

from leafrunt_host.configuration import (
    Configuration,
    Mistaken,
    object_hook,
    read_configuration,
    refusal_text,
    verdict_of,
)
from leafrunt_host.interface_names import matches
from leafrunt_host.isolation import Account
from leafrunt_host.kernel import KernelInterface, interfaces_of
from leafrunt_host.rtnetlink import Address, Link
from leafrunt_host.statuses import Status, Stopped

ONE = IPv4Interface("10.0.1.1/24")
KERNEL = {
    "eth1": KernelInterface("eth1", 1500, (ONE,)),
    "eth2": KernelInterface(
        "eth2", 9000, (IPv4Interface("10.0.2.1/24"), IPv4Interface("10.0.9.1/30"))
    ),
    "bare": KernelInterface("bare", 1500, ()),
    "thin": KernelInterface("thin", 500, (IPv4Interface("10.0.3.1/24"),)),
    "same": KernelInterface("same", 1500, (IPv4Interface("10.0.1.1/30"),)),
    "lo": KernelInterface("lo", 65536, (IPv4Interface("10.255.0.1/32"),)),
}
TOP = 'router_id = "1.1.1.1"\nrouterd = "routerd"\n'
INTERFACE = '[[interface]]\nname = "eth1"\n'
WHOLE = f"""{TOP}kernel = false
log_level = "debug"
keys = "keys.toml"
{INTERFACE}cost = 7
hello_interval = 2
dead_interval = 9
retransmit_interval = 3
transmit_delay = 4
keys = ["new", "old"]
[[interface]]
name = "eth2"
address = "10.0.9.1/30"
[[interface]]
name = "lo"
passive = true
[[announce]]
prefix = "203.0.113.0/24"
metric = 5
type = 1
tag = 6
[[announce]]
prefix = "0.0.0.0/0"
[[program]]
object = "veto.o"
[counters]
martians = 5
_2 = 255
"""
KEYS = """[new]
id = 2
algorithm = "hmac sha256"
secret = "secret"
generate_from = 2027-01-01T00:00:00Z
accept_to = 2028-01-01T00:00:00+01:00
[old]
id = 1
algorithm = "keyed md5"
secret = "sixteen bytes ok"
"""
NUMBERS = "a whole number from {} to {}"
DOTTED = "an address of four numbers that isn't 0.0.0.0, in quotes"
PEER = "the neighbor's address, A.B.C.D in quotes"
PREFIX = "A.B.C.D/L whose bits after the first L are 0, not in 0.0.0.0/8, 127.0.0.0/8, 169.254.0.0/16, 224.0.0.0/3"
OBJECT = "the path of an object file that `routerd verify` accepts, without a space in it"
TABLES = "tables, each begun with [[{}]]"
LEVELS = 'one of "error", "warning", "info", "debug"'
COUNTER_NAME = "1 to 64 letters, digits and `_`, first no digit"
TOML = "TOML 1.0, as toml.io describes it"
TOP_KEYS = "router_id, isolated, user, routerd, kernel, log_level, passive, keys, interface, announce, program, counters, redistribute"
INTERFACE_KEYS = "name, passive, address, cost, hello_interval, dead_interval, retransmit_interval, transmit_delay, keys, bfd, peer"
OF_ETH1 = "interface 1 (eth1), "
NAME = "an interface's name, or a pattern of names: at most 15 bytes, no space, / or :"
KNOWN_KEYS = "names of keys: new, old"
PRIVATE = "a file of keys that only its owner can read"

ON_ONE_LINE = f"a key, = and its value on one line; {TOML}"
QUOTED = "texts stand in double quotes, addresses too"

MISTAKES = [
    # the text, and of each mistake where it is, what is found, what is allowed
    (
        "router_id",
        (("end of document", "no TOML (Expected '=' after a key in a key/value pair)", ON_ONE_LINE),),
    ),
    (
        "router_id = 1.1.1.1\n",
        (
            (
                "line 1, column 16",
                "no TOML (Expected newline or end of document after a statement)",
                f"{QUOTED}; {TOML}",
            ),
        ),
    ),
    (
        TOP + "[[interface]]\nname = eth1\n",
        (
            (
                "line 4, column 8",
                "no TOML (Invalid value)",
                f"{QUOTED}; true, false and numbers don't; {TOML}",
            ),
        ),
    ),
    (TOP + TOP, (("line 3, column 22", "no TOML (Cannot overwrite a value)", f"each key once; {TOML}"),)),
    (
        f"{TOP}x = {'9' * 5000}\n",
        (("the file", "a value that is too long", "numbers of at most 4300 digits"),),
    ),
    (
        f"{TOP}x = {'[' * 4000}\n",
        (
            (
                "the file",
                "lists or tables too deep within each other",
                "at most some hundred levels",
            ),
        ),
    ),
    ("\n\n\udcff", (("line 3", "the byte 0xff", "text in UTF-8"),)),
    (
        "",
        (
            ("router_id", "nothing", DOTTED),
            (
                "routerd",
                '"/usr/local/bin/routerd", which can\'t be had: No such file or directory',
                "the path of the program `routerd`",
            ),
            ("interface", "nothing", "1 to 63 tables [[interface]]"),
        ),
    ),
    (TOP.replace('"1.1.1.1"', "1") + INTERFACE, (("router_id", "1", DOTTED),)),
    (TOP.replace("1.1.1.1", "0.0.0.0") + INTERFACE, (("router_id", '"0.0.0.0"', DOTTED),)),
    (TOP.replace("1.1.1.1", "1.1.1.256") + INTERFACE, (("router_id", '"1.1.1.256"', DOTTED),)),
    (TOP.replace("1.1.1.1", "1.1.1") + INTERFACE, (("router_id", '"1.1.1"', DOTTED),)),
    (TOP.replace("1.1.1.1", "") + INTERFACE, (("router_id", '""', DOTTED),)),
    (
        TOP.replace('"routerd"', '"keys.toml"') + INTERFACE,
        (
            (
                "routerd",
                '"keys.toml", which is no program that can be run',
                "the path of the program `routerd`",
            ),
        ),
    ),
    (
        TOP.replace('"routerd"', '"."') + INTERFACE,
        (
            (
                "routerd",
                '".", which is no program that can be run',
                "the path of the program `routerd`",
            ),
        ),
    ),
    (
        TOP.replace('"routerd"', '"open"') + INTERFACE,
        (
            (
                "routerd",
                '"open", which others can change (mode 0777)',
                "the path of the program `routerd`",
            ),
        ),
    ),
    (
        TOP.replace('"routerd"', '"a\\u0000b"') + INTERFACE,
        (
            (
                "routerd",
                '"a\\u0000b", which can\'t be had: embedded null byte',
                "the path of the program `routerd`",
            ),
        ),
    ),
    (TOP + 'kernel = "yes"\n' + INTERFACE, (("kernel", '"yes"', "true or false"),)),
    (TOP + 'log_level = "loud"\n' + INTERFACE, (("log_level", '"loud"', LEVELS),)),
    (TOP + "log_level = {}\n" + INTERFACE, (("log_level", "a table", LEVELS),)),
    (
        TOP + "kernal = true\n" + INTERFACE,
        (("kernal", "an unknown key", f"{TOP_KEYS} (kernel, maybe)"),),
    ),
    (TOP + '"\\u001b[2J" = 1\n' + INTERFACE, (('"\\u001b[2J"', "an unknown key", TOP_KEYS),)),
    (TOP + "keys = 1\n" + INTERFACE, (("keys", "1", PRIVATE),)),
    (
        TOP + 'keys = "none.toml"\n' + INTERFACE,
        (("keys", '"none.toml": No such file or directory', PRIVATE),),
    ),
    (
        TOP + 'keys = "a\\u0000"\n' + INTERFACE,
        (("keys", '"a\\u0000": embedded null byte', PRIVATE),),
    ),
    (TOP + 'keys = "."\n' + INTERFACE, (("keys", '".": Is a directory', PRIVATE),)),
    (
        TOP + 'keys = "read.toml"\n' + INTERFACE,
        (("keys", '"read.toml": others can use it (mode 0640): chmod 600 it', PRIVATE),),
    ),
    (TOP + 'interface = "eth1"\n', (("interface", '"eth1"', TABLES.format("interface")),)),
    (TOP + 'interface = ["eth1"]\n', (("interface", '"eth1"', TABLES.format("interface")),)),
    (TOP + "[interface]\n", (("interface", "a table", TABLES.format("interface")),)),
    (TOP + "interface = []\n", (("interface", "nothing", "1 to 63 tables [[interface]]"),)),
    (TOP + "[[interface]]\n", (("interface 1, name", "nothing", NAME),)),
    (TOP + "[[interface]]\nname = 1\n", (("interface 1, name", "1", NAME),)),
    (
        TOP + '[[interface]]\nname = "a b; reboot"\n',
        (("interface 1, name", '"a b; reboot"', NAME),),
    ),
    (
        TOP + '[[interface]]\nname = "eth*"\naddress = "10.0.1.1/24"\n',
        (("interface 1 (eth*), address", '"10.0.1.1/24"', "none for a pattern of names"),),
    ),
    (
        TOP + INTERFACE + INTERFACE,
        (
            (
                OF_ETH1.replace("1 (", "2 (") + "name",
                '"eth1", as in an earlier [[interface]]',
                "each interface once",
            ),
        ),
    ),
    (
        TOP + INTERFACE + '[[interface]]\nname = "same"\n',
        (
            (
                "interface 2 (same), address",
                "10.0.1.1/30, which eth1 has too",
                "an address of each interface's own",
            ),
        ),
    ),
    (
        TOP + '[[interface]]\nname = "thin"\n',
        (
            (
                "interface 1 (thin), name",
                '"thin", whose MTU is 500',
                "an interface with an MTU of 576 to 65535, or passive = true",
            ),
        ),
    ),
    (
        TOP + '[[interface]]\nname = "lo"\n',
        (
            (
                "interface 1 (lo), name",
                '"lo", whose MTU is 65536',
                "an interface with an MTU of 576 to 65535, or passive = true",
            ),
        ),
    ),
    (
        TOP + '[[interface]]\nname = "eth2"\n',
        (
            (
                "interface 1 (eth2), address",
                "nothing, and the interface has 10.0.2.1/24, 10.0.9.1/30",
                "one of these: 10.0.2.1/24, 10.0.9.1/30",
            ),
        ),
    ),
    (
        TOP + INTERFACE + 'address = "10.0.1.2/24"\n',
        (
            (
                OF_ETH1 + "address",
                '"10.0.1.2/24", which the interface doesn\'t have',
                "an address of the interface with its prefix length: 10.0.1.1/24",
            ),
        ),
    ),
    (
        TOP + INTERFACE + 'address = "here"\n',
        (
            (
                OF_ETH1 + "address",
                '"here"',
                "an address of the interface with its prefix length: 10.0.1.1/24",
            ),
        ),
    ),
    (
        TOP + INTERFACE + "address = 10\n",
        (
            (
                OF_ETH1 + "address",
                "10",
                "an address of the interface with its prefix length: 10.0.1.1/24",
            ),
        ),
    ),
    (TOP + INTERFACE + 'peer = "224.0.0.5"\n', ((OF_ETH1 + "peer", '"224.0.0.5"', PEER),)),
    (TOP + INTERFACE + 'peer = "10.0.1.2/24"\n', ((OF_ETH1 + "peer", '"10.0.1.2/24"', PEER),)),
    (
        TOP + INTERFACE + 'peer = "10.0.1.1"\n',
        (
            (
                OF_ETH1 + "peer",
                '"10.0.1.1", this interface\'s own',
                "the neighbor's address",
            ),
        ),
    ),
    (
        TOP + INTERFACE + 'passive = true\npeer = "10.0.1.2"\n',
        (
            (
                OF_ETH1 + "peer",
                '"10.0.1.2"',
                "none where passive = true: nobody is heard there",
            ),
        ),
    ),
    ("isolated = 1\n" + TOP + INTERFACE, (("isolated", "1", "true or false"),)),
    ("user = 1\n" + TOP + INTERFACE, (("user", "1", "a user of this machine"),)),
    (
        'user = "no such user"\n' + TOP + INTERFACE,
        (("user", '"no such user", which the system doesn\'t have', "a user of this machine"),),
    ),
    (
        'user = "root"\n' + TOP + INTERFACE,
        (("user", '"root", who may do everything', "a user of this machine"),),
    ),
    (
        'isolated = false\nuser = "nobody"\n' + TOP + INTERFACE,
        (("user", '"nobody"', "none where isolated = false"),),
    ),
    (TOP + "counters = 1\n" + INTERFACE, (("counters", "1", "a table, begun with [counters]"),)),
    (
        f"{TOP}{INTERFACE}[counters]\na-b = 1\n'' = 1\n2x = 1\n"
        "many = 256\none = 0\ntwo = 0\nfew = true\n",
        (
            ('counters, "a-b"', "this name", COUNTER_NAME),
            ('counters, ""', "this name", COUNTER_NAME),
            ('counters, "2x"', "this name", COUNTER_NAME),
            ("counters, many", "256", NUMBERS.format(0, 255)),
            ("counters, two", "0, as one has", "each counter's number once"),
            ("counters, few", "true", NUMBERS.format(0, 255)),
        ),
    ),
    (
        f'{TOP}{INTERFACE}[counters]\n"a\\n# EOF" = 1\n{"x" * 65} = 2\n"\u0661" = 3\n',
        (
            ('counters, "a\\n# EOF"', "this name", COUNTER_NAME),
            (f'counters, "{"x" * 59}.." (65 characters)', "this name", COUNTER_NAME),
            ('counters, "\\u0661"', "this name", COUNTER_NAME),
        ),
    ),
    (TOP + "passive = 1\n" + INTERFACE, (("passive", "1", "true or false"),)),
    (
        TOP + 'passive = true\nkeys = "keys.toml"\n' + INTERFACE + 'keys = ["new"]\n',
        (
            (
                OF_ETH1 + "keys",
                "a list of 1",
                "none where passive = true, as no packet is sent there",
            ),
        ),
    ),
    (TOP + INTERFACE + "passive = 1\n", ((OF_ETH1 + "passive", "1", "true or false"),)),
    (TOP + INTERFACE + "cost = 0\n", ((OF_ETH1 + "cost", "0", NUMBERS.format(1, 65535)),)),
    (TOP + INTERFACE + "cost = 65536\n", ((OF_ETH1 + "cost", "65536", NUMBERS.format(1, 65535)),)),
    (TOP + INTERFACE + "cost = true\n", ((OF_ETH1 + "cost", "true", NUMBERS.format(1, 65535)),)),
    (TOP + INTERFACE + "cost = 1.5\n", ((OF_ETH1 + "cost", "1.5", NUMBERS.format(1, 65535)),)),
    (TOP + INTERFACE + 'cost = "10"\n', ((OF_ETH1 + "cost", '"10"', NUMBERS.format(1, 65535)),)),
    (
        TOP + INTERFACE + f"cost = 0x{'f' * 6000}\n",
        ((OF_ETH1 + "cost", "a number of more than 20 digits", NUMBERS.format(1, 65535)),),
    ),
    (
        TOP + INTERFACE + "cost = [1, 2]\n",
        ((OF_ETH1 + "cost", "a list of 2", NUMBERS.format(1, 65535)),),
    ),
    (
        TOP + INTERFACE + "hello_interval = 0\n",
        ((OF_ETH1 + "hello_interval", "0", NUMBERS.format(1, 65535)),),
    ),
    (
        TOP + INTERFACE + "hello_interval = 65536\n",
        ((OF_ETH1 + "hello_interval", "65536", NUMBERS.format(1, 65535)),),
    ),
    (
        TOP + INTERFACE + "dead_interval = 4294967296\n",
        ((OF_ETH1 + "dead_interval", "4294967296", NUMBERS.format(1, 4294967295)),),
    ),
    (
        TOP + INTERFACE + "dead_interval = 10\n",
        ((OF_ETH1 + "dead_interval", "10", "more than hello_interval, which is 10"),),
    ),
    (
        TOP + INTERFACE + "retransmit_interval = 0\n",
        ((OF_ETH1 + "retransmit_interval", "0", NUMBERS.format(1, 65535)),),
    ),
    (
        TOP + INTERFACE + "transmit_delay = 3601\n",
        ((OF_ETH1 + "transmit_delay", "3601", NUMBERS.format(1, 3600)),),
    ),
    (TOP + INTERFACE + "hello = 10\n", ((OF_ETH1 + "hello", "an unknown key", INTERFACE_KEYS),)),
    (
        TOP + INTERFACE + 'keys = "new"\n',
        ((OF_ETH1 + "keys", '"new"', "names of keys: none, as there is no file of keys"),),
    ),
    (
        TOP + INTERFACE + 'keys = ["new"]\n',
        ((OF_ETH1 + "keys", '"new"', "names of keys: none, as there is no file of keys"),),
    ),
    (
        TOP + 'keys = "keys.toml"\n' + INTERFACE + 'keys = ["older"]\n',
        ((OF_ETH1 + "keys", '"older"', KNOWN_KEYS),),
    ),
    (
        TOP + 'keys = "keys.toml"\n' + INTERFACE + "keys = [1]\n",
        ((OF_ETH1 + "keys", "1", KNOWN_KEYS),),
    ),
    (
        TOP + 'keys = "keys.toml"\n' + INTERFACE + 'keys = ["new", "new"]\n',
        ((OF_ETH1 + "keys", '"new" twice', KNOWN_KEYS),),
    ),
    (
        TOP + 'keys = "keys.toml"\n' + INTERFACE + 'passive = true\nkeys = ["new"]\n',
        (
            (
                OF_ETH1 + "keys",
                "a list of 1",
                "none where passive = true, as no packet is sent there",
            ),
        ),
    ),
    (
        TOP + INTERFACE + "announce = 1\n",
        ((OF_ETH1 + "announce", "an unknown key", INTERFACE_KEYS),),
    ),
    (TOP + "announce = 1\n" + INTERFACE, (("announce", "1", TABLES.format("announce")),)),
    (TOP + INTERFACE + "[[announce]]\n", (("announce 1, prefix", "nothing", PREFIX),)),
    (
        TOP + INTERFACE + '[[announce]]\nprefix = "203.0.113.1/24"\n',
        (("announce 1, prefix", '"203.0.113.1/24"', PREFIX),),
    ),
    (
        TOP + INTERFACE + '[[announce]]\nprefix = "203.0.113.0"\n',
        (("announce 1, prefix", '"203.0.113.0"', PREFIX),),
    ),
    (
        TOP + INTERFACE + '[[announce]]\nprefix = "203.0.113.0/33"\n',
        (("announce 1, prefix", '"203.0.113.0/33"', PREFIX),),
    ),
    (
        TOP + INTERFACE + '[[announce]]\nprefix = "203.0.113.0/255.255.255.0"\n',
        (("announce 1, prefix", '"203.0.113.0/255.255.255.0"', PREFIX),),
    ),
    (
        TOP + INTERFACE + '[[announce]]\nprefix = "10.0.0.0/8"\nmetric = 16777215\n',
        (("announce 1, metric", "16777215", NUMBERS.format(0, 16777214)),),
    ),
    (
        TOP + INTERFACE + '[[announce]]\nprefix = "10.0.0.0/8"\ntype = 3\n',
        (("announce 1, type", "3", NUMBERS.format(1, 2)),),
    ),
    (
        TOP + INTERFACE + '[[announce]]\nprefix = "10.0.0.0/8"\ntag = -1\n',
        (("announce 1, tag", "-1", NUMBERS.format(0, 4294967295)),),
    ),
    (
        TOP + INTERFACE + '[[announce]]\nprefix = "10.0.0.0/8"\ncost = 1\n',
        (("announce 1, cost", "an unknown key", "prefix, metric, type, tag"),),
    ),
    (
        TOP
        + INTERFACE
        + '[[announce]]\nprefix = "10.0.0.0/8"\n[[announce]]\nprefix = "10.0.0.0/16"\n',
        (
            (
                "announce 2, prefix",
                "10.0.0.0/16, and 10.0.0.0/8 in an earlier [[announce]]",
                "one destination for each address (their Link State ID would be the same)",
            ),
        ),
    ),
    (TOP + "program = 1\n" + INTERFACE, (("program", "1", TABLES.format("program")),)),
    (TOP + INTERFACE + "[[program]]\n", (("program 1, object", "nothing", OBJECT),)),
    (
        TOP + INTERFACE + '[[program]]\nobject = "none.o"\n',
        (("program 1, object", '"none.o": No such file or directory', OBJECT),),
    ),
    (
        TOP + INTERFACE + '[[program]]\nobject = "a\\u0000.o"\n',
        (
            (
                "program 1, object",
                "\"a\\u0000.o\": a path with spaces, which `routerd`'s console can't be given",
                OBJECT,
            ),
        ),
    ),
    (
        TOP + INTERFACE + '[[program]]\nobject = "routerd"\n',
        (("program 1, object", '"routerd": no object file', OBJECT),),
    ),
    (
        TOP + INTERFACE + '[[program]]\nobject = "a b.o"\n',
        (
            (
                "program 1, object",
                "\"a b.o\": a path with spaces, which `routerd`'s console can't be given",
                OBJECT,
            ),
        ),
    ),
    (
        TOP + INTERFACE + '[[program]]\nobject = "refused.o"\n',
        (
            (
                "program 1, object",
                '"refused.o": refused slot 3 rule 7: a load or store may lie outside of its region: `i & 63` for '
                '''a cell, `& 255` for a counter; `hooktool explain` shows it''',
                OBJECT,
            ),
        ),
    ),
    (
        TOP + INTERFACE + '[[program]]\nobject = "open.o"\n',
        (("program 1, object", '"open.o": others can change it (mode 0666)', OBJECT),),
    ),
    (
        TOP + INTERFACE + '[[program]]\nobject = "veto.o"\n[[program]]\nobject = "veto2.o"\n',
        (
            (
                "program 2, object",
                '"veto2.o", for the hook veto, as an earlier one',
                "one program for each hook",
            ),
        ),
    ),
    (
        TOP + '[[interface]]\nname = "eth1"\ncost = 0\ncolor = 1\n[[interface]]\nname = "eth7"\ncost = 0\n',
        (
            (OF_ETH1 + "cost", "0", NUMBERS.format(1, 65535)),
            (OF_ETH1 + "color", "an unknown key", INTERFACE_KEYS),
            ("interface 2 (eth7), cost", "0", NUMBERS.format(1, 65535)),
        ),
    ),
]
ONE_KEY = '[a]\nid = 1\nalgorithm = "hmac sha256"\nsecret = "s"\n'
ALGORITHMS = (
    'one of "keyed md5", "hmac sha1", "hmac sha256", "hmac sha384", "hmac sha512", '
    '"keyed sha1", "meticulous keyed sha1"'
)
MOMENT = "a date and time with its offset, such as 2027-01-01T00:00:00Z"
KEY_FIELDS = "id, algorithm, secret, generate_from, generate_to, accept_from, accept_to"
KEY_TABLE = "a table for each key, begun with its name: [letters, digits, `_`, `-`]"
KEY_MISTAKES = [
    (
        "secret is here",
        (("line 1, column 8", "no TOML (Expected '=' after a key in a key/value pair)", ON_ONE_LINE),),
    ),
    ('a = "secret"\n', (("a", "no table", KEY_TABLE),)),
    (ONE_KEY.replace("[a]", '["a b"]'), (('"a b"', "this name", KEY_TABLE),)),
    (
        "[a]\n",
        (
            ("a, id", "nothing", NUMBERS.format(0, 255)),
            ("a, algorithm", "nothing", ALGORITHMS),
            ("a, secret", "nothing", "a text of 1 to 256 bytes"),
        ),
    ),
    (ONE_KEY.replace("1", "256"), (("a, id", "256", NUMBERS.format(0, 255)),)),
    (ONE_KEY.replace("sha256", "md5"), (("a, algorithm", '"hmac md5"', ALGORITHMS),)),
    (ONE_KEY.replace('"hmac sha256"', '["hmac"]'), (("a, algorithm", "a list of 1", ALGORITHMS),)),
    (ONE_KEY.replace('"s"', '""'), (("a, secret", "0 bytes", "a text of 1 to 256 bytes"),)),
    (ONE_KEY.replace('"s"', "12345"), (("a, secret", "no text", "a text of 1 to 256 bytes"),)),
    (
        ONE_KEY.replace('"s"', f'"{"s" * 257}"'),
        (("a, secret", "257 bytes", "a text of 1 to 256 bytes"),),
    ),
    (
        ONE_KEY.replace("hmac sha256", "keyed md5").replace('"s"', '"12345678901234567"'),
        (("a, secret", "17 bytes", "a text of 1 to 16 bytes"),),
    ),
    (
        ONE_KEY + "accept_to = 2027-01-01T00:00:00\n",
        (("a, accept_to", "2027-01-01 00:00:00", MOMENT),),
    ),
    (ONE_KEY + "accept_from = 2027-01-01\n", (("a, accept_from", "2027-01-01", MOMENT),)),
    (ONE_KEY + "generate_to = 7\n", (("a, generate_to", "7", MOMENT),)),
    (
        ONE_KEY + "generate_from = 2027-01-01T00:00:00Z\ngenerate_to = 2027-01-01T00:00:00Z\n",
        (
            (
                "a, generate_to",
                "a moment that isn't after generate_from",
                "a moment after generate_from",
            ),
        ),
    ),
    (ONE_KEY + "lifetime = 1\n", (("a, lifetime", "an unknown key", KEY_FIELDS),)),
]


def object_of(hook: int) -> bytes:
    """An object file's header, and no more: `routerd` judges the rest."""
    return b"BPFH\x01" + bytes([hook]) + bytes(10)


def judge(_routerd: Path, path: Path) -> str:
    return "refused slot 3 rule 7" if path.name == "refused.o" else "accepted bound 2"


class Files(unittest.TestCase):
    def setUp(self) -> None:
        self.folder = Path(tempfile.mkdtemp(prefix="leafrunt-test-"))
        self.addCleanup(shutil.rmtree, self.folder)
        # (whether other users can pass the folder of this machine's temporary files doesn't matter)
        runs = mock.patch.object(Account, "runs", return_value=True)
        self.runs = runs.start()
        self.addCleanup(runs.stop)
        self.write("routerd", b"", 0o755)
        self.write("open", b"", 0o777)
        self.write("keys.toml", KEYS.encode(), 0o600)
        self.write("read.toml", KEYS.encode(), 0o640)
        for name, hook, mode in (
            ("veto", 4, 0o644),
            ("veto2", 4, 0o644),
            ("refused", 1, 0o644),
            ("open", 1, 0o666),
        ):
            self.write(f"{name}.o", object_of(hook), mode)

    def write(self, name: str, data: bytes, mode: int = 0o644) -> Path:
        path = self.folder / name
        path.write_bytes(data)
        path.chmod(mode)
        return path

    def read(self, text: str, name: str = "one.toml") -> Configuration:
        return read_configuration(
            self.write(name, text.encode("utf-8", "surrogateescape")), KERNEL, judge
        )

    def mistakes_of(self, text: str) -> tuple[tuple[str, str, str], ...]:
        with self.assertRaises(Mistaken) as raised:
            self.read(text)
        self.assertEqual(raised.exception.status, Status.REFUSED)
        self.assertTrue(str(raised.exception).isascii())
        return tuple((each.where, each.found, each.allowed) for each in raised.exception.mistakes)


class Reading(Files):
    def test_a_whole_file(self) -> None:
        read = self.read(WHOLE)
        self.assertEqual(
            (read.name, str(read.router_id), read.routerd, read.kernel),
            ("one", "1.1.1.1", self.folder / "routerd", False),
        )
        self.assertEqual(read.counters, {"martians": 5, "_2": 255})
        self.assertEqual(read.log_level, "debug")
        one, two, loopback = read.interfaces
        self.assertEqual((one.name, one.address, one.mtu, one.cost), ("eth1", ONE, 1500, 7))
        self.assertEqual(
            (one.hello_interval, one.dead_interval, one.retransmit_interval, one.transmit_delay),
            (2, 9, 3, 4),
        )
        self.assertEqual(
            [(key.id, key.secret) for key in one.keys], [(2, b"secret"), (1, b"sixteen bytes ok")]
        )
        self.assertEqual(one.keys[0].lifetime.generate_from, 1798761600.0)
        self.assertEqual(one.keys[0].lifetime.accept_to, 1830294000.0)
        self.assertEqual(
            (str(two.address), two.cost, two.hello_interval, two.dead_interval),
            ("10.0.9.1/30", 10, 10, 40),
        )
        self.assertEqual(
            (two.retransmit_interval, two.transmit_delay, two.passive, two.keys), (5, 1, False, ())
        )
        self.assertTrue(loopback.passive)
        self.assertEqual(
            [each.line() for each in read.announcements],
            ["add 203.0.113.0/24 5 1 6", "add 0.0.0.0/0 20 2 0"],
        )
        self.assertEqual(
            [(each.object, each.hook) for each in read.programs],
            [(self.folder / "veto.o", "veto")],
        )

    def test_programs(self) -> None:
        """The hook that is wanted, and what numbers of refusals mean."""
        text = TOP + INTERFACE + '[[program]]\nobject = "veto.o"\n'
        (program,) = self.read(text + 'hook = "veto"\n').programs
        self.assertGreater(program.bound, 0)
        (mistake,) = self.mistakes_of(text + 'hook = "count"\n')
        self.assertEqual(mistake[1:], ('"veto.o", for the hook veto', "one for the hook count"))
        ((_, found, _),) = self.mistakes_of(text + 'hook = "vetoes"\n')
        self.assertEqual(found, '"vetoes"')
        (self.folder / "veto.o").write_bytes(b"\x7fELF" + bytes(60))
        ((_, found, _),) = self.mistakes_of(text)
        self.assertIn("an ELF file: `hooktool build` makes objects of it", found)

    def test_words_beside_numbers(self) -> None:
        for verdict, words in (
            ("object refusal 1", "shorter than its header says"),
            ("object refusal 6", "big-endian"),
            ("code refusal 4 slot 2", "big-endian"),
            ("refused slot 3 rule 8", "hooktool explain"),
        ):
            self.assertTrue(refusal_text(verdict).startswith(f"{verdict}: "))
            self.assertIn(words, refusal_text(verdict))
        for verdict in ("object refusal 99", "cannot read /x", "out of memory"):
            self.assertEqual(refusal_text(verdict), verdict)

    def test_martians(self) -> None:
        """What redistribution never announces isn't announced by name either; the default is."""
        for prefix in ("127.0.0.0/8", "224.0.0.0/4", "169.254.1.0/24", "0.0.0.0/8", "240.0.0.0/5"):
            ((where, found, allowed),) = self.mistakes_of(TOP + INTERFACE + f'[[announce]]\nprefix = "{prefix}"\n')
            self.assertEqual((where, found), ("announce 1, prefix", f'"{prefix}"'))
            self.assertIn("not in 0.0.0.0/8, 127.0.0.0/8", allowed)
        default = '[[announce]]\nprefix = "0.0.0.0/0"\n'
        self.assertEqual(len(self.read(TOP + INTERFACE + default).announcements), 1)

    def test_the_least_file(self) -> None:
        read = self.read(TOP + INTERFACE)
        self.assertTrue(read.kernel)
        self.assertEqual(
            read.text([(7001, 7002)]),
            "router 1.1.1.1\n"
            "interface 1 10.0.1.1/24 cost 10 hello 10 dead 40 rxmt 5 delay 1 port 7001 peer 7002\n",
        )

    def test_whom_routerd_runs_as(self) -> None:
        """By default somebody else than this process; without a world of its own that's told."""
        account = self.read(TOP + INTERFACE).account
        self.assertIsNotNone(account)
        self.assertNotEqual(account.user, 0)
        self.assertEqual(self.read(TOP + 'user = "nobody"\n' + INTERFACE).account.name, "nobody")
        without = self.read(TOP + "isolated = false\n" + INTERFACE)
        self.assertIsNone(without.account)
        self.assertIn("every user of this machine can send to routerd", without.advice[0])
        self.runs.return_value = False
        ((where, found, _),) = self.mistakes_of(TOP + INTERFACE)
        self.assertEqual(where, "routerd")
        self.assertRegex(found, "can't run: let others pass each folder on the way")

    def test_whose_packets_count(self) -> None:
        """Those from the network of the address, of the kernel's peer, or of the `peer` given; an
        address alone has no network, and that is told."""
        alone, there = IPv4Interface("192.0.2.1/32"), IPv4Network("198.51.100.7/32")
        for inside, more, wanted, is_told in (
            (KernelInterface("eth1", 1500, (ONE,)), "", (ONE.network, None), False),
            (
                KernelInterface("eth1", 1500, (ONE,)),
                'peer = "198.51.100.7"\n',
                (ONE.network, there.network_address),
                False,
            ),
            (
                KernelInterface("eth1", 1500, (alone,), (), ((alone, there),)),
                "",
                (there, None),
                False,
            ),
            (KernelInterface("eth1", 1500, (alone,)), "", (None, None), True),
            (
                KernelInterface("eth1", 1500, (alone,)),
                'peer = "198.51.100.7"\n',
                (None, there.network_address),
                False,
            ),
        ):
            with self.subTest((inside, more)):
                path = self.write("one.toml", (TOP + INTERFACE + more).encode())
                read = read_configuration(path, {"eth1": inside}, judge)
                (one,) = read.interfaces
                self.assertEqual((one.network, one.peer), wanted)
                self.assertEqual(any("no network has its" in each for each in read.advice), is_told)

    def test_each_mistake(self) -> None:
        for text, wanted in MISTAKES:
            with self.subTest(text[-60:]):
                self.assertEqual(self.mistakes_of(text), wanted)

    def test_each_mistake_of_keys(self) -> None:
        for text, wanted in KEY_MISTAKES:
            self.write("keys.toml", text.encode(), 0o600)
            with self.subTest(text[-60:]):
                self.assertEqual(
                    self.mistakes_of(TOP + 'keys = "keys.toml"\n' + INTERFACE), wanted
                )

    def test_two_keys_with_one_id(self) -> None:
        self.write("keys.toml", (ONE_KEY + ONE_KEY.replace("[a]", "[b]")).encode(), 0o600)
        found = self.mistakes_of(TOP + 'keys = "keys.toml"\n' + INTERFACE + 'keys = ["a", "b"]\n')
        self.assertEqual(
            found,
            ((OF_ETH1 + "keys", '"b", whose ID 1 an earlier one has', "keys with different IDs"),),
        )

    def test_a_secret_is_never_told(self) -> None:
        for text, _ in KEY_MISTAKES:
            self.write("keys.toml", text.replace('"s"', '"swordfish"').encode(), 0o600)
            with self.subTest(text), self.assertRaises(Mistaken) as raised:
                self.read(TOP + 'keys = "keys.toml"\n' + INTERFACE)
            self.assertNotIn("swordfish", str(raised.exception))

    def test_too_many(self) -> None:
        many = "".join(
            f'[[announce]]\nprefix = "10.{n >> 8}.{n & 255}.0/24"\n' for n in range(4097)
        )
        self.assertEqual(
            self.mistakes_of(TOP + INTERFACE + many),
            (("announce", "4097", "at most 4096 tables [[announce]]"),),
        )
        kernel = {
            f"e{n}": KernelInterface(f"e{n}", 1500, (IPv4Interface(f"10.1.{n}.1/24"),))
            for n in range(64)
        }
        text = TOP + "".join(f'[[interface]]\nname = "e{n}"\n' for n in range(64))
        with self.assertRaises(Mistaken) as raised:
            read_configuration(self.write("one.toml", text.encode()), kernel, judge)
        self.assertEqual([each.found for each in raised.exception.mistakes], ["64"])

    def test_names_of_boxes(self) -> None:
        for name in ("a b.toml", ".toml", "-x.toml", "x" * 65 + ".toml"):
            with self.subTest(name), self.assertRaises(Mistaken) as raised:
                self.read(TOP + INTERFACE, name)
            self.assertEqual(raised.exception.mistakes[0].where, "the file's name")
        self.assertEqual(self.read(TOP + INTERFACE, "eu-1.north.toml").name, "eu-1.north")

    def test_files_that_cannot_be_read(self) -> None:
        self.write("open.toml", (TOP + INTERFACE).encode(), 0o646)
        self.write("long.toml", b"#" * (1 << 20) + b"\n")
        os.mkfifo(self.folder / "pipe.toml")
        for name, words, status in (
            ("none.toml", "No such file or directory", Status.FAILED),
            (".", "Is a directory", Status.FAILED),
            ("pipe.toml", "no regular file", Status.FAILED),
            ("long.toml", "more than 1048576 bytes", Status.FAILED),
            ("open.toml", "others can change it (mode 0646)", Status.REFUSED),
        ):
            with self.subTest(name), self.assertRaises(Stopped) as raised:
                read_configuration(self.folder / name, KERNEL, judge)
            self.assertIn(words, str(raised.exception))
            self.assertEqual(raised.exception.status, status)

    def test_a_peers_reader_reads_the_same(self) -> None:
        """Another reader of TOML, where the machine has one: the file is TOML, not a form of our own."""
        try:
            import toml  # Debian's python3-toml
        except ImportError:
            self.skipTest("no other reader of TOML here")
        for text in (WHOLE, KEYS):
            self.assertEqual(toml.loads(text), tomllib.loads(text))

    def test_the_examples(self) -> None:
        """The files of docs/use/HOST.md's first network."""
        examples = Path(__file__).parents[2] / "examples" / "host"
        self.write("keys.toml", (examples / "keys.toml").read_bytes(), 0o600)
        kernel = {
            "eth1": KernelInterface("eth1", 1500, (ONE,)),
            "eth2": KernelInterface("eth2", 1500, (IPv4Interface("192.168.1.1/24"),)),
        }
        for name in ("north", "south"):
            text = (
                (examples / f"{name}.toml")
                .read_text()
                .replace("\nkeys", '\nrouterd = "routerd"\nkeys', 1)
            )
            read = read_configuration(self.write(f"{name}.toml", text.encode()), kernel, judge)
            self.assertEqual(
                [(each.passive, len(each.keys)) for each in read.interfaces],
                [(False, 1), (True, 0)],
            )

    def test_passive_where_nothing_else_is_said(self) -> None:
        """Above the interfaces it is what those are that don't say it."""
        text = INTERFACE + '[[interface]]\nname = "lo"\npassive = {}\n'
        for top, of_lo, wanted in (
            ("passive = true\n", "false", [True, False]),
            ("passive = true\n", "true", [True, True]),
            ("passive = false\n", "true", [False, True]),
            ("", "true", [False, True]),
        ):
            with self.subTest(top=top, of_lo=of_lo):
                whole = TOP + top + text.format(of_lo).replace('"lo"', '"same"')
                read = self.read(whole.replace('"eth1"', '"eth2"\naddress = "10.0.2.1/24"'))
                self.assertEqual([each.passive for each in read.interfaces], wanted)

    def test_interfaces_that_are_not_there(self) -> None:
        """The box runs without them, and says so."""
        names = ("eth1", "tun9", "bare", "wg1")
        text = "".join(f'[[interface]]\nname = "{each}"\n' for each in names)
        read = self.read(TOP + text + 'address = "10.9.9.1/24"\n')
        self.assertEqual([each.name for each in read.interfaces], ["eth1"])
        self.assertEqual(read.awaited, ("tun9", "bare", "wg1"))
        without = "the box runs without it, and takes it once it comes"
        self.assertIn(f"tun9: the kernel doesn't have it: {without}", read.advice)
        self.assertIn(f"bare: it has no IPv4 address: {without}", read.advice)

    def test_none_is_there(self) -> None:
        read = self.read(TOP + '[[interface]]\nname = "tun9"\n')
        self.assertEqual((read.interfaces, read.awaited), ((), ("tun9",)))

    def test_patterns_of_names(self) -> None:
        """A section that names an interface goes before; those with several addresses, an MTU that
        OSPF can't have or an address of another's are left out, and the loopback interface is."""
        text = TOP + '[[interface]]\nname = "*"\ncost = 9\n' + INTERFACE
        read = self.read(text)
        self.assertEqual([(each.name, each.cost) for each in read.interfaces], [("eth1", 10)])
        self.assertIn("same is left out: eth1 has its address too", read.advice)
        read = self.read(TOP + '[[interface]]\nname = "s?me"\ncost = 9\npeer = "10.0.1.2"\n')
        (one,) = read.interfaces
        self.assertEqual((one.name, one.cost, str(one.peer)), ("same", 9, "10.0.1.2"))
        self.assertEqual(read.awaited, ("s?me",))
        read = self.read(TOP + '[[interface]]\nname = "wg*"\n')
        self.assertEqual((read.interfaces, read.advice), ((), ()))

    def test_what_a_pattern_means(self) -> None:
        for name, interface, is_meant in (
            *(("wg*", "wg0", True), ("wg*", "wg", True), ("wg*", "awg0", False)),
            *(("e?h1", "eth1", True), ("e?h1", "eh1", False), ("lo", "lo", True)),
            ("*", "lo", False),
            *(("a.*", "a.1", True), ("a.*", "ab1", False), ("wg0", "wg0", True)),
        ):
            self.assertEqual(matches(name, interface), is_meant, (name, interface))

    def test_the_documents_have_each_key(self) -> None:
        """docs/use/CONFIGURATION.md's table of keys against the keys that are read."""
        document = (Path(__file__).parents[2] / "docs" / "use" / "CONFIGURATION.md").read_text(encoding="utf-8")
        for (
            each
        ) in f"{TOP_KEYS}, keys, {INTERFACE_KEYS}, prefix, metric, type, tag, object, {KEY_FIELDS}".split(
            ", "
        ):
            with self.subTest(each):
                self.assertRegex(document, rf"`(\[\[)?{each}\b|\b{each} = |{each},")


class Objects(Files):
    def test_hooks(self) -> None:
        for number, name in enumerate(("count", "tag", "price", "veto"), 1):
            self.assertEqual(object_hook(self.write("it.o", object_of(number))), ("", name))
        for data in (
            b"",
            b"BPFH\x01\x01",
            object_of(0),
            object_of(5),
            b"BPFH\x02" + object_of(1)[5:],
        ):
            with self.subTest(data):
                self.assertEqual(object_hook(self.write("it.o", data)), ("no object file", ""))

    def test_verdicts(self) -> None:
        says = self.write("says", b'#!/bin/sh\necho "$1 $2"\n', 0o755)
        self.assertEqual(verdict_of(says, Path("/x.o")), "verify /x.o")
        self.assertEqual(
            verdict_of(self.write("mute", b"#!/bin/sh\nexit 7\n", 0o755), Path("/x.o")),
            f"status 7 of {self.folder}/mute, and no word",
        )
        self.assertIn("can't be run", verdict_of(self.folder / "none", Path("/x.o")))


class Kernel(unittest.TestCase):
    def test_an_interface(self) -> None:
        addresses = [
            Address(1, IPv4Interface("127.0.0.1/8"), False),
            Address(2, IPv4Interface("127.0.0.9/8"), False),
            Address(2, ONE, False),
            Address(2, IPv4Interface("10.0.1.9/24"), True),
        ]
        found = interfaces_of([Link(1, "lo", 65_536, True), Link(2, "eth1", 1500, True)], addresses)
        secondary = (IPv4Interface("10.0.1.9/24"),)
        self.assertEqual(found["eth1"], KernelInterface("eth1", 1500, (ONE,), secondary))
        self.assertEqual(found["lo"], KernelInterface("lo", 65_536, ()))

    def test_a_peer(self) -> None:
        alone, there = IPv4Interface("192.0.2.1/30"), IPv4Network("198.51.100.4/30")
        addresses = [Address(2, alone, False, there)]
        found = interfaces_of([Link(2, "eth1", 1500, True)], addresses)
        peers = ((alone, IPv4Network("198.51.100.4/30")),)
        self.assertEqual(found["eth1"], KernelInterface("eth1", 1500, (alone,), (), peers))


class Unit(unittest.TestCase):
    def verified(self, program: str, unit: Path) -> tuple[int, str]:
        words = [program, "verify", str(unit)]
        ran = subprocess.run(words, capture_output=True, text=True, timeout=60, check=False)
        return ran.returncode, ran.stdout + ran.stderr

    def test_systemd_has_no_complaint(self) -> None:
        """Where systemd can judge units here: it must accept the plainest, and refuse a bad one."""
        program = shutil.which("systemd-analyze")
        if not program or not os.path.exists("/usr/bin/python3"):
            self.skipTest("no systemd here")
        with tempfile.TemporaryDirectory() as folder:
            plain, bad = Path(folder, "plain.service"), Path(folder, "bad.service")
            plain.write_text("[Service]\nExecStart=/bin/sh\n")
            bad.write_text("[Service]\nExecStart=/none\n")
            if self.verified(program, plain) != (0, "") or not self.verified(program, bad)[0]:
                self.skipTest("systemd-analyze judges no units here")
        unit = Path(__file__).parents[1] / "leafrunt@.service"
        self.assertEqual(self.verified(program, unit), (0, ""))


if __name__ == "__main__":
    unittest.main()
