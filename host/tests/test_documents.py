"""The documents of `--json`: by their schemas, and from boxes that say what no box should."""
import contextlib
import copy
import io
import json
import socket
import tempfile
import threading
import time
import unittest
from collections.abc import Callable, Iterator
from dataclasses import replace
from pathlib import Path
from typing import Any
from unittest import mock

from leafrunt_host import client as clients
from leafrunt_host.announcements import Owner
from leafrunt_host.authentication import Algorithm, Key
from leafrunt_host.commands import LISTS, main
from leafrunt_host.documents import DOCUMENTS, VERSIONS, database_of, schema_of
from leafrunt_host.exchange import Side
from leafrunt_host.kernel import Json
from leafrunt_host.observing import Report
from leafrunt_host.status import status_of
from leafrunt_host.statuses import Stopped
from leafrunt_host.topology import Topology
from tests import schemas
from tests.test_box import Boxes
from tests.test_desk import THERE, TWO, known
from tests.test_topology import EXTERNAL, SUMMARY, lsa, router_lsa, update

try:
    import jsonschema
except ImportError:
    jsonschema = None

FULL = "neighbor 1 2.2.2.2 Full"
LINES = {
    "table": [
        "10.0.1.0/24 intra 10 via 0",
        "10.9.0.0/16 inter 30 via 1",
        "192.0.2.0/24 ext2 20 via 1,2",
        "0.0.0.0/0 ext1 25 via 2",
    ],
    "neighbors": [FULL],
    "interfaces": [],
    "announced": [
        "203.0.113.0/24 20 2 0 originated configuration",
        "10.0.0.0/8 16777214 1 4294967295 withheld console",
    ],
    "programs": ["count bound 7 /x/a b\u001b.o", "veto bound 4095 /x/veto.o"],
    "counters": ["counter 5 6", "counter 255 18446744073709551615"],
}
NO_LINES = {
    "table": [
        "10.0.1.0/24 intra 10 via 7",
        "10.0.1.0/24 intra 10 via 0 ",
        "10.0.1.0 intra 10 via 0",
        "10.0.1.0/24 intra 10 via 1,",
        "10.0.1.0/24 static 10 via 1",
        "١٠.0.1.0/24 intra 10 via 1",
    ],
    "neighbors": ["neighbor 9 2.2.2.2 Full", "neighbor 1 2.2.2 Full", ""],
    "announced": [
        "203.0.113.0/24 20 3 0 originated console",
        "203.0.113.0/24 20 2 0 refused 5",
        "203.0.113.0/24 20 2 0 originated",
    ],
    "programs": ["veto bound x /x", "veto"],
    "counters": ["counter 5", "counter -1 5", "counter 5 6 7"],
}


def status() -> Json:
    """A status with all that one may have."""
    it = known(
        Report("eth1", reasons=("down: no carrier",)),
        Report("eth1", TWO, THERE, 1.5, ("MTU 9000 there",)),
        neighbors=(FULL,),
    )
    first, second = it.configuration.interfaces
    first = replace(first, keys=(Key(5, Algorithm.HMAC_SHA_256, b"secret"),))
    names = {"martians": 5, "never": 6}
    it.configuration = replace(it.configuration, interfaces=(first, second), counters=names)
    lsas = {each: 1 for each in ("router", "network", "summary", "asbr-summary", "external")}
    read: Json = json.loads(json.dumps(status_of(it, lsas)))
    return read


def of(kind: str, lines: list[str] | None = None) -> Json:
    """A document, as a reader has it."""
    made = DOCUMENTS[kind](status(), LINES[kind] if lines is None else lines)
    read: Json = json.loads(json.dumps(made))
    return read


def topology() -> Topology:
    """A database with an LSA of each type, as `routerd` sends them."""
    it = Topology(lambda: 0.0)
    links = ((1, "2.2.2.2", "10.0.1.1", 10), (3, "10.0.1.0", "255.255.255.0", 10))
    lsas = [
        router_lsa("1.1.1.1", *links, flags=3),
        lsa(2, "10.0.1.2", "2.2.2.2", bytes.fromhex("ffffff00 01010101 02020202")),
        SUMMARY,
        lsa(4, "5.5.5.5", "2.2.2.2", SUMMARY[20:]),
        EXTERNAL,
        lsa(5, "9.9.9.9", "2.2.2.2", b"\xff"),
    ]
    it.watch(Side.ROUTER, update(*lsas), 0.0)
    return it


def paths(value: Any, at: tuple[Any, ...] = ()) -> Iterator[tuple[Any, ...]]:
    """The places in a document."""
    yield at
    is_list = isinstance(value, list)
    items = dict(enumerate(value)) if is_list else value if isinstance(value, dict) else {}
    for name, each in items.items():
        yield from paths(each, (*at, name))


def without(value: Any, path: tuple[Any, ...]) -> Any:
    """A copy without what is there."""
    made = it = copy.deepcopy(value)
    for each in path[:-1]:
        it = it[each]
    del it[path[-1]]
    return made


class Documents(unittest.TestCase):
    def documents(self) -> Iterator[tuple[str, Json]]:
        yield "status", status()
        for kind in DOCUMENTS:
            yield kind, of(kind)
        entries = topology().entries()
        for is_whole in (False, True):
            made = database_of("one", entries, 3, is_whole)
            yield "database", json.loads(json.dumps(made))

    def test_each_by_its_schema(self) -> None:
        """Each field of a document is in the schema, and a document without it is refused where the
        schema asks for it."""
        self.assertEqual(sorted(VERSIONS), sorted(LISTS))
        names = sorted(each.name for each in schemas.FOLDER.iterdir())
        self.assertEqual(names, sorted(f"{each}.json" for each in LISTS))
        for kind, made in self.documents():
            with self.subTest(kind):
                schema = schemas.schema(kind)
                self.assertEqual(schema["properties"]["schema"]["const"], schema_of(kind))
                self.assertEqual(list(made)[:2], ["schema", "box"])
                self.assertEqual(schemas.faults(schema, made), [])
                fields = [each for each in paths(made) if each and isinstance(each[-1], str)]
                refused = [each for each in fields if schemas.faults(schema, without(made, each))]
                missed = {str(each[-1]) for each in fields if each not in refused}
                self.assertLessEqual(missed, {"body", "in", "martians", "never"})

    def test_what_a_schema_refuses(self) -> None:
        for kind, path, wrong in (
            ("table", ("routes", 0, "cost"), "10"),
            ("table", ("routes", 0, "cost"), True),
            ("table", ("routes", 0, "cost"), -1),
            ("table", ("routes", 0, "path_type"), "static"),
            ("table", ("routes", 0, "more"), 1),
            ("table", ("routes",), {}),
            ("table", ("schema",), "leafrunt/table/2"),
            ("neighbors", ("neighbors", 0, "address"), "10.0.1"),
            ("counters", ("counters", 0, "counter"), 256),
        ):
            with self.subTest(path=path, wrong=wrong):
                made = it = of(kind)
                for each in path[:-1]:
                    it = it[each]
                it[path[-1]] = wrong
                self.assertEqual(len(schemas.faults(schemas.schema(kind), made)), 1)

    @unittest.skipUnless(jsonschema, "python3-jsonschema isn't there: the tests' own reader did it")
    def test_by_a_library(self) -> None:
        for kind, made in self.documents():
            schema = schemas.schema(kind)
            jsonschema.Draft202012Validator.check_schema(schema)
            jsonschema.validate(made, schema, jsonschema.Draft202012Validator)
            with self.subTest(kind), self.assertRaises(jsonschema.ValidationError):
                jsonschema.validate({**made, "box": 1}, schema, jsonschema.Draft202012Validator)

    def test_values(self) -> None:
        hop = {"interface": "eth1", "address": "10.0.1.2"}
        lan = {"interface": "lan0", "address": None}
        routes = [tuple(each.values()) for each in of("table")["routes"]]
        self.assertEqual(
            routes,
            [
                ("10.0.1.0/24", "intra", 10, []),
                ("10.9.0.0/16", "inter", 30, [hop]),
                ("192.0.2.0/24", "ext2", 20, [hop, lan]),
                ("0.0.0.0/0", "ext1", 25, [lan]),
            ],
        )
        (neighbor,) = of("neighbors")["neighbors"]
        self.assertIsInstance(neighbor.pop("since"), float)
        self.assertEqual(
            list(neighbor.values()), ["eth1", 1, "2.2.2.2", "Full", "10.0.1.2"]
        )
        counters = [tuple(each.values()) for each in of("counters")["counters"]]
        self.assertEqual(
            counters, [(5, "martians", 6), (6, "never", 0), (255, None, 18446744073709551615)]
        )
        programs = [tuple(each.values()) for each in of("programs")["programs"]]
        self.assertEqual(programs[0], ("count", 7, "/x/a b\u001b.o"))
        announced = [tuple(each.values()) for each in of("announced")["announced"]]
        self.assertEqual(
            announced[1], ("10.0.0.0/8", 16777214, 1, 4294967295, "withheld", "console")
        )
        its = schemas.schema("announced")["properties"]["announced"]["items"]["properties"]
        self.assertEqual(its["owner"]["enum"], list(map(str, Owner)))
        self.assertEqual(of("interfaces")["interfaces"][0]["key_ids"], [5])

    def test_a_neighbor_that_changed_meanwhile(self) -> None:
        """What is said of another one, or of an earlier state, isn't said of this one."""
        (other,) = of("neighbors", ["neighbor 1 3.3.3.3 Init"])["neighbors"]
        self.assertEqual((other["address"], other["since"]), (None, None))
        (earlier,) = of("neighbors", ["neighbor 1 2.2.2.2 Init"])["neighbors"]
        self.assertEqual((earlier["address"], earlier["since"]), ("10.0.1.2", None))

    def test_lsas(self) -> None:
        it = topology()
        entries = it.entries()
        self.assertEqual(
            it.counts(), {"router": 1, "network": 1, "summary": 1, "asbr-summary": 1, "external": 2}
        )
        lsas = database_of("one", entries, 0, is_whole=True)["lsas"]
        head = {name: each for name, each in lsas[0].items() if name != "body"}
        self.assertEqual(
            {**head, "checksum": ""},
            {
                "type": "router",
                "link_state_id": "1.1.1.1",
                "advertising_router": "1.1.1.1",
                "sequence_number": "80000001",
                "age_seconds": 0,
                "checksum": "",
                "options": 2,
                "length": 48,
            },
        )
        bodies = {each["type"]: each["body"] for each in lsas}
        self.assertEqual(bodies["router"]["as_boundary_router"], True)
        kinds = [each["type"] for each in bodies["router"]["links"]]
        self.assertEqual(kinds, ["point-to-point", "stub"])
        self.assertEqual(bodies["summary"], {"network_mask": "255.255.255.0", "metric": 5})
        self.assertEqual([each["body"] is None for each in lsas], [False] * 4 + [True, False])
        self.assertEqual(lsas[5]["body"]["external_route_tag"], 0)
        self.assertNotIn("body", database_of("one", entries, 0, is_whole=False)["lsas"][0])

    def test_lines_that_are_none(self) -> None:
        for kind, lines in NO_LINES.items():
            for line in lines:
                with self.subTest(line), self.assertRaises(Stopped):
                    of(kind, [*LINES[kind], line])


class OfBoxes(Boxes):
    def test_each(self) -> None:
        """A box that runs: the lists in the console's words, and each document by its schema."""
        self.up(more='[counters]\nmartians = 5\n[[announce]]\nprefix = "203.0.113.0/24"\n')
        self.assertEqual(self.leafrunt("console", "-c", "attach /x/veto.o")[0], 0)
        for kind, lines in {
            "table": ["10.0.1.0/24 intra 10 via 0", "192.0.2.0/24 ext2 20 via 1"],
            "neighbors": [FULL],
            "announced": ["203.0.113.0/24 20 2 0 originated configuration"],
            "programs": ["veto bound 7 /x/veto.o"],
            "counters": ["counter 5 6"],
        }.items():
            with self.subTest(kind):
                self.assertEqual(self.leafrunt(kind), (0, "\n".join(lines) + "\n", ""))
        for kind in LISTS:
            with self.subTest(kind):
                rest = ("203.0.113.0/24",) if kind in ("why", "changes") else ()
                status, text, errors = self.leafrunt(kind, "--json", *rest)
                self.assertEqual((status, errors), (0, ""))
                self.assertEqual(schemas.faults(schemas.schema(kind), json.loads(text)), [])
        self.assertIn('"name": "martians"', self.leafrunt("counters", "--json")[1])
        for rest in ("json 1.2.3.4", "json x", "jsonx", " json", "json json"):
            self.assertTrue(self.client().ask(f"database {rest}")[0].startswith("refused: "), rest)
        self.assertEqual(self.leafrunt("database", "--json", "1.2.3.4")[0], 1)
        self.assertEqual(self.leafrunt("table", "--jso")[0], 2)


class Listening(unittest.TestCase):
    """A socket where a box's would be."""

    def setUp(self) -> None:
        folder = tempfile.TemporaryDirectory(prefix="ls-")
        self.addCleanup(folder.cleanup)
        self.run_folder = Path(folder.name)
        (self.run_folder / "one").mkdir()
        self.listener = socket.socket(socket.AF_UNIX, socket.SOCK_STREAM)
        self.listener.bind(str(self.run_folder / "one/socket"))
        self.listener.listen()
        self.addCleanup(self.listener.close)


class Strange(Listening):
    """What answers there is no box, or one of another version."""

    def leafrunt(self, says: Callable[[socket.socket], None], *words: str) -> tuple[int, str, str]:
        """What a command makes of what this end does with its connection."""

        def serve() -> None:
            one = self.listener.accept()[0]
            with one, contextlib.suppress(OSError):
                says(one)

        thread = threading.Thread(target=serve)
        thread.start()
        output, errors = io.StringIO(), io.StringIO()
        with contextlib.redirect_stdout(output), contextlib.redirect_stderr(errors):
            folder = str(self.run_folder)
            status = main([words[0], "--run-directory", folder, "--box", "one", *words[1:]])
        thread.join()
        return status, output.getvalue(), errors.getvalue()

    def answering(self, *answers: bytes) -> Callable[[socket.socket], None]:
        """Answers each line with the next of these, and leaves."""

        def says(one: socket.socket) -> None:
            for each in answers:
                one.recv(4096)
                one.sendall(each)

        return says

    def test_what_is_no_answer(self) -> None:
        whole, half = (
            json.dumps({**status(), **each}).encode() + b"\nend\n\n"
            for each in ({}, {"interfaces": [{"number": 1}]})
        )
        known = b"neighbor 1 2.2.2.2 Full\nend\n\n"
        for answers, said in (
            ((b"",), "has ended"),
            ((b"neighbor 1 2.2.2.2 Full\nen",), "has ended"),
            ((b"\n",), "answers no list"),
            ((b"\xff\xfe\x1b[2J\n\n",), "answers no list"),
            ((b"out of memory\n\n",), "out of memory"),
            ((b"refused: no\n\n",), "no"),
            ((b"refused: \x1b[2J\n\n",), " [2J"),
            ((known, b""), "has ended"),
            ((known, b"unknown\n\n"), "another version"),
            ((known, b"[1]\n\n"), "another version"),
            ((known, b"[" * 100_000 + b"\n\n"), "another version"),
            ((known, b'{"box": "one"}\n\n'), "another version"),
            ((known, half), "says something that leafrunt doesn't know (KeyError"),
            ((known.replace(b"Full", b"Full\xff"), whole), "a line that leafrunt"),
            ((known.replace(b"1", b"1" * 5000), whole), "a line that leafrunt"),
        ):
            with self.subTest(said=said, answers=[each[:40] for each in answers]):
                came = self.leafrunt(self.answering(*answers), "neighbors", "--json")
                self.assertEqual(came[:2], ({"out of memory": 4, "no": 1, " [2J": 1}.get(said, 3), ""))
                errors = came[2]
                self.assertIn(said, errors)
                self.assertTrue(errors.isascii() and errors.count("\n") == 1 and len(errors) < 300)

    def test_a_slow_one(self) -> None:
        """Bytes that come one by one don't put the end off."""

        def drips(one: socket.socket) -> None:
            for _ in range(100):
                one.sendall(b"x")
                time.sleep(0.02)

        with mock.patch.object(clients.Client.ask, "__defaults__", (None, 0.2)):
            began = time.monotonic()
            said = self.leafrunt(drips, "table")
        self.assertEqual(said, (3, "", "leafrunt: the box one doesn't answer\n"))
        self.assertLess(time.monotonic() - began, 1.9)

    def test_an_endless_one(self) -> None:
        def floods(one: socket.socket) -> None:
            while True:
                one.sendall(b"x\n" * 5000)

        with mock.patch.object(clients, "LONGEST_ANSWER", 100_000):
            said = self.leafrunt(floods, "table")
        self.assertEqual(said, (3, "", "leafrunt: the box one answers more than 100000 bytes\n"))

    def test_nothing_acts_on_a_terminal(self) -> None:
        lines = b"veto bound 7 /x/\x1b[2J\xe2\x80\xa8.o\nend\n\n"
        said = self.leafrunt(self.answering(lines), "programs")
        self.assertEqual(said, (0, "veto bound 7 /x/ [2J .o\n", ""))


if __name__ == "__main__":
    unittest.main()
