"""The commands of `leafrunt`."""
from __future__ import annotations

import argparse
import os
import re
import sys
import time
from pathlib import Path
from typing import TYPE_CHECKING

from leafrunt_host.folders import RUN, STATE
from leafrunt_host.statuses import Status, Stopped
from leafrunt_host.version import Version

if TYPE_CHECKING:
    from contextlib import AbstractContextManager
    from ipaddress import IPv4Network

    from leafrunt_host.client import Client
    from leafrunt_host.configuration import Configuration

LONGEST_CONFIRMED = 86_400
LEAST_INTERVAL, MOST_INTERVAL = 0.5, 3600.0
"""Seconds between two looks of `watch`."""
DOCUMENTS = ("table", "neighbors", "interfaces", "announced", "programs", "counters")
LISTS = ("status", *DOCUMENTS, "database", "why", "changes")
"""What lists something of a box, and takes `--json`."""
LEVELS = ("error", "warning", "info", "debug")
FORMATS = ("openmetrics", "prometheus")
ABOUT = """A box that routes: `routerd`, an OSPF router, on this host, among BIRD, FRR and others.

docs/use/HOST.md tells how to set up a network with it. Statuses: 0 done; 1 refused; 2 invalid arguments;
3 a file, a socket or a program failed; 4 out of memory."""
EXAMPLES = {
    "up": "leafrunt up /etc/leafrunt/one.toml\n  leafrunt up --log-level debug /etc/leafrunt/one.toml",
    "console": "leafrunt console\n  leafrunt console -c table -c neighbors\n  echo table | leafrunt console --box one",
    "status": "leafrunt status\n  leafrunt status --check\n  leafrunt status --json | jq .interfaces[0].neighbor",
    "table": "leafrunt table\n  leafrunt table --json | jq -r '.routes[] | select(.path_type == \"ext2\").prefix'",
    "neighbors": "leafrunt neighbors\n  leafrunt neighbors --json | jq -r '.neighbors[] | select(.state != \"Full\").interface'",
    "interfaces": "leafrunt interfaces\n  leafrunt interfaces --json | jq '.interfaces[] | {name, counters}'",
    "announced": "leafrunt announced\n  leafrunt announced --json | jq '.announced | length'",
    "programs": "leafrunt programs\n  leafrunt programs --json | jq -r .programs[].object",
    "counters": "leafrunt counters\n  leafrunt counters --json | jq '.counters[] | {name, value}'",
    "database": "leafrunt database\n  leafrunt database 203.0.113.0\n  leafrunt database --json | jq .lsas[0]",
    "why": "leafrunt why 203.0.113.0/24\n  leafrunt why 203.0.113.7\n  leafrunt why --json 203.0.113.0/24 | jq .program.answer",
    "changes": "leafrunt changes --since 02:00\n  leafrunt changes 203.0.113.0/24 --since 2h\n  leafrunt changes --json | jq '.changes[-1]'",
    "watch": "leafrunt watch\n  leafrunt watch --interval 5 --box one\n  leafrunt watch --once",
    "metrics": "leafrunt metrics\n  leafrunt metrics --format prometheus | sponge /var/lib/prometheus/node-exporter/leafrunt.prom",
    "map": "leafrunt map | dot -Tsvg >area.svg\n  leafrunt map --to 203.0.113.0/24 | dot -Tsvg >way.svg",
    "check": "leafrunt check /etc/leafrunt/one.toml",
    "reload": "leafrunt reload --dry-run\n  leafrunt reload --confirm 5m && ping -c 3 10.0.1.2 && leafrunt reload --keep\n  leafrunt reload\n  systemctl reload leafrunt@one",
    "down": "leafrunt down --box one",
    "clear": "leafrunt clear --box one",
    "demo": "leafrunt demo",
}
TITLES = {
    "up": "start a box by its configuration, in the foreground; SIGTERM, SIGINT and `down` end it in order",
    "console": "ask a box that runs, line by line: `help` there lists what can be asked",
    "status": "say how a box is: its interfaces and neighbors, and why a neighbor isn't heard",
    "table": "list the routes of a box's routing table",
    "neighbors": "list the neighbors that aren't Down, with their states",
    "interfaces": "list the interfaces, and what passed through each",
    "announced": "list the external destinations that a box announces",
    "programs": "list the programs at the hooks",
    "counters": "list the programs' counters that are above 0; in JSON those with a name too",
    "database": "list the LSAs that a box knows, as BIRD's `show ospf lsadb` does; with an ID or destination those, whole",
    "why": "say why a destination is, or isn't, in the kernel's table: LSAs, the program at veto, neighbors",
    "changes": "list what changed of routes, neighbors and programs, when, and what came before it",
    "watch": "follow the neighbors, routes and counters of a box on the terminal; q leaves",
    "metrics": "print what a box is doing as OpenMetrics text, for Prometheus (needs python3-prometheus-client)",
    "map": "print the area as a Graphviz graph, for `dot`",
    "check": "say what is wrong with a configuration, and start nothing",
    "reload": "take a changed configuration over in a box that runs; where it is wrong, nothing changes",
    "down": "end a box in order, and wait until it has ended",
    "clear": "remove the routes that a killed box left in the kernel",
    "demo": "show two routers on this machine, a program that one of them runs, and one that it refuses",
}


# (each command loads its own part alone, and `--help` none: a client isn't to wait for what a box
# is made of)


def prefix(text: str) -> IPv4Network:
    from ipaddress import IPv4Network

    try:
        return IPv4Network(text)
    except ValueError as error:
        raise argparse.ArgumentTypeError(
            f"{text!r} is no A.B.C.D/L whose bits after the first L are 0"
        ) from error


def destination(text: str) -> str:
    from ipaddress import IPv4Address, IPv4Network

    try:
        return str(IPv4Network(text) if "/" in text else IPv4Address(text))
    except ValueError as error:
        said = f"{text!r} is no A.B.C.D/L whose bits after the first L are 0, and no address"
        raise argparse.ArgumentTypeError(said) from error


def moment(text: str) -> str:
    from leafrunt_host.history import moment_of

    try:
        moment_of(text, time.time())
    except (ValueError, OverflowError) as error:
        said = f"{text!r} is no moment: 02:14, '2026-12-01 02:14', or 90m, 2h, 1d ago"
        raise argparse.ArgumentTypeError(said) from error
    return text


def duration(text: str) -> int:
    read = re.fullmatch(r"([1-9]\d{0,4})([smh])", text, re.ASCII)
    seconds = int(read[1]) * {"s": 1, "m": 60, "h": 3600}[read[2]] if read else 0
    if not 0 < seconds <= LONGEST_CONFIRMED:
        raise argparse.ArgumentTypeError(f"{text!r} is no time of 1s to 24h: 30s, 5m, 1h")
    return seconds


def interval(text: str) -> float:
    try:
        seconds = float(text)
    except ValueError:
        seconds = 0.0
    if not LEAST_INTERVAL <= seconds <= MOST_INTERVAL:
        allowed = f"{LEAST_INTERVAL:g} to {MOST_INTERVAL:g} seconds"
        raise argparse.ArgumentTypeError(f"{text!r} is no interval of {allowed}")
    return seconds


def with_folders(one: argparse.ArgumentParser, name: str) -> None:
    """Where a box keeps its files, and which box is meant."""
    if name == "demo":
        return
    if name != "check":
        about = f"where running boxes have their sockets (default {RUN})"
        one.add_argument("--run-directory", type=Path, default=RUN, metavar="DIR", help=about)
    if name == "up":
        about = f"where sequence numbers are kept over a restart (default {STATE})"
        one.add_argument("--state-directory", type=Path, default=STATE, metavar="DIR", help=about)
    if name in ("up", "check"):
        about = "the configuration, a TOML file; its name without .toml is the box's"
        one.add_argument("config", type=Path, metavar="CONFIG", help=about)
    else:
        about = "which box" if name == "clear" else "which box; not needed where one alone runs"
        one.add_argument("--box", metavar="NAME", help=about, required=name == "clear")


def with_own_words(one: argparse.ArgumentParser, name: str) -> None:
    """What one command alone takes."""
    if name == "console":
        about = "ask this, and leave; may be given several times"
        one.add_argument(
            "-c", dest="lines", action="append", default=[], metavar="LINE", help=about
        )
    if name == "up":
        about = "the minimum level to log (default: log_level of CONFIG, or info)"
        one.add_argument("--log-level", choices=LEVELS, help=about)
    if name in LISTS:
        about = f"for a program: one JSON object, by the schema schemas/{name}.json"
        one.add_argument("--json", action="store_true", help=about)
    if name == "status":
        about = "say whether all is well, a line for each complaint; the status is 0, 1 or 2, as Nagios has it"
        one.add_argument("--check", action="store_true", help=about)
    if name == "database":
        about = "a Link State ID, A.B.C.D, or a destination, A.B.C.D/L"
        one.add_argument("id", nargs="?", type=destination, metavar="ID", help=about)
    if name == "why":
        about = "A.B.C.D/L, or an address, whose longest prefix is meant"
        one.add_argument("destination", type=destination, metavar="PREFIX", help=about)
    if name == "changes":
        about = "a destination, whose changes alone are listed"
        one.add_argument("prefix", nargs="?", type=prefix, metavar="PREFIX", help=about)
        about = "from when on: 02:14, '2026-12-01 02:14', or 90m, 2h, 1d ago"
        one.add_argument("--since", type=moment, metavar="TIME", help=about)
    if name == "reload":
        way = one.add_mutually_exclusive_group()
        about = "say what would change, and change nothing"
        way.add_argument("--dry-run", action="store_true", help=about)
        about = "take it back after TIME (30s, 5m, 1h) unless `reload --keep` comes before"
        way.add_argument("--confirm", type=duration, metavar="TIME", help=about)
        about = "keep what waits to be confirmed"
        way.add_argument("--keep", action="store_true", help=about)
    if name == "watch":
        about = f"seconds between two looks, {LEAST_INTERVAL:g} to {MOST_INTERVAL:g} (default 1)"
        one.add_argument("--interval", type=interval, default=1.0, metavar="SECONDS", help=about)
        about = "print what there is now, as plain text, and leave"
        one.add_argument("--once", action="store_true", help=about)
    if name == "metrics":
        about = "openmetrics (so if none is given), or Prometheus' older text, for node_exporter"
        one.add_argument("--format", choices=FORMATS, default="openmetrics", help=about)
    if name == "map":
        about = "mark the way that the kernel takes there"
        one.add_argument("--to", type=prefix, metavar="PREFIX", help=about)


def parser() -> argparse.ArgumentParser:
    """The words of the command line."""
    shown = argparse.RawDescriptionHelpFormatter
    top = argparse.ArgumentParser("leafrunt", description=ABOUT, formatter_class=shown)
    about = "print the version, with its commit, its kit and the gate's last line"
    top.add_argument("--version", action=Version, nargs=0, help=about)
    words = top.add_subparsers(dest="command", required=True, metavar="COMMAND")
    for name, title in TITLES.items():
        one = words.add_parser(
            name,
            help=title,
            description=title,
            epilog=f"example:\n  {EXAMPLES[name]}",
            formatter_class=shown,
            allow_abbrev=False,
        )
        with_folders(one, name)
        with_own_words(one, name)
    return top


FIT = (
    "it is for an area of up to 16384 LSAs, in which no router has more than 678 links (a numbered "
    "point-to-point link counts twice)"
)
"""Which networks a box isn't for: see `withheld`, which names what is above that."""


def up(words: argparse.Namespace) -> Status:
    import logging
    from dataclasses import replace

    from leafrunt_host.box import Box
    from leafrunt_host.configuration import read_configuration
    from leafrunt_host.journal import start_log
    from leafrunt_host.kernel import kernel_interfaces
    from leafrunt_host.rooms import Room

    log = start_log(words.log_level or "info")

    def read_again(path: Path) -> Configuration:
        read = read_configuration(path, kernel_interfaces())
        return replace(read, log_level=words.log_level) if words.log_level else read

    configuration = read_again(words.config)
    if not configuration.interfaces:
        said = "none of the interfaces is there: the first one is waited for"
        logging.getLogger("leafrunt.box").warning(said)
    while not configuration.interfaces:
        time.sleep(1.0)
        configuration = read_again(words.config)
    run, state = words.run_directory.absolute(), words.state_directory.absolute()
    return Box(
        configuration,
        Room(configuration.name, run / configuration.name, state / configuration.name),
        log,
        read_again,
    ).run()


def check(words: argparse.Namespace) -> Status:
    from leafrunt_host.configuration import read_configuration
    from leafrunt_host.kernel import kernel_interfaces

    configuration = read_configuration(words.config, kernel_interfaces())
    print(*checked_lines(words.config, configuration), sep="\n")
    return Status.DONE


def checked_lines(path: Path, configuration: Configuration) -> list[str]:
    from leafrunt_host.status import warnings_of

    names = ", ".join(f"{each.name} {each.address}" for each in configuration.interfaces) or "none"
    said = f"{path}: nothing is wrong: router {configuration.router_id} at {names}"
    programs = [
        f"program at {each.hook}: {each.object}, bound {each.bound}"
        for each in configuration.programs
    ]
    warnings = [f"warning: {each}" for each in warnings_of(configuration)]
    return [said, FIT, *programs, *warnings]


def client_of(words: argparse.Namespace) -> AbstractContextManager[Client]:
    """A connection to the box that is meant."""
    from contextlib import closing

    from leafrunt_host.client import Client

    return closing(Client(words.run_directory, words.box))


def say(lines: list[str]) -> Status:
    """Prints what a box says; no byte of it acts on a terminal."""
    from leafrunt_host.journal import one_line

    for each in lines:
        print(one_line(each))
    return Status.DONE


def status_or_check(words: argparse.Namespace) -> int:
    """`status`; with `--check` whether the box is well, also if there is none."""
    if not words.check:
        return list_what_is_there(words)
    from leafrunt_host.health import Health, checked
    from leafrunt_host.listing import box_status

    try:
        with client_of(words) as client:
            health, lines = checked(box_status(client))
    except Stopped as why:
        health, lines = Health.CRITICAL, [f"LEAFRUNT CRITICAL: {each}" for each in str(why).splitlines()]
    say(lines)
    return health


def list_what_is_there(words: argparse.Namespace) -> Status:
    from leafrunt_host.listing import listed

    with client_of(words) as client:
        lines = listed(client, words)
    return say([line for each in lines for line in each.split("\n")])


def follow(words: argparse.Namespace) -> Status:
    from leafrunt_host.watching import watch

    with client_of(words) as client:
        return watch(client, words.interval, words.once)


def metrics(words: argparse.Namespace) -> Status:
    import io

    from leafrunt_host.metrics import metrics_of

    with client_of(words) as client:
        text = metrics_of(client, words.format)
    if isinstance(sys.stdout, io.TextIOWrapper):
        sys.stdout.reconfigure(encoding="utf-8")
    sys.stdout.write(text)
    return Status.DONE


def area_map(words: argparse.Namespace) -> Status:
    from leafrunt_host.client import own_answer

    with client_of(words) as client:
        return say(own_answer(client.ask(f"map {words.to}" if words.to else "map")))


def talk(words: argparse.Namespace) -> Status:
    from leafrunt_host import console

    with client_of(words) as client:
        return console.run(client, words.lines)


def reload(words: argparse.Namespace) -> Status:
    from leafrunt_host.client import own_answer

    rest = ["dry-run"] if words.dry_run else ["keep"] if words.keep else []
    rest += ["confirm", str(words.confirm)] if words.confirm else []
    with client_of(words) as client:
        return say(own_answer(client.ask(" ".join(["reload", *rest]))))


def down(words: argparse.Namespace) -> Status:
    from leafrunt_host.client import own_answer

    with client_of(words) as client:
        own_answer(client.ask("down"))
        ended = " ".join(client.answer())
        say([f"the box {client.box} has {ended}"])
    return Status.DONE if ended.endswith(" 0") else Status.FAILED


def clear(words: argparse.Namespace) -> Status:
    from leafrunt_host import remains
    from leafrunt_host.client import chosen_box
    from leafrunt_host.rooms import Room

    name, run = chosen_box(words.run_directory, words.box), words.run_directory.absolute()
    return say(remains.clear(Room(name, run / name, STATE / name)))


def demo(_words: argparse.Namespace) -> Status:
    """Becomes the demo: that of the package, or of the clone."""
    from leafrunt_host.version import HOST

    places = [it for it in (HOST / "demo", HOST.parent / "demo") if it.is_file()]
    if not places:
        raise Stopped("the demo isn't there: it is of a clone, and of the package")
    os.execv(sys.executable, [sys.executable, str(places[0])])


COMMANDS = {
    "demo": demo,
    "up": up,
    "console": talk,
    **dict.fromkeys(LISTS, list_what_is_there),
    "status": status_or_check,
    "watch": follow,
    "metrics": metrics,
    "map": area_map,
    "check": check,
    "reload": reload,
    "down": down,
    "clear": clear,
}


def main(arguments: list[str]) -> int:
    """Obeys one command line; the status."""
    words = parser().parse_args(arguments)
    try:
        done = COMMANDS[words.command](words)
        sys.stdout.flush()
        return done
    except Stopped as why:
        from leafrunt_host.journal import is_journal, one_line

        head = "<3>" if is_journal(sys.stderr) else ""
        for line in str(why).splitlines():
            print(f"{head}leafrunt: {one_line(line)}", file=sys.stderr)
        return why.status
    except BrokenPipeError:
        os.dup2(os.open(os.devnull, os.O_WRONLY), sys.stdout.fileno())
        return Status.FAILED
    except OSError as error:
        print(f"leafrunt: {error.strerror or error}", file=sys.stderr)
        return Status.FAILED
    except KeyboardInterrupt:
        print("leafrunt: interrupted", file=sys.stderr)
        return Status.REFUSED
    except MemoryError:
        print("leafrunt: out of memory", file=sys.stderr)
        return Status.MEMORY
