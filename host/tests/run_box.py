"""Runs a box whose kernel has one made-up interface, since a test may open no raw socket:
`run_box.py CONFIG RUN STATE`."""
import ctypes
import signal
import sys
from ipaddress import IPv4Interface
from pathlib import Path

sys.path.insert(0, str(Path(__file__).parents[1]))

from leafrunt_host.box import Box  # noqa: E402
from leafrunt_host.configuration import read_configuration  # noqa: E402
from leafrunt_host.journal import start_log  # noqa: E402
from leafrunt_host.kernel import KernelInterface  # noqa: E402
from leafrunt_host.rooms import Room  # noqa: E402
from leafrunt_host.statuses import Stopped  # noqa: E402

KERNEL = {"lan0": KernelInterface("lan0", 1500, (IPv4Interface("10.0.1.1/24"),))}

PR_SET_PDEATHSIG = 1


def end_with_parent() -> None:
    """From now on this process is told to end where its parent is killed (prctl(2)), so that a test
    that is killed leaves no box behind."""
    ctypes.CDLL(None).prctl(PR_SET_PDEATHSIG, signal.SIGTERM)


if __name__ == "__main__":
    end_with_parent()
    log = start_log()
    try:
        configuration = read_configuration(Path(sys.argv[1]), KERNEL)
    except Stopped as why:
        print(why, file=sys.stderr)
        sys.exit(why.status)
    run, state = Path(sys.argv[2]) / configuration.name, Path(sys.argv[3]) / configuration.name
    room = Room(configuration.name, run, state)
    sys.exit(Box(configuration, room, log, lambda path: read_configuration(path, KERNEL)).run())
