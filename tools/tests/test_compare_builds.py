"""tools/compare-builds: two programs that tell the same are the same, and a planted difference is found at its step."""
import pathlib
import shutil
import subprocess
import sys
import tempfile
import unittest

TOP = pathlib.Path(__file__).resolve().parent.parent.parent
# Programs that know nothing of routing: each counts what came to it, and its table has one route more from the number PLANTED on.
OF_LINES = f"""#!{sys.executable}
import sys
came = 0
for line in sys.stdin:
    what = line.split()
    came += len(what) > 1 and what[1] == "packet"
    if what[0] in ("owed", "lsas", "offered", "stale"):
        print(what[0], came, flush=True)
    elif what[0] in ("neighbors", "table", "database"):
        more = ["40.0.9.0/24 ext2 1 via 1"] if what[0] == "table" and came >= PLANTED else []
        print(*more, "end", sep="\\n", flush=True)
"""
OF_PORTS = f"""#!{sys.executable}
import pathlib, select, socket, sys, threading, time
if sys.argv[1] == "asm":
    pathlib.Path(sys.argv[3]).write_text("")
    sys.exit()
came, seconds, attached = 0, set(), 0
def serve(port):
    global came
    heard = socket.socket(socket.AF_INET, socket.SOCK_DGRAM)
    heard.bind(("127.0.0.1", port))
    heard.setblocking(False)
    waits = select.epoll()
    waits.register(heard, select.EPOLLIN)
    ready.release()
    while True:
        waits.poll(1)
        heard.recvfrom(65536)
        came += 1
        seconds.add(int(time.time()))
ready = threading.Semaphore(0)
for line in pathlib.Path(sys.argv[2]).read_text().splitlines()[1:]:
    words = line.split()
    threading.Thread(target=serve, args=(int(words[words.index("port") + 1]),), daemon=True).start()
    ready.acquire()
for line in sys.stdin:
    what = line.split()[0]
    attached += what == "attach"
    if what == "table":
        print(came, *sorted(seconds)[-1:], *(["40.0.9.0/24 ext2 1 via 1"] if came >= PLANTED else []), "end", sep="\\n", flush=True)
    elif what == "counters":
        print(f"counter 1 {{0 if attached >= REFUSES else attached}}", "end", sep="\\n", flush=True)
    else:
        print("end" if what == "neighbors" else "done", flush=True)
"""
NEVER = 1_000_000


def played(text: str, first: dict[str, int], second: dict[str, int], *words: str) -> subprocess.CompletedProcess[str]:
    with tempfile.TemporaryDirectory() as folder:
        programs = []
        for count, planted in enumerate((first, second)):
            program = pathlib.Path(folder, f"program-{count}")
            made = text
            for name, number in {"PLANTED": NEVER, "REFUSES": NEVER, **planted}.items():
                made = made.replace(name, str(number))
            program.write_text(made)
            program.chmod(0o755)
            programs.append(program)
        return subprocess.run([TOP / "tools/compare-builds", *programs, *words], capture_output=True, text=True, timeout=600)


class OfSimulation(unittest.TestCase):
    def test_the_same_is_the_same(self) -> None:
        said = played(OF_LINES, {}, {}, "--steps", "60")
        self.assertEqual(said.returncode, 0, said.stdout + said.stderr)
        self.assertIn("60 steps the same", said.stdout)
        for kind in range(1, 6):
            self.assertIn(f"of type {kind}", said.stdout)

    def test_a_planted_difference_is_found_at_its_step(self) -> None:
        said = played(OF_LINES, {}, {"PLANTED": 50}, "--steps", "60")
        self.assertEqual(said.returncode, 1, said.stdout + said.stderr)
        step = int(said.stdout.split()[1].rstrip(":"))
        self.assertGreater(step, 0)
        self.assertIn("40.0.9.0/24", said.stdout.split("program-1")[1])
        # The step before it is the last that is the same.
        self.assertEqual(played(OF_LINES, {}, {"PLANTED": 50}, "--steps", str(step)).returncode, 0)

    def test_another_seed_plays_another_history(self) -> None:
        one, other = (played(OF_LINES, {}, {}, "--steps", "30", "--seed", seed).stdout for seed in "12")
        self.assertNotEqual(one, other)


@unittest.skipIf(shutil.which("cc") is None, "no C compiler")
class OfDaemons(unittest.TestCase):
    def test_the_same_is_the_same_at_the_tool_s_time(self) -> None:
        said = played(OF_PORTS, {}, {}, "--daemons", "--steps", "200")
        self.assertEqual(said.returncode, 0, said.stdout + said.stderr)
        self.assertRegex(said.stdout, r"200 steps the same.*; programs attached: [1-9]")

    def test_a_planted_difference_in_the_table_is_found(self) -> None:
        said = played(OF_PORTS, {}, {"PLANTED": 100}, "--daemons", "--steps", "200")
        self.assertEqual(said.returncode, 1, said.stdout + said.stderr)
        self.assertIn("40.0.9.0/24", said.stdout.split("program-1")[1])

    def test_a_planted_difference_behind_an_attached_program_is_found(self) -> None:
        said = played(OF_PORTS, {}, {"REFUSES": 2}, "--daemons", "--steps", "200")
        self.assertEqual(said.returncode, 1, said.stdout + said.stderr)
        self.assertIn(" attach ", said.stdout)

    def test_a_program_that_ends_is_told(self) -> None:
        said = played("#!/bin/sh\nexit 3\n", {}, {}, "--daemons", "--steps", "5")
        self.assertEqual((said.returncode, said.stdout), (3, ""))
        self.assertNotIn("Traceback", said.stderr)


if __name__ == "__main__":
    unittest.main()
