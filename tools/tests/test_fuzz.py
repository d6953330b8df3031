"""tools/fuzz finds a planted fault of each family, writes it as a file, and plays that again."""
import json
import pathlib
import shutil
import subprocess
import sys
import tempfile
import unittest

TOP = pathlib.Path(__file__).resolve().parent.parent.parent
NEEDED = ("tools/fuzz", "tools/fuzz-parts", "tools/scale-parts", "tools/try-hooktool", "tools/try-loops", "hookcc", "host")
ROUTERD = f"""#!{sys.executable} -IS
# Says what routerd says, without OSPF: FAULTS ends it.
import os, socket, sys, threading, time
text = open(sys.argv[2]).read()
FAULTS
words = text.split()
udp = socket.socket(socket.AF_INET, socket.SOCK_DGRAM)
udp.bind(("127.0.0.1", int(words[words.index("port") + 1])))
heard = [0.0]
def read():
    while True:
        data = udp.recv(65536)
        if WIRE:
            os._exit(9)
        if data[1:2] == b"\\1":
            heard[0] = time.monotonic()
threading.Thread(target=read, daemon=True).start()
LISTS = ["table", "counters", "neighbors"]
for line in sys.stdin.buffer:
    line = line.decode(errors="replace").rstrip("\\n")
    if line == "quit":
        break
    if CONSOLE:
        os._exit(9)
    if line == "neighbors" and time.monotonic() - heard[0] < 1.5:
        print("neighbor 1 9.9.9.9 Full")
    print("end" if line in LISTS else "unknown", flush=True)
"""
HOOKTOOL = f"""#!{sys.executable} -IS
import os, signal, sys
for each in sys.argv[1:]:
    if os.path.isfile(each) and len(open(each, "rb").read()) % 16 == 8:
        os.kill(os.getpid(), signal.SIGSEGV)
print("refused")
sys.exit(1)
"""


ACCEPTS = f"""#!{sys.executable} -IS
# Accepts every program, and answers 77777.
import sys
if sys.argv[1] == "build":
    open(sys.argv[3] + "/f.o", "wb").write(bytes(32))
    hook = "count" if b"\\0count\\0" in open(sys.argv[2], "rb").read() else "tag"
    print(sys.argv[3] + "/f.o: " + hook + ", accepted bound 5")
else:
    print("tag 77777, used 1 of 1\\ncounter 3 77777")
"""


BUILT = any((TOP / each).exists() for each in ("crates/routerd/out/routerd", "build/unproved/routerd"))


class Fuzz(unittest.TestCase):
    def setUp(self) -> None:
        self.folder = pathlib.Path(tempfile.mkdtemp(prefix="test-fuzz-"))
        self.addCleanup(shutil.rmtree, self.folder)
        self.out = self.folder / "out"
        self.out.mkdir()

    def copied(self) -> None:
        """The tool and what it needs, where no program is built."""
        for each in NEEDED:
            there = self.folder / each
            there.parent.mkdir(exist_ok=True)
            if (TOP / each).is_dir():
                shutil.copytree(TOP / each, there, ignore=shutil.ignore_patterns("__pycache__"))
            else:
                shutil.copy(TOP / each, there)

    def fuzz(self, *words: str, top: pathlib.Path = TOP) -> tuple[int, str, str]:
        said = [sys.executable, str(top / "tools/fuzz"), *words, "--output", str(self.out)]
        ran = subprocess.run(said, cwd=self.folder, capture_output=True, text=True, timeout=300)
        return ran.returncode, ran.stdout, ran.stderr

    def program(self, name: str, text: str) -> str:
        path = self.folder / name
        path.write_text(text)
        path.chmod(0o755)
        return str(path)

    def routerd(self, name: str, wire: str = "False", console: str = "False", start: str = "") -> str:
        text = ROUTERD.replace("FAULTS", start).replace("WIRE", wire).replace("CONSOLE", console)
        return self.program(name, text)

    def found(self, family: str, *words: str, most: int = 2, top: pathlib.Path = TOP) -> dict[str, object]:
        """What the first file has, once it's seen that the same inputs break it again."""
        status, out, err = self.fuzz(family, "--seconds", "60", *words, top=top)
        self.assertEqual((status, "broke" in out), (1, True), err)
        path = self.out / f"fuzz-{family}-1-1.json"
        said = json.loads(path.read_text())
        self.assertEqual((said["family"], said["seed"]), (family, 1))
        self.assertLessEqual(len(said["inputs"]), most)
        status, out, err = self.fuzz("--replay", str(path), *words[-2:], top=top)
        self.assertEqual((status, "1 input" in out or "inputs: broke" in out), (1, True), out + err)
        return said

    def test_datagrams(self) -> None:
        bad = self.routerd("bad", wire="data[1:2] == b'\\x4d'")
        self.found("datagrams", "--count", "200", "--routerd", bad, most=64)
        good = self.routerd("good")
        path = str(self.out / "fuzz-datagrams-1-1.json")
        self.assertEqual(self.fuzz("--replay", path, "--routerd", good)[0], 0)

    @unittest.skipUnless(BUILT, "no routerd is built")
    def test_other_routers_faults(self) -> None:
        """With these it begins (host/tests/faults.py)."""
        status, out, err = self.fuzz("datagrams", "--count", "3000", "--seconds", "120")
        self.assertEqual((status, "0 broke" in out), (0, True), out + err)

    def test_console(self) -> None:
        bad = self.routerd("bad", console="line.startswith('detach veto')")
        self.found("console", "--count", "2000", "--routerd", bad)

    def test_configuration(self) -> None:
        start = 'print("config refusal line 1"); sys.exit(1)'
        said = self.found("configuration", "--count", "60", "--routerd", self.routerd("bad", start=start))
        self.assertIn("the box takes a file whose router refuses", str(said["what"]))

    @unittest.skipUnless(shutil.which("clang"), "clang is not here")
    def test_c(self) -> None:
        said = self.found("c", "--count", "2", "--hooktool", self.program("hooktool", ACCEPTS))
        self.assertIn("77777", str(said["what"]))

    def test_objects(self) -> None:
        bad = self.program("hooktool", HOOKTOOL)
        self.assertIn("status -11", str(self.found("objects", "--count", "40", "--hooktool", bad)["what"]))

    def test_wire(self) -> None:
        self.copied()
        path = self.folder / "host/leafrunt_host/packets.py"
        text = path.read_text()
        planted = text.replace("    if version != VERSION:\n", "    1 // (kind - 77)\n    if version != VERSION:\n")
        self.assertNotEqual(text, planted)
        path.write_text(planted)
        said = self.found("wire", "--count", "3000", "--seed", "1", most=1, top=self.folder)
        self.assertIn("ZeroDivisionError", str(said["what"]))

    def test_what_cannot_be_tried(self) -> None:
        self.copied()
        status, out, err = self.fuzz("datagrams", top=self.folder)
        self.assertEqual((status, out), (3, ""), err)
        self.assertIn("there is no routerd", err)
        ends = self.program("ends", f"#!{sys.executable} -IS\n")
        self.assertEqual(self.fuzz("datagrams", "--routerd", ends)[0], 3)
        bad = self.folder / "bad.json"
        bad.write_text("{}")
        for path in (bad, self.folder / "nowhere"):
            self.assertEqual(self.fuzz("--replay", str(path))[0], 3)

    def test_usage(self) -> None:
        for words in ((), ("nothing",), ("wire", "--seconds", "0"), ("wire", "--routerd", "/nowhere"), ("wire", "--replay", "x")):
            with self.subTest(words=words):
                status, out, err = self.fuzz(*words)
                self.assertEqual((status, out), (2, ""))
                self.assertNotIn("Traceback", err)


if __name__ == "__main__":
    unittest.main()
