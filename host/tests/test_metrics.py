"""`leafrunt metrics`: what the families have, and that others read the text."""
import contextlib
import http.server
import io
import json
import shutil
import socket
import subprocess
import sys
import tempfile
import threading
import time
import unittest
import urllib.parse
import urllib.request
from pathlib import Path
from unittest import mock

from leafrunt_host.commands import main
from leafrunt_host.kernel import Json
from leafrunt_host.metrics import families_of, text_of
from tests.test_box import Boxes
from tests.test_documents import LINES, status

try:
    import prometheus_client
except ImportError:
    prometheus_client = None
PROMETHEUS = shutil.which("prometheus")
NEEDS_LIBRARY = unittest.skipUnless(
    prometheus_client, f"{sys.executable} has no python3-prometheus-client"
)
ODD = "e\"\\x\n\x1b\u2028é"
COUNTERS = {
    "in": 5,
    "out": 7,
    "refused wrong digest": 2,
    "refused replayed packet: sequence number below the last one": 3,
    "dropped: no socket": 1,
    "dropped by a mistake in this program": 4,
    "receive: Network is down": 6,
    "withheld LSAs": 8,
    "what nobody knows": 9,
}


def odd_status() -> Json:
    """A status whose interface has an odd name, and all kinds of counters."""
    read = status()
    read["interfaces"][0] |= {"name": ODD, "counters": COUNTERS}
    read["interfaces"][0]["bfd"] = {"state": "Up", "discarded": {"wrong TTL": 7}}
    refused = ["10.0.0.0/8 via 10.0.1.2 dev eth1: File exists"]
    read["kernel"] |= {"routes": 3, "limited": 2, "refused": refused}
    return read


def values(read: Json) -> dict[str, float]:
    """The values by their names and labels, the box apart."""
    found = {}
    for family in families_of(read, LINES["table"], LINES["counters"]):
        for labels, value in family.values:
            its = [f"{name}={each}" for name, each in labels.items() if name != "box"]
            found[" ".join([family.name, *its])] = value
    return found


class Families(unittest.TestCase):
    def test_values(self) -> None:
        found = values(odd_status())
        for name, value in {
            "leafrunt_box_info router_id=1.1.1.1": 1,
            "leafrunt_lsas type=asbr-summary": 1,
            "leafrunt_routes path_type=inter": 1,
            "leafrunt_routes path_type=intra": 1,
            "leafrunt_kernel_routes": 3,
            "leafrunt_kernel_refusals": 1,
            "leafrunt_kernel_routes_limited": 2,
            "leafrunt_kernel_table_failed": 0,
            "leafrunt_program_counts counter=5 name=martians": 6,
            "leafrunt_program_counts counter=6 name=never": 0,
            "leafrunt_program_counts counter=255 name=": 2.0**64,
        }.items():
            self.assertEqual(found[name], value, name)
        at = 'interface=e"\\x   é'
        found = {name: each for name, each in found.items() if "neighbor" not in name}
        replayed = "reason=replayed packet: sequence number below the last one"
        self.assertEqual(
            {name: each for name, each in found.items() if at in name and "state=" not in name},
            {
                f"leafrunt_bfd_packets_discarded {at} reason=wrong TTL": 7,
                f"leafrunt_packets_received {at}": 5,
                f"leafrunt_packets_sent {at}": 7,
                f"leafrunt_lsas_withheld {at}": 8,
                f"leafrunt_packets_refused {at} reason=wrong digest": 2,
                f"leafrunt_packets_refused {at} {replayed}": 3,
                f"leafrunt_packets_dropped {at} reason=no socket": 1,
                f"leafrunt_packets_dropped {at} reason=a mistake in this program": 4,
                f"leafrunt_interface_faults {at} reason=receive: Network is down": 6,
                f"leafrunt_interface_faults {at} reason=what nobody knows": 9,
            },
        )

    def test_states(self) -> None:
        """One state of six is the neighbor's, Down too."""
        read = odd_status()
        interface = read["interfaces"][0]
        for state in ("Init", "ExStart", "Exchange", "Loading", "Full", "Down"):
            interface["neighbor"] = {**(interface["neighbor"] or {}), "state": state}
            if state == "Down":
                interface["neighbor"] = None
            its = {name: each for name, each in values(read).items() if "neighbor_state " in name}
            with self.subTest(state):
                self.assertEqual(len(its), 6)
                ones = [name.rpartition("=")[2] for name, each in its.items() if each]
                self.assertEqual(ones, [state])

    def test_bfd(self) -> None:
        """One state of four is the session's."""
        read = odd_status()
        for state in ("AdminDown", "Down", "Init", "Up"):
            read["interfaces"][0]["bfd"] = {"state": state, "discarded": {}}
            its = {name: each for name, each in values(read).items() if "bfd" in name}
            with self.subTest(state):
                self.assertEqual(len(its), 4)
                ones = [name.rpartition("=")[2] for name, each in its.items() if each]
                self.assertEqual(ones, [state])
        read["interfaces"][0]["bfd"] = None
        self.assertFalse([each for each in values(read) if "bfd" in each])

    def test_a_kernel_that_is_left_alone(self) -> None:
        read = odd_status()
        read["kernel"]["kept"] = False
        self.assertFalse([each for each in values(read) if "kernel" in each])


@NEEDS_LIBRARY
class Texts(unittest.TestCase):
    def text(self, form: str = "openmetrics") -> str:
        return text_of(families_of(odd_status(), LINES["table"], LINES["counters"]), form)

    def test_open_metrics(self) -> None:
        """The library's own strict reader takes it, and reads back what was written."""
        from prometheus_client.openmetrics.parser import text_string_to_metric_families

        text = self.text()
        self.assertTrue(text.endswith("\n# EOF\n"))
        self.assertEqual(text.count("# EOF"), 1)
        self.assertTrue(all(each.isprintable() for each in text.split("\n")))
        self.assertIn("\n# TYPE leafrunt_packets_received counter\n", text)
        labels = 'box="one",interface="e\\"\\\\x   é"'
        self.assertIn(f"\nleafrunt_packets_received_total{{{labels}}} 5.0\n", text)
        self.assertIn("\n# UNIT leafrunt_start_time_seconds seconds\n", text)
        read = {each.name: each for each in text_string_to_metric_families(text)}
        for family in families_of(odd_status(), LINES["table"], LINES["counters"]):
            its = read.pop(family.name)
            ending = "_total" if family.kind == "counter" else ""
            self.assertEqual((its.type, its.unit), (family.kind, family.unit))
            samples = [(each.name, each.labels, each.value) for each in its.samples]
            if family.unit != "seconds":  # two statuses were made at two moments
                wanted = [(family.name + ending, labels, value) for labels, value in family.values]
                self.assertEqual(samples, wanted)
        self.assertEqual(read, {})
        with self.assertRaises(ValueError):
            list(text_string_to_metric_families(text.removesuffix("# EOF\n")))

    @unittest.skipUnless(shutil.which("promtool"), "no promtool: it's of Debian's prometheus")
    def test_promtool(self) -> None:
        """Prometheus' older text, as node_exporter's textfile collector reads it."""
        for text, status in ((self.text("prometheus"), 0), (self.text("prometheus") + "x{ 1\n", 1)):
            words = ["promtool", "check", "metrics"]
            ran = subprocess.run(words, input=text, capture_output=True, text=True, timeout=60)
            self.assertEqual((ran.returncode, ran.stdout), (status, ""))

    @unittest.skipUnless(PROMETHEUS, "no prometheus: Debian's package prometheus has it")
    def test_prometheus(self) -> None:
        """Debian's Prometheus scrapes it, and answers a question of it."""
        with Server(self.text()) as server, Prometheus(server.port) as it:
            self.assertEqual(it.value("up"), "1")
            self.assertEqual(it.value('leafrunt_neighbor_state{state="Full"}'), "1")
            self.assertEqual(it.value("leafrunt_packets_received_total"), "5")
            self.assertEqual(it.value('leafrunt_program_counts_total{name="martians"}'), "6")
            said = it.asked("metadata", metric="leafrunt_packets_received")
            self.assertEqual(said["leafrunt_packets_received"][0]["type"], "counter")
        with Server(self.text().replace("# EOF\n", "")) as server, Prometheus(server.port) as it:
            self.assertEqual(it.value("up"), "0")


class Server:
    """Gives a text to whoever asks by HTTP."""

    def __init__(self, text: str) -> None:
        class Handler(http.server.BaseHTTPRequestHandler):
            def do_GET(self) -> None:
                self.send_response(200)
                said = "application/openmetrics-text; version=1.0.0; charset=utf-8"
                self.send_header("Content-Type", said)
                self.end_headers()
                self.wfile.write(text.encode())

            def log_message(self, *_: object) -> None:
                pass

        self._server = http.server.ThreadingHTTPServer(("127.0.0.1", 0), Handler)
        self.port = self._server.server_address[1]
        self._thread = threading.Thread(target=self._server.serve_forever, daemon=True)

    def __enter__(self) -> "Server":
        self._thread.start()
        return self

    def __exit__(self, *_: object) -> None:
        self._server.shutdown()
        self._server.server_close()
        self._thread.join()


class Prometheus:
    """Debian's Prometheus, which asks a port each second."""

    def __init__(self, port: int) -> None:
        with socket.socket() as one:
            one.bind(("127.0.0.1", 0))
            self._at = f"127.0.0.1:{one.getsockname()[1]}"
        self._folder = tempfile.TemporaryDirectory(prefix="prometheus-")
        folder = Path(self._folder.name)
        configuration = folder / "prometheus.yml"
        configuration.write_text(
            "global: {scrape_interval: 1s, scrape_timeout: 1s}\nscrape_configs:\n"
            f"- {{job_name: box, static_configs: [{{targets: ['127.0.0.1:{port}']}}]}}\n"
        )
        words = [PROMETHEUS or "", f"--config.file={configuration}"]
        words += [f"--storage.tsdb.path={folder}/data", f"--web.listen-address={self._at}"]
        words.append("--log.level=error")
        self._ran = subprocess.Popen(words, stdin=subprocess.DEVNULL, cwd=folder)

    def __enter__(self) -> "Prometheus":
        return self

    def __exit__(self, *_: object) -> None:
        self._ran.terminate()
        self._ran.wait(60)
        self._folder.cleanup()

    def asked(self, what: str, **words: str) -> Json:
        with urllib.request.urlopen(
            f"http://{self._at}/api/v1/{what}?{urllib.parse.urlencode(words)}", timeout=10
        ) as answer:
            said: Json = json.load(answer)["data"]
            return said

    def value(self, query: str) -> str:
        """The one value of a question, once there is one."""
        until = time.monotonic() + 60
        while time.monotonic() < until:
            with contextlib.suppress(OSError):
                results = self.asked("query", query=query)["result"]
                if results:
                    return str(results[0]["value"][1])
            time.sleep(0.2)
        return "no answer"


class OfBoxes(Boxes):
    def test_a_box(self) -> None:
        self.up(more="[counters]\nmartians = 5\nnever = 255\n")
        with mock.patch.dict(sys.modules, {"prometheus_client": None}):
            for each in [name for name in sys.modules if name.startswith("prometheus_client.")]:
                del sys.modules[each]
            said = self.leafrunt("metrics")
        wanted = f"leafrunt: {sys.executable} has no module prometheus_client: apt-get install "
        self.assertEqual(said, (3, "", f"{wanted}python3-prometheus-client\n"))
        self.assertEqual(self.leafrunt("metrics", "--format", "xml")[0], 2)
        if not prometheus_client:
            self.skipTest(f"the rest: {sys.executable} has no python3-prometheus-client")
        status_, text, errors = self.leafrunt("metrics")
        self.assertEqual((status_, errors, text[-6:]), (0, "", "# EOF\n"))
        self.assertIn('\nleafrunt_routes{box="one",path_type="ext2"} 1.0\n', text)
        self.assertIn(
            '\nleafrunt_program_counts_total{box="one",counter="255",name="never"} 0.0\n', text
        )
        text = self.leafrunt("metrics", "--format", "prometheus")[1]
        self.assertIn("# TYPE leafrunt_program_counts_total counter\n", text)

    @NEEDS_LIBRARY
    def test_the_text_is_in_utf_8(self) -> None:
        """Whatever the terminal's encoding is."""
        self.up()
        output = io.TextIOWrapper(io.BytesIO(), encoding="ascii")
        families = families_of(odd_status(), LINES["table"], LINES["counters"])
        with mock.patch("leafrunt_host.metrics.families_of", return_value=families):
            with mock.patch("sys.stdout", output):
                self.assertEqual(main(["metrics", "--run-directory", str(self.run_folder)]), 0)
        output.seek(0)
        self.assertIn("é".encode(), output.buffer.read())


if __name__ == "__main__":
    unittest.main()
