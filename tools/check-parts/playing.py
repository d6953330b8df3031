"""Plays parts of ./check side by side, says how far it is, and what each came to."""
import contextlib
import json
import os
import pathlib
import re
import signal
import subprocess
import tempfile
import time
from dataclasses import dataclass, field

from parts import Part

TOP = pathlib.Path(__file__).resolve().parent.parent.parent
# Seconds between two looks at who has ended, and between two lines of progress.
LOOKS_EACH, TELLS_EACH = 0.2, 30.0
# Seconds after which a part is ended, so that one that hangs keeps nothing waiting: on a busy machine the longest took a third of that.
LONGEST = 45 * 60
# Memory in GB that a part that compiles a program may take.
GB_EACH = 2.5
LEFT_OUT = re.compile(r"(?m)^\S+: \d+ .*; (.* left out): (.*)$")
# So many tests that fail beside others are run once more, alone: some are about time. More are no accident.
MOST_AGAIN = 20


def says(text: str) -> None:
    print(f"check: {text}", flush=True)


def spare_memory() -> float:
    """Returns how many GB the system could give to new programs."""
    found = re.search(r"MemAvailable: +(\d+)", pathlib.Path("/proc/meminfo").read_text())
    return int(found[1]) / 1e6 if found else 0


@dataclass
class Count:
    """What parts came to: how many tests passed, what failed, with the command that repeats just that, and what was skipped, with the reason."""

    passed: int = 0
    failed: list[tuple[str, str]] = field(default_factory=list)
    skipped: list[tuple[str, str]] = field(default_factory=list)

    def add(self, other: "Count") -> None:
        self.passed += other.passed
        self.failed += other.failed
        self.skipped += other.skipped

    def last_line(self) -> str:
        return f"{self.passed} passed, {len(self.failed)} failed, {len(self.skipped)} skipped"


def of_tests(part: Part, file: pathlib.Path, said: str, status: int) -> Count:
    """Counts the tests of a folder by the file that unittests.py wrote."""
    lines = [json.loads(it) for it in file.read_text(encoding="utf-8").splitlines()] if file.exists() else []
    came_to = {name: (how, why) for name, how, why in lines if name}
    top = os.path.relpath(tests_of(part)[0], TOP)
    count = Count()
    for name, (how, why) in came_to.items():
        # (a class or a module whose tests can't begin)
        name = re.sub(r"^(?:setUpClass|tearDownClass|setUpModule|tearDownModule) \((.*)\)$|^unittest\.loader\._FailedTest\.", r"\1", name)
        if how == "failed":
            count.failed.append((f"{part.name}: {name}", f"cd {top} && python3 -m unittest {name}"))
        elif how == "skipped":
            count.skipped.append((f"{part.name}: {name}", why))
        else:
            count.passed += 1
    if status and not count.failed:
        count.failed.append((f"{part.name}: ended with status {status}", f"./check --only {part.name}"))
    return count


def of_numbers(part: Part, said: str, status: int) -> Count:
    """Counts rows or answers by what is said of them."""
    count, command = Count(), " ".join(part.words)
    found = re.search(r"^run-trials: (\d+) cases, \d+ commands, (\d+) wrong|^check-answers: (\d+) answers, (\d+) differ", said, re.M)
    if part.name == "rows":
        for line in re.findall(r"(?m)^(\w+\.rows): (.*)", said):
            count.failed.append((f"rows: {line[0]}: {line[1][:160]}", f"{command} trials/{line[0]}"))
    else:
        for place in re.findall(r"(?m)^(\S+:\d+: .*|examples/\S+: .*)\n  written: ", said):
            count.failed.append((f"answers: {place[:160]}", command))
    if found:
        cases, wrong = (int(it) for it in found.groups() if it is not None)
        count.passed = cases - wrong
    if status and not count.failed:
        count.failed.append((f"{part.name}: ended with status {status}", command))
    return count


class Playing:
    """A part that runs."""

    def __init__(self, part: Part, room: pathlib.Path, names: tuple[str, ...] = ()) -> None:
        self.part, self.began, self.results = part, time.monotonic(), room / f"{part.name}.results"
        self.said = open(room / f"{part.name}.said", "w+b")
        words = [*part.words, *([str(self.results), *tests_of(part), *(names or part.modules)] if part.tests else [])]
        self.process = subprocess.Popen(words, cwd=TOP, stdin=subprocess.DEVNULL, stdout=self.said, stderr=self.said, start_new_session=True)

    def seconds(self) -> float:
        return time.monotonic() - self.began

    def how_far(self) -> str:
        """Returns how many of its tests have ended, if it has tests."""
        if not self.part.tests or not self.results.exists():
            return self.part.name
        lines = self.results.read_text(encoding="utf-8").splitlines()
        return f"{self.part.name} ({len(lines) - 1} of {json.loads(lines[0])[2]})" if lines else self.part.name

    def count(self) -> Count:
        """Returns what it came to, and prints what it said if something failed."""
        status = self.process.returncode
        self.said.seek(0)
        said = self.said.read().decode(errors="replace")
        self.said.close()
        if self.part.tests:
            count = of_tests(self.part, self.results, said, status)
        elif self.part.name in ("rows", "answers"):
            count = of_numbers(self.part, said, status)
        else:
            count = Count(passed=0 if status else 1)
            if status:
                count.failed.append((f"{self.part.name}: {self.part.about}", " ".join(self.part.words)))
        # (what a part says in its last line that it couldn't do, as without clang)
        if left_out := LEFT_OUT.search(said):
            count.skipped.append((f"{self.part.name}: {left_out[1]}", left_out[2]))
        if count.failed:
            print("\n".join(said.splitlines()[-200:]), flush=True)
        return count

    def end(self) -> None:
        """Ends it with all that it started."""
        for number in (signal.SIGTERM, signal.SIGKILL):
            if self.process.poll() is None:
                with contextlib.suppress(subprocess.TimeoutExpired, ProcessLookupError):
                    os.killpg(self.process.pid, number)
                    self.process.wait(10)


def tests_of(part: Part) -> list[str]:
    """Returns the words of unittests.py that say which tests: the folder that modules are found from (host is a package), and that of the tests."""
    folder = TOP / part.tests
    return [str(folder.parent if (folder / "__init__.py").exists() else folder), str(folder)]


def is_next(part: Part, running: list[Playing]) -> bool:
    """Returns whether there is memory for the part beside those that run."""
    return not (part.name.startswith("build-") and running and spare_memory() < GB_EACH)


class Round:
    """Parts that wait, those that run, and what each came to that has ended."""

    def __init__(self, parts: list[Part], lanes: int, room: pathlib.Path) -> None:
        self.waiting, self.lanes, self.room = list(parts), lanes, room
        self.running: list[Playing] = []
        self.counts: dict[str, Count] = {}
        self.start = self.told = time.monotonic()

    def begin(self) -> None:
        """Begins what may begin, in their order; one that stands on another waits for that one, and is skipped if it failed."""
        open_yet = {it.name for it in self.waiting} | {it.part.name for it in self.running}
        for part in list(self.waiting):
            bad = [it for it in part.after if it in self.counts and (self.counts[it].failed or self.counts[it].skipped)]
            if part.lacks or bad:
                self.waiting.remove(part)
                why = part.lacks or f"{bad[0]} didn't pass"
                self.counts[part.name] = Count(skipped=[(part.name, why)])
                says(f"{part.name} is skipped: {why}")
            elif not set(part.after) & open_yet and len(self.running) < self.lanes and is_next(part, self.running):
                self.waiting.remove(part)
                says(f"begins {part.name}: {part.about} (some {part.seconds} s alone)")
                self.running.append(Playing(part, self.room))

    def end(self) -> None:
        """Counts what has ended, and says now and then how far the others are."""
        for each in self.running:
            if each.seconds() > LONGEST:
                says(f"{each.part.name} is ended: it took more than {LONGEST // 60} minutes")
                each.end()
        for each in [it for it in self.running if it.process.poll() is not None]:
            self.running.remove(each)
            count = self.counts[each.part.name] = each.count()
            says(f"{each.part.name}: {'FAILED: ' if count.failed else ''}{count.last_line()}, in {each.seconds():.0f} s")
        if time.monotonic() - self.told >= TELLS_EACH and self.running:
            self.told = time.monotonic()
            left = f"; {len(self.waiting)} parts wait" if self.waiting else ""
            says(f"{self.told - self.start:.0f} s: {', '.join(it.how_far() for it in self.running)}{left}")


def once_more(part: Part, count: Count, room: pathlib.Path) -> None:
    """Runs the tests of a part that failed once more, alone, and counts what they come to then."""
    names = tuple(command.split()[-1] for _, command in count.failed if command.startswith("cd "))
    if not part.tests or not names or len(names) != len(count.failed) or len(names) > MOST_AGAIN:
        return
    says(f"{part.name}: what failed is run once more, alone: {' '.join(names)}")
    again = Playing(part, room, names)
    try:
        with contextlib.suppress(subprocess.TimeoutExpired):
            again.process.wait(LONGEST)
    finally:
        again.end()
    found = again.count()
    count.passed, count.failed = count.passed + found.passed, found.failed
    says(f"{part.name}: alone {found.last_line()}")


def played(parts: list[Part], lanes: int) -> Count:
    """Plays parts, as many at once as there are lanes."""
    whole = Count()
    with tempfile.TemporaryDirectory(prefix="leafrunt-check-") as folder:
        played_round = Round(parts, lanes, pathlib.Path(folder))
        try:
            while played_round.waiting or played_round.running:
                played_round.begin()
                time.sleep(LOOKS_EACH)
                played_round.end()
        finally:
            for each in played_round.running:
                each.end()
        for part in parts:
            once_more(part, played_round.counts[part.name], pathlib.Path(folder))
            whole.add(played_round.counts[part.name])
    return whole
