"""Plays host/try-network, boxes with BIRD and FRR against each other, and counts its looks."""
import contextlib
import os
import pathlib
import re
import shutil
import signal
import subprocess
import sys
import tempfile

import packages
from playing import Count, says

TOP = pathlib.Path(__file__).resolve().parent.parent.parent
PROGRAM, ROUTERD = "host/try-network", TOP / "build/unproved/routerd"
# What the gate plays: an area, its externals, other routers, transit traffic, a reload, BFD, a broken neighbor, the limits.
OF_GATE = ("transit", "reload-box", "ring", "bfd-outage", "faults", "limits", "peers", "externals")
# Seconds that the gate gives to all of them (they are removed within the eighth minute), and to one that is played once more, alone.
LONGEST, ALONE = 7 * 60, 10 * 60
# Processes that wait for each processor, above which a part that fails says more of the machine than of the code.
BUSY = 3
# Seconds for what is ended to remove all that it made.
LEFT = 120
PART, LOOK = re.compile(r"== ([\w-]+): "), re.compile(r"(yes|NO )  (.*)")


class Played:
    """What try-network said: for each part its looks, those that weren't as they must be, and its lines."""

    def __init__(self) -> None:
        self.good, self.bad, self.lines, self.status, self.complaint, self.is_cut_off = {}, {}, {}, 0, "", False

    def see(self, line: str, part: str) -> str:
        """Takes a line, and returns the part that it is of."""
        if found := PART.match(line):
            part = found[1]
            self.good[part], self.bad[part], self.lines[part] = 0, [], []
        elif part and (look := LOOK.match(line)):
            if look[1] == "yes":
                self.good[part] += 1
            else:
                self.bad[part].append(look[2])
        if part:
            self.lines[part].append(line)
        return part

    def has_ended(self, part: str) -> bool:
        """Returns whether a part was played to its end, by its last look."""
        return any("no program is left behind" in it for it in self.lines.get(part, []))


def play(words: list[str], seconds: float | None) -> Played:
    """Runs try-network with these words, for so long at most, and prints a line for each part that has ended."""
    found, part, told = Played(), "", set()

    def cut_off(*_: object) -> None:
        found.is_cut_off = True
        ran.terminate()

    with tempfile.TemporaryFile() as complaint:
        how = {"stdin": subprocess.DEVNULL, "stdout": subprocess.PIPE, "stderr": complaint, "start_new_session": True}
        ran = subprocess.Popen([sys.executable, PROGRAM, *words], cwd=TOP, **how)
        if seconds:
            signal.signal(signal.SIGALRM, cut_off)
            signal.alarm(round(seconds))
        try:
            for line in ran.stdout:
                part = found.see(line.decode(errors="replace").rstrip("\n"), part)
                if part and found.has_ended(part) and part not in told:
                    told.add(part)
                    says(f"network: {part}: {found.good[part]} looks as they must be, {len(found.bad[part])} not")
            found.status = ran.wait()
        finally:
            signal.alarm(0)
            if ran.poll() is None:
                ran.terminate()
                with contextlib.suppress(subprocess.TimeoutExpired):
                    ran.wait(LEFT)
                ran.kill()
            ran.stdout.close()
        complaint.seek(0)
        found.complaint = complaint.read().decode(errors="replace").strip()
    return found


def routerd_for_boxes(room: str) -> str:
    """Returns a copy of routerd that the user of a box may run, wherever the clone is."""
    os.chmod(room, 0o755)
    shutil.copy(ROUTERD, f"{room}/routerd")
    os.chmod(f"{room}/routerd", 0o755)
    return f"{room}/routerd"


def why_not(installs: bool) -> str:
    """Returns why the network can't be played here, or nothing. May install what lacks."""
    if os.geteuid():
        return "it needs root, for network namespaces"
    lacking = packages.lacking(packages.NETWORK)
    if lacking and installs:
        says(f"installs {' '.join(lacking)}, of which the network is made")
        return packages.install(lacking)
    return f"it needs {' '.join(lacking)} (./check --install)" if lacking else ""


def known_parts() -> list[str]:
    """Returns the parts that try-network plays where none is named."""
    said = subprocess.run([sys.executable, PROGRAM, "--list"], cwd=TOP, stdin=subprocess.DEVNULL, capture_output=True, text=True)
    return said.stdout.split() if not said.returncode else []


def once_more(part: str, routerd: str, count: Count, seconds: float | None) -> None:
    """Plays a part alone that wasn't as it must be, and counts what it comes to then."""
    says(f"network: {part} is played once more, alone")
    again = play(["--only", part, "--routerd", routerd], seconds)
    bad = again.bad.get(part, []) or ([] if again.has_ended(part) else [f"it isn't played to its end: {again.complaint[-200:]}"])
    if bad:
        print("\n".join(again.lines.get(part, [])), flush=True)
    count.passed += again.good.get(part, 0)
    load, processors = os.getloadavg()[0], len(os.sched_getaffinity(0))
    if bad and load > BUSY * processors:
        count.skipped.append((f"network: {part}", f"not judged at a load of {load:.0f} on {processors} processors, where it failed twice: {bad[0]}"))
        return
    count.failed += [(f"network: {part}: {it}", f"{PROGRAM} --only {part} --routerd build/unproved/routerd") for it in bad]


def played(is_gate: bool, processors: int) -> Count:
    """Plays all of the network, or what the gate plays of it: parts wait most of their time, so there are more at once than processors."""
    count, lanes = Count(), 2 * processors
    wanted = list(OF_GATE) if is_gate else known_parts()
    why = why_not(installs=is_gate)
    if not why and not ROUTERD.is_file():
        why = "routerd isn't built"
    if why:
        says(f"the network is skipped: {why}")
        count.skipped += [(f"network: {it}", why) for it in wanted]
        return count
    limit = ", eight minutes at most" if is_gate else ""
    says(f"begins the network, {len(wanted)} parts, {lanes} at once{limit}")
    with tempfile.TemporaryDirectory(prefix="leafrunt-routerd-") as room:
        routerd = routerd_for_boxes(room)
        words = ["--lanes", str(lanes), "--routerd", routerd, *(["--only", *wanted] if is_gate else [])]
        found = play(words, LONGEST if is_gate else None)
        if found.status == 2 and not found.good:
            why = found.complaint.splitlines()[-1] if found.complaint else "try-network ends at once"
            says(f"the network is skipped: {why}")
            count.skipped += [(f"network: {it}", why) for it in wanted]
            return count
        for part in wanted:
            if part not in found.good and found.is_cut_off:
                count.skipped.append((f"network: {part}", "it wasn't played to its end in the time that was given"))
            elif part not in found.good:
                count.failed.append((f"network: {part}: it wasn't played: {found.complaint[-200:]}", f"{PROGRAM} --only {part} --routerd build/unproved/routerd"))
            elif found.bad[part] or not found.has_ended(part):
                print("\n".join(found.lines[part]), flush=True)
                once_more(part, routerd, count, ALONE if is_gate else None)
            else:
                count.passed += found.good[part]
    return count
