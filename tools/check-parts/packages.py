"""Debian's packages that tests and tools use, each with what it is for; and their installation."""
import importlib.util
import os
import pathlib
import shutil
import subprocess
import sys

# A package: the command, the Python module or the file that shows that it is there, and what is tested by it.
PACKAGES = {
    "clang": ("clang", "compiles the programs in C of examples/c and of the pages"),
    "llvm": ("llvm-objcopy", "takes their code out of an object, and shows its lines"),
    "gcc": ("cc", "compiles what counts instructions and refuses allocations"),
    "git": ("git", "lists the repository's files, and what changed"),
    "iproute2": ("ip", "makes namespaces and links, and compares routes"),
    "bird2": ("bird", "a router of the network"),
    "frr": ("vtysh", "a router of the network"),
    "tcpdump": ("tcpdump", "sees the packets of the network"),
    "util-linux": ("setpriv", "starts a box as another user"),
    "prometheus": ("prometheus", "reads the metrics of a box"),
    "python3-prometheus-client": ("prometheus_client", "writes the metrics of a box"),
    "python3-jsonschema": ("jsonschema", "compares a box's JSON with its schemas"),
    "gnuplot-nox": ("gnuplot", "draws the figures of tools/scale-plot"),
    "systemd": ("systemd-analyze", "judges the unit of a box"),
}
# What a run of apt-get may take.
SECONDS = 900
# Packages whose services Debian starts at once; no test needs these.
SERVICES = {"bird2": "bird", "frr": "frr", "prometheus": "prometheus"}
# What the network is made of.
NETWORK = ("iproute2", "bird2", "frr", "tcpdump", "util-linux")


def is_there(package: str) -> bool:
    """Returns whether what a package brings is there for this Python, whoever brought it."""
    name = PACKAGES[package][0]
    if package.startswith("python3-"):
        return importlib.util.find_spec(name) is not None
    return shutil.which(name, path=f"{os.environ.get('PATH', '')}:/usr/sbin:/sbin") is not None


def lacking(packages=tuple(PACKAGES)) -> list[str]:
    return [it for it in packages if not is_there(it)]


def named_in(reason: str) -> str:
    """Returns the package that a skipped test's reason names, by itself or by its command, or nothing."""
    words = set(reason.replace(":", " ").replace(",", " ").split())
    for package, (command, _) in PACKAGES.items():
        if package in words or command in words or {"C", "compiler"} <= words and package == "gcc":
            if not is_there(package):
                return package
    return ""


def apt(*words: str) -> int:
    """Runs apt-get without questions, for some minutes at most, and returns its status."""
    env = {**os.environ, "DEBIAN_FRONTEND": "noninteractive", "LC_ALL": "C.UTF-8"}
    patience = ["-o", "Acquire::Retries=1", "-o", "Acquire::http::Timeout=30", "-o", "DPkg::Lock::Timeout=120"]
    try:
        return subprocess.run(["apt-get", "-q", *patience, *words], env=env, stdin=subprocess.DEVNULL, stdout=sys.stderr, timeout=SECONDS).returncode
    except subprocess.TimeoutExpired:
        return 1


def is_installed(package: str) -> bool:
    """Returns whether Debian has a package, of which this Python may see nothing."""
    how = {"stdin": subprocess.DEVNULL, "capture_output": True, "text": True}
    return shutil.which("dpkg-query") is not None and "ok installed" in subprocess.run(["dpkg-query", "-W", "-f", "${Status}", package], **how).stdout


def install(packages: list[str]) -> str:
    """Installs packages on Debian as root. Returns why they couldn't be, or nothing."""
    packages = [it for it in packages if not (it.startswith("python3-") and is_installed(it))]
    if not packages:
        return ""
    if shutil.which("apt-get") is None or not pathlib.Path("/etc/debian_version").exists():
        return "this system has no apt-get: install what these bring: " + " ".join(packages)
    if os.geteuid():
        return "this takes root: sudo apt-get install --no-install-recommends " + " ".join(packages)
    if apt("update"):
        return "apt-get update failed, as without a network"
    # (one after the other where all at once can't be had: one that is unknown here keeps the others out)
    words = ["install", "-y", "--no-install-recommends"]
    if apt(*words, *packages):
        for each in packages:
            apt(*words, each)
    if (started := [SERVICES[it] for it in packages if it in SERVICES]) and os.path.isdir("/run/systemd/system"):
        print(f"check: Debian has started services that no test needs: systemctl disable --now {' '.join(started)}", flush=True)
    left = [it for it in lacking(packages) if not is_installed(it)]
    return f"apt-get installed no {' '.join(left)}" if left else ""
