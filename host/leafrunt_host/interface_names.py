"""Names of interfaces, and patterns of them, as a configuration may have them."""
import re

LOOPBACK = "lo"
INTERFACE_NAME = re.compile(r"(?!\.{1,2}$)[^\s/:%]{1,15}")


def is_pattern(name: str | None) -> bool:
    """Whether it stands for any number of interfaces."""
    return name is not None and ("*" in name or "?" in name)


def matches(name: str, interface: str) -> bool:
    """Whether a name or pattern means that interface: no pattern means the loopback interface."""
    if not is_pattern(name):
        return name == interface
    return interface != LOOPBACK and bool(
        re.fullmatch(re.escape(name).replace(r"\*", ".*").replace(r"\?", "."), interface)
    )
