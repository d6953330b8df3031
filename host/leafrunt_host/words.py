"""The lines of `leafrunt console`: those of `routerd`'s own console, which are passed on as they
are, and the box's beside them."""
from __future__ import annotations

ROUTERD_WORDS = {
    "attach PATH": "verify the program of an object file and publish it at its hook",
    "detach HOOK": "leave a hook (count, tag, price, veto) without a program",
    "add A.B.C.D/L METRIC TYPE TAG": "announce an external destination",
    "withdraw A.B.C.D/L": "announce it no longer",
    "table": "the routing table",
    "neighbors": "the neighbors that aren't Down",
    "counters": "the programs' counters that are above 0",
}
BOX_WORDS = {
    "status": "this router, its interfaces and neighbors, and why one isn't heard",
    "interfaces": "the interfaces, and what passed through each",
    "announced": "the external destinations that this router announces",
    "programs": "the programs at the hooks",
    "database": "the LSAs; with a Link State ID or a destination after it those of that, whole",
    "why PREFIX": "why a destination, or the longest one of an address, is or isn't in the kernel",
    "changes": "what changed of routes, neighbors and programs; a prefix after it: of that alone",
    "map": "the area as a Graphviz graph; with a prefix after it the way there is marked",
    "log": "the log's last 40 lines; with a number after it that many",
    "capture FILE": "write all OSPF packets to a new pcap file; `capture off` ends that",
    "reload": "take the configuration over as it is now; `dry-run` after it says what that would do",
    "down": "end this box: let the neighbors know, remove the kernel's routes, end `routerd`",
}
CLIENT_WORDS = {
    "help": "this list",
    "quit": "leave the console; the box goes on",
}


def first_words() -> list[str]:
    """What a line may begin with, for completion: with a space if more has to come."""
    words = (each.partition(" ") for each in [*ROUTERD_WORDS, *BOX_WORDS, *CLIENT_WORDS])
    return sorted(first + space for first, space, _ in words)


def help_lines() -> list[str]:
    """What `help` says."""
    words = {**ROUTERD_WORDS, **BOX_WORDS, **CLIENT_WORDS}
    width = max(map(len, words))
    return [f"{each:<{width}}  {about}" for each, about in words.items()]
