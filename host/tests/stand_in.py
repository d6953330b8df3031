"""Stands in for `routerd` where the box around it is tested: its console, with answers in the same
forms, and no OSPF.

`attach /end/N` ends it with status N, `attach /silent` answers nothing any more, `attach /long`
answers many bytes. A configuration whose Router ID is 9.9.9.N isn't started: 1 says that a port is
taken (the first time), 2 ends at once, 3 is no `routerd`.
"""
import os
import sys
import time

LISTS = {
    "table": ["10.0.1.0/24 intra 10 via 0", "192.0.2.0/24 ext2 20 via 1"],
    "neighbors": ["neighbor 1 2.2.2.2 Full"],
    "counters": ["counter 5 6"],
}


def say(*lines: str) -> None:
    print(*lines, sep="\n", flush=True)


def start(configuration: str) -> None:
    with open(configuration, encoding="ascii") as it:
        router_id = it.read().split()[1]
    again = f"{configuration}.tried"
    if router_id == "9.9.9.1" and not os.path.exists(again):
        os.mkdir(again)
        say("cannot bind 7001")
        sys.exit(3)
    if router_id == "9.9.9.2":
        say("config refusal line 1")
        sys.exit(1)
    if router_id == "9.9.9.3":
        say("hello")
        sys.exit(0)


def answer(line: str) -> None:
    word, _, rest = line.partition(" ")
    if line in LISTS:
        say(*LISTS[line], "end")
    elif line.startswith("attach /end/"):
        sys.exit(int(line.rpartition("/")[2]))
    elif line == "attach /silent":
        time.sleep(600)
    elif line == "attach /long":
        say("x" * 4_000_000)
    elif word == "attach" and rest:
        say("attached veto bound 7")
    elif word == "detach" and rest in ("count", "tag", "price", "veto"):
        say(f"detached {rest}")
    elif word == "add" and rest.count(" ") == 3:
        say("refused 5" if rest.startswith("10.5.") else "originated")
    elif word == "withdraw" and rest:
        say("withdrawn")
    else:
        say("unknown")


def main() -> int:
    if sys.argv[1] == "verify":
        say("accepted bound 7")
        return 0
    start(sys.argv[2])
    for line in sys.stdin:
        if line == "quit\n":
            break
        answer(line.removesuffix("\n"))
    say("counter 5 7", "counter 6 1")
    return 0


if __name__ == "__main__":
    sys.exit(main())
