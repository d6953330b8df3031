"""A box's status that is damaged in one place: each command that reads it says so in one line, or
reads on where that place doesn't matter to it."""
import copy
import unittest
from typing import Any

from leafrunt_host.documents import DOCUMENTS
from leafrunt_host.kernel import Json
from leafrunt_host.listing import understood
from leafrunt_host.metrics import families_of
from leafrunt_host.statuses import Stopped
from leafrunt_host.watching import Look, Watched, rows_of
from tests.test_documents import LINES, paths, status

WRONG = (None, "x", -1, float("inf"), float("nan"), 10**400, [], {}, True, [None], {"x": None})
MOMENT = 1_800_000_000.0


def damaged(whole: Json, path: tuple[Any, ...], wrong: object) -> Json:
    """A copy with another value there."""
    made = it = copy.deepcopy(whole)
    for each in path[:-1]:
        it = it[each]
    it[path[-1]] = wrong
    return made


def readers() -> dict[str, Any]:
    """What reads a status."""
    found = {
        kind: lambda read, kind=kind: DOCUMENTS[kind](read, LINES[kind]) for kind in DOCUMENTS
    }
    return {
        **found,
        "metrics": lambda read: families_of(read, LINES["table"], LINES["counters"]),
        "watch": watched,
    }


def watched(read: Json) -> None:
    """One look, and then it again."""
    it = Watched(Look(read, {5: 1}, 0.0))
    rows_of(it, MOMENT)
    it.take(Look(read, {5: 2}, 1.0))
    rows_of(it, MOMENT)


class Damaged(unittest.TestCase):
    def test_each_place(self) -> None:
        whole = status()
        change = {"at": 1.0, "added": 1, "removed": 0, "changed": 0}
        route = {"prefix": "10.0.0.0/8", "before": None, "after": "intra 1 via 1"}
        whole["table"] = {"routes": 1, "changes": [{**change, "shown": [route]}]}
        refused = set()
        for path in paths(whole):
            for wrong in WRONG if path else ():
                read = damaged(whole, path, wrong)
                for name, reads in readers().items():
                    try:
                        with understood("one"):
                            reads(read)
                    except Stopped as why:
                        self.assertTrue(str(why).startswith("the box "), why)
                        self.assertLess(len(str(why)), 200)
                        refused.add(name)
                    except Exception as error:
                        self.fail(f"{name}: {path}: {wrong!r}: {error!r}")
        self.assertEqual(refused, set(readers()) - {"announced", "programs"})


if __name__ == "__main__":
    unittest.main()
