"""Who may fill the places of `routerd`'s database, and by when they are free again."""
import unittest

from leafrunt_host.lsas import MAX_AGE
from leafrunt_host.places import (
    KEPT_FREE,
    KEY,
    MOST_LSAS,
    NO_EXTERNALS,
    SECONDS_GIVEN,
    Places,
    Share,
    Vacancy,
)
from tests.test_topology import SUMMARY


def external(number: int, age: int = 1) -> bytes:
    """The header of an AS-external-LSA of its own Link State ID."""
    return age.to_bytes(2, "big") + b"\2\5" + number.to_bytes(4, "big") + bytes(12)


class Holder:
    """What stands for a link."""


class Whole(unittest.TestCase):
    """The places of a box with several links."""

    def setUp(self) -> None:
        self.places = Places(no_externals=NO_EXTERNALS)
        self.holders = [Holder() for _ in range(3)]
        self.links = [self.places.share(each) for each in self.holders]
        self.most = MOST_LSAS - KEPT_FREE - NO_EXTERNALS

    def given(self, mine: Share, first: int, count: int, now: float) -> int:
        """How many of so many LSAs that a link brings `routerd` is given."""
        found = 0
        for number in range(first, first + count):
            lsa = external(number)
            if self.places.room(lsa[KEY], mine, now) is Vacancy.FREE:
                self.places.give(lsa, mine, now)
                found += 1
        return found

    def brought(
        self, mine: Share, first: int, count: int, now: float, at_once: int = 100
    ) -> int:
        """The same of LSAs that `routerd` takes, some at a time."""
        found = 0
        for at in range(first, first + count, at_once):
            had = min(at_once, first + count - at)
            found += self.given(mine, at, had, now)
            headers = [external(number) for number in range(at, at + had)]
            known = [each for each in headers if self.places.has(each[KEY])]
            self.places.acknowledged(known, mine, now)
        return found

    def test_what_routerd_discards_takes_no_place(self) -> None:
        """16,770 LSAs with wrong checksums on one link, and as many on another, again and again:
        fifty new ones come by the third, and all places are free seconds later."""
        one, two, three = self.links
        for now in range(5):
            for mine, first in ((one, 100_000), (two, 200_000)):
                self.given(mine, first + 20_000 * now, 16_770, now)
            self.assertEqual(self.brought(three, 50 * now, 50, now), 50)
        self.assertEqual(len(self.places), 250)
        self.places.sweep(5 + SECONDS_GIVEN)
        self.assertEqual([each.given for each in self.links], [0, 0, 0])
        self.assertEqual(self.brought(three, 1000, 10_000, 20), 10_000)

    def test_what_routerd_takes_leaves_places_for_other_links(self) -> None:
        one, two, three = self.links
        self.assertEqual(self.brought(one, 0, 20_000, 0), self.most - self.most // 16)
        self.assertGreaterEqual(self.brought(two, 20_000, 2_000, 1), 800)
        self.assertGreaterEqual(self.brought(three, 30_000, 50, 2, at_once=1), 50)

    def test_one_link_brings_a_whole_area(self) -> None:
        """All places are the only link's."""
        self.places = Places(no_externals=NO_EXTERNALS)
        mine = self.places.share(self)
        self.assertEqual(self.brought(mine, 0, 20_000, 0), self.most)

    def test_those_of_a_link_that_is_gone(self) -> None:
        one, _, three = self.links
        self.brought(one, 0, 20_000, 0)
        del self.holders[:2]
        self.assertEqual(self.brought(three, 20_000, 2_000, 1), self.most // 16)

    def test_a_link_waits_for_its_own(self) -> None:
        """Above its part it's neither passed on nor withheld: it comes again."""
        one, two, _ = self.links
        self.given(one, 0, 20_000, 0)
        lsa = external(30_000)
        self.assertIs(self.places.room(lsa[KEY], one, 0), Vacancy.LATER)
        self.assertIs(self.places.room(lsa[KEY], two, 0), Vacancy.FREE)


class Kinds(unittest.TestCase):
    def setUp(self) -> None:
        self.places = Places(10, no_externals=4)
        self.mine = self.places.share(self)

    def room(self, lsa: bytes, now: float = 0) -> Vacancy:
        room = self.places.room(lsa[KEY], self.mine, now)
        if room is Vacancy.FREE:
            self.places.acknowledged([lsa[:20]], self.mine, now)
        return room

    def test_externals_leave_places_for_the_area(self) -> None:
        """However many externals come first: without router-LSAs there is no route to any."""
        taken = [self.room(external(number)) for number in range(8)]
        self.assertEqual(taken, [Vacancy.FREE] * 6 + [Vacancy.NONE] * 2)
        self.assertIs(self.room(SUMMARY), Vacancy.FREE)
        self.assertIs(self.room(external(9)), Vacancy.NONE)

    def test_what_is_flushed(self) -> None:
        """Not before `routerd` says so: anybody may send an LSA at MaxAge."""
        for number in range(6):
            self.room(external(number))
        self.places.give(external(0, MAX_AGE), self.mine, 1)
        self.assertIs(self.room(external(9)), Vacancy.NONE)
        self.places.acknowledged([external(0, MAX_AGE)], self.mine, 1)
        self.assertIs(self.room(external(9)), Vacancy.FREE)

    def test_what_comes_by_two_links(self) -> None:
        """It counts once, as that link's by which it came first."""
        other = self.places.share(Holder())
        self.room(external(1))
        self.places.acknowledged([external(1)], other, 1)
        self.places.sent([external(1)], 2)
        self.assertEqual((len(self.places), self.mine.filled, other.filled), (1, 1, 0))


if __name__ == "__main__":
    unittest.main()
