"""Which of several owners' announcements `routerd` gets, and what is told of those that it
doesn't."""
import logging
import threading
import time
import unittest
from ipaddress import IPv4Network
from unittest import mock

from leafrunt_host import announcer as announcers
from leafrunt_host.announcements import (
    LEAST_INTERVAL,
    TRIED_AGAIN,
    TRIED_SOON,
    Announced,
    Announcements,
)
from leafrunt_host.announcer import Announcer
from leafrunt_host.destinations import MOST_EXTERNALS, Announcement, Owner
from leafrunt_host.router import RouterGone
from tests.fake_router import FakeRouter
from tests.waits import Waits

A, B, C = (IPv4Network(each) for each in ("192.0.2.0/24", "198.51.100.0/24", "203.0.113.0/24"))


def one(prefix: IPv4Network | str, metric: int = 20) -> Announcement:
    return Announcement(IPv4Network(prefix), metric, 2, 0)


def many(count: int, first: int = 100) -> list[Announcement]:
    return [one(f"{first + at // 65536}.{at // 256 % 256}.{at % 256}.0/24") for at in range(count)]


class Cases(unittest.TestCase):
    def setUp(self) -> None:
        self.router = FakeRouter()
        self.published: dict[IPv4Network, Announced] = {}
        self.said: tuple[str, ...] = ()
        self.announcements = Announcements(self.router.ask, self.publish)
        self.now = 1000.0
        silent = logging.NullHandler()
        logging.getLogger("leafrunt.announcements").addHandler(silent)
        self.addCleanup(logging.getLogger("leafrunt.announcements").removeHandler, silent)

    def publish(self, announced: dict[IPv4Network, Announced], said: tuple[str, ...]) -> None:
        self.published, self.said = announced, said

    def want(self, owner: Owner, *ones: Announcement) -> float | None:
        """The owner asks for these from now on; what `give` answers."""
        self.announcements.want({owner: ones})
        return self.announcements.give(self.now)

    def metrics(self) -> dict[str, int]:
        """What `routerd` announces."""
        return {str(each): int(it.split()[0]) for each, it in self.router.announced.items()}

    def assert_told(self, *texts: str) -> None:
        said = "\n".join(self.said)
        for each in texts:
            self.assertIn(each, said)


class Owners(Cases):
    def test_the_first_owner_s_is_announced(self) -> None:
        for owner in sorted(Owner, reverse=True)[:-1]:
            self.now += LEAST_INTERVAL
            self.want(owner, one(A, int(owner)))
            self.assertEqual(self.metrics(), {str(A): int(owner)})
        for owner in sorted(Owner)[1:-1]:
            self.now += LEAST_INTERVAL
            self.want(owner)
            self.assertEqual(self.metrics(), {str(A): int(owner) + 1})
        self.want(Owner.KERNEL)
        self.assertEqual(self.metrics(), {})

    def test_several_owners_at_once(self) -> None:
        both = {Owner.STATIC: [one(A, 4), one(B, 4)], Owner.KERNEL: [one(B, 5), one(C, 5)]}
        self.announcements.want(both)
        self.announcements.give(self.now)
        self.assertEqual(self.metrics(), {str(A): 4, str(B): 4, str(C): 5})
        self.assertEqual(self.published[C], Announced(one(C, 5), "originated", Owner.KERNEL))

    def test_one_that_another_owner_asks_for_too(self) -> None:
        """Nothing is said to `routerd` where the announcement stays the same."""
        self.want(Owner.STATIC, one(A))
        self.want(Owner.CONNECTED, one(A))
        self.assertEqual(len(self.router.lines), 1)
        self.assertEqual(self.published[A].owner, Owner.CONNECTED)
        self.want(Owner.STATIC)
        self.assertEqual((len(self.router.lines), list(self.metrics())), (1, [str(A)]))

    def test_nothing_is_given_twice(self) -> None:
        self.assertIsNone(self.want(Owner.STATIC, one(A), one(B)))
        self.assertIsNone(self.want(Owner.STATIC, one(B), one(A)))
        self.assertEqual(len(self.router.lines), 2)

    def test_one_address_with_two_lengths(self) -> None:
        """They would have one Link State ID: the first owner's, and of one owner's the shorter
        prefix, is announced, and the other one is told."""
        self.want(Owner.STATIC, one("10.0.0.0/16"), one("10.0.0.0/8"), one("10.0.0.0/24"))
        self.assertEqual(self.metrics(), {"10.0.0.0/8": 20})
        self.assert_told("10.0.0.0/16 (static) isn't announced: 10.0.0.0/8 (static) has its address")
        self.now += LEAST_INTERVAL
        self.want(Owner.CONFIGURATION, one("10.0.0.0/24"))
        self.assertEqual(self.metrics(), {"10.0.0.0/24": 20})
        self.now += LEAST_INTERVAL
        self.announcements.want({Owner.CONFIGURATION: [], Owner.STATIC: [one("10.0.0.0/16")]})
        self.announcements.give(self.now)
        self.assertEqual((self.metrics(), self.said), ({"10.0.0.0/16": 20}, ()))


class ByHand(Cases):
    def test_it_goes_before_all_others(self) -> None:
        self.want(Owner.CONFIGURATION, one(A, 7))
        self.assertEqual(self.announcements.by_hand(f"add {A} 3 1 9"), "originated")
        self.assertIsNone(self.want(Owner.STATIC, one(A, 5)))
        self.assertEqual(self.router.announced[A], "3 1 9")
        self.assertEqual(self.published[A].owner, Owner.CONSOLE)

    def test_what_is_withdrawn_stays_so(self) -> None:
        """Whoever else asks for it, until it's added again."""
        self.want(Owner.STATIC, one(A), one(B))
        self.assertEqual(self.announcements.by_hand(f"withdraw {A}"), "withdrawn")
        self.assertNotIn(A, self.published)
        self.want(Owner.STATIC, one(A), one(B))
        self.want(Owner.CONFIGURATION, one(A))
        self.assertEqual(list(self.metrics()), [str(B)])
        self.announcements.by_hand(f"add {A} 1 2 0")
        self.announcements.by_hand(f"withdraw {C}")
        self.want(Owner.STATIC, one(C))
        self.assertEqual(set(self.metrics()), {str(A), str(C)})

    def test_lines_that_are_none(self) -> None:
        """They are `routerd`'s to judge, and nothing is noted."""
        self.router.refusals = ["unknown"] * 3 + ["refused 5"]
        for line in ("add", "add x 1 2 3", "withdraw", f"add {A} 1 2 3"):
            self.announcements.by_hand(line)
        self.assertEqual((self.published, self.announcements.give(self.now)), ({}, None))


class Refusals(Cases):
    def test_it_is_tried_again(self) -> None:
        self.router.refusals = ["refused 6"]
        with self.assertLogs("leafrunt.announcements", "WARNING") as logged:
            self.assertEqual(self.want(Owner.CONFIGURATION, one(A), one(B)), TRIED_AGAIN)
        self.assertEqual(len(self.router.lines), 1)
        self.assert_told(f"{A} isn't announced: refused 6: routerd is out of memory: give")
        self.assert_told("1 more destinations aren't announced")
        self.assertEqual(len(logged.output), 2)
        with self.assertLogs("leafrunt.announcements", "INFO") as logged:
            self.assertIsNone(self.announcements.give(self.now + TRIED_AGAIN))
        self.assertEqual((set(self.metrics()), self.said), ({str(A), str(B)}, ()))
        self.assertIn("all destinations are announced", logged.output[0])

    def test_a_withdrawal_too(self) -> None:
        self.want(Owner.STATIC, one(A))
        self.router.refusals = ["refused 4"]
        self.assertEqual(self.want(Owner.STATIC), TRIED_AGAIN)
        self.assertIn(A, self.published)
        self.assertIsNone(self.announcements.give(self.now))
        self.assertEqual((self.published, self.metrics()), ({}, {}))

    def test_one_that_clashes_with_what_was_added_by_hand(self) -> None:
        """`routerd` refuses it alone; the others are announced."""
        self.announcements.by_hand("add 10.0.0.0/16 1 2 0")
        self.announcements.want({Owner.STATIC: [one("10.0.0.0/8"), one(B)]})
        self.announcements.give(self.now)
        self.assertEqual(set(self.metrics()), {"10.0.0.0/16", str(B)})
        self.assert_told("10.0.0.0/8 (static) isn't announced: 10.0.0.0/16 (console) has its")

    def test_no_more_than_routerd_takes(self) -> None:
        """Those that don't fit are told, those of the configuration go first, and where room
        comes they are announced."""
        static = many(MOST_EXTERNALS + 6)
        self.assertIsNone(self.want(Owner.STATIC, *static))
        self.assertEqual(len(self.metrics()), MOST_EXTERNALS)
        self.assert_told(f"{static[-6].prefix} (static) isn't announced: there would be more than")
        self.assert_told("2 more destinations aren't announced")
        self.want(Owner.CONFIGURATION, one(A))
        self.assertIn(str(A), self.metrics())
        self.assertEqual(len(self.metrics()), MOST_EXTERNALS)
        lines = len(self.router.lines)
        self.now += LEAST_INTERVAL
        self.want(Owner.STATIC, *static[10:])
        self.assertEqual(len(self.metrics()), MOST_EXTERNALS - 3)
        self.assertLessEqual(len(self.router.lines) - lines, 10 + 7)
        self.assertEqual(self.said, ())

    def test_what_is_announced_stays_so(self) -> None:
        """Also where what comes later has a lesser address."""
        self.want(Owner.STATIC, *many(MOST_EXTERNALS, 100))
        lines = len(self.router.lines)
        self.want(Owner.STATIC, *many(MOST_EXTERNALS, 100), *many(5, 99))
        self.want(Owner.CONNECTED, one("1.0.0.0/24"))
        self.assertEqual(len(self.router.lines), lines)

    def test_a_limit_of_routerd_s_that_comes_first(self) -> None:
        """One line in five seconds is tried then, and not each of them."""
        self.router.most = 10
        with self.assertLogs("leafrunt.announcements", "WARNING"):
            self.assertEqual(self.want(Owner.STATIC, *many(1000)), TRIED_SOON)
        self.assertEqual(len(self.router.lines), 11)
        for _ in range(5):
            self.now += TRIED_AGAIN
            self.assertEqual(self.announcements.give(self.now), TRIED_AGAIN)
        self.assertEqual(len(self.router.lines), 16)
        self.router.most = MOST_EXTERNALS
        self.assertIsNone(self.announcements.give(self.now))
        self.assertEqual((len(self.metrics()), self.said), (1000, ()))

    def test_what_a_price_withholds_takes_no_place(self) -> None:
        self.router.withholds = lambda prefix: str(prefix).startswith("100.0.")
        self.announcements.want({Owner.STATIC: many(MOST_EXTERNALS + 200)})
        passes = 1
        while self.announcements.give(self.now) is not None:
            passes += 1
        self.assertEqual((len(self.metrics()), passes), (MOST_EXTERNALS - 56, 2))
        self.assertEqual(self.said, ())

    def test_the_log_is_bounded(self) -> None:
        with self.assertLogs("leafrunt.announcements", "WARNING") as logged:
            for at in range(300):
                self.router.refusals = ["refused 6"]
                self.want(Owner.STATIC, one(f"10.{at % 250}.{at // 250}.0/24"))
        self.assertLess(len(logged.output), 30)


class Storms(Cases):
    def test_one_that_comes_and_goes(self) -> None:
        """It's withdrawn at once, and added no more often than MinLSInterval allows an LSA."""
        adds = 0
        for _ in range(600):
            self.want(Owner.STATIC, one(A))
            self.want(Owner.STATIC)
            self.assertEqual(self.metrics(), {})
            self.now += 0.1
        adds = sum(each.startswith("add") for each in self.router.lines)
        self.assertLessEqual(adds, 60 / LEAST_INTERVAL + 1)
        pause = self.want(Owner.STATIC, one(A))
        assert pause is not None
        self.assertTrue(0 < pause <= LEAST_INTERVAL)
        self.assertIsNone(self.announcements.give(self.now + pause))
        self.assertEqual(list(self.metrics()), [str(A)])

    def test_values_that_change(self) -> None:
        for metric in range(100):
            self.want(Owner.STATIC, one(A, metric))
            self.now += 0.1
        self.assertLessEqual(len(self.router.lines), 10 / LEAST_INTERVAL + 1)
        self.announcements.give(self.now + LEAST_INTERVAL)
        self.assertEqual(self.metrics(), {str(A): 99})

    def test_the_operator_is_not_kept_waiting(self) -> None:
        for metric in range(5):
            self.want(Owner.CONFIGURATION, one(A, metric))
            self.assertEqual(self.metrics(), {str(A): metric})


class Anew(Cases):
    def test_a_routerd_that_was_started_anew(self) -> None:
        """It gets all of it, what was added by hand too."""
        self.want(Owner.STATIC, one(A), one(B))
        self.announcements.by_hand(f"add {C} 1 2 0")
        self.announcements.by_hand(f"withdraw {B}")
        self.router.announced.clear()
        self.announcements.started_anew()
        self.assertIsNone(self.announcements.give(self.now))
        self.assertEqual(set(self.metrics()), {str(A), str(C)})

    def test_programs_that_were_changed(self) -> None:
        """They decide again on all but what was added by hand."""
        self.want(Owner.STATIC, one(A), one(B))
        self.announcements.by_hand(f"add {C} 1 2 0")
        self.router.withholds = lambda prefix: True
        self.announcements.ask_again()
        self.now += LEAST_INTERVAL
        self.want(Owner.STATIC, one(A))
        self.assertEqual((set(self.metrics()), self.published[A].answer), ({str(C)}, "withheld"))


class Threads(Cases, Waits):
    def announcer(self) -> Announcer:
        it = Announcer(self.announcements)
        self.addCleanup(it.stop)
        it.start()
        return it

    def test_it_is_woken(self) -> None:
        self.announcer()
        for wanted in ([one(A)], [one(A), one(B)], []):
            self.announcements.want({Owner.CONFIGURATION: wanted})
            self.wait(lambda: len(self.metrics()) == len(wanted))

    def test_it_tries_again(self) -> None:
        self.router.refusals = ["refused 6"] * 2
        with mock.patch("leafrunt_host.announcements.TRIED_AGAIN", 0.05):
            with self.assertLogs("leafrunt.announcements", "WARNING"):
                self.announcements.want({Owner.CONFIGURATION: [one(A)]})
                self.announcer()
                self.wait(self.metrics)

    def test_a_mistake_does_not_end_it(self) -> None:
        with mock.patch.object(Announcements, "give", side_effect=[KeyError("x"), None]) as give:
            with mock.patch.object(announcers, "TRIED_AGAIN", 0.05):
                with self.assertLogs("leafrunt.announcements", "ERROR") as logged:
                    self.announcer()
                    self.wait(lambda: give.call_count == 2)
        self.assertIn("a mistake in this program: KeyError", logged.output[0])

    def test_a_routerd_that_has_ended(self) -> None:
        """Another one may take its place: that is waited for, or the box's end."""
        with mock.patch.object(Announcements, "give", side_effect=RouterGone("x")) as give:
            it = self.announcer()
            self.wait(lambda: give.called)
            it._thread.join(0.3)
            self.assertTrue(it._thread.is_alive())
            it.stop()
        self.assertFalse(it._thread.is_alive())

    def test_by_hand_in_the_meantime(self) -> None:
        """A client at the console needn't wait for thousands of announcements."""
        going, given = threading.Event(), self.router.ask

        def ask(line: str) -> list[str]:
            going.set()
            time.sleep(0.001)
            return given(line)

        self.announcements._ask = ask
        self.announcements.want({Owner.STATIC: many(2000)})
        self.announcer()
        self.assertTrue(going.wait(60))
        self.announcements.by_hand(f"add {A} 1 2 0")
        self.assertLess(len(self.router.lines), 2000)


if __name__ == "__main__":
    unittest.main()
