"""When interfaces that come have the configuration read again."""
import unittest
from dataclasses import replace
from ipaddress import IPv4Address

from leafrunt_host.awaiting import SETTLED, Awaiting
from leafrunt_host.interfaces import KernelState
from tests.test_desk import known

ONE, TWO, LOOPBACK = (IPv4Address(each) for each in ("10.9.0.1", "10.9.0.2", "127.0.0.1"))


def state(*addresses: IPv4Address, is_up: bool = True) -> KernelState:
    return KernelState(7, is_up, 1500, frozenset(addresses))


class Awaits(unittest.TestCase):
    def setUp(self) -> None:
        self.known, self.asked, self.now = known(), list[str](), 1000.0
        self.awaits("tun9", "wg*")
        self.awaiting = Awaiting(self.known, self.asked.append, lambda: self.now)

    def awaits(self, *names: str) -> None:
        self.known.configuration = replace(self.known.configuration, awaited=names)

    def look(self, seconds: float = SETTLED, **states: KernelState) -> list[str]:
        """What is asked for so many seconds later."""
        self.now += seconds
        self.asked.clear()
        self.awaiting.look({"eth1": state(ONE), **states})
        return list(self.asked)

    def test_one_that_comes(self) -> None:
        self.assertEqual(self.look(), [])
        for its in (state(), state(LOOPBACK)):
            self.look(tun9=its)
            self.assertEqual(self.look(tun9=its), [], "without an address")
        self.assertEqual(self.look(tun9=state(ONE, is_up=False)), [], "it has to settle")
        self.assertEqual(self.look(tun9=state(ONE, is_up=False)), ["tun9: there now"])

    def test_one_that_is_not_taken(self) -> None:
        """It's tried again later and later, and at once where it is another or comes anew."""
        self.look(tun9=state(ONE))
        pauses = [1, 10, 20, 40, 80, 160, 300, 300]
        for pause in pauses:
            self.assertEqual(self.look(pause - 0.5, tun9=state(ONE)), [])
            self.assertEqual(self.look(0.5, tun9=state(ONE)), ["tun9: there now"])
        self.assertEqual(self.look(tun9=state(TWO)), [])
        self.assertEqual(self.look(tun9=state(TWO)), ["tun9: there now"])
        self.assertEqual(self.look(), [])
        self.assertEqual(self.look(tun9=state(TWO)), [])
        self.assertEqual(self.look(tun9=state(TWO)), ["tun9: there now"])

    def test_many_that_come_one_after_the_other(self) -> None:
        for count in range(1, 9):
            states = {f"wg{at}": state(ONE) for at in range(count)}
            self.assertEqual(self.look(SETTLED / 2, **states), [])
        self.assertEqual(self.look(**states), ["wg0, wg1, wg2, wg3 and more: there now"])

    def test_what_nobody_awaits(self) -> None:
        for _ in range(2):
            self.assertEqual(self.look(eth9=state(ONE), tun90=state(ONE)), [])
        self.awaits()
        for _ in range(2):
            self.assertEqual(self.look(tun9=state(ONE)), [])


if __name__ == "__main__":
    unittest.main()
