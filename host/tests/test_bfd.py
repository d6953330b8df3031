"""BFD's packets and sessions, over bytes and moments."""
from __future__ import annotations

import random
import unittest
from dataclasses import replace

from leafrunt_host.bfd_packets import (
    BfdKey,
    Bits,
    ControlPacket,
    Diagnostic,
    Discarded,
    KeyType,
    State,
    Why,
    decode,
    diagnostic_text,
    number_of,
)
from leafrunt_host.bfd_session import Session, Settings, Variables, kept, kept_of

SECOND, MILLISECOND = 1_000_000, 1_000
BIRD_PLAIN = {
    "204003187c180f9100000000000f4240000493e000000000": (State.DOWN, Bits.NONE, 0, SECOND),
    "208003187c180f91cbecd836000f4240000493e000000000": (State.INIT, Bits.NONE, 0, SECOND),
    "20e003187c180f91cbecd836000493e0000493e000000000": (State.UP, Bits.POLL, 0, 300_000),
    "20d003187c180f91cbecd836000493e0000493e000000000": (State.UP, Bits.FINAL, 0, 300_000),
    "236003180083db68cbecd836000f4240000493e000000000": (State.DOWN, Bits.POLL, 3, SECOND),
}
"""BIRD 2.0.12's packets, with what tcpdump says of them."""
FRR_PLAIN = "20e003183d5974111c503093000493e0000493e00000c350"
"""FRR 8.4.4's: Up, Poll, and 50 ms for an echo function that nobody has to have."""
BIRD_KEYED = (
    "20440334a8f2e14800000000000f4240000493e000000000"
    "041c0700357e9a4ce063d0ac1e1ed242b8185f6868304aee94aa418d",
    "20c40334a8f2e1481ee8f39d000493e0000493e000000000"
    "041c0700357e9a4eed1d137d8e9b116b5815ab71cdd6b359fc120cc4",
)
BIRD_METICULOUS = (
    "204403342efb1dc400000000000f4240000493e000000000"
    "051c0700f27a5eadff998b31813b3ba01432be3dcec096ce3e21efbe",
    "20e403342efb1dc470f7d2e8000493e0000493e000000000"
    "051c0700f27a5eb26b6147f016b66098c475fcea708824ecb989a131",
)
"""BIRD's, key 7, the secret `secret`."""
KEYED = BfdKey(7, KeyType.KEYED_SHA1, b"secret")
METICULOUS = BfdKey(7, KeyType.METICULOUS_KEYED_SHA1, b"secret")
MINE, THEIRS = 0x11111111, 0x22222222


def packet(state: State, yours: int = MINE, **others: object) -> ControlPacket:
    """A neighbor's packet with usual fields."""
    one = ControlPacket(state, 3, THEIRS, yours, 300 * MILLISECOND, 300 * MILLISECOND)
    return replace(one, **others)  # type: ignore[arg-type]


class Packets(unittest.TestCase):
    def test_of_bird_and_frr(self) -> None:
        for text, (state, bits, diagnostic, transmit) in BIRD_PLAIN.items():
            with self.subTest(text):
                read, section = decode(bytes.fromhex(text))
                self.assertEqual((read.state, read.bits, section), (state, bits, b""))
                self.assertEqual((read.diagnostic, read.detect_mult), (diagnostic, 3))
                self.assertEqual(read.desired_min_tx_interval, transmit)
                self.assertEqual(read.encode().hex(), text)
        read, _ = decode(bytes.fromhex(FRR_PLAIN))
        self.assertEqual(read.required_min_echo_rx_interval, 50 * MILLISECOND)
        self.assertEqual(read.encode().hex(), FRR_PLAIN)

    def test_digests_of_bird(self) -> None:
        numbers = {KEYED: (0x357E9A4C, 0x357E9A4E), METICULOUS: (0xF27A5EAD, 0xF27A5EB2)}
        for key, texts in ((KEYED, BIRD_KEYED), (METICULOUS, BIRD_METICULOUS)):
            for text, number in zip(texts, numbers[key], strict=True):
                with self.subTest(text):
                    data = bytes.fromhex(text)
                    read, section = decode(data)
                    self.assertEqual(number_of(data, section, {7: key}), (key, number))
                    self.assertEqual(key.signed(read, number).hex(), text)

    def test_discarded(self) -> None:
        """RFC 5880, 6.8.6, each by what it finds first."""
        good = packet(State.UP).encode()
        keyed = KEYED.signed(packet(State.UP, bits=Bits.AUTHENTICATION), 1)

        def with_byte(at: int, value: int, data: bytes = good) -> bytes:
            return data[:at] + bytes([value]) + data[at + 1 :]

        rows = (
            (b"", Why.SHORT),
            (good[:-1], Why.SHORT),
            (with_byte(0, 0x00), Why.VERSION),
            (with_byte(0, 0x40), Why.VERSION),
            (with_byte(3, 23), Why.LENGTH),
            (with_byte(3, 25), Why.LENGTH),
            (with_byte(3, 25, keyed), Why.LENGTH),
            (keyed[:-1], Why.LENGTH),
            (with_byte(2, 0), Why.MULTIPLIER),
            (with_byte(1, 0xC1), Why.MULTIPOINT),
            (packet(State.UP, my_discriminator=0).encode(), Why.NO_SENDER),
            (packet(State.UP, yours=0).encode(), Why.STATE),
            (packet(State.INIT, yours=0).encode(), Why.STATE),
        )
        for data, why in rows:
            with self.subTest(data.hex()), self.assertRaises(Discarded) as caught:
                decode(data)
            self.assertEqual(caught.exception.why, why)
        for state in (State.DOWN, State.ADMIN_DOWN):
            self.assertEqual(decode(packet(state, yours=0).encode())[0].state, state)
        self.assertEqual(decode(good + b"more")[0], packet(State.UP))

    def test_sections_that_are_none(self) -> None:
        data = KEYED.signed(packet(State.UP, bits=Bits.AUTHENTICATION), 1)
        rows = (
            (data[:24] + bytes([5]) + data[25:], {7: KEYED}, Why.SECTION),
            (data[:25] + bytes([27]) + data[26:], {7: KEYED}, Why.SECTION),
            (data, {8: KEYED}, Why.UNKNOWN_KEY),
            (data, {7: replace(KEYED, secret=b"other")}, Why.DIGEST),
            (data[:4] + b"\xff" + data[5:], {7: KEYED}, Why.DIGEST),
            (data[:-1] + bytes([data[-1] ^ 1]), {7: KEYED}, Why.DIGEST),
        )
        for changed, keys, why in rows:
            with self.subTest(why), self.assertRaises(Discarded) as caught:
                number_of(changed, decode(changed)[1], keys)
            self.assertEqual(caught.exception.why, why)
        with self.assertRaises(Discarded) as caught:
            number_of(data[:40], data[24:40], {7: KEYED})
        self.assertEqual(caught.exception.why, Why.SECTION)

    def test_keys(self) -> None:
        for number, secret in ((-1, b"a"), (256, b"a"), (1, b""), (1, b"a" * 21)):
            with self.subTest(number), self.assertRaises(ValueError):
                BfdKey(number, KeyType.KEYED_SHA1, secret)
        self.assertNotIn("secret", repr(KEYED))
        self.assertEqual(diagnostic_text(1), "control detection time expired")
        self.assertEqual(diagnostic_text(31), "diagnostic 31")


def session(settings: Settings = Settings(), chance: float = 1.0) -> Session:
    """One that begins at moment 0; `chance` 1 is the longest interval."""
    return Session(settings, MINE, 0.0, lambda: chance)


def in_state(state: State, settings: Settings = Settings()) -> Session:
    """A session that has come to this state by packets."""
    it = session(settings)
    ways: dict[State, tuple[State, ...]] = {
        State.DOWN: (),
        State.INIT: (State.DOWN,),
        State.UP: (State.DOWN, State.INIT),
    }
    for each in ways[state]:
        it.received(packet(each).encode(), 0.0)
    it.act(0.0)
    it.changes.clear()
    return it


def sent(it: Session, now: float) -> list[ControlPacket]:
    return [decode(each)[0] for each in it.act(now)]


class States(unittest.TestCase):
    def test_table(self) -> None:
        """RFC 5880, 6.8.6: the state, the neighbor's, what it becomes; the diagnostic where it
        falls."""
        signaled = Diagnostic.NEIGHBOR_DOWN
        rows = (
            (State.DOWN, State.ADMIN_DOWN, State.DOWN, 0, False),
            (State.DOWN, State.DOWN, State.INIT, 0, False),
            (State.DOWN, State.INIT, State.UP, 0, False),
            (State.DOWN, State.UP, State.DOWN, 0, False),
            (State.INIT, State.ADMIN_DOWN, State.DOWN, signaled, False),
            (State.INIT, State.DOWN, State.INIT, 0, False),
            (State.INIT, State.INIT, State.UP, 0, False),
            (State.INIT, State.UP, State.UP, 0, False),
            (State.UP, State.ADMIN_DOWN, State.DOWN, signaled, False),
            (State.UP, State.DOWN, State.DOWN, signaled, True),
            (State.UP, State.INIT, State.UP, 0, False),
            (State.UP, State.UP, State.UP, 0, False),
        )
        for mine, theirs, becomes, diagnostic, is_lost in rows:
            with self.subTest(f"{mine} hears {theirs}"):
                it = in_state(mine)
                it.received(packet(theirs).encode(), 0.1)
                variables = it.variables
                self.assertEqual(variables.session_state, becomes)
                self.assertEqual(variables.local_diag, diagnostic)
                self.assertEqual(variables.remote_session_state, theirs)
                changes = [(each.before, each.after, each.is_lost) for each in it.changes]
                self.assertEqual(changes, [(mine, becomes, is_lost)] if mine != becomes else [])

    def test_time_that_ends(self) -> None:
        for state, is_lost in ((State.INIT, False), (State.UP, True)):
            with self.subTest(state):
                it = in_state(state)
                it.act(0.899)
                self.assertEqual(it.variables.session_state, state)
                (first, *_) = sent(it, 0.9)
                self.assertEqual((first.state, first.diagnostic), (State.DOWN, 1))
                self.assertEqual(first.your_discriminator, 0)
                self.assertEqual([each.is_lost for each in it.changes], [is_lost])

    def test_what_it_says_first(self) -> None:
        (first,) = sent(session(), 0.0)
        self.assertEqual(first.state, State.DOWN)
        self.assertEqual((first.my_discriminator, first.your_discriminator), (MINE, 0))
        self.assertEqual(first.desired_min_tx_interval, SECOND)
        self.assertEqual(first.required_min_rx_interval, 300 * MILLISECOND)
        self.assertEqual(first.required_min_echo_rx_interval, 0)
        self.assertEqual((first.detect_mult, first.bits), (3, Bits.NONE))

    def test_a_change_is_told_at_once(self) -> None:
        it = session()
        it.act(0.0)
        it.received(packet(State.DOWN, yours=0).encode(), 0.01)
        self.assertLessEqual(it.due, 0.01)
        self.assertEqual([each.state for each in sent(it, 0.01)], [State.INIT])

    def test_two_sessions(self) -> None:
        """Both come to Up within three seconds, and stay there."""
        one = Session(Settings(), MINE, 0.0, random.Random(1).random)
        other = Session(Settings(), THEIRS, 0.0, random.Random(2).random)
        moment = 0.0
        for _ in range(400):
            moment = max(moment, min(one.due, other.due))
            for sender, receiver in ((one, other), (other, one)):
                for data in sender.act(moment):
                    receiver.received(data, moment)
            states = {each.variables.session_state for each in (one, other)}
            self.assertTrue(moment < 3.0 or states == {State.UP}, f"{states} at {moment}")
        self.assertGreater(moment, 20.0)
        self.assertEqual(one.transmit_interval, 300 * MILLISECOND)
        self.assertEqual(one.detection_time, 900 * MILLISECOND)
        self.assertFalse(one.discarded or other.discarded)


class Times(unittest.TestCase):
    def test_slow_until_up(self) -> None:
        it = session()
        moments = [moment / 100 for moment in range(0, 400) if it.act(moment / 100)]
        self.assertEqual(moments, [0.0, 1.0, 2.0, 3.0])
        it = in_state(State.UP)
        it.received(packet(State.UP, bits=Bits.FINAL).encode(), 0.0)
        self.assertAlmostEqual(it.due, 0.3)

    def test_jitter(self) -> None:
        """RFC 5880, 6.8.7: 75 to 100 percent, and at most 90 where Detect Mult is 1."""
        for multiplier, chance, interval in ((3, 0, 0.75), (3, 1, 1.0), (1, 0, 0.75), (1, 1, 0.9)):
            with self.subTest(multiplier=multiplier, chance=chance):
                it = session(Settings(detect_mult=multiplier), chance)
                it.act(0.0)
                self.assertAlmostEqual(it.due, interval)

    def test_the_slower_of_both(self) -> None:
        it = in_state(State.UP)
        slow = packet(
            State.UP,
            desired_min_tx_interval=400 * MILLISECOND,
            required_min_rx_interval=2 * SECOND,
            detect_mult=5,
        )
        it.received(slow.encode(), 0.0)
        self.assertEqual(it.transmit_interval, 2 * SECOND)
        self.assertEqual(it.detection_time, 2 * SECOND)
        fast = packet(State.UP, desired_min_tx_interval=1, required_min_rx_interval=1)
        it.received(fast.encode(), 0.0)
        self.assertEqual(it.transmit_interval, 300 * MILLISECOND)
        self.assertEqual(it.detection_time, 900 * MILLISECOND)

    def test_a_neighbor_that_wants_no_packets(self) -> None:
        it = in_state(State.UP)
        it.received(packet(State.UP, required_min_rx_interval=0, bits=Bits.FINAL).encode(), 0.0)
        it.act(0.0)
        self.assertAlmostEqual(it.due, 0.9)  # the detection time alone
        demand = packet(State.UP, bits=Bits.FINAL | Bits.DEMAND)
        it.received(demand.encode(), 0.1)
        self.assertAlmostEqual(it.due, 1.0)

    def test_poll_sequences(self) -> None:
        """6.5: begun where the interval changes, ended by Final alone, answered at once."""
        it = in_state(State.INIT)
        it.received(packet(State.INIT).encode(), 0.0)
        self.assertEqual([each.bits for each in sent(it, 0.0)], [Bits.POLL])
        it.received(packet(State.UP).encode(), 0.1)
        self.assertEqual([each.bits for each in sent(it, 0.35)], [Bits.POLL])
        it.received(packet(State.UP, bits=Bits.POLL).encode(), 0.4)
        self.assertEqual([each.bits for each in sent(it, 0.4)], [Bits.FINAL])
        it.received(packet(State.UP, bits=Bits.FINAL).encode(), 0.5)
        self.assertEqual([each.bits for each in sent(it, 0.75)], [Bits.NONE])

    def test_many_polls_at_once(self) -> None:
        """A flood of them is answered once."""
        it = in_state(State.UP)
        for _ in range(100):
            it.received(packet(State.UP, bits=Bits.POLL).encode(), 0.1)
        self.assertEqual(len(it.act(0.1)), 1)
        self.assertEqual(it.act(0.1), [])

    def test_packets_that_are_discarded_count_for_nothing(self) -> None:
        it = in_state(State.UP)
        for data, why in (
            (packet(State.UP, yours=MINE + 1).encode(), Why.NO_SESSION),
            (packet(State.DOWN, detect_mult=0).encode(), Why.MULTIPLIER),
            (KEYED.signed(packet(State.DOWN, bits=Bits.AUTHENTICATION), 1), Why.WANTED_NONE),
        ):
            it.received(data, 0.5)
            self.assertEqual(it.discarded[why], 1)
        it.act(0.9)
        self.assertEqual(it.variables.session_state, State.DOWN)
        self.assertEqual(it.variables.local_diag, Diagnostic.TIME_EXPIRED)


class Numbers(unittest.TestCase):
    """RFC 5880, 6.7.4."""

    def taken(self, it: Session, key: BfdKey, number: int, now: float = 0.0) -> bool:
        before = it.discarded.total()
        one = packet(State.DOWN, bits=Bits.AUTHENTICATION)
        it.received(key.signed(one, number & 0xFFFFFFFF), now)
        return it.discarded.total() == before

    def test_ranges(self) -> None:
        """Up to three times Detect Mult above the last one, in a circle; the same one again where
        it isn't meticulous."""
        for key, again in ((KEYED, True), (METICULOUS, False)):
            for last in (1000, 0xFFFFFFFE):
                rows = ((0, again), (1, True), (9, True), (10, False), (-1, False))
                for more, is_taken in rows:
                    with self.subTest(f"{key.type.value}, {more} after {last}"):
                        it = session(Settings(keys=(key,)))
                        self.assertTrue(self.taken(it, key, last))
                        self.assertEqual(self.taken(it, key, last + more), is_taken)

    def test_a_forged_number_locks_nobody_out(self) -> None:
        it = session(Settings(keys=(KEYED,)))
        self.assertFalse(self.taken(it, replace(KEYED, secret=b"forged"), 70_000))
        self.assertTrue(self.taken(it, KEYED, 5))
        self.assertFalse(self.taken(it, replace(KEYED, secret=b"forged"), 6))
        self.assertTrue(self.taken(it, KEYED, 5))

    def test_forgotten_after_twice_the_detection_time(self) -> None:
        it = session(Settings(keys=(METICULOUS,)))
        self.assertTrue(self.taken(it, METICULOUS, 500))
        it.act(0.95)
        self.assertFalse(self.taken(it, METICULOUS, 3, 0.95))
        it.act(1.85)
        self.assertTrue(self.taken(it, METICULOUS, 3, 1.85))

    def test_own_numbers_climb(self) -> None:
        it = session(Settings(keys=(METICULOUS, KEYED)))
        numbers = []
        for moment in range(4):
            (data,) = it.act(float(moment))
            numbers.append(number_of(data, decode(data)[1], {7: METICULOUS})[1])
        self.assertEqual([each - numbers[0] & 0xFFFFFFFF for each in numbers], [0, 1, 2, 3])

    def test_several_keys(self) -> None:
        old = BfdKey(8, KeyType.KEYED_SHA1, b"old")
        it = session(Settings(keys=(KEYED, old)))
        self.assertTrue(self.taken(it, old, 1) and self.taken(it, KEYED, 2))
        self.assertEqual(decode(it.act(0.0)[0])[1][2], 7)

    def test_a_key_is_wanted(self) -> None:
        it = session(Settings(keys=(KEYED,)))
        it.received(packet(State.DOWN).encode(), 0.0)
        self.assertEqual(it.discarded[Why.WANTED_SHA1], 1)
        self.assertEqual(it.variables.session_state, State.DOWN)


class Changing(unittest.TestCase):
    """RFC 5880, 6.8.3."""

    def changed(self, transmit: int, receive: int, multiplier: int = 3) -> Session:
        it = in_state(State.UP)
        it.received(packet(State.UP, bits=Bits.FINAL).encode(), 0.0)
        it.change(Settings(transmit * MILLISECOND, receive * MILLISECOND, multiplier))
        return it

    def test_slower(self) -> None:
        """What is sent slows down once the neighbor knows; what is awaited does at once."""
        it = self.changed(600, 700, 5)
        (first,) = sent(it, 0.01)
        self.assertEqual((first.state, first.bits), (State.UP, Bits.POLL))
        self.assertEqual(first.desired_min_tx_interval, 600 * MILLISECOND)
        self.assertEqual((first.required_min_rx_interval, first.detect_mult), (700_000, 5))
        self.assertEqual(it.transmit_interval, 300 * MILLISECOND)
        self.assertEqual(it.detection_time, 2_100 * MILLISECOND)
        it.received(packet(State.UP, bits=Bits.FINAL).encode(), 0.02)
        self.assertEqual(it.transmit_interval, 600 * MILLISECOND)

    def test_faster(self) -> None:
        """What is sent speeds up at once, as far as the neighbor allows; what is awaited once it
        knows."""
        it = self.changed(100, 200)
        self.assertEqual(it.transmit_interval, 300 * MILLISECOND)
        quick = {"desired_min_tx_interval": 1, "required_min_rx_interval": 50 * MILLISECOND}
        it.received(packet(State.UP, **quick).encode(), 0.01)
        self.assertEqual(it.transmit_interval, 100 * MILLISECOND)
        self.assertEqual(it.detection_time, 900 * MILLISECOND)
        it.received(packet(State.UP, bits=Bits.FINAL, **quick).encode(), 0.02)
        self.assertEqual(it.detection_time, 600 * MILLISECOND)

    def test_again_before_the_neighbor_knows(self) -> None:
        """It may have heard of neither change: what it counts on is as it was before both."""
        for first, later in (((600, 100), (900, 200)), ((900, 200), (600, 100))):
            it = self.changed(*first)
            it.change(Settings(*(each * MILLISECOND for each in later)))
            self.assertEqual(it.transmit_interval, 300 * MILLISECOND)
            self.assertEqual(it.detection_time, 900 * MILLISECOND)
            it.received(packet(State.UP, bits=Bits.FINAL).encode(), 0.02)
            self.assertEqual(it.transmit_interval, later[0] * MILLISECOND)

    def test_while_down(self) -> None:
        it = session()
        it.change(Settings(100 * MILLISECOND, 200 * MILLISECOND, 3, (KEYED,)))
        (data,) = it.act(0.0)
        read, section = decode(data)
        self.assertEqual(read.desired_min_tx_interval, SECOND)
        self.assertEqual(number_of(data, section, {7: KEYED})[0], KEYED)


class Resuming(unittest.TestCase):
    def test_another_process_goes_on(self) -> None:
        before = in_state(State.UP, Settings())
        after = session()
        after.resume(kept_of(kept(before.variables)), 5.0)
        self.assertEqual(after.variables, before.variables)
        (first,) = sent(after, 5.0)
        self.assertEqual((first.state, first.your_discriminator), (State.UP, THEIRS))
        self.assertEqual(first.bits, Bits.POLL)
        after.act(5.9)
        self.assertEqual(after.variables.session_state, State.DOWN)
        with self.assertRaises(ValueError):
            after.resume(replace(before.variables, local_discr=MINE + 1), 6.0)

    def test_what_is_no_session(self) -> None:
        good = kept(Variables(1, 2, 3, 4, 5))
        for data in (
            bytes(64),
            b"[]\n",
            b"{}\n",
            b"1\n",
            good.replace(b'"detect_mult": 2', b'"detect_mult": -2'),
            good.replace(b'"detect_mult": 2', b'"detect_mult": "2"'),
            good.replace(b'"session_state": 1', b'"session_state": 9'),
            good.replace(b"local_diag", b"global_diag"),
        ):
            with self.subTest(data), self.assertRaises(ValueError):
                kept_of(data)

    def test_farewell(self) -> None:
        it = in_state(State.UP)
        before = replace(it.variables)
        last, _ = decode(it.farewell())
        self.assertEqual((last.state, last.diagnostic), (State.ADMIN_DOWN, 7))
        self.assertEqual(last.your_discriminator, THEIRS)
        self.assertEqual(it.variables, before)


class Anything(unittest.TestCase):
    def test_bytes_of_anybody(self) -> None:
        """Whatever comes, nothing is raised, and what is sent can be read."""
        chance = random.Random(5880)
        for settings in (Settings(), Settings(keys=(KEYED,)), Settings(keys=(METICULOUS,))):
            it = Session(settings, MINE, 0.0, chance.random)
            for step in range(1_500):
                it.received(self.of_anybody(chance, settings), step / 50)
                for each in it.act(step / 50):
                    decode(each)
                self.assertEqual(kept_of(kept(it.variables)), it.variables)
            self.assertGreater(it.discarded.total(), 300)

    @staticmethod
    def of_anybody(chance: random.Random, settings: Settings) -> bytes:
        """A packet that may be good, or have anything at any place."""
        bits = Bits(chance.choice((0, 0, 16, 32, chance.randrange(64))))
        one = packet(
            State(chance.randrange(4)),
            chance.choice((0, MINE, MINE, chance.getrandbits(32))),
            detect_mult=chance.choice((0, 1, 3, 255)),
            required_min_rx_interval=chance.choice((0, 1, 300_000, 0xFFFFFFFF)),
            desired_min_tx_interval=chance.choice((0, 1, 300_000, 0xFFFFFFFF)),
            bits=bits,
        )
        if settings.keys and chance.random() < 0.7:
            one = replace(one, bits=bits | Bits.AUTHENTICATION)
            data = settings.keys[0].signed(one, chance.randrange(40))
        else:
            data = one.encode()
        mangled = bytearray(data[: chance.choice((len(data), len(data), chance.randrange(60)))])
        if mangled and chance.random() < 0.3:
            mangled[chance.randrange(len(mangled))] = chance.randrange(256)
        return bytes(mangled)


if __name__ == "__main__":
    unittest.main()
