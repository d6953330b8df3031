import io
import os
import time
import unittest
from unittest import mock

from leafrunt_host.answers import Answers


class Pieces(io.BytesIO):
    """A stream that gives what it has in pieces of some bytes."""

    def __init__(self, data: bytes, size: int) -> None:
        super().__init__(data)
        self._size = size

    def read1(self, size: int | None = -1) -> bytes:
        return super().read1(self._size)


class Endless(io.BytesIO):
    """A stream that never ends, and counts the pieces that it gave."""

    def __init__(self, piece: bytes) -> None:
        super().__init__()
        self._piece, self.count = piece, 0

    def read1(self, _size: int | None = -1) -> bytes:
        time.sleep(0.0001)
        self.count += 1
        return self._piece if self.count < 5000 else b""


class Lines(unittest.TestCase):
    def test_pieces_of_any_length(self) -> None:
        data = b"one\n\nthree\nend\nfive"
        for size in range(1, len(data) + 1):
            with self.subTest(size):
                answers = Answers(Pieces(data, size))
                self.assertEqual(answers.next(5), b"one")
                self.assertEqual(answers.up_to(b"end", 5), b"\nthree\n")
                answers.reader.join(5)
                self.assertEqual(answers.last, b"five")

    def test_an_end_alone(self) -> None:
        answers = Answers(Pieces(b"one\nend\n", 4))
        self.assertEqual((answers.next(5), answers.up_to(b"end", 5)), (b"one", b""))

    def test_the_end(self) -> None:
        answers = Answers(Pieces(b"one\ntwo\nthree", 4))
        self.assertEqual(answers.next(5), b"one")
        self.assertEqual(answers.next(5), b"two")
        answers.reader.join(5)
        self.assertEqual(answers.rest(), [b"three"])
        self.assertRaises(EOFError, answers.next, 5)
        self.assertRaises(EOFError, answers.up_to, b"end", 5)

    def test_what_waits_is_bounded(self) -> None:
        """Whatever a program prints that was taken over, asked or not."""
        for line in (b"x" * 99 + b"\n", b"x" * 100):
            stream = Endless(line)
            with self.subTest(line[-1]), mock.patch.multiple(
                "leafrunt_host.answers", MOST_BYTES=10_000, LONGEST_LINE=1000
            ):
                answers = Answers(stream)
                while stream.count < 100:
                    time.sleep(0.01)
                time.sleep(0.2)
                self.assertLess(stream.count, 150)
                self.assertEqual(answers.next(5)[:5], b"xxxxx")
                self.assertRaises(EOFError, answers.up_to, b"end", 5)

    def test_one_that_says_nothing(self) -> None:
        reader, writer = os.pipe()
        with os.fdopen(reader, "rb") as stream:
            answers = Answers(stream)
            self.assertRaises(TimeoutError, answers.next, 0.01)
            os.close(writer)
            answers.reader.join(5)
            self.assertRaises(EOFError, answers.next, 0.01)


if __name__ == "__main__":
    unittest.main()
