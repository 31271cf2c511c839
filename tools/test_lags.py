"""Tests of lags.py on files of replicas that are written by hand."""

import pathlib
import tempfile
import unittest

from headers import Role
from lags import Lags

REPLICAS = [Role("replica", 0), Role("replica", 1)]


def frame(payload: bytes) -> bytes:
    return b"\1" + len(payload).to_bytes(4, "big") + payload


def log(slots: int) -> bytes:
    """A record with the values of so many slots, all of them no-ops."""
    return frame(bytes([7, slots]) + bytes(slots))


def renewed(generation: int, first: int, held: int) -> bytes:
    """The begin of a list that was written anew: it forgot all below `first`; the values from there to `held` follow, at most 32."""
    base = frame(bytes([8]) + first.to_bytes(8, "big") + held.to_bytes(8, "big") + bytes(5))
    return bytes([4, generation]) + base + frame(bytes([11, held - first]) + bytes(held - first))


class LagsTest(unittest.TestCase):
    def setUp(self) -> None:
        self.room = pathlib.Path(self.enterContext(tempfile.TemporaryDirectory(prefix="compax-lags-")))
        files = {replica: [self.room / name for name in replica.files] for replica in REPLICAS}
        self.plain, self.other = files[REPLICAS[0]]
        for path in (self.plain, self.other, *files[REPLICAS[1]]):
            path.write_bytes(b"\0")
        files[REPLICAS[1]][0].write_bytes(log(20) + b"\0")
        self.lags = Lags(files)

    def held(self, path: pathlib.Path, content: bytes) -> int | None:
        path.write_bytes(content)
        return self.lags.held(REPLICAS[0])

    def test_a_file_that_grows(self) -> None:
        self.assertEqual(self.lags.held(REPLICAS[0]), 0)
        self.assertEqual(self.held(self.plain, log(3) + b"\0"), 3)
        self.assertEqual(self.held(self.plain, log(3) + log(2) + b"\0"), 5)
        self.assertEqual(self.held(self.plain, log(3) + log(2) + log(1)[:-1]), 5)
        self.assertEqual(self.held(self.plain, log(3) + log(2) + log(1) + b"\0"), 6)
        self.assertEqual(self.lags.lag(), 14)

    def test_lists_that_are_written_anew(self) -> None:
        self.held(self.plain, log(30) + b"\0")
        self.assertEqual(self.held(self.other, renewed(0, 25, 30) + b"\0"), 30)
        self.assertEqual(self.held(self.other, renewed(0, 25, 30) + log(4) + b"\0"), 34)
        self.assertEqual(self.held(self.plain, renewed(1, 30, 34) + b"\0"), 34)
        self.assertEqual(self.lags.lag(), 14)

    def test_a_generation_comes_again(self) -> None:
        """Two looks may be six lists apart: the same file has the same generation, and another list."""
        self.assertEqual(self.held(self.other, renewed(0, 25, 30) + log(9) + b"\0"), 39)
        self.assertEqual(self.held(self.other, renewed(0, 90, 99) + log(1) + b"\0"), 100)

    def test_what_cannot_be_read(self) -> None:
        self.held(self.plain, log(3) + b"\0")
        self.assertIsNone(self.held(self.plain, b"\7" + log(3)))
        self.assertIsNone(self.lags.lag())
        self.other.unlink()
        self.assertIsNone(self.held(self.plain, log(3) + b"\0"))


if __name__ == "__main__":
    unittest.main()
