"""Tests of bench/bars.py: which bars it says to be met. The figures are made up, and one of them at a time is a little too bad."""

import dataclasses
import pathlib
import sys
import unittest
from collections.abc import Callable

sys.path.append(str(pathlib.Path(__file__).resolve().parents[1] / "bench"))

import bars
import load
from bars import ALONE, ALONE_8, MANY, MANY_1, SOME, Round

BARS = 13
RATES = {ALONE: 300.0, ALONE_8: 310.0, SOME: 2000.0, MANY: 2000.0, MANY_1: 1.0}
PEERS = {1: 300.0, 16: 2000.0, 64: 2000.0}


def figures(rate: float) -> load.Figures:
    return load.Figures("made up", rate, 1.0, 2.0, 0.1, 0, 1.99, 1.2, 10.0)


def a_round() -> Round:
    """One that just meets each bar."""
    return Round({line: figures(rate) for line, rate in RATES.items()}, {clients: figures(rate) for clients, rate in PEERS.items()}, [0.5, 1.99, 1.0])


class BarsTest(unittest.TestCase):
    def missed(self, rounds: list[Round], answered: int = load.STARTS) -> list[str]:
        found = bars.verdicts(rounds, answered)
        self.assertEqual(len(found), BARS)
        self.assertEqual([str(it).startswith("MISSED") for it in found], [not it.is_met for it in found])
        return [it.bar for it in found if not it.is_met]

    def with_one(self, change: Callable[[Round], None], count: int) -> list[Round]:
        """Five rounds, of which so many are changed."""
        rounds = [a_round() for _ in range(5)]
        for each in rounds[:count]:
            change(each)
        return rounds

    def test_all_are_met(self) -> None:
        self.assertEqual(self.missed([a_round()]), [])
        self.assertEqual(self.missed([a_round() for _ in range(5)]), [])

    def test_each_is_missed(self) -> None:
        def line(which: tuple[int, int], **values: float) -> Callable[[Round], None]:
            return lambda it: it.lines.update({which: dataclasses.replace(it.lines[which], **values)})

        def peer(clients: int, rate: float) -> Callable[[Round], None]:
            return lambda it: it.peers.update({clients: figures(rate)})

        rows: list[tuple[Callable[[Round], None], list[str]]] = [
            (line(ALONE, rate=299.9), ["one client: at least 300 answers a second", "1 client in batches of 1: not below etcd"]),
            (line(ALONE, slots=1.21), ["one client: at most 1.2 slots a command"]),
            (line(ALONE, syncs=10.1), ["one client: at most 10 syncs a command"]),
            (line(SOME, rate=1999.9), ["16 clients in batches of 8: at least 2,000 answers a second", "16 clients in batches of 8: not below etcd"]),
            (line(SOME, rate=2000.1), ["64 clients in batches of 8: not below 16"]),
            (line(ALONE_8, rate=299.9), ["1 client in batches of 8: not below etcd"]),
            (peer(1, 305.0), ["1 client in batches of 1: not below etcd"]),
            (peer(16, 2000.1), ["16 clients in batches of 8: not below etcd"]),
            (peer(64, 2000.1), ["64 clients in batches of 8: not below etcd"]),
            (lambda it: it.idle.__setitem__(1, 2.0), ["an idle process: below 2 % of a processor"]),
        ]
        for change, wanted in rows:
            self.assertEqual(self.missed(self.with_one(change, 3)), wanted)
            self.assertEqual(self.missed(self.with_one(change, 2)), [])             # the median is good
        for which in (MANY, MANY_1):
            self.assertEqual(self.missed(self.with_one(line(which, silence=2.0), 1)), [f"{bars.named(which)}: none waits for 2 seconds"])
        self.assertEqual(self.missed([a_round()], load.STARTS - 1), ["100 starts in one folder"])

    def test_without_the_peer(self) -> None:
        rounds = self.with_one(lambda it: it.peers.clear(), 5)
        self.assertEqual(self.missed(rounds), [f"{bars.named(line)}: not below etcd" for line in (ALONE, ALONE_8, SOME, MANY)])

    def test_words_of_clients(self) -> None:
        """A process of clients gets another number, where it is tended."""
        self.assertEqual(load.clients_words(["--tend", "1024", "--turns", "9"], 256), ["--tend", "256", "--turns", "9"])
        self.assertEqual(load.clients_words(["--tend", "1024"], None), ["--tend", "1024"])
        self.assertEqual(load.clients_words([], 256), [])

    def test_silences(self) -> None:
        """From the first answer of all to the end, the longest time that a client had none."""
        times = load.Times()
        self.assertEqual(times.silence(1.0, 1), float("inf"))
        times.first, times.last, times.begun, times.gaps = 10.0, {"a": 11.0, "b": 11.5}, [0.0, 0.7], [1.0, 0.8]
        self.assertEqual(times.silence(12.0, 2), 1.0)
        self.assertEqual(times.silence(13.0, 2), 2.0)
        self.assertEqual(times.silence(12.0, 3), 2.0)


if __name__ == "__main__":
    unittest.main()
