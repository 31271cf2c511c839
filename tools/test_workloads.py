"""Tests of tools/workloads.py: what its schedules are made for happens when they are replayed. $COMPAX may name the program."""

import subprocess
import unittest
from collections import Counter

import workloads
from headers import program

LED = 4                         # the lines that begin a round where f = 0
PUT = "sent batched proposed asking voted chosen applied unbatched resent held".split()     # the words of its ten lines


class Trace:
    def __init__(self, name: str, size: int) -> None:
        made = workloads.written(name, size)
        ended = subprocess.run([program(), "replay"], input=made, capture_output=True, check=True)
        lines = [line.split() for line in ended.stdout.decode().splitlines()]
        events = [line for line in lines if line[0].startswith("@")]
        self.words = Counter(line[-1] for line in events)
        self.said = Counter((line[1], line[-1]) for line in events)                 # (event, word)
        self.sent = [line[3:] for line in lines if line[0].startswith("+")]         # name, body
        self.answers = [(line[1], line[2]) for line in lines if line[0] in ("answer", "read")]
        self.held = {line[0]: line[3:] for line in lines if line[0].startswith("replica:")}
        assert len(events) == size, (name, len(events))


class WorkloadsTest(unittest.TestCase):
    def has(self, trace: Trace, **counts: int) -> None:
        self.assertEqual({word: trace.words[word] for word in counts}, counts)

    def has_puts(self, trace: Trace, count: int) -> None:
        """So many puts are carried to their answers, each once."""
        self.has(trace, **dict.fromkeys(PUT, count))
        self.assertEqual((len(trace.answers), len(set(trace.answers))), (count, count))

    def test_puts(self) -> None:
        trace = Trace("puts", LED + 10 * 12)
        self.has_puts(trace, 12)
        self.has(trace, started=1, matched=1, leads=2)
        self.assertEqual(len(trace.held["replica:0"]), 8)

    def test_crowd(self) -> None:
        trace = Trace("crowd", LED + 10 * 70)
        self.has_puts(trace, 70)
        self.assertEqual(len({client for client, _ in trace.answers}), 64)
        self.assertEqual(len(trace.held["replica:0"]), 70)

    def test_keys(self) -> None:
        trace = Trace("keys", LED + 10 * 70)
        self.has_puts(trace, 70)
        self.assertEqual({client for client, _ in trace.answers}, {"client:0"})
        self.assertEqual([len(pair.partition("=")[2]) for pair in trace.held["replica:0"]], [60] * 70)

    def test_batches(self) -> None:
        trace = Trace("batches", LED + 2 * 170 + 2)
        self.has(trace, sent=128, batched=16, proposed=16, chosen=16, applied=16, unbatched=0, resent=2, held=7 * 16 + 2, kept=1, opened=1)
        self.assertEqual([len(pair) for pair in trace.held["replica:0"]], [32 + 1 + 64] * 128)

    def test_reads(self) -> None:
        trace = Trace("reads", LED + 3 * (10 + 9 * 7))
        self.has(trace, applied=3, unbatched=3, answered=27)
        self.assertEqual(len(set(trace.answers)), 30)

    def test_changes(self) -> None:
        trace = Trace("changes", LED + 3 * (4 * 12 + 4 + 7))
        self.has(trace, applied=12, voted=24, started=4, bypassed=3, promised=0, retired=3, raised=3)
        self.assertEqual(len(set(trace.answers)), 12)

    def test_folds(self) -> None:
        trace = Trace("folds", LED + 3 * (20 * 10 + 2))
        self.has_puts(trace, 60)
        self.has(trace, crashed=3, opened=3)
        self.assertEqual(len(trace.held["replica:0"]), 60)

    def test_wide(self) -> None:
        trace = Trace("wide", 1 + 22 + 3 * 368)
        self.has(trace, **dict.fromkeys("batched proposed asking unbatched resent idle".split(), 3 * 8))
        self.has(trace, voted=3 * 32, applied=3 * 64)
        self.assertEqual(Counter(name for name, _ in trace.sent)["Held"], 3 * 64)
        self.assertEqual((len(trace.answers), len(set(trace.answers))), (3 * 64, 3 * 64))
        self.assertEqual(len(trace.held), 8)
        self.assertEqual(len(set(map(tuple, trace.held.values()))), 1)

    def test_lagging(self) -> None:
        turn = 20 * (8 + 3) + 10 + 20 * 4 + 10
        trace = Trace("lagging", 8 + 2 * turn)
        self.has(trace, proposed=40, applied=80, fetched=40, unbatched=40, idle=40, window=0)
        self.assertEqual(len(set(trace.answers)), 40)
        self.assertEqual(trace.held["replica:0"], trace.held["replica:1"])
        before = Trace("lagging", 8 + turn + 20 * (8 + 3) + 10)
        self.has(before, proposed=40, applied=60, fetched=20)

    def test_snapshots(self) -> None:
        turn = 60 * 10 + 30 + 50 * 3 + 25 + 8
        trace = Trace("snapshots", LED + 4 * turn)
        self.has(trace, proposed=240, applied=440, fetched=201, unbatched=220, opened=8, snapped=6, kept=1, torn=1, past=3, window=0)
        self.assertEqual([len(trace.held[f"replica:{index}"]) for index in (0, 1)], [236, 196])

    def test_repeats(self) -> None:
        trace = Trace("repeats", LED + 10 + 12 * 5)
        self.has(trace, sent=1, voted=1, chosen=1, applied=1, batched=6, done=5, past=10, old=10, unbatched=6)
        self.assertEqual(trace.answers, [("client:0", "1")] * 6)

    def test_stale(self) -> None:
        trace = Trace("stale", 40)
        self.assertEqual(trace.said, {("write", "sent"): 20, ("write", "stale"): 20})
        self.assertEqual(len(trace.sent), 20)

    def test_resend(self) -> None:
        trace = Trace("resend", 40)
        self.assertEqual(trace.said, {("write", "sent"): 40})
        self.assertEqual(set(Counter(body for _, body in trace.sent).values()), {2})

    def test_restarts_and_revotes(self) -> None:
        for name in ("restarts", "revotes"):
            trace = Trace(name, 2 * (LED + 10 * 9))
            self.has_puts(trace, 9)
            self.assertEqual((trace.said["crash", "crashed"], trace.said["restart", "opened"]), (47, 47))
            self.assertEqual(len(trace.held["replica:0"]), 8)

    def test_rounds(self) -> None:
        trace = Trace("rounds", 10 + 3 + 10 * 9)
        self.has_puts(trace, 9)
        self.has(trace, started=10, matched=1, leads=2)
        self.assertEqual(Counter(name for name, _ in trace.sent)["MatchA"], 10)

    def test_leads(self) -> None:
        self.has(Trace("leads", 12), started=10, crashed=1, opened=1)

    def test_resends(self) -> None:
        trace = Trace("resends", LED + 2 + 2 * 32 + 3)
        self.has(trace, proposed=32, asking=32, resent=3)
        self.assertEqual(Counter(name for name, _ in trace.sent)["Phase2A"], 32 + 3 * 512)

    def test_promises(self) -> None:
        trace = Trace("promises", LED + 2 * 8 + 3 * 32 + 3 + 4)
        self.has(trace, voted=32, phase1=1, promised=1, same=3)
        self.assertEqual([len(body) // 2 for name, body in trace.sent if name == "Phase1B"], [30_611] * 4)

    def test_padded(self) -> None:
        self.has(Trace("padded", 3), sent=3)
        self.assertEqual([len(line) for line in workloads.written("padded", 3).split(b"\n")[-4:]], [1024, 1024, 1024, 0])


if __name__ == "__main__":
    unittest.main()
