"""Tests of tools/snaps: what its schedules are made for happens, and a reference that says something else is told apart."""

import random
import unittest

from headers import program
from schedules import schedule
from trials import Comparison, tool_of

BEHIND = ["applied", "fetched", "opened", "past"]
WORDS = ["down", "idle", "kept", "snapped", "torn"]


class SnapsTest(Comparison):
    tool = "snaps"

    def test_replicas_forget(self) -> None:
        status, lines = self.compared("", "--runs", 12, "--events", 300)
        counts = {name: int(count) for name, _, count in (line.rpartition(": ") for line in lines[:-1])}
        self.assertEqual((status, lines[-1]), (0, "12 schedules, 0 differ"))
        for name in [*(f"snap {word}" for word in WORDS), *(f"{word} behind a snap" for word in BEHIND)]:
            self.assertGreater(counts.get(name, 0), 0, name)
        self.assertGreater(counts["schedules with snapped"], 6)
        self.assertEqual(counts.get("status 0", 0) + counts.get("status 3", 0), 12)
        self.assertEqual(counts["events"], 12 * 300)
        self.assertFalse((self.room / "kept").exists())

    def test_a_difference_is_told(self) -> None:
        for script, what in [("| sed 's/ applied$/ early/'", "standard output"), ("; echo >&2", "standard error"), ("; exit 9", "status")]:
            status, lines = self.compared(script, "--first", 5, "--runs", 1, "--events", 100)
            kept = self.room / "kept/5.schedule"
            self.assertEqual((status, lines[0], lines[-1]), (1, f"{kept}: other {what}", "1 schedules, 1 differ"))
            self.assertEqual(kept.read_text(), schedule([str(program())], tool_of("snaps").Maker, random.Random("snaps 5"), 100))


if __name__ == "__main__":
    unittest.main()
