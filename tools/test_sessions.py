"""Tests of tools/sessions: what its schedules are made for happens, and a reference that says something else is told apart."""

import unittest

from trials import Comparison

COUNTED = ["answers that were absent before", "clients that ask several replicas", "reads that had waited", "session reads behind what was heard",
           *(f"session {word}" for word in ("sent", "stale")), *(f"session read {word}" for word in ("answered", "deferred", "full", "same"))]


class SessionsTest(Comparison):
    tool = "sessions"

    def test_clients_ask_in_sessions(self) -> None:
        status, lines = self.compared("", "--runs", 12, "--events", 300)
        counts = {name: int(count) for name, _, count in (line.rpartition(": ") for line in lines[:-1])}
        self.assertEqual((status, lines[-1]), (0, "12 schedules, 0 differ"))
        for name in COUNTED:
            self.assertGreater(counts.get(name, 0), 0, name)
        self.assertEqual((counts["status 0"], counts["events"]), (12, 12 * 300))

    def test_a_difference_is_told(self) -> None:
        status, lines = self.compared("| sed 's/ deferred$/ answered/'", "--runs", 4)
        self.assertEqual(status, 1)
        self.assertIn(f"{self.room / 'kept'}", lines[0])
        self.assertTrue(lines[0].endswith(": other standard output"))


if __name__ == "__main__":
    unittest.main()
