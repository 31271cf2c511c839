"""Tests of tools/sets: what its schedules are made for happens, and a reference that says something else is told apart."""

import unittest

from trials import Comparison

COUNTED = ["match opened behind a stop", "replacer opened behind a stop",
           *(f"replacer replace {word}" for word in ("kept", "old", "started", "torn")),
           *(f"match StopA {word}" for word in ("halted", "nack", "same")),
           *(f"match NextA {word}" for word in ("accepted", "nack")),
           *(f"match BootA {word}" for word in ("booted", "same")),
           *(f"replacer StopB {word}" for word in ("asking", "counted", "old")),
           *(f"replacer NextB {word}" for word in ("counted", "decided", "old")),
           *(f"replacer BootB {word}" for word in ("counted", "old", "replaced")),
           *(f"replacer StopNack {word}" for word in ("nacked", "old")),
           *(f"{kind} Sets {word}" for kind in ("leader", "reader", "replacer") for word in ("learnt", "old")),
           *(f"{name} stopped" for name in ("GarbageA", "MatchA", "MatchRead")),
           *(f"{name} new" for name in ("MatchA", "MatchRead")), "match StopA new",
           *(f"replacer tick {word}" for word in ("idle", "resent"))]


class SetsTest(Comparison):
    tool = "sets"

    def test_matchmakers_are_replaced(self) -> None:
        self.agrees(COUNTED)

    def test_a_difference_is_told(self) -> None:
        self.tells("| sed 's/ halted$/ same/'")


if __name__ == "__main__":
    unittest.main()
