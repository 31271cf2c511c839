"""Tests of tools/reads: what its schedules are made for happens, and a reference that says something else is told apart."""

import unittest

from trials import Comparison

COUNTED = ["batches behind another", "batches of several", "opened behind a stop",
           *(f"ReadReq {word}" for word in ("again", "full", "kept", "queued", "same", "started", "torn")),
           *(f"MatchReadAck {word}" for word in ("asking", "counted", "same", "unasked")),
           *(f"PreReadAck {word}" for word in ("counted", "kept", "same", "sent", "torn", "unasked")),
           *(f"tick {word}" for word in ("idle", "resent"))]


class ReadsTest(Comparison):
    tool = "reads"

    def test_reads_wait_for_batches(self) -> None:
        self.agrees(COUNTED)

    def test_a_difference_is_told(self) -> None:
        self.tells("| sed 's/ queued$/ started/'")


if __name__ == "__main__":
    unittest.main()
