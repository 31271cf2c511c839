"""Tests of tools/records: what it sees where a record, a replay or a file says something else, and that it sees nothing where nothing does. $COMPAX may
name the program."""

import os
import re
import unittest
from unittest import mock

from headers import program
from trials import Trial, run


class RecordsTest(Trial):
    def records(self, word: str = "", change: str = "cat", after: str = ":", count: int = 1) -> tuple[int, str, str]:
        """So many records of a program whose output is changed by a command of the shell where its first word is this, and then another one is done."""
        node = self.room / "node"
        node.write_text(f'#!/bin/bash\nif [ "$1" != "{word}" ]; then exec {program()} "$@"; fi\nset -o pipefail\n{program()} "$@" | {change}\n'
                        f"status=$?\n{after}\nexit $status\n")
        node.chmod(0o755)
        with mock.patch.dict(os.environ, COMPAX=str(node)):
            return run("records", "--runs", count, "--commands", 40, "--seed", 3, "--folder", self.room)

    def test_records_are_runs(self) -> None:
        status, out, said = self.records(count=4)
        self.assertEqual((status, said), (0, ""))
        figures = r"seed 3, in \S+\n4 records, 0 of them full, ([\d,]+) events: 160 commands answered, ([\d,]+) records as stored, \d+ replicas forgot values\n"
        events, records = [int(figure.replace(",", "")) for figure in re.fullmatch(figures, out).groups()]
        self.assertGreater(events, 160 * 8)
        self.assertGreater(records, 40)

    def test_another_record(self) -> None:
        for change, why in (("sed 's/^f = /f  = /'", "doesn't begin with the header"), ("sed '/^deliver 9$/d'", "records|answered|status|stored"),
                            ("sed 's/^deliver 5$/deliver x/'", "the replay ended with status 3: bad input at line"),
                            ("sed 's/^write \\(client:. [0-9]*\\) \\(batcher:.\\) .*/write \\1 \\2 del z/'", "is answered|isn't answered|was answered|records")):
            status, _, said = self.records("node", change)
            self.assertEqual(status, 1, change)
            self.assertRegex(said, f"records: run 0: .*({why}).*; its files are kept in ")

    def test_other_files(self) -> None:
        status, _, said = self.records("node", after="printf '\\000' > compax-acceptor-0.journal")
        self.assertEqual(status, 1)
        self.assertIn("acceptor:0 has other records than in the replay, from record 0 on", said)


if __name__ == "__main__":
    unittest.main()
