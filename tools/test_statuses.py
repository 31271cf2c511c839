"""Tests of statuses.py: the table in docs/INPUT.md has what the program says, and the line is found among others."""

import re
import unittest

from headers import TOP
from statuses import line_of, lines_by_status

RUNS = TOP / "crates/compax/runs"
LINES = TOP / "crates/compax/src/line.rt"
FINDING = r"^[^:\n]+:[1-9][0-9]*:[1-9][0-9]*: [^\n]+\n$"       # a file, a line, a column, and what is wrong


class StatusesTest(unittest.TestCase):
    def test_the_lines_of_the_program(self) -> None:
        """Each text in its source is the beginning of a line in the table, and the other way round."""
        beginnings = {text for text in re.findall(r'b"([a-z ]+:? ?)(?:\\n)?"', LINES.read_text()) if text not in (" at ", ":")}
        table = {re.match("[a-z: ]*", line.pattern)[0] for line in lines_by_status().values() if line.pattern}
        self.assertEqual(beginnings, table)
        self.assertGreater(len(table), 10)

    def test_the_stored_runs(self) -> None:
        """Each ends as the table says, but a check of a bad input, which says what is wrong; of 9 and 12 none is stored that says so."""
        seen = set()
        found = 0
        for run in sorted(RUNS.iterdir()):
            stored = {name: (run / name).read_text(errors="replace") if (run / name).exists() else "" for name in ("args", "status", "stderr", "outside")}
            status = int(stored["status"] or 0)
            if stored["args"].startswith("check\n") and status == 3:
                self.assertRegex(stored["stderr"], FINDING, run.name)
                found += 1
            elif "stderr full" not in stored["outside"]:
                # a file that can't be opened has one line more, the system's
                said = re.sub(r"\n[^\n]+ \(os error \d+\)$", "", stored["stderr"].removesuffix("\n"))
                self.assertRegex(said, f"^{lines_by_status()[status].pattern}$", run.name)
                seen.add(status)
        self.assertLessEqual({0, 2, 3, 4, 5, 6, 7, 8, 10, 11}, seen)
        self.assertGreater(found, 20)

    def test_the_line_among_others(self) -> None:
        for status, said, line in ((6, "link failed\nport 21003: Address already in use\n", "link failed"),
                                   (7, "a word\nstore failed: replica:1\ncompax-replica-1.other: No space left\n", "store failed: replica:1"),
                                   (10, "bad store: match:0 at 5\n", "bad store: match:0 at 5"), (2, "bad words\n", "bad words"),
                                   (7, "link failed\n", "link failed"), (-9, "", "it said nothing"), (0, "", "it said nothing"),
                                   (99, "one\ntwo\n", "one; two")):
            self.assertEqual(line_of(status, said), line)


if __name__ == "__main__":
    unittest.main()
