"""Tests of tools/tests: what it makes of what unittest prints."""

import unittest

from trials import run, tool_of

tests = tool_of("tests")


class OutcomesTest(unittest.TestCase):
    def counts(self, said: str, status: int | None) -> tuple[int, int, int]:
        outcome = tests.outcome_of("test_a.ATest", status, said)
        return outcome.passed, outcome.failed, outcome.skipped

    def test_what_unittest_prints(self) -> None:
        for said, status, counts in (("Ran 5 tests in 1s\n\nOK\n", 0, (5, 0, 0)), ("Ran 1 test in 1s\n\nOK (skipped=1)\n", 0, (0, 0, 1)),
                                     ("Ran 5 tests in 1s\n\nFAILED (failures=1, errors=2, skipped=1)\n", 1, (1, 3, 1)),
                                     ("Ran 2 tests in 1s\n\nFAILED (errors=21)\n", 1, (0, 2, 0)),
                                     ("Ran 2 tests in 1s\n\nFAILED (unexpected successes=1)\n", 1, (1, 1, 0)),
                                     ("Ran 2 tests in 1s\n\nOK\n", 1, (1, 1, 0))):
            with self.subTest(said):
                self.assertEqual(self.counts(said, status), counts)

    def test_ends_that_are_none(self) -> None:
        """A class that was killed, or that can't be run, is a failure, whatever it printed before."""
        for said, status in (("", 0), ("Ran 5 tests in 1s\n\nOK\n", -9), ("Ran 5 tests in 1s\n", 0), ("not within 9 s", None)):
            with self.subTest(said, status=status):
                self.assertEqual(self.counts(said, status), (0, 1, 0))


class PartsTest(unittest.TestCase):
    def test_no_two_parts_have_a_port(self) -> None:
        parts = [tuple(map(int, tests.part_of((25_000, 32_000), at, 3).split("-"))) for at in range(3)]
        self.assertEqual(parts, [(25_000, 27_333), (27_333, 29_666), (29_666, 31_999)])


class WordsTest(unittest.TestCase):
    def test_words(self) -> None:
        self.assertEqual(run("tests", "no such test"), (1, "tests: 0 passed, 0 failed\n", ""))
        self.assertEqual(run("tests", "--jobs", "0")[0], 2)
