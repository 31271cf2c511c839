"""Tests of faults.py: which words are faults, and of which processes."""

import unittest

from faults import Fault, expanded, fault_of
from headers import Unusable, spread
from test_headers import header


class FaultTest(unittest.TestCase):
    def test_words(self) -> None:
        for word, fault in {"kill:1:0.2": Fault("kill", "1", 0.2), "stop:all:8": Fault("stop", "all", 8.0), "kill:each:4": Fault("kill", "each", 4.0),
                            "cut:2:1": Fault("cut", "2", 1.0), "cut:2:1.5:in": Fault("cut", "2", 1.5, "in"), "gone:1": Fault("gone", "1"),
                            "full:115": Fault("full", "", 115.0), "none:3": Fault("none", "", 3.0)}.items():
            self.assertEqual(fault_of(word), fault)
            self.assertEqual(str(fault), word)

    def test_bad_words(self) -> None:
        for word in ("", "kill", "kill:1", "kill:x:1", "kill:1:", "kill:1:-1", "kill:1:1:in", "kill:1:1e3", "cut:1:1:up", "gone:all", "gone:1:2", "full", "full:1:2",
                     "stop:1:3601", "none:all:1", "kill:1:0.2 "):
            with self.subTest(word=word), self.assertRaises(Unusable) as refused:
                fault_of(word)
            self.assertEqual(refused.exception.status, 2)

    def trials(self, *words: str) -> list[str]:
        usual = header()
        return [str(fault) for fault in expanded([fault_of(word) for word in words], usual, spread(usual, 3))]

    def test_each_is_a_trial_for_each_process_without_a_leader(self) -> None:
        self.assertEqual(self.trials("kill:each:0.2", "stop:0:1", "kill:all:4"), ["kill:1:0.2", "kill:2:0.2", "stop:0:1", "kill:all:4"])
        self.assertEqual([fault_of(word).processes(3) for word in ("kill:2:1", "kill:all:1")], [[2], [0, 1, 2]])
        with self.assertRaisesRegex(Unusable, "there is no process 3"):
            self.trials("kill:3:1")


if __name__ == "__main__":
    unittest.main()
