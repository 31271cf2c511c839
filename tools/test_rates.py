"""Tests of rates.py on series of answers whose figures are counted by hand."""

import unittest

from faults import Fault
from outcomes import NEVER, Outcome, heading, line, summaries
from rates import Bar, Figures, back, bars_of, figures_of, rate, silence


def answers(*spans: tuple[float, float, int]) -> list[float]:
    """Answers at even distances: so many a second from one time to another."""
    return [begin + at / each for begin, end, each in spans for at in range(round((end - begin) * each))]


# Five seconds with 100 answers each; a fault of two seconds with 10; then three with 40, two with 85, and five with 95.
SERIES = answers((0, 5, 100), (5, 7, 10), (7, 10, 40), (10, 12, 85), (12, 17, 95))


class RatesTest(unittest.TestCase):
    def test_rates_and_silences(self) -> None:
        self.assertEqual([rate(SERIES, 0, 5), rate(SERIES, 5, 7), rate(SERIES, 12, 17)], [100, 10, 95])
        self.assertEqual(rate([], 1, 1), 0)
        self.assertAlmostEqual(silence(SERIES, 5, 7), 0.1)
        self.assertEqual(silence([1.0, 2.0, 4.5], 0, 5), 2.5)
        self.assertEqual([silence([], 3, 5), silence([3.5], 3, 5), silence([4.0], 3, 3.5)], [2, 1.5, 0.5])

    def test_back(self) -> None:
        """Windows begin each tenth of a second. One that begins s seconds before second 10 has 40 s + 85 (1 - s) answers: 80 or more where
        s is 0.1 at most. So the first one ends at 10.9, which is 3.9 s after the fault. Of 85 and 95: 95 (1 - s) + 85 s is 90 where s is 0.5."""
        self.assertAlmostEqual(back(SERIES, 7, 17, 80, 80), 3.9)
        self.assertAlmostEqual(back(SERIES, 7, 17, 90, 80), 5.5)
        self.assertIsNone(back(SERIES, 7, 17, 96, 80))
        self.assertIsNone(back(SERIES, 7, 7.9, 1, 1))
        self.assertEqual(back(SERIES, 0, 5, 100, 80), 1)

    def test_one_good_second_is_no_return(self) -> None:
        flash = answers((0, 1, 100), (1, 10, 20))
        self.assertIsNone(back(flash, 0, 10, 80, 80))
        self.assertEqual(back(flash, 0, 10, 80, 28), 1)

    def figures(self, end_lag: int = 0) -> Figures:
        return figures_of(SERIES, 0, (5, 7), 17, (700, end_lag), [0.8, 0.9])

    def test_figures(self) -> None:
        found = self.figures(3)
        self.assertEqual((found.before, found.during, found.last, found.most_lag, found.end_lag), (100, 10, 95, 700, 3))
        self.assertEqual(found.each_second, [40, 40, 40, 85, 85, 95, 95, 95, 95, 95])
        self.assertEqual(found.back, {0.8: 3.9, 0.9: 5.5})

    def test_bars(self) -> None:
        memory, disk = bars_of("kill", 0.2, True), bars_of("kill", 0.2, False)
        self.assertEqual((memory, disk), ([Bar(0.8, 3), Bar(0.9, 10)], [Bar(0.7, 3), Bar(0.9, 20)]))
        for verb, seconds in (("kill", 4), ("stop", 8), ("cut", 1), ("stop", 0.2)):
            self.assertEqual(bars_of(verb, seconds, True), [Bar(0.8, 10), Bar(0.9, 15)])
        self.assertEqual(self.figures().missed(memory), ["0.8 of the rate before after 3.9 s, not within 3 s"])
        self.assertEqual(self.figures().missed(bars_of("stop", 8, True)), [])
        self.assertEqual(self.figures(64).missed(bars_of("stop", 8, True)), [])
        self.assertEqual(self.figures(65).missed(bars_of("stop", 8, True)), ["a replica 65 slots behind at the end"])
        never = figures_of(answers((0, 5, 100), (7, 17, 50)), 0, (5, 7), 17, (0, 0), [0.8, 0.9])
        self.assertEqual(never.missed(memory)[1], "0.9 of the rate before not at all, not within 10 s")


class TableTest(unittest.TestCase):
    def outcome(self, last: float, took: float | None, lag: int) -> Outcome:
        figures = Figures(1000, 50, last, [], {0.8: took, 0.9: took}, 0.1, 0.25, 4000, lag)
        return Outcome(Fault("kill", "1", 0.2), figures, bars_of("kill", 0.2, True), 9, 1, 0.5)

    def test_lines(self) -> None:
        outcomes = [self.outcome(900, 1.0, 5), self.outcome(950, 2.5, 0), self.outcome(80, None, 3000)]
        names, first, last = heading(outcomes[0]), line(outcomes[0]), line(outcomes[2])
        self.assertEqual(names.split("  ")[0], "fault")
        self.assertEqual(first.split(), "kill:1:0.2 1,000 50 900 1.0 1.0 0.10 0.25 4,000 5".split())
        self.assertEqual(last.split("; missed: ")[0].split(), "kill:1:0.2 1,000 50 80 never never 0.10 0.25 4,000 3,000".split())
        self.assertEqual(last.split("; missed: ")[1:], ["0.8 of the rate before not at all, not within 3 s", "0.9 of the rate before not at all, not within 10 s",
                                                        "a replica 3,000 slots behind at the end"])
        self.assertEqual(len(names), len(first))
        title, median, worst = summaries(outcomes)
        self.assertEqual(title, "kill:1:0.2, 3 trials")
        self.assertEqual(median.split(), "median 1,000 50 900 2.5 2.5 0.10 0.25 4,000 5".split())
        self.assertEqual(worst.split(), "worst 1,000 50 80 never never 0.10 0.25 4,000 3,000".split())
        self.assertEqual(summaries(outcomes[:1]), [])

    def test_what_is_stored(self) -> None:
        stored = self.outcome(80, None, 3000).stored()
        self.assertEqual((stored["fault"], stored["figures"]["end_lag"], len(stored["missed"])), ("kill:1:0.2", 3000, 3))
        self.assertEqual(NEVER, float("inf"))


if __name__ == "__main__":
    unittest.main()
