"""Tests of tools/differential and the reference: they agree on schedules and stored runs; what differs is told. $COMPAX may name the program."""

import pathlib
import shutil
import subprocess
import types
import unittest

from headers import TOP, program
from trials import Comparison, run, tool_of

REFERENCE = TOP / "reference/compax"
LONG = 100_000                  # bytes of what a stored run reads or prints, from which on it is left to tools/differential


def asked(*words: object, text: str = "") -> tuple[int, str, str]:
    """What the reference does."""
    ended = subprocess.run([REFERENCE, *map(str, words)], input=text, capture_output=True, text=True, check=False)
    return ended.returncode, ended.stdout, ended.stderr


class DifferentialTest(Comparison):
    tool = "differential"

    def test_the_reference_agrees(self) -> None:
        """On each kind of schedule."""
        status, out, said = run("differential", "--runs", 20, "--events", 200, "--no-stored", "--keep", self.room / "kept")
        self.assertEqual((status, out, said), (0, "20 schedules, 0 differ\n", ""))
        self.assertFalse((self.room / "kept").exists())

    def test_a_difference_is_told(self) -> None:
        """The first one is shown, and each schedule is kept."""
        status, lines = self.compared("| sed '1s/ lead / led /'", "--runs", 2, "--events", 20, "--no-stored")
        kept = [self.room / f"kept/{number}.schedule" for number in (1, 2)]
        self.assertEqual((status, lines[0], lines[1]), (1, f"{kept[0]}: other standard output", "standard output differs first in line 1"))
        self.assertRegex(lines[2], r"^    wanted '@1 led leader:\d+ \w+'$")
        self.assertRegex(lines[3], r"^    got    '@1 lead leader:\d+ \w+'$")
        self.assertEqual(lines[4:], [f"{kept[1]}: other standard output", "2 schedules, 2 differ"])
        self.assertEqual([it.read_text().partition("---\n")[2].count("\n") for it in kept], [20, 20])

    def test_another_rule_is_told(self) -> None:
        """A reference whose acceptors tell readers one slot too few."""
        other = self.room / "other"
        shutil.copytree(REFERENCE.parent, other)
        rules = other / "acceptor.py"
        before = rules.read_text()
        rules.write_text(before.replace("max(d.top, s + 1)", "max(d.top, s)"))
        self.assertNotEqual(rules.read_text(), before)
        status, out, said = run("differential", other / "compax", "--first", 2, "--runs", 1, "--events", 150, "--no-stored", "--keep", self.room)
        self.assertEqual((status, said), (1, ""))
        self.assertRegex(out, r"wanted '\+\d+ acceptor:\d+ reader:\d+ PreReadAck ")


class StoredTest(unittest.TestCase):
    def test_stored_runs(self) -> None:
        """Every fifth of those that are short. Nodes, and runs in little memory, are none of them."""
        differential, runs = tool_of("differential"), tool_of("runs")
        names = list(differential.stored_runs(runs))
        self.assertGreater(len(names), 200)
        self.assertFalse({"node-put", "no-memory-gen"} & {*names})
        short = [name for name in names if self.is_short(runs, differential.RUNS / name)]
        self.assertGreater(len(short), 150)
        for name in short[::5]:
            self.assertEqual(runs.differences(REFERENCE, differential.RUNS, name), [], name)

    def is_short(self, runs: types.ModuleType, run: pathlib.Path) -> bool:
        return not (run / "stdin.make").exists() and max(len(runs.bytes_of(run, "stdout")), len(runs.input_of(run))) < LONG


class WordsTest(unittest.TestCase):
    def test_schedules_of_the_generator(self) -> None:
        """They are those of `compax gen`: the program's summary of the seed is that of the schedule's run."""
        status, schedule, _ = asked("schedule", 5570, 400)
        self.assertEqual((status, schedule.count("\n---\n"), schedule.partition("---\n")[2].count("\n")), (0, 1, 400))
        summary = subprocess.run([program(), "gen", "5570", "400"], capture_output=True, text=True, check=True).stdout
        self.assertEqual(asked("gen", 5570, 400), (0, summary, ""))
        trace = subprocess.run([program(), "replay"], input=schedule, capture_output=True, text=True, check=True).stdout
        self.assertEqual(trace.count("\n@") + 1, 400)
        self.assertEqual([line for line in trace.splitlines() if line.startswith("replica:")], summary.splitlines()[-2:])

    def test_bad_words(self) -> None:
        for words in ((), ("replay", "x"), ("gen", 7), ("gen", 7, 65_536), ("gen", "-7", 1), ("node", "client:0"), ("--help",)):
            self.assertEqual(asked(*words), (2, "", "bad words\n"), words)


if __name__ == "__main__":
    unittest.main()
