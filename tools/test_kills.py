"""Tests of tools/kills: what it sees lost where a start has lost something, and that it sees nothing where nothing is. $COMPAX may name the program."""

import json
import os
import re
import unittest
from unittest import mock

from headers import program
from trials import Trial, run


class Killing(Trial):
    def after(self, before: str, *words: object) -> tuple[int, str, str]:
        """Runs the tool with a node before whose starts a command of the shell is done in its folder."""
        node = self.room / "node"
        node.write_text(f"#!/bin/sh\n{before}\nexec {program()} \"$@\"\n")
        node.chmod(0o755)
        with mock.patch.dict(os.environ, COMPAX=str(node)):
            return run("kills", "--seed", 1, "--folder", self.room, *words)


class KillsTest(Killing):
    def kills(self, before: str = ":", count: int = 4) -> tuple[int, str, str]:
        """So many kills of a node with all roles."""
        return self.after(before, "--kills", count)

    def test_nothing_is_lost(self) -> None:
        status, out, said = self.kills()
        self.assertEqual((status, said), (0, ""))
        figures = r"seed 1, in \S+\n4 kills, (\d) of them .* happened (\d+) times\n(\d[\d,]*) commands answered, and each of them has acted once, in .* s\n"
        cut, whole, answers = [int(figure.replace(",", "")) for figure in re.fullmatch(figures, out).groups()]
        self.assertGreaterEqual((cut + whole, answers), (2, 100))
        self.assertEqual([path.name for path in self.room.iterdir()], ["node"])

    def test_records_that_are_lost(self) -> None:
        status, _, said = self.kills("for file in compax-*; do [ -e $file ] && : > $file; done")
        self.assertEqual(status, 1)
        self.assertRegex(said, r"^kills: client:\d was answered '.*' to \d+; it asked \d+, .*, to which the answer is '.*'; its files are kept in ")
        self.assertEqual(len(list(self.room.glob("compax-kills-*/compax-replica-*"))), 4)

    def test_a_start_that_fails(self) -> None:
        for before, why in (("printf '\\004\\003\\000' > compax-replica-1.other", "status 10: bad store: replica:1 at 1"),
                            ("exit 3", "status 3: ")):
            status, _, said = self.kills(before)
            self.assertEqual(status, 1)
            self.assertIn(f"kills: the node ended with {why}", said)


class ProcessesTest(Killing):
    """Faults of three processes under load. Rates are those of a busy machine, so no bar is asked for but one that can't be met."""

    SHORT = ("--clients", 4, "--before", 0.5, "--after", 1.5)
    FORGETS = "for file in compax-*; do [ -e $file ] && : > $file; done"

    def processes(self, *words: object, before: str = ":") -> tuple[int, str, str]:
        return self.after(before, "--processes", *self.SHORT, *words)

    def test_a_kill(self) -> None:
        figures = self.room / "figures"
        status, out, said = self.processes("kill:1:0.2", "--json", figures)
        self.assertEqual((status, said), (0, ""))
        begin, names, line = out.splitlines()
        self.assertEqual(begin, f"seed 1, 4 clients with 1 outstanding, batches of 1, in {self.room}")
        self.assertRegex(line, r"^kill:1:0\.2 +[\d,]+ +[\d,]+ +[\d,]+ +(never|1\.\d)")
        stored = json.loads(figures.read_text())
        self.assertEqual((stored["fault"], stored["clients"], len(stored["figures"]["each_second"])), ("kill:1:0.2", 4, 1))
        self.assertGreater(stored["figures"]["before"], 20)
        self.assertGreater(stored["answers"], 20)
        self.assertEqual(sorted(path.name for path in self.room.iterdir()), ["figures", "node"])

    def test_what_processes_forget_is_lost(self) -> None:
        status, _, said = self.processes("kill:all:0", before=self.FORGETS)
        self.assertEqual(status, 1)
        self.assertRegex(said, r"^kills: client:\d was answered '.*' (at \d+ )?to \d+, .*; its files are kept in ")
        self.assertEqual(len(list(self.room.glob("compax-kills-*/?/compax-replica-*"))), 6)

    def test_random_kills_and_gets(self) -> None:
        status, out, said = self.processes("--kills", 4, "--window", 8, "--batch", 8)
        self.assertEqual((status, said), (0, ""))
        self.assertRegex(out, r"\n[4-6] kills, \d times all at once; [\d,]+ commands answered, and each of them has acted once, in \d+ s\n$")

    def test_a_process_that_ends_by_itself(self) -> None:
        status, _, said = self.processes("stop:2:0", before="[ -e compax-acceptor-3.journal ] && exit 3; case \"$*\" in *acceptor:3*) : > compax-acceptor-3.journal; exit 3;; esac")
        self.assertEqual(status, 1)
        self.assertRegex(said, "^kills: process 2 ended by itself with status 3: it said nothing; its files are kept in ")

    def test_a_relayed_cut_and_slow_syncs_miss_a_bar(self) -> None:
        """All processes are cut off for longer than is watched before, so that at no time the rate is back: the window that has to be whole isn't."""
        status, out, said = self.processes("cut:all:0.3", "--after", 0.5, "--sync", 200, "--lost", 0.01, "--late", 0.1, "--bars")
        self.assertEqual(status, 1)
        self.assertIn("; missed: 0.7 of the rate before not at all, not within 10 s; missed: 0.9 of the rate before not at all, not within 20 s", out)
        self.assertRegex(said, "^kills: a bar was missed in 1 of 1 trials; the files of the first are kept in ")

    def test_bad_words(self) -> None:
        for words, why in ((("kill:1:1",), "only with --processes"), (("--processes", "kill:9:1"), "there is no process 9"), (("--bars",), "only with --processes"),
                           (("--processes", "kill:1"), "kill:1 is no fault"), (("--processes", "--kills", "3", "kill:1:1"), "each FAULT of its own"),
                           (("--processes", "--clients", "65", "none:1"), "clients"), (("--processes", "--window", "0", "none:1"), "window"),
                           (("--processes", "--lost", "2", "none:1"), "lost"), (("--processes", "--repeat", "0", "none:1"), "repeat"), (("--kills", "-1"), "kills")):
            with self.subTest(words=words):
                self.fails(2, why, "kills", *words)

    def test_what_cannot_be_tried_is_skipped(self) -> None:
        with mock.patch.dict(os.environ, PATH="/nowhere"):
            self.fails(77, "skipped: a disk that fills up needs a mount namespace", "kills", "--processes", "full:1")
            self.fails(77, "skipped: slow syncs need a C compiler", "kills", "--processes", "--folder", self.room, "--sync", 100, "none:1")


if __name__ == "__main__":
    unittest.main()
