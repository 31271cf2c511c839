"""Tests of tools/pasted: what counts as shown, and what bash prints of commands that are pasted into it."""

import importlib.machinery
import importlib.util
import pathlib
import sys
import tempfile
import unittest

PATH = pathlib.Path(__file__).resolve().parent / "pasted"
LOADER = importlib.machinery.SourceFileLoader("pasted", str(PATH))
pasted = importlib.util.module_from_spec(importlib.util.spec_from_loader("pasted", LOADER))
sys.modules["pasted"] = pasted
LOADER.exec_module(pasted)


def command(text, shown=(), any_slot=False):
    return pasted.Command(text, 1, any_slot, list(shown))


class Shown(unittest.TestCase):
    def test_each_line_counts(self):
        self.assertTrue(command("", ["a", "b"]).is_shown(["a", "b"]))
        for printed in [["a"], ["b", "a"], ["a", "b", "c"], ["a", "bb"], []]:
            self.assertFalse(command("", ["a", "b"]).is_shown(printed), printed)
        self.assertFalse(command("").is_shown(["a"]))

    def test_dots_stand_for_any_lines(self):
        for printed in [["a", "z"], ["a", "b", "c", "z"]]:
            self.assertTrue(command("", ["a", "...", "z"]).is_shown(printed), printed)
        self.assertFalse(command("", ["a", "...", "z"]).is_shown(["a", "b"]))

    def test_slots_alone_may_differ(self):
        shown = ["answer client:0 1 at 7 ok"]
        self.assertTrue(command("", shown, True).is_shown(["answer client:0 1 at 82 ok"]))
        self.assertFalse(command("", shown, False).is_shown(["answer client:0 1 at 82 ok"]))
        self.assertFalse(command("", shown, True).is_shown(["answer client:0 2 at 7 ok"]))


class Pasted(unittest.TestCase):
    def outputs(self, *texts):
        with tempfile.TemporaryDirectory() as folder:
            top = pathlib.Path(folder, "clone")
            (top / pasted.PROGRAM).parent.mkdir(parents=True)
            (top / pasted.PROGRAM).write_text('#!/bin/sh\necho "program: $*"\n')
            (top / pasted.PROGRAM).chmod(0o755)
            return pasted.outputs_of([command(text) for text in texts], top)

    def test_one_shell_runs_them_in_order(self):
        self.assertEqual(self.outputs("x=3", "echo $x; echo b >&2", "false", "echo $?"), [[], ["3", "b"], [], ["1"]])

    def test_a_try_runs_the_program(self):
        self.assertEqual(self.outputs("rt try -- gen 1 2"), [["program: gen 1 2"]])

    def test_jobs_are_not_shown(self):
        self.assertEqual(self.outputs("sleep 60 & job=$!", "kill -9 $job; wait $job; echo $?"), [[], ["137"]])

    def test_what_is_not_reached_is_told(self):
        self.assertEqual(self.outputs("exit 3", "echo a"), [[], ["(not reached)"]])


if __name__ == "__main__":
    unittest.main()
