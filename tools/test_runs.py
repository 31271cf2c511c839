"""Tests of tools/runs, over a program that stands in for compax:  python3 -m unittest discover tools"""
import pathlib
import shutil
import socket
import subprocess
import sys
import tempfile
import unittest

RUNS = pathlib.Path(__file__).resolve().parent / "runs"

# Writes its words and its input, adds to a file, says a line on standard error, and ends with 3.
STANDS_IN = """#!/bin/sh
echo "$@"
cat 2>/dev/null || echo unreadable
echo more >> log
ls
echo "bad input at line 1" >&2
exit 3
"""

ONE = {
    "args": "replay\nfast\n",
    "stdin": "a\nb\n",
    "stdout": "replay fast\na\nb\nlog\n",
    "stderr": "bad input at line 1\n",
    "status": "3\n",
    "left/log": "more\n",
}


class RunsTest(unittest.TestCase):
    def setUp(self):
        self.room = pathlib.Path(self.enterContext(tempfile.TemporaryDirectory()))
        self.program = self.room / "program"
        self.program.write_text(STANDS_IN)
        self.program.chmod(0o755)
        self.runs = self.room / "runs"
        self.runs.mkdir()

    def store(self, name, files):
        for file, text in files.items():
            path = self.runs / name / file
            path.parent.mkdir(parents=True, exist_ok=True)
            path.write_text(text)

    def run_all(self, *names):
        """The exit status, and the lines that are written."""
        words = [sys.executable, RUNS, "--program", self.program, "--runs", self.runs, *names]
        ended = subprocess.run(words, capture_output=True, text=True)
        self.assertEqual(ended.stderr, "")
        return ended.returncode, ended.stdout.splitlines()

    def passes(self, count):
        self.assertEqual(self.run_all(), (0, [f"runs: {count} passed, 0 failed"]))

    def fails(self, *said):
        """One run fails, and these lines say why."""
        status, lines = self.run_all()
        self.assertEqual((status, lines[-1]), (1, f"runs: {len(list(self.runs.iterdir())) - 1} passed, 1 failed"))
        for line in said:
            self.assertIn(line, "\n".join(lines))

    def test_as_stored(self):
        self.store("one", ONE)
        self.store("two", {**ONE, "args": "gen\n7\n", "stdout": "gen 7\na\nb\nlog\n"})
        self.passes(2)

    def all_fail(self, changes):
        """Each of these runs, which differ from the good one in one file, fails by that file."""
        for name, (file, stored) in changes.items():
            self.store(name, ONE)
            (self.runs / name / file).write_bytes(stored)
        status, lines = self.run_all()
        self.assertEqual((status, lines[-1]), (1, f"runs: 0 passed, {len(changes)} failed"))
        for name, (file, _) in changes.items():
            self.assertIn(f"{name}: {pathlib.Path(file).name} differs", "\n".join(lines))

    def test_each_byte_counts(self):
        changes = {}
        for file in ("stdout", "stderr", "status", "left/log"):
            stored = ONE[file].encode()
            for at in range(len(stored.strip()) if file == "status" else len(stored)):
                changes[f"{pathlib.Path(file).name}-{at}"] = file, stored[:at] + bytes([stored[at] ^ 1]) + stored[at + 1:]
        self.all_fail(changes)

    def test_missing_and_further_bytes_count(self):
        changes = {}
        for file in ("stdout", "stderr", "left/log"):
            for at, text in enumerate(("", ONE[file][:-1], ONE[file] + "\n", ONE[file] + "x")):
                changes[f"{pathlib.Path(file).name}-{at}"] = file, text.encode()
        self.all_fail(changes)

    def test_no_file_is_nothing(self):
        for file in ("stdout", "stderr", "status"):
            with self.subTest(file=file):
                self.store("one", ONE)
                (self.runs / "one" / file).unlink()
                self.fails(f"{file} differs first in line 1")

    def test_says_the_first_line(self):
        self.store("one", {**ONE, "stdout": "replay fast\na\nc\nlog\n"})
        self.fails("stdout differs first in line 3", "wanted 'c'", "got    'b'")

    def test_checksum(self):
        words = ["sha256sum"]
        found = subprocess.run(words, input=ONE["stdout"], capture_output=True, text=True, check=True).stdout.split()[0]
        summed = {file: text for file, text in ONE.items() if file != "stdout"}
        self.store("one", {**summed, "stdout.sha256": found + "\n"})
        self.passes(1)
        self.store("one", {"stdout.sha256": found[:-1] + ("1" if found[-1] == "0" else "0") + "\n"})
        self.fails("stdout has another SHA-256")

    def test_files_after_a_run(self):
        self.store("one", {**ONE, "left/journal": ""})
        self.fails("journal is missing after the run")
        self.store("one", {"left/.nothing": ""})
        (self.runs / "one" / "left" / "journal").unlink()
        self.passes(1)
        (self.runs / "one" / "left" / "log").unlink()
        self.fails("log is there after the run")

    def test_input_from_elsewhere(self):
        self.store("one", ONE)
        self.store("two", {file: text for file, text in ONE.items() if file != "stdin"})
        self.store("two", {"stdin.from": "../one/stdin\n"})
        self.passes(2)

    def test_made_input(self):
        self.store("one", {**ONE, "stdin.make": "ticks 1\n"})
        (self.runs / "one" / "stdin").unlink()
        self.fails("wanted 'a'", "got    'f = 0'")

    def test_files_and_what_another_run_left(self):
        self.store("one", {**ONE, "files/log": "x\n", "left/log": "x\nmore\n"})
        self.store("two", {**ONE, "after": "one\n", "left/log": "x\nmore\nmore\n"})
        self.passes(2)

    def test_unreadable_input(self):
        self.store("one", {**ONE, "outside": "stdin folder\n", "stdout": "replay fast\nunreadable\nlog\n"})
        self.passes(1)

    def test_input_that_breaks(self):
        self.store("one", {**ONE, "outside": "stdin reset\n", "stdout": "replay fast\na\nb\nunreadable\nlog\n"})
        self.passes(1)

    def test_words_that_are_no_text(self):
        self.store("one", ONE)
        (self.runs / "one" / "args").write_bytes(b"replay\n\xff\n")
        (self.runs / "one" / "stdout").write_bytes(b"replay \xff\na\nb\nlog\n")
        self.passes(1)

    def test_full_streams(self):
        self.store("one", {**ONE, "outside": "stdout full\nstderr full\n", "stdout": "", "stderr": ""})
        self.passes(1)

    def test_folder(self):
        self.store("one", {**ONE, "outside": "folder journal\n", "stdout": "replay fast\na\nb\njournal\nlog\n"})
        self.passes(1)

    def test_device(self):
        self.program.write_text("#!/bin/sh\nhead -c 3 journal | od -An -tx1\n")
        self.store("one", {"args": "", "outside": "device journal\n", "stdout": " 00 00 00\n"})
        self.passes(1)

    def test_taken_port(self):
        with socket.socket(socket.AF_INET, socket.SOCK_DGRAM) as other:
            other.bind(("127.0.0.1", 0))
            self.store("one", {**ONE, "outside": f"taken 127.0.0.1:{other.getsockname()[1]}\n"})
            self.fails("can't be had")

    def test_address_space(self):
        self.program.write_text("#!/bin/sh\nulimit -v\n")
        self.store("one", {"args": "", "outside": "memory 500000\n", "stdout": "500000\n"})
        self.passes(1)

    def test_unknown_words(self):
        self.store("one", {**ONE, "outside": "stdin fulll\n"})
        self.fails("outside: stdin fulll")

    def test_nothing_to_run(self):
        self.assertEqual(self.run_all(), (1, ["runs: 0 passed, 0 failed"]))

    def test_no_program(self):
        self.store("one", ONE)
        self.program.unlink()
        status, lines = self.run_all()
        self.assertEqual((status, lines[-1]), (1, "runs: 0 passed, 0 failed"))

    def test_unknown_name(self):
        self.store("one", ONE)
        status, lines = self.run_all("one", "two")
        self.assertEqual((status, lines[-1]), (1, "runs: 1 passed, 1 failed"))


if __name__ == "__main__":
    unittest.main()
