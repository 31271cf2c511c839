"""Tests of bench/load.py: it fails where its processes end, or answer nothing. The programs are made up."""

import pathlib
import subprocess
import sys
import tempfile
import unittest

LOAD = pathlib.Path(__file__).resolve().parents[1] / "bench/load.py"
ANSWER = "echo answer client:0 1 at 1 ok"


class LoadTest(unittest.TestCase):
    def measured(self, *words: str, servers: str = "exec sleep 60", clients: str = "exec sleep 60") -> tuple[int, str, str]:
        """What a measurement of half a second gives of a program that does this where it hosts a client, and that where it hosts none."""
        room = pathlib.Path(self.enterContext(tempfile.TemporaryDirectory(prefix="compax-load-")))
        program = room / "program"
        program.write_text(f'#!/bin/sh\ncase "$*" in *client:0*) {clients};; *) {servers};; esac\n')
        program.chmod(0o755)
        kind, *rest = words
        ran = subprocess.run([sys.executable, LOAD, "--seconds", "0.5", "--folder", room, kind, program, *rest], capture_output=True, text=True)
        return ran.returncode, ran.stdout, ran.stderr

    def fails(self, said: str, *words: str, **does: str) -> None:
        status, out, err = self.measured(*words, **does)
        self.assertEqual((status, out), (1, ""))
        self.assertRegex(err, f"^load.py: .* {said}\n$")

    def test_good(self) -> None:
        """Where the clients' node has ended, all its lines are answered."""
        for clients in (f"{ANSWER}; exec sleep 60", f"{ANSWER}; {ANSWER}; exit 0"):
            status, out, err = self.measured("compax", "five", "1", "1", clients=clients)
            self.assertEqual((status, err), (0, ""))
            self.assertRegex(out, r"^compax in five,  1 clients, batch 1: +\d+ a second, .* unanswered 0, ")

    def test_what_ends(self) -> None:
        bad = "echo bad words >&2; exit 2"
        self.fails("ended with status 2: bad words", "compax", "five", "1", "1", servers=bad)
        self.fails("ended with status 2: bad words", "compax", "one", "1", "1", clients=bad)
        self.fails("ended with status 2: bad words", "idle", servers=bad)
        self.fails("ended with status 2: bad words", "starts", clients=bad)
        failed = f"{ANSWER}; echo link failed >&2; echo port 21000: Address already in use >&2; exit 6"
        self.fails("ended with status 6: link failed", "compax", "one", "1", "1", clients=failed)
        self.fails("ended with status 0: it said nothing", "compax", "five", "1", "1", servers="exit 0", clients=ANSWER)

    def test_nothing_is_answered(self) -> None:
        status, out, _ = self.measured("compax", "one", "1", "1")
        self.assertEqual(status, 1)
        self.assertRegex(out, "0 a second")


if __name__ == "__main__":
    unittest.main()
