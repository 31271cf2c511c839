"""What the tests of tools/kv and tools/cluster share: a cluster in a folder of its own, which is gone after the test."""

import contextlib
import functools
import importlib.machinery
import importlib.util
import io
import os
import pathlib
import shlex
import tempfile
import time
import types
import unittest
from collections.abc import Callable

from headers import Header, header_of, program, read_header

TOOLS = pathlib.Path(__file__).resolve().parent
MEMORY = "/dev/shm" if os.access("/dev/shm", os.W_OK) else None        # no test rests on how fast a disk syncs
LONGEST = 60.0                          # seconds for what takes a second on a quiet machine
SMALL = "f = 0\nleaders = 1\nproxies = 1\nacceptors = 1\nreplicas = 1\nbatchers = 1\nunbatchers = 1\nreaders = 1\nclients = 8\nbatch = 1\n"


@functools.cache
def tool_of(name: str) -> types.ModuleType:
    """A tool as a module: its file has no ending."""
    loader = importlib.machinery.SourceFileLoader(f"tool_{name}", str(TOOLS / name))
    spec = importlib.util.spec_from_loader(loader.name, loader)
    assert spec
    module = importlib.util.module_from_spec(spec)
    loader.exec_module(module)
    return module


class OverTree(unittest.TestCase):
    """What a tool says of a small tree of the test's own."""

    tool = ""

    def setUp(self) -> None:
        room = tempfile.TemporaryDirectory()
        self.addCleanup(room.cleanup)
        self.top = pathlib.Path(room.name)

    def write(self, name: str, text: str) -> None:
        file = self.top / name
        file.parent.mkdir(parents=True, exist_ok=True)
        file.write_text(text)

    def says(self) -> tuple[int, list[str]]:
        said = io.StringIO()
        with contextlib.redirect_stdout(said):
            status = tool_of(self.tool).main(self.top)
        return status, said.getvalue().splitlines()


def run(tool: str, *words: object) -> tuple[int, str, str]:
    """Runs a tool in this process. Gives its status and what it wrote to both streams."""
    out, said = io.StringIO(), io.StringIO()
    with contextlib.redirect_stdout(out), contextlib.redirect_stderr(said):
        try:
            status = tool_of(tool).main(list(map(str, words)))
        except SystemExit as end:
            status = end.code
    return status, out.getvalue(), said.getvalue()


def until(holds: Callable[[], bool], what: str) -> None:
    """Waits until something holds."""
    end = time.monotonic() + LONGEST
    while not holds():
        if time.monotonic() > end:
            raise AssertionError(f"not within {LONGEST:g} s: {what}")
        time.sleep(0.1)


class Comparison(unittest.TestCase):
    """A test of a tool that compares the program with a reference on random schedules."""

    tool: str

    def setUp(self) -> None:
        self.room = pathlib.Path(self.enterContext(tempfile.TemporaryDirectory(prefix=f"compax-{self.tool}-", dir=MEMORY)))

    def compared(self, script: str, *words: object) -> tuple[int, list[str]]:
        """The status and the lines for a reference that hands what the program does to a shell's commands."""
        reference = self.room / "reference"
        reference.write_text(f"#!/bin/sh\n{shlex.quote(str(program()))} \"$@\" {script}\n")
        reference.chmod(0o755)
        status, out, said = run(self.tool, reference, "--keep", self.room / "kept", *words)
        self.assertEqual(said, "")
        return status, out.splitlines()

    def agrees(self, counted: list[str]) -> None:
        """On 16 schedules of 400 events nothing differs, and each of what is counted happens."""
        status, lines = self.compared("", "--runs", 16, "--events", 400)
        counts = {name: int(count) for name, _, count in (line.rpartition(": ") for line in lines[:-1])}
        self.assertEqual((status, lines[-1]), (0, "16 schedules, 0 differ"))
        for name in counted:
            self.assertGreater(counts.get(name, 0), 0, name)
        self.assertEqual((counts["status 0"], counts["events"]), (16, 16 * 400))

    def tells(self, script: str) -> None:
        """A reference that says something else is told apart, and the schedule is kept."""
        status, lines = self.compared(script, "--runs", 4)
        self.assertEqual(status, 1)
        self.assertIn(f"{self.room / 'kept'}", lines[0])
        self.assertTrue(lines[0].endswith(": other standard output"))


class Trial(unittest.TestCase):
    """A test with a folder, and a header in it whose ports were free just now."""

    def setUp(self) -> None:
        program()                       # without it no test says anything
        self.room = pathlib.Path(self.enterContext(tempfile.TemporaryDirectory(prefix="compax-trial-", dir=MEMORY)))
        self.file = self.room / "c.toml"

    def passes(self, tool: str, *words: object) -> str:
        """What a tool prints that ends well and has nothing to object."""
        status, out, said = run(tool, *words)
        self.assertEqual((status, said), (0, ""), (tool, words, out))
        return out

    def fails(self, status: int, why: str, tool: str, *words: object) -> None:
        """A tool refuses something, in one line on standard error."""
        got, out, said = run(tool, *words)
        self.assertEqual(got, status, (tool, words, out, said))
        self.assertRegex(said.splitlines()[-1], why)
        self.assertNotIn("Traceback", said)

    def kv(self, *words: object) -> str:
        """The answer to a command."""
        return self.passes("kv", "--cluster", self.file, "--seconds", LONGEST, *words).removesuffix("\n")

    def new(self, header: str | None = None) -> Header:
        """Writes the usual header, or another with its ports."""
        self.passes("cluster", "new", self.file)
        if header is not None:
            port = read_header(self.file).numbers["base_port"]
            self.file.write_text(f"{header}base_port = {port}\n")
        return header_of(self.file.read_text(), str(self.file))

    def up(self, *processes: int) -> str:
        """Starts the cluster, which is ended after the test."""
        self.addCleanup(run, "cluster", "down", self.file)
        status, out, said = run("cluster", "up", self.file, *processes)
        self.assertEqual(status, 0, (out, said))
        return out
