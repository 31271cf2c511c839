"""Tests of tools/hash: files by hand, in which a byte of a value or a snapshot is another; and those of a cluster. $COMPAX may name the program."""

import pathlib
import re
import shutil
import subprocess
import tempfile
import unittest
from unittest import mock

import hashing
from headers import header_of, program
from test_journal import APP_A, DEL_A, FIRST, NOOP, PUT_A, SECOND, THIRD
from trials import TOOLS, Trial, run, until

DATA = TOOLS.parent / "crates/compax/data"
HEADER = ("f = 0\nleaders = 1\nproxies = 1\nacceptors = 1\nreplicas = {replicas}\nbatchers = 1\nunbatchers = 1\nreaders = 1\nclients = 4\n"
          "batch = 1\nbase_port = 21000\n")
PUT_B = PUT_A[:-2] + "32"       # its text is 2
OLD = (f"{PUT_A} {APP_A} {NOOP}", "")           # all that it was given
AFTER_1 = (f"{FIRST} {APP_A} {NOOP}", "")       # the same with a snapshot of one slot, and of three
AFTER_3 = ("", SECOND)
LATER = (f"{SECOND} {DEL_A}", "")               # a slot more
AFTER_4 = (THIRD, "")
OTHER = (f"{PUT_B} {APP_A} {NOOP}", "")         # another first value


def changed(records: str, old: str, new: str) -> str:
    """Records in which bytes are others, once."""
    before, found, after = records.rpartition(old)
    assert found and len(old) == len(new)
    return before + new + after


class FilesTest(unittest.TestCase):
    def setUp(self) -> None:
        self.file = pathlib.Path(self.enterContext(tempfile.TemporaryDirectory(prefix="compax-hash-")), "c.toml")
        self.folder = self.file.with_name("c.toml.d")

    def lay(self, *replicas: tuple[str, str]) -> None:
        """Writes the two files of each replica."""
        shutil.rmtree(self.folder, ignore_errors=True)
        self.file.write_text(HEADER.format(replicas=len(replicas)))
        for number, files in enumerate(replicas):
            room = self.folder / str(number)
            room.mkdir(parents=True)
            (room / "roles").write_text(f"replica:{number}\n")
            for ending, records in zip(("journal", "other"), files):
                self.path(number, ending).write_bytes(bytes.fromhex(f"{records} 00" if records else ""))

    def path(self, number: int, ending: str) -> pathlib.Path:
        return self.folder / str(number) / f"compax-replica-{number}.{ending}"

    def compared(self) -> list[str]:
        """The lines, as the module and the tool give them."""
        lines = hashing.compare(header_of(self.file.read_text(), "c"), self.folder)
        status, out, said = run("hash", self.file)
        self.assertEqual((status, said), (1 if any(map(hashing.is_fault, lines)) else 0, ""))
        self.assertEqual([line for line in out.splitlines() if " holds " not in line and line], lines)
        return lines

    def test_the_same(self) -> None:
        """Whatever part of it is a snapshot."""
        for replicas in ((OLD,), (OLD, OLD), (OLD, AFTER_1, AFTER_3), (AFTER_3, OLD), (LATER, AFTER_4, AFTER_3), (("", ""), ("", ""))):
            self.lay(*replicas)
            self.assertEqual(self.compared(), [], replicas)

    def test_what_is_held(self) -> None:
        self.lay(OLD, AFTER_3)
        _, out, _ = run("hash", self.file)
        found = re.fullmatch(r"replica:0 holds 3 slots, its snapshot is of the first 0; they leave 1 keys, 1 clients, (\w{12})\n"
                             r"replica:1 holds 3 slots, its snapshot is of the first 3; they leave 1 keys, 1 clients, (\w{12})\n\n?", out)
        self.assertEqual(found[1], found[2])

    def test_another_value(self) -> None:
        """Each letter is as good as another, for a node too."""
        other = (changed(AFTER_1[0], "78", "79"), "")
        self.lay(AFTER_1, other, OLD)
        self.assertEqual(self.compared(), ["slot 1: replica:1 has client:0 2 app a y, and the others have client:0 2 app a x"])
        self.lay(AFTER_1, other)
        self.assertEqual(self.compared(), ["slot 1: replica:0 has client:0 2 app a x, replica:1 has client:0 2 app a y"])
        self.lay(AFTER_1, OTHER, OLD)
        self.assertEqual(self.compared(), ["slot 0: replica:1 has client:0 1 put a 2, replica:2 has client:0 1 put a 1"])

    def test_a_value_that_others_have_forgotten(self) -> None:
        self.lay(AFTER_3, OTHER, LATER)
        self.assertEqual(self.compared(), ["after 3 slots, key a: replica:1 has 2x, and the others have 1x"])

    def test_another_snapshot(self) -> None:
        self.lay(OLD, AFTER_3, ("", changed(SECOND, "023178", "023179")))
        self.assertEqual(self.compared(), ["after 3 slots, key a: replica:2 has 1y, and the others have 1x"])
        self.lay(OLD, ("", changed(SECOND, "0302", "0303")))
        self.assertEqual(self.compared(), ["after 3 slots, client:0: replica:0 has floor 1: 2 at 2 len 2, replica:1 has floor 1: 2 at 2 len 3"])
        self.lay(AFTER_3, ("", changed(SECOND, "0161 023178", "0162 023178")), OLD)
        self.assertEqual(self.compared(), ["after 3 slots, key a: replica:1 has no text, and the others have 1x",
                                           "after 3 slots, key b: replica:1 has 1x, and the others have no text"])

    def test_one_that_lags(self) -> None:
        first = (PUT_A, "")
        self.lay(first, AFTER_3, OLD)           # the last one stands between them
        self.assertEqual(self.compared(), [])
        self.lay(first, AFTER_3, LATER)
        self.assertEqual(self.compared(), ["not compared: replica:0 can show what it has after 0 to 1 slots, replica:1 from 3 to 3, replica:2 from 3 to 4"])
        self.lay(first, AFTER_3)
        self.assertEqual([hashing.is_fault(line) for line in self.compared()], [False, False])
        self.lay(first, AFTER_3, OTHER)
        self.assertEqual([line for line in self.compared() if hashing.is_fault(line)],
                         ["slot 0: replica:0 has client:0 1 put a 1, replica:2 has client:0 1 put a 2"])

    def test_many_keys(self) -> None:
        """As many are named as can be read."""
        put = lambda at, text: f"01 00000013 07 01 01 01 0000 {at + 1:016x} 01 01{97 + at:02x} 01{ord(text):02x}"
        base = f"01 00000016 08 {12:016x} {12:016x} 0000000c 01"
        notes = f"01 0000001d 0a 0000 {11:016x} 01 {12:016x} {12:016x} 00"
        pairs = " ".join(f"01{97 + at:02x} 0132" for at in range(12))
        snapshot = f"04 01 {base} 01 {2 + 12 * 4:08x} 09 0c {pairs} {notes}"
        self.lay((" ".join(put(at, "1") for at in range(12)), ""), ("", snapshot))
        lines = self.compared()
        self.assertEqual((len(lines), lines[0]), (8, "after 12 slots, key a: replica:0 has 1, replica:1 has 2"))
        self.assertEqual(lines[-1], "after 12 slots, key h: replica:0 has 1, replica:1 has 2 (and 4 more)")

    def test_what_is_being_written(self) -> None:
        self.lay(OLD, AFTER_3)
        with open(self.path(0, "journal"), "ab") as file:
            file.write(bytes.fromhex(APP_A)[1:10])
        self.path(1, "journal").write_bytes(b"\0" + bytes.fromhex(THIRD)[1:30])
        self.assertEqual(self.compared(), [])

    def test_a_file_that_becomes_the_live_one(self) -> None:
        """It is read again."""
        self.lay(LATER, AFTER_3)
        once = hashing.read_once

        def read_once(*words: object) -> hashing.Held:
            held = once(*words)
            if len(tried) == 1:
                self.path(1, "journal").write_bytes(bytes.fromhex(f"{THIRD} 00"))
            tried.append(held.end)
            return held

        tried: list[int] = []
        with mock.patch.object(hashing, "read_once", read_once):
            self.assertEqual(hashing.compare(header_of(self.file.read_text(), "c"), self.folder), [])
        self.assertEqual(tried, [4, 3, 4])

    def test_what_can_not_be_read(self) -> None:
        self.lay(OLD, OLD, OLD)
        path = self.path(1, "journal")
        path.write_bytes(path.read_bytes().replace(b"1", b"!", 1))
        (line,) = self.compared()
        self.assertRegex(line, r"^replica:1: .*compax-replica-1.journal is not a journal from byte 23: a text has the byte 33$")
        self.path(2, "journal").unlink()
        self.assertRegex(self.compared()[1], r"^replica:2: .*compax-replica-2.journal is missing$")
        (self.folder / "0/roles").write_text("reader:0\n")
        self.assertRegex(self.compared()[0], r"^replica:0: .* has no folder with it$")
        self.lay(OLD, ("", changed(SECOND, "00000001 01 01", "00000002 01 01")))
        self.assertRegex(self.compared()[0], r"^replica:1: .* lacks some of what its first record says it has$")

    def test_no_cluster(self) -> None:
        self.file.write_text(HEADER.format(replicas=1))
        for words in ((), (self.file,), (self.folder / "none",)):
            status, out, said = run("hash", *words)
            self.assertEqual((status, out), (2, ""))
            self.assertNotEqual(said, "")


class ExecutionTest(unittest.TestCase):
    """What values leave is what the program says they leave."""

    def test_schedules(self) -> None:
        compared = 0
        for schedule in sorted(DATA.glob("*.schedule")):
            out = subprocess.run([program(), "replay"], input=schedule.read_bytes(), capture_output=True, check=False).stdout.decode()
            commands = re.findall(r"^(\d+) (client:\d+ .*) (?:acts|past)$", out, re.MULTILINE)
            for slots, pairs in re.findall(r"^replica:\d+ held (\d+)(.*)$", out, re.MULTILINE):
                state = hashing.State()
                for slot in range(int(slots)):
                    state.execute(", ".join(command for at, command in commands if int(at) == slot) or "noop")
                self.assertEqual(state.map, dict(pair.split("=") for pair in pairs.split()), schedule.name)
                compared += bool(pairs)
        self.assertGreater(compared, 5)

    def test_floors(self) -> None:
        """By the rules: a used number acts once and has its answer; a number that isn't above the greatest floor does nothing."""
        state = hashing.State()
        for value in ("client:0 5/3 put a 5", "client:0 4/3 app a 4, client:0 5/3 put a 7", "client:0 3 put a 3", "noop", "client:0 5/4 del a"):
            state.execute(value)
        self.assertEqual((state.map, state.of_client(0)), ({"a": "54"}, "floor 4: 5 at 1 ok"))


class ClusterTest(Trial):
    def test_a_cluster(self) -> None:
        self.new()
        self.up()
        for words in ("put a 1", "app a 2", "put b 3", "del a", "app a 4"):
            self.kv(*words.split())
        folder = self.file.with_name("c.toml.d")
        until(lambda: len(set(re.findall(r"holds (\d+) slots", self.passes("hash", self.file)))) == 1, "all replicas hold the same")
        self.assertEqual(len(set(re.findall(r"2 keys, \d+ clients, (\w+)", self.passes("hash", self.file)))), 1)
        self.passes("cluster", "down", self.file)
        (path,) = [path for path in folder.glob("*/compax-replica-1.*") if b"\1b\0013" in path.read_bytes()][-1:]
        path.write_bytes(path.read_bytes().replace(b"\1b\0013", b"\1b\0017"))
        status, out, said = run("hash", self.file)
        self.assertEqual((status, said), (1, ""))
        self.assertRegex(out, r"\n(after \d+ slots, key b: replica:1 has 7, and the others have 3|slot \d+: replica:1 has .* put b 7, .* put b 3)\n")


if __name__ == "__main__":
    unittest.main()
