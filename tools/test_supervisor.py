"""Tests of tools/supervisor.py with a program that makes the files of its roles and then waits, or does what its folder says."""

import json
import os
import pathlib
import re
import resource
import shutil
import signal
import subprocess
import sys
import tempfile
import time
import unittest
from unittest import mock

from headers import TOP
from inventory import INVENTORY, Inventory, read_inventory
from processes import Process
from states import STATE, Note, State, asked, read_state
from statuses import ending
from supervisor import LOG, LOG_SIZE, ROLES, ROOM, ROOM_TEST, Kept, Supervisor, no_room
from trials import MEMORY, TOOLS, until

ROOMS = (("leader:0", "proxy:0"), ("acceptor:2", "match:0", "replica:0", "batcher:0"))
FILES = ["compax-acceptor-2.journal", "compax-match-0.journal", "compax-replica-0.journal", "compax-replica-0.other"]
PROGRAM = f"""#!/bin/sh
shift 5
echo "$*" > hosted
for role in "$@"; do
    kind=${{role%:*}} index=${{role#*:}}
    case $kind in
        replica) : >> compax-$kind-$index.journal; [ "$OLD" ] || : >> compax-$kind-$index.other ;;
        leader | acceptor | match) : >> compax-$kind-$index.journal ;;
    esac
done
[ ! -f do ] || . ./do
exec sleep 600
"""
QUICK = "import supervisor; supervisor.LOOK, supervisor.RETRY = 0.1, 0.2; supervisor.main()"     # it looks more often than it does elsewhere
STORE_FAILS = "echo a client waits >&2; echo store failed: acceptor:2 >&2; echo 'a file: No space left on device' >&2; exit 7\n"


class SupervisorTrial(unittest.TestCase):
    def setUp(self) -> None:
        self.room = pathlib.Path(self.enterContext(tempfile.TemporaryDirectory(prefix="compax-supervisor-", dir=MEMORY)))
        self.folder = self.room / "d"
        self.program = self.room / "program"
        self.make()

    def make(self) -> None:
        self.program.write_text(PROGRAM)
        self.program.chmod(0o755)
        for number, roles in enumerate(ROOMS):
            self.at(number).mkdir(parents=True)
            (self.at(number) / "header.toml").write_text("f = 0\n---\n")
            (self.at(number) / ROLES).write_text(" ".join(roles) + "\n")

    def at(self, number: int) -> pathlib.Path:
        return self.folder / str(number)

    def words(self, folder: pathlib.Path) -> list[str]:
        return [sys.executable, "-c", QUICK, str(folder), str(self.program)]

    def start(self, **environment: str) -> subprocess.Popen[bytes]:
        """Starts a supervisor, which is ended after the test with all that it started."""
        supervisor = subprocess.Popen(self.words(self.folder), env={**os.environ, **environment, "PYTHONPATH": str(TOOLS)})
        self.addCleanup(self.stop, supervisor)
        until(lambda: self.asks() is not None, "it answers")
        return supervisor

    def stop(self, supervisor: subprocess.Popen[bytes]) -> None:
        supervisor.terminate()
        supervisor.wait()

    def asks(self) -> State | None:
        return asked(self.folder)

    def state(self) -> State:
        state = self.asks()
        assert state
        return state

    def note(self, number: int) -> Note:
        note = self.state().note(number)
        assert note
        return note

    def node(self, number: int) -> Process:
        """The node of a process, which may just be started."""
        until(lambda: self.note(number).process is not None, f"process {number} runs")
        process = self.note(number).process
        assert process
        return process

    def starts_again(self, number: int, change: int = 1) -> None:
        """Waits until a process whose node is killed runs again."""
        starts = self.note(number).starts
        self.node(number).send(signal.SIGKILL)
        until(lambda: self.note(number).starts >= starts + change and self.note(number).process is not None, f"process {number} runs again")

    def says(self, number: int, condition: str) -> None:
        until(lambda: self.note(number).condition == condition, f"of process {number}: {condition!r}")

    def seen(self, number: int) -> list[str]:
        inventory = read_inventory(self.folder)
        return inventory.files.get(str(number), []) if inventory else []

    def hosts(self, number: int, *roles: str) -> None:
        """Waits until the program was started with these roles."""
        hosted = self.at(number) / "hosted"
        until(lambda: hosted.exists() and hosted.read_text().split() == list(roles), f"process {number} hosts {roles}")


class LostTest(SupervisorTrial):
    """Files and folders that are gone."""

    def setUp(self) -> None:
        super().setUp()
        self.supervisor = self.start()
        until(lambda: self.seen(1) == FILES and self.seen(0) == ["compax-leader-0.journal"], "the files are noted")
        self.other = self.node(0)

    def tearDown(self) -> None:
        self.assertEqual(self.note(0).process, self.other)
        self.assertEqual((self.note(0).starts, self.note(0).condition), (1, ""))

    def loses(self, name: str, role: str) -> None:
        """Without this file the process is started without this role, and with it once the file is back."""
        left = [each for each in ROOMS[1] if each != role]
        node = self.node(1)
        shutil.move(self.at(1) / name, self.room / name)
        self.says(1, f"{name} is gone")
        self.assertEqual(self.node(1), node)
        self.starts_again(1)
        self.hosts(1, *left)
        self.assertFalse((self.at(1) / name).exists())
        self.says(1, f"{name} is gone; runs without {role}")
        shutil.move(self.room / name, self.at(1) / name)
        self.says(1, f"runs without {role}")
        self.starts_again(1)
        self.hosts(1, *ROOMS[1])
        self.says(1, "")

    def test_a_journal(self) -> None:
        self.loses("compax-acceptor-2.journal", "acceptor:2")

    def test_the_second_file_of_a_replica(self) -> None:
        self.loses("compax-replica-0.other", "replica:0")

    def test_a_folder(self) -> None:
        node = self.node(1)
        shutil.move(self.at(1), self.room / "away")
        self.says(1, "its folder is gone")
        self.assertEqual(self.node(1), node)
        node.send(signal.SIGKILL)
        until(lambda: self.note(1).process is None, "the node has ended")
        again = self.note(1).again
        until(lambda: self.note(1).again > again, "it was tried again")
        self.says(1, "its folder is gone")
        self.assertEqual((self.note(1).number, self.note(1).starts, self.note(1).roles), (1, 1, list(ROOMS[1])))
        shutil.move(self.room / "away", self.at(1))
        self.says(1, "")
        self.hosts(1, *ROOMS[1])
        self.assertEqual(self.node(1).lives(), True)

    def test_before_the_supervisor_is_started(self) -> None:
        """What was there is known to the next supervisor too, and a file that no start has made yet isn't missed."""
        self.stop(self.supervisor)
        (self.at(1) / "compax-match-0.journal").unlink()
        (self.at(1) / ROLES).write_text(" ".join([*ROOMS[1], "acceptor:3"]))
        (self.at(1) / "hosted").unlink()
        self.start()
        self.hosts(1, "acceptor:2", "replica:0", "batcher:0", "acceptor:3")
        self.says(1, "compax-match-0.journal is gone; runs without match:0")
        self.other = self.node(0)
        until(lambda: "compax-acceptor-3.journal" in self.seen(1), "the new file is noted")

    def test_all_files(self) -> None:
        """A process that has nothing left to host isn't started."""
        self.stop(self.supervisor)
        (self.at(1) / ROLES).write_text("acceptor:2\n")
        (self.at(1) / FILES[0]).unlink()
        self.start()
        self.other = self.node(0)
        self.says(1, f"{FILES[0]} is gone")
        self.assertEqual((self.note(1).starts, self.note(1).process), (0, None))


class OlderTest(SupervisorTrial):
    def test_a_program_without_second_files(self) -> None:
        """What never was isn't missed."""
        self.start(OLD="1")
        until(lambda: len(self.seen(1)) == 3, "the files are noted")
        self.starts_again(1)
        self.hosts(1, *ROOMS[1])
        self.assertEqual((self.note(1).condition, self.seen(1)), ("", FILES[:3]))


class RoomTest(SupervisorTrial):
    """Whether there is room. A limit on the size of files stands for a full disk."""

    def test_no_room(self) -> None:
        (self.at(1) / ROOM_TEST).write_bytes(bytes(100))
        before = resource.getrlimit(resource.RLIMIT_FSIZE)
        self.addCleanup(resource.setrlimit, resource.RLIMIT_FSIZE, before)
        resource.setrlimit(resource.RLIMIT_FSIZE, (ROOM // 2, before[1]))
        started = self.start()
        for number in (0, 1):
            self.says(number, "no room (File too large)")
            self.assertEqual((self.note(number).starts, self.note(number).process, self.note(number).ended), (0, None, ""))
        self.assertFalse((self.at(1) / ROOM_TEST).exists())
        resource.prlimit(started.pid, resource.RLIMIT_FSIZE, before)
        for number in (0, 1):
            self.says(number, "")
            self.assertEqual(self.note(number).starts, 1)
        self.assertFalse((self.at(0) / ROOM_TEST).exists())

    def test_little_room(self) -> None:
        """The last room of a file system is left to those that run: nothing is written where there is so little."""
        free = os.statvfs(self.folder)
        for blocks, fault in ((2 * ROOM // free.f_frsize - 1, "No space left on device"), (2 * ROOM // free.f_frsize, ""), (free.f_blocks, "")):
            values = [*free[:3], blocks, blocks, *free[5:]]
            (self.at(1) / ROOM_TEST).write_bytes(bytes(100))
            with mock.patch.object(os, "statvfs", lambda _: os.statvfs_result(values)), mock.patch.object(os, "urandom", wraps=os.urandom) as written:
                self.assertEqual(no_room(self.at(1)), fault)
            self.assertEqual(written.called, fault == "")
            self.assertFalse((self.at(1) / ROOM_TEST).exists())

    def test_a_full_disk(self) -> None:
        """A small file system of its own. It is seen from here through the supervisor's root."""
        outer, unshare = self.folder, ["unshare", "-m"] if os.geteuid() == 0 else ["unshare", "-rm"]
        mount = 'mount -t tmpfs -o size=1m none "$0" && cp -r "$0.made/." "$0" && exec "$@"'
        if subprocess.run([*unshare, "mount", "-t", "tmpfs", "none", outer], capture_output=True).returncode:
            self.skipTest("no file system can be mounted here")
        shutil.copytree(outer, f"{outer}.made")
        supervisor = subprocess.Popen([*unshare, "sh", "-c", mount, str(outer), *self.words(outer)], env={**os.environ, "PYTHONPATH": str(TOOLS)})
        self.addCleanup(self.stop, supervisor)
        self.folder = pathlib.Path(f"/proc/{supervisor.pid}/root{outer}")
        until(lambda: self.folder.exists() and self.asks() is not None, "it answers")
        until(lambda: len(self.seen(0)) == 1 and len(self.seen(1)) == 4, "the files are noted")
        nodes = [self.node(0), self.node(1)]
        filler = self.folder / "filler"
        with open(filler, "wb", buffering=0) as file:
            with self.assertRaises(OSError):
                while True:
                    file.write(bytes(4096))
        nodes[1].send(signal.SIGKILL)
        self.says(1, "no room (No space left on device)")
        until(lambda: self.state().condition == "state.json can't be written: No space left on device", "the state can't be written")
        self.assertEqual((self.node(0), self.note(0).starts, self.note(1).starts), (nodes[0], 1, 1))
        self.assertEqual((self.folder / STATE).stat().st_size > 0, True)
        filler.unlink()
        self.says(1, "")
        until(lambda: self.state().condition == "", "the state is written")
        self.assertEqual((self.node(0), self.note(0).starts, self.note(1).starts), (nodes[0], 1, 2))
        self.assertEqual(read_state(self.folder), self.state())


class EndsTest(SupervisorTrial):
    """Nodes that end."""

    def test_how_it_ended(self) -> None:
        (self.at(1) / "do").write_text(STORE_FAILS)
        self.start()
        until(lambda: self.note(1).starts >= 3, "three starts")
        self.assertEqual(self.note(1).ended, "status 7: store failed: acceptor:2")
        pauses = re.findall(r"ended with status 7: store failed: acceptor:2; started again in ([\d.]+) s", (self.at(1) / LOG).read_text())
        self.assertEqual(pauses[:2], ["0.2", "0.4"])
        self.assertEqual(self.note(0).starts, 1)

    def test_pauses(self) -> None:
        """They double, up to 30 seconds where files failed, and else up to 10; a long run begins anew."""
        kept = Kept(self.at(1), str(self.program), Note(1), Inventory())
        for status, wanted in ((7, [0.2, 0.4, 0.8, 1.6, 3.2, 6.4, 12.8, 25.6, 30.0, 30.0]), (10, [0.2, 0.4, 0.8, 1.6, 3.2, 6.4, 10.0, 10.0])):
            pauses = []
            for at in range(len(wanted)):
                kept.note.since = 0.0 if at == 0 else time.time()
                kept.child = mock.Mock(returncode=status)
                kept.see_end()
                pauses.append(round(kept.pause, 1))
            self.assertEqual((pauses, kept.note.ended), (wanted, f"status {status}"))

    def test_a_program_that_is_gone(self) -> None:
        shutil.move(self.program, self.room / "away")
        self.start()
        until(lambda: self.note(0).starts >= 2 and self.note(1).starts >= 2, "it was tried twice")
        self.assertEqual(self.note(0).ended, f"no start: {self.program}: No such file or directory")
        shutil.move(self.room / "away", self.program)
        self.hosts(1, *ROOMS[1])

    def test_a_header_that_is_gone(self) -> None:
        (self.at(1) / "header.toml").unlink()
        self.start()
        until(lambda: self.note(1).starts >= 2, "it was tried twice")
        self.assertEqual(self.note(1).ended, f"no start: {self.at(1)}/header.toml: No such file or directory")
        self.hosts(0, *ROOMS[0])
        (self.at(1) / "header.toml").mkdir()
        until(lambda: self.note(1).ended.endswith("header.toml: Is a directory"), "it is a directory")
        self.assertEqual(self.note(0).starts, 1)

    def test_a_supervisor_that_is_killed(self) -> None:
        """Its nodes go on, and its state says which these are."""
        supervisor = self.start()
        nodes = [self.node(0), self.node(1)]
        until(lambda: read_state(self.folder) == self.state(), "the state is written")
        supervisor.kill()
        supervisor.wait()
        self.assertIsNone(self.asks())
        state = read_state(self.folder)
        assert state
        self.assertEqual(([node.lives() for node in nodes], state.nodes()), ([True, True], nodes))
        for node in nodes:
            node.send(signal.SIGKILL)


class OwnFilesTest(SupervisorTrial):
    """Logs and states that can't be written."""

    def test_a_log_that_is_none(self) -> None:
        for make, why in ((pathlib.Path.mkdir, "Is a directory"), (lambda log: log.symlink_to("/dev/full"), "it is no plain file")):
            with self.subTest(why):
                make(self.at(1) / LOG)
                (self.at(1) / "do").write_text("[ -f on ] || { touch on; echo turns ended >&2; exit 8; }\n")
                supervisor = self.start()
                self.says(1, f"its log can't be written: {why}")
                until(lambda: self.note(1).starts == 2 and self.note(1).process is not None, "it runs")
                self.assertEqual((self.note(1).ended, self.note(0).condition), ("status 8: turns ended", ""))
                node = self.node(1)
                shutil.move(self.at(1) / LOG, self.room / why)
                self.says(1, "")
                self.assertEqual(self.node(1), node)
                self.stop(supervisor)
                for name in (LOG, "on"):
                    (self.at(1) / name).unlink()

    def test_a_long_log(self) -> None:
        (self.at(0) / LOG).write_bytes(bytes(LOG_SIZE))
        (self.at(1) / LOG).write_bytes(b"1" * (LOG_SIZE + 1))
        (self.at(1) / f"{LOG}.1").write_text("0")
        self.start()
        for number in (0, 1):
            self.hosts(number, *ROOMS[number])
        self.assertFalse((self.at(0) / f"{LOG}.1").exists())
        self.assertEqual((self.at(1) / f"{LOG}.1").read_bytes(), b"1" * (LOG_SIZE + 1))
        self.assertTrue((self.at(1) / LOG).read_text().endswith("start 1\n"))

    def test_a_long_log_that_stays(self) -> None:
        (self.at(1) / f"{LOG}.1").mkdir()
        (self.at(1) / LOG).write_bytes(b"1" * (LOG_SIZE + 1))
        self.start()
        self.hosts(1, *ROOMS[1])
        self.says(1, "its log can't be put aside: Is a directory")
        self.assertEqual(self.note(1).starts, 1)

    def test_states_that_are_none(self) -> None:
        """Directories in the place of its files are said, and it goes on; what was cut it writes anew."""
        supervisor = self.start()
        nodes = [self.node(0), self.node(1)]
        until(lambda: self.seen(1) == FILES and read_state(self.folder) == self.state(), "all is noted")
        for name in (STATE, INVENTORY):
            text = (self.folder / name).read_bytes()
            (self.folder / name).write_bytes(text[: len(text) // 2])
            until(lambda: (self.folder / name).read_bytes() == text, f"{name} is written anew")
            (self.folder / name).unlink()
            (self.folder / name).mkdir()
        both = "; ".join(f"{name} can't be written: Is a directory" for name in (INVENTORY, STATE))
        until(lambda: self.state().condition == both, "both are said")
        self.assertEqual([self.node(0), self.node(1)], nodes)
        self.stop(supervisor)
        self.assertEqual([node.lives() for node in nodes], [False, False])


class FaultsTest(SupervisorTrial):
    def test_what_the_system_refuses_at_one_process(self) -> None:
        """It is said there and tried again, and the others are looked after."""
        both = Supervisor(self.folder, str(self.program))
        first, second = both.kept
        with mock.patch.object(first, "look", side_effect=OSError(5, "Input/output error", "a file")), mock.patch.object(second, "tend") as tended:
            both.tend()
        self.assertEqual((first.note.condition, first.child, tended.called), ("a file: Input/output error", None, True))
        state = read_state(self.folder)
        self.assertEqual(state and [note.condition for note in state.notes], ["a file: Input/output error", ""])
        with mock.patch.object(first, "tend"), mock.patch.object(second, "tend"):
            both.tend()
        self.assertEqual(first.note.condition, "")
        for each in (both.listener, both.signals, both.wakes):
            assert each
            each.close()


class StatesTest(unittest.TestCase):
    def test_of_older_tools(self) -> None:
        """Their notes have neither number nor roles, and are in the order of the folders."""
        with tempfile.TemporaryDirectory() as room:
            process = {"pid": 1, "start": 2, "boot": "b"}
            note = {"process": process, "starts": 3, "since": 4.0, "ended": "", "again": 0.0}
            (pathlib.Path(room) / STATE).write_text(json.dumps({"supervisor": process, "notes": [note, note | {"process": None}]}))
            state = read_state(pathlib.Path(room))
        assert state
        self.assertEqual((state.supervisor, state.nodes(), [note.number for note in state.notes]), (Process(1, 2, "b"), [Process(1, 2, "b")], [0, 1]))


class EndingTest(unittest.TestCase):
    def test_the_lines_of_the_table(self) -> None:
        """Each line of docs/INPUT.md's table says why a node ended, wherever it stands."""
        table = re.findall(r"^\| \d+ \| `([^`]+)` \|", (TOP / "docs/INPUT.md").read_text(), re.MULTILINE)
        self.assertEqual(len(table), 11)
        for line in table:
            line = line.replace("ROLE", "acceptor:2").replace(" N", " 17")
            self.assertEqual(ending(f"client:0: nothing answers\n{line}\ncompax-acceptor-2.journal: No space left on device\n"), line)

    def test_others(self) -> None:
        for text, line in (("", ""), ("\n \n", ""), ("one\ntwo\n", "two"), ("store failed: no role\nlast\n", "last"), ("turns ended", "turns ended")):
            self.assertEqual(ending(text), line)


if __name__ == "__main__":
    unittest.main()
