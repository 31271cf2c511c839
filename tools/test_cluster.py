"""Tests of tools/cluster, and of tools/kv against it: real processes that are killed, and journals that are none.

$COMPAX may name the program. What is random has a seed, and times are bounds for a busy machine.
"""

import concurrent.futures
import functools
import itertools
import json
import os
import pathlib
import random
import re
import shutil
import signal
import socket
import subprocess
import threading
import time
import unittest
from typing import Any
from unittest import mock

from asking import Command, ask
from headers import Role, program
from processes import Process
from states import State, read_state
from trials import LONGEST, SMALL, TOOLS, Trial, run, until

CLIENTS = 4
PUTS = 125                              # of each client, and more of them until all processes are killed
KEYS = 4                                # of each client
SILENCE = 5.0                           # seconds without an answer while all processes run
STARTS = 40


class ClusterTrial(Trial):
    HEADER: str | None = None           # the usual one

    def setUp(self) -> None:
        super().setUp()
        self.header = self.new(self.HEADER)
        self.folder = self.room / "c.toml.d"

    def state(self) -> State:
        state = read_state(self.folder)
        assert state
        return state

    def running(self, number: int) -> Process | None:
        """The node of a process, if it runs."""
        process = self.state().notes[number].process
        return process if process and process.lives() else None

    def all_run(self) -> bool:
        return all(self.running(number) for number in range(len(self.state().notes)))

    def status(self) -> tuple[int, str]:
        """What `status` says."""
        status, out, said = run("cluster", "status", self.file)
        self.assertNotIn("Traceback", said)
        return status, out + said

    def journal(self, role: str) -> pathlib.Path:
        """The journal of a role, in the folder of its process."""
        (found,) = self.folder.glob(f"*/compax-{role.replace(':', '-')}.journal")
        return found


class KillsTest(ClusterTrial):
    """Four clients put, and each of four processes is killed twice meanwhile, the leader's too."""

    def setUp(self) -> None:
        super().setUp()
        self.events: list[tuple[float, str]] = []       # when an answer came, and when all processes began or ceased to run
        self.are_killed = threading.Event()
        self.is_over = threading.Event()

    def answers(self) -> int:
        return sum(what == "answer" for _, what in list(self.events))

    def put_all(self, client: int) -> dict[str, str]:
        """The puts of one client, for as long as processes are killed. Gives the last text of each key."""
        last: dict[str, str] = {}
        for at in itertools.count():
            if at >= PUTS and self.are_killed.is_set():
                return last
            key, text = f"c{client}.{at % KEYS}", f"v{at}"
            answer = ask(program(), self.header, Command("put", key, text), [client], LONGEST)
            self.events.append((time.monotonic(), "answer"))
            self.assertEqual(answer, "ok")
            last[key] = text

    def kill_all(self) -> None:
        """Kills the processes in an order at random, each after some more answers."""
        chance = random.Random(9)
        try:
            for number in chance.sample([0, 1, 2, 3] * 2, 8):
                wanted = self.answers() + chance.randrange(20, 60)
                until(lambda: self.answers() >= wanted and self.running(number) is not None, f"{wanted} answers")
                process = self.running(number)
                self.assertTrue(process and process.send(signal.SIGKILL))
        finally:
            self.are_killed.set()

    def watch(self) -> None:
        """Notes when all processes begin to run, and when they cease to."""
        ran = False
        while not self.is_over.wait(0.02):
            runs = self.all_run()
            if runs != ran:
                self.events.append((time.monotonic(), "all run" if runs else "not all"))
            ran = runs

    def silences(self) -> list[float]:
        """How long nothing was answered, each time, while all processes ran."""
        found, runs, since = [], False, 0.0
        for at, what in sorted(self.events):
            if runs:
                found.append(at - since)
            runs, since = runs and what != "not all" or what == "all run", at
        return found

    def test_puts_while_processes_are_killed(self) -> None:
        self.up(4)
        with concurrent.futures.ThreadPoolExecutor(CLIENTS + 2) as pool:
            watching = pool.submit(self.watch)
            killing = pool.submit(self.kill_all)
            putting = [pool.submit(self.put_all, client) for client in range(CLIENTS)]
            try:
                last = dict(itertools.chain.from_iterable(task.result().items() for task in putting))
                killing.result()
                until(self.all_run, "all processes run again")
            finally:
                self.is_over.set()
            watching.result()
        self.assertGreaterEqual(self.answers(), CLIENTS * PUTS)
        self.assertLess(max(self.silences()), SILENCE)
        self.assertEqual({key: self.kv("get", key) for key in last}, {key: f"is {text}" for key, text in last.items()})
        self.assertEqual([note.starts for note in self.state().notes], [3, 3, 3, 3])
        status, text = self.status()
        self.assertEqual((status, text.count("started 3 times, ended last with signal 9")), (0, 4), text)


class WindowsTest(ClusterTrial):
    """A client with 16 lines outstanding and one with a single line are answered the same commands, and leave the same map."""

    LINES = range(1, 81)
    KILLED = {20: 1, 40: 0}             # after so many answers, which process: an acceptor's, then the leader's

    def told(self, window: int) -> list[tuple[int, str]]:
        """The answers to the lines, without their slots, while processes are killed. Numbers go on above those that kv has used."""
        before = time.time_ns()
        lines = "".join(f"write client:0 {before + at} batcher:{at % 2} {'put' if at % 3 else 'app'} k{at} v{at}\n" for at in self.LINES)
        words = [program(), "node", "--turns", "1000000000", "--tend", "256", "--window", str(window), "client:0"]
        told: list[tuple[int, str]] = []
        with subprocess.Popen(words, stdin=subprocess.PIPE, stdout=subprocess.PIPE, text=True) as node:
            assert node.stdin and node.stdout
            late = threading.Timer(3 * LONGEST, node.kill)
            late.start()
            node.stdin.write(f"{self.header.input}{lines}")
            node.stdin.close()
            for line in node.stdout:
                number, reply = re.fullmatch(r"answer client:0 (\d+) at \d+ (.*)\n", line).groups()
                told.append((int(number) - before, reply))
                if len(told) in self.KILLED:
                    process = self.running(self.KILLED[len(told)])
                    self.assertTrue(process and process.send(signal.SIGKILL))
            late.cancel()
        self.assertEqual(node.returncode, 0)
        return sorted(told)

    def left(self, window: int) -> tuple[list[tuple[int, str]], list[str]]:
        """What a cluster answers a client with this window, and the texts of all keys then."""
        self.up(4)
        told = self.told(window)
        texts = [self.kv("get", f"k{at}") for at in self.LINES]
        self.passes("cluster", "down", self.file)
        shutil.rmtree(self.folder)
        return told, texts

    def test_windows_of_sixteen_and_of_one(self) -> None:
        told, texts = self.left(16)
        self.assertEqual(told, [(at, "ok" if at % 3 else f"len {len(f'v{at}')}") for at in self.LINES])
        self.assertEqual(texts, [f"is v{at}" for at in self.LINES])
        self.assertEqual(self.left(1), (told, texts))


class StartsTest(ClusterTrial):
    HEADER = SMALL

    def test_forty_starts_of_the_leader(self) -> None:
        """Each start over the same folder answers what no start before was asked, and the leader's rounds don't run out."""
        roles = "client:0 batcher:0 leader:0 proxy:0 acceptor:0 match:0 replica:0 unbatcher:0 reader:0".split()
        for at in range(1, STARTS + 1):
            ran = subprocess.run([program(), "node", "--turns", "60000", "--tend", "1024", *roles], cwd=self.room, capture_output=True, text=True,
                                 input=f"{self.header.input}write client:0 {at} batcher:0 app a x\n", timeout=LONGEST)
            self.assertEqual((ran.returncode, ran.stderr), (0, ""))
            self.assertRegex(ran.stdout, rf"^answer client:0 {at} at \d+ len {at}\n$")
        count = self.passes("journal", "--count", self.room / "compax-leader-0.journal")
        self.assertGreaterEqual(int(re.findall(r"(\d+) Round", count)[0]), STARTS)


class JournalsTest(ClusterTrial):
    """What is no journal of a role keeps its process from running. The others go on, and nothing in it is changed."""

    def goes_on_without(self, role: str, data: bytes, why: str, found: str) -> None:
        """With these bytes in place of a role's journal its process ends so, and it runs again once the journal is back."""
        self.passes("cluster", "down", self.file)
        good = self.journal(role).read_bytes()
        self.journal(role).write_bytes(data)
        self.up()
        until(lambda: why in self.status()[1], why)
        status, text = self.status()
        self.assertEqual(status, 1)
        self.assertIn(found, text)
        self.assertEqual(self.kv("app", "a", "x"), f"len {self.length + 1}")
        self.length += 1
        self.assertEqual(self.journal(role).read_bytes(), data)
        self.journal(role).write_bytes(good)
        until(lambda: self.status()[0] == 0, "all processes run")
        self.assertEqual(self.kv("get", "a"), f"is {'x' * self.length}")

    def test_corrupted_and_foreign_journals(self) -> None:
        self.up(4)
        self.assertEqual(self.kv("app", "a", "x"), "len 1")
        self.length = 1
        data = self.journal("acceptor:2").read_bytes()
        self.goes_on_without("acceptor:2", data[:5] + b"\x2a" + data[6:], "status 10: bad store: acceptor:2 at 5", "is not a journal from byte 5")
        self.goes_on_without("match:2", self.journal("leader:0").read_bytes(), "status 10: bad store: match:2 at 5", "is not a journal from byte 5")
        self.goes_on_without("replica:0", b"some other file\n", "status 7: store failed: replica:0", "is not a journal from byte 0")

    def test_a_shared_journal(self) -> None:
        """A second node over a folder that is in use gets nothing of it, and disturbs nothing."""
        self.up(4)
        self.assertEqual(self.kv("put", "a", "1"), "ok")
        other = self.room / "other.toml"
        self.passes("cluster", "new", other)
        kept = self.journal("acceptor:1").read_bytes()
        ran = subprocess.run([program(), "node", "--turns", "100", "acceptor:1"], cwd=self.journal("acceptor:1").parent, capture_output=True,
                             input=f"{other.read_text()}---\n", text=True, timeout=LONGEST)
        self.assertEqual((ran.returncode, ran.stdout, ran.stderr), (7, "", "store failed: acceptor:1\n"))
        self.assertEqual(self.journal("acceptor:1").read_bytes(), kept)
        self.assertEqual((self.kv("get", "a"), self.kv("put", "a", "2"), self.kv("get", "a")), ("is 1", "ok", "is 2"))
        self.assertEqual(self.status()[0], 0)


class FoldersTest(ClusterTrial):
    """What `up` refuses, with nothing started."""

    def refused(self, why: str, *processes: int, status: int = 1) -> None:
        self.fails(status, why, "cluster", "up", self.file, *processes)
        self.assertFalse((self.folder / "state.json").exists() and self.state().is_up())

    def test_folders_of_another_cluster(self) -> None:
        self.up(4)
        self.fails(1, "c.toml is up, or is just being started", "cluster", "up", self.file)
        self.assertEqual(self.kv("put", "a", "1"), "ok")
        self.passes("cluster", "down", self.file)
        text = self.file.read_text()
        for old, new, why in (("clients = 16", "clients = 15", "belongs to a cluster with clients = 16, and not 15"),
                              ("f = 1", "f = 0", "belongs to a cluster with f = 1, and not 0")):
            self.file.write_text(text.replace(old, new))
            self.refused(why)
        self.file.write_text(text)
        self.refused("spread over 4 processes, and stay", 3)
        shutil.move(self.journal("acceptor:2"), self.room / "away")
        self.refused("compax-acceptor-2.journal is missing: its role must not forget")
        shutil.move(self.room / "away", self.folder / "2" / "compax-acceptor-2.journal")
        shutil.move(self.folder / "2" / "compax-replica-1.other", self.room / "away")
        self.refused("compax-replica-1.other is missing: its role must not forget")
        shutil.move(self.room / "away", self.folder / "2" / "compax-replica-1.other")
        (self.room / "all").mkdir()
        for journal in list((self.folder / "3").glob("*.journal")):
            shutil.move(journal, self.room / "all")
        self.refused(r"3/compax-\w+-\d.journal is missing: its role must not forget")
        for journal in (self.room / "all").iterdir():
            shutil.move(journal, self.folder / "3")
        shutil.move(self.folder / "2", self.room / "away")
        self.refused("has no folder with acceptor:2 match:1")
        shutil.move(self.room / "away", self.folder / "2")
        self.passes("cluster", "new", self.room / "other.toml")
        self.file.write_text((self.room / "other.toml").read_text())       # another base_port is no other cluster
        self.up()
        self.assertEqual(self.kv("get", "a"), "is 1")

    def test_a_taken_port(self) -> None:
        role = Role("replica", 1)
        with socket.socket(socket.AF_INET, socket.SOCK_DGRAM) as holder:
            holder.bind(("127.0.0.1", self.header.port(role)))
            self.refused(rf"port {self.header.port(role)} of replica:1 can't be had .*: choose another base_port in ", status=6)
        self.assertEqual(list(self.folder.iterdir()), [])

    def test_bad_words(self) -> None:
        for words in ("", "up", "new", "up a b", "kill a", "kill a b", "move a", "up a 1 2"):
            with self.subTest(words=words):
                self.fails(2, r"^cluster( \w+)?: ", "cluster", *words.split())
        for processes in (0, -1, 60, 65):
            self.fails(2, "can't be spread over|unrecognized", "cluster", "up", self.file, processes)
        for verb in ("up", "status", "down"):
            self.fails(1, "No such file or directory", "cluster", verb, self.room / "none")
        self.fails(1, "File exists", "cluster", "new", self.file)
        self.fails(1, "was never up", "cluster", "status", self.file)
        self.fails(1, "no process 0 that was started", "cluster", "kill", self.file, 0)
        self.assertIn("was not up", self.passes("cluster", "down", self.file))


class LossesTest(ClusterTrial):
    """Folders, headers and states that are lost or are others', while the cluster runs."""

    def started(self) -> list[int]:
        return [note.starts for note in self.state().notes]

    def test_a_folder_that_is_removed(self) -> None:
        """Its process isn't started again and keeps its number, and the others go on."""
        self.up(4)
        self.assertEqual(self.kv("app", "a", "x"), "len 1")
        nodes = [self.running(number) for number in range(4)]
        shutil.rmtree(self.folder / "2")
        until(lambda: "its folder is gone" in self.status()[1], "it is said")
        self.assertRegex(self.status()[1], r"(?m)^process 2 runs since .*; its folder is gone\n  acceptor:2: No such file or directory$")
        self.passes("cluster", "kill", self.file, 2)
        until(lambda: "process 2 is down, and tried again in" in self.status()[1], "process 2 has ended")
        status, text = self.status()
        self.assertEqual((status, re.findall(r"(?m)^process (\d)", text)), (1, ["0", "1", "2", "3"]))
        self.assertRegex(text, r"(?m)^a read was answered in ")
        self.assertEqual((self.kv("app", "a", "x"), self.kv("get", "a"), self.started()), ("len 2", "is xx", [1, 1, 1, 1]))
        self.assertEqual([self.running(number) for number in (0, 1, 3)], [nodes[number] for number in (0, 1, 3)])
        self.passes("cluster", "kill", self.file, 3)
        until(lambda: self.running(3) is not None, "process 3 runs again")
        self.passes("cluster", "down", self.file)
        self.fails(1, "has no folder with acceptor:2 match:1", "cluster", "up", self.file)

    def test_a_journal_that_is_removed(self) -> None:
        """Its role isn't started again, and the others of its process are; `up` refuses it."""
        self.up(4)
        self.assertEqual(self.kv("app", "a", "x"), "len 1")
        shutil.move(self.journal("acceptor:2"), self.room / "away")
        until(lambda: "compax-acceptor-2.journal is gone" in self.status()[1], "it is said")
        self.passes("cluster", "kill", self.file, 2)
        until(lambda: "compax-acceptor-2.journal is gone; runs without acceptor:2" in self.status()[1], "it runs without")
        self.assertEqual((self.kv("app", "a", "x"), self.status()[0]), ("len 2", 1))
        self.passes("cluster", "down", self.file)
        self.fails(1, "compax-acceptor-2.journal is missing: its role must not forget", "cluster", "up", self.file)
        shutil.move(self.room / "away", self.folder / "2/compax-acceptor-2.journal")
        self.up()
        self.assertEqual((self.kv("get", "a"), self.status()[0]), ("is xx", 0))

    def test_the_header_of_another_cluster(self) -> None:
        self.up(4)
        text = self.file.read_text()
        port = self.header.numbers["base_port"]
        others = ((text.replace(f"base_port = {port}", f"base_port = {port - 1}"), f"base_port = {port}, and not {port - 1}"),
                  (text.replace("readers = 2", "readers = 1"), "readers = 2, and not 1"))
        for other, why in others:
            self.file.write_text(other)
            self.fails(1, f"c.toml.d/0 belongs to a cluster with {why}$", "cluster", "status", self.file)
            self.fails(1, f"c.toml.d/0 belongs to a cluster with {why}$", "cluster", "status", "--json", self.file)
            self.fails(1, "c.toml is up, or is just being started", "cluster", "up", self.file)
            self.fails(1, "File exists", "cluster", "new", self.file)
        self.assertIn("killed: process 3", self.passes("cluster", "kill", self.file, 3))
        self.assertEqual(self.passes("cluster", "down", self.file), "down: 4 processes ended\n")
        self.fails(1, "readers = 2, and not 1", "cluster", "up", self.file)
        self.fails(1, "readers = 2, and not 1", "cluster", "status", self.file)
        self.file.write_text(others[0][0])
        self.fails(1, "c.toml is not up", "cluster", "status", self.file)

    def test_a_state_that_is_cut(self) -> None:
        """While the supervisor lives it says its state; without it nothing is guessed."""
        self.up(4)
        self.assertEqual(self.kv("put", "a", "1"), "ok")
        text = (self.folder / "state.json").read_bytes()
        (self.folder / "state.json").write_bytes(text[:100])
        self.assertEqual(self.status()[0], 0)
        until(lambda: (self.folder / "state.json").read_bytes() == text, "it is written anew")
        before = self.state()
        before.supervisor.send(signal.SIGKILL)
        until(lambda: not before.supervisor.lives(), "the supervisor has ended")
        for cut in (text[:100], b"", b"[]", b"{}", b"\xff"):
            (self.folder / "state.json").write_bytes(cut)
            for words in (("status", self.file), ("down", self.file), ("kill", self.file, 0)):
                self.fails(1, "state.json is damaged, and no supervisor answers: what was started can't be told", "cluster", *words)
            self.fails(6, r"port \d+ of leader:0 can't be had", "cluster", "up", self.file)
        self.assertRegex(self.status()[1], r"process 0 is down\n  leader:0: \d+ record")
        self.assertEqual(self.kv("get", "a"), "is 1")
        (self.folder / "state.json").write_bytes(text)
        self.assertIn("down: 4 processes ended", self.passes("cluster", "down", self.file))
        (self.folder / "state.json").write_bytes(text[:100])
        self.up()
        self.assertEqual((self.kv("get", "a"), self.status()[0]), ("is 1", 0))
        self.passes("cluster", "down", self.file)
        (self.folder / "inventory.json").write_bytes(b"{")
        self.fails(1, "inventory.json is damaged, so a journal that was lost can't be told", "cluster", "up", self.file)


class StatusTest(ClusterTrial):
    def report(self) -> tuple[int, dict[str, Any]]:
        status, out, _ = run("cluster", "status", "--json", self.file)
        return status, json.loads(out)

    def test_as_an_object(self) -> None:
        self.up(4)
        self.assertEqual([self.kv("put", "a", "1"), self.kv("get", "a")], ["ok", "is 1"])
        status, report = self.report()
        state = self.state()
        self.assertEqual((status, list(report)), (0, ["cluster", "supervisor", "processes", "journals", "differences", "answered"]))
        self.assertEqual((report["cluster"], report["supervisor"]), (str(self.file), {"pid": state.supervisor.pid, "runs": True, "condition": ""}))
        for number, (seen, note) in enumerate(zip(report["processes"], state.notes, strict=True)):
            roles = (self.folder / str(number) / "roles").read_text().split()
            self.assertEqual(seen, {"number": number, "roles": roles, "runs": True, "pid": note.process.pid, "starts": 1, "since": note.since,
                                    "ended": "", "condition": "", "again": None})
        leader = next(kept for kept in report["journals"] if kept["role"] == "leader:0")
        rounds = leader["records"]["Round"]
        self.assertEqual((leader["process"], leader["whole"], leader["bytes"], leader["fault"]), (0, True, 1 + 26 * rounds, ""))
        self.assertEqual(leader["last"], f"Round round {rounds}.0.0 grid 2x2 0,1,2,3")
        self.assertEqual(len(report["journals"]), 1 + 4 + 3 + 3 + 2)
        self.assertLess(report["answered"], LONGEST)
        self.passes("cluster", "down", self.file)
        status, report = self.report()
        self.assertEqual((status, report["answered"], report["supervisor"]["runs"]), (1, None, False))
        self.assertEqual([(seen["runs"], seen["pid"]) for seen in report["processes"]], [(False, None)] * 4)

    def values(self) -> list[tuple[str, int]]:
        """How many records with commands each acceptor and each replica has."""
        return [(kept["role"], kept["records"].get("Vote", 0) + kept["records"].get("Log", 0)) for kept in self.report()[1]["journals"]
                if kept["role"].startswith(("acceptor", "replica"))]

    def test_it_writes_no_command(self) -> None:
        self.up(4)
        self.assertEqual(self.kv("put", "a", "1"), "ok")
        until(lambda: self.values() == self.values(), "all have what was put")
        before = self.values()
        self.assertGreater(sum(count for _, count in before), 0)
        for _ in range(3):
            self.assertEqual(self.status()[0], 0)
        self.assertEqual(self.values(), before)

    def test_while_the_leader_is_stopped(self) -> None:
        """A read is answered without the leader, so `up` tests by a write."""
        self.up(4)
        self.assertEqual(self.kv("put", "a", "1"), "ok")
        leader = self.running(0)
        assert leader
        leader.send(signal.SIGSTOP)
        try:
            self.assertEqual((self.report()[0], self.kv("get", "a")), (0, "is 1"))
            self.fails(8, "nothing answered within 2 s; the command may act or not$", "kv", "--cluster", self.file, "--seconds", 2, "put", "a", "2")
        finally:
            leader.send(signal.SIGCONT)


class ProgramsTest(ClusterTrial):
    HEADER = SMALL

    def test_another_program(self) -> None:
        """It is taken when that is asked for, and then the earlier one is the other."""
        self.up()
        self.assertEqual(self.kv("put", "a", "1"), "ok")
        self.passes("cluster", "down", self.file)
        other = self.room / "other"
        other.write_bytes(program().read_bytes() + b"\0")
        other.chmod(0o755)
        why = "is another program than the one that ran over .*: --upgrade goes on with this one"
        with mock.patch.dict(os.environ, COMPAX=str(other)):
            self.fails(1, f"^cluster: {re.escape(str(other))} {why}", "cluster", "up", self.file)
            self.assertFalse(self.state().is_up())
            self.assertEqual(run("cluster", "up", "--upgrade", self.file)[0], 0)
            self.assertEqual(self.kv("get", "a"), "is 1")
            self.passes("cluster", "down", self.file)
            self.up()
            self.passes("cluster", "down", self.file)
        self.fails(1, why, "cluster", "up", self.file)
        self.assertEqual(run("cluster", "up", "--upgrade", self.file)[0], 0)
        self.assertEqual(self.kv("get", "a"), "is 1")


class SupervisorTest(ClusterTrial):
    HEADER = SMALL

    def node(self) -> Process:
        """The node of the one process, which may just be started again."""
        until(lambda: self.running(0) is not None, "process 0 runs")
        process = self.running(0)
        assert process
        return process

    def test_status_and_down(self) -> None:
        self.assertIn("up: 1 process of ", self.up())
        self.assertEqual(self.kv("put", "a", "1"), "ok")
        status, text = self.status()
        self.assertEqual(status, 0, text)
        for line in (r"^process 0 runs since .*, pid \d+$", r"^  acceptor:0: \d+ records: .* Vote; [\d,]+ bytes; last ", r"^a read was answered in ",
                     r"^  replica:0: \d+ records: .*; [\d,]+ bytes; last ", r"^  reader:0: \d+ records?; [\d,]+ bytes$", r"^  batcher:0 proxy:0 unbatcher:0$"):
            self.assertRegex(text, re.compile(line, re.MULTILINE))
        started = [self.state().supervisor, self.node()]
        self.assertIn("down: 1 process ended", self.passes("cluster", "down", self.file))
        self.assertFalse(any(process.lives() for process in started))
        status, text = self.status()
        self.assertEqual(status, 1)
        self.assertRegex(text, re.compile(r"^process 0 is down.*^cluster: .* is not up$", re.MULTILINE | re.DOTALL))

    def test_a_supervisor_that_was_killed(self) -> None:
        """Its processes go on, and are ended by `down` and nothing else."""
        self.up()
        node = self.node()
        self.state().supervisor.send(signal.SIGKILL)
        until(lambda: not self.state().supervisor.lives(), "the supervisor has ended")
        self.assertEqual(self.kv("put", "a", "1"), "ok")
        status, text = self.status()
        self.assertEqual(status, 1)
        self.assertIn("the supervisor has ended, so no process is started again", text)
        self.fails(1, "runs, without its supervisor", "cluster", "up", self.file)
        self.assertIn("down: 1 process ended", self.passes("cluster", "down", self.file))
        self.assertFalse(node.lives())
        self.up()
        self.assertEqual(self.kv("get", "a"), "is 1")

    def foreground(self) -> subprocess.Popen[str]:
        """The cluster, started by a tool that stays."""
        self.addCleanup(run, "cluster", "down", self.file)
        words = [TOOLS / "cluster", "up", "--foreground", self.file]
        # which shells have what they start in the background ignore
        takes_interrupts = functools.partial(signal.signal, signal.SIGINT, signal.SIG_DFL)
        tool = subprocess.Popen(words, stdout=subprocess.PIPE, stderr=subprocess.PIPE, text=True, preexec_fn=takes_interrupts)
        self.addCleanup(tool.communicate)
        self.addCleanup(tool.kill)
        assert tool.stdout
        until_up = itertools.takewhile(lambda line: not line.startswith("up: 1 process of "), iter(tool.stdout.readline, ""))
        self.assertTrue(list(until_up), "its roles are said first")
        self.assertIsNone(tool.poll())
        return tool

    def test_a_foreground_that_is_asked_to_end(self) -> None:
        """It ends what it started, and says nothing against it."""
        for number in (signal.SIGTERM, signal.SIGINT):
            tool = self.foreground()
            started = [self.state().supervisor, self.node()]
            tool.send_signal(number)
            self.assertEqual((tool.wait(LONGEST), tool.communicate()[1]), (0, ""))
            self.assertFalse(any(process.lives() for process in started))

    def test_a_foreground_whose_cluster_is_ended(self) -> None:
        """`down` is an end that was asked for; a supervisor that is killed isn't, and then its processes go on."""
        tool = self.foreground()
        self.passes("cluster", "down", self.file)
        self.assertEqual((tool.wait(LONGEST), tool.communicate()[1]), (0, ""))
        tool = self.foreground()
        node = self.node()
        self.state().supervisor.send(signal.SIGKILL)
        self.assertEqual(tool.wait(LONGEST), 1)
        self.assertEqual(tool.communicate()[1], "cluster: the supervisor has ended, so no process is started again\n")
        self.assertTrue(node.lives())

    def test_a_foreground_that_is_not_answered(self) -> None:
        """It says so and stays, as the supervisor does: what can be mended meanwhile is."""
        program = self.room / "program"
        program.write_text("#!/bin/sh\necho out of order >&2\nexit 3\n")
        program.chmod(0o755)
        self.addCleanup(run, "cluster", "down", self.file)
        words = [TOOLS / "cluster", "up", "--foreground", self.file]
        with subprocess.Popen(words, stdout=subprocess.DEVNULL, stderr=subprocess.PIPE, text=True, env={**os.environ, "COMPAX": str(program)}) as tool:
            assert tool.stderr
            lines = iter(tool.stderr.readline, "")
            self.assertIn("it was started, but the node ended with status 3", next(line for line in lines if "it was started" in line))
            self.assertIsNone(tool.poll())
            tool.terminate()
            self.assertEqual(tool.wait(LONGEST), 0)

    def test_only_what_was_started_is_ended(self) -> None:
        """A process that has got the number of one that was started isn't touched."""
        self.up()
        self.passes("cluster", "down", self.file)
        with subprocess.Popen(["sleep", "600"]) as other:
            try:
                stored = json.loads((self.folder / "state.json").read_text())
                stored["supervisor"] = stored["supervisor"] | {"pid": other.pid}
                stored["notes"][0]["process"] = stored["supervisor"]
                (self.folder / "state.json").write_text(json.dumps(stored))
                self.assertIn("was not up", self.passes("cluster", "down", self.file))
                self.fails(1, "process 0 doesn't run just now", "cluster", "kill", self.file, 0)
                self.assertIsNone(other.poll())
            finally:
                other.kill()

    def test_a_folder_that_is_removed(self) -> None:
        self.up()
        started = [self.state().supervisor, self.node()]
        shutil.rmtree(self.folder)
        until(lambda: not any(process.lives() for process in started), "all have ended")

    def test_it_waits_longer_each_time(self) -> None:
        program = self.room / "program"
        program.write_text("#!/bin/sh\necho out of order >&2\nexit 3\n")
        program.chmod(0o755)
        self.addCleanup(run, "cluster", "down", self.file)
        with mock.patch.dict(os.environ, COMPAX=str(program)):
            self.fails(1, "it was started, but the node ended with status 3: out of order", "cluster", "up", self.file)
        until(lambda: self.state().notes[0].starts > 4, "five starts")
        pauses = re.findall(r"ended with status 3: out of order; started again in ([\d.]+) s", (self.folder / "0/log").read_text())
        self.assertEqual(pauses[:4], ["0.2", "0.4", "0.8", "1.6"])
        self.passes("cluster", "down", self.file)
        self.assertFalse(self.state().is_up())


if __name__ == "__main__":
    unittest.main()
