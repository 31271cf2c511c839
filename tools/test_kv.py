"""Tests of tools/kv against a real node that has all roles. $COMPAX may name the program."""

import concurrent.futures
import contextlib
import itertools
import os
import re
import socket
import subprocess
import unittest
from unittest import mock

from asking import Command, Way, ask, waits, ways
from headers import Header, Role, header_of, program
from trials import LONGEST, SMALL, TOOLS, Trial


def tell(header: Header, *words: str, client: int) -> str:
    return ask(program(), header, Command(*words), [client], LONGEST)


class KvTest(Trial):
    def setUp(self) -> None:
        super().setUp()
        self.header = self.new(SMALL)

    def held(self, role: Role) -> contextlib.AbstractContextManager[socket.socket]:
        """Has the port of a role."""
        holder = socket.socket(socket.AF_INET, socket.SOCK_DGRAM)
        holder.bind(("127.0.0.1", self.header.port(role)))
        return holder

    def test_answers_in_words(self) -> None:
        self.up()
        full, long = "x" * 64, "k" * 32
        asked = ["get a", "put a 1", "get a", "app a 23", "get a", "del a", "del a", "get a", "app a _.-", f"put a {full}", "app a 1",
                 f"get a", f"put {long} 1", f"get {long}"]
        answers = ["none", "ok", "is 1", "len 3", "is 123", "was 123", "none", "none", "len 3", "ok", "full", f"is {full}", "ok", "is 1"]
        self.assertEqual([self.kv(*words.split()) for words in asked], answers)

    def test_session(self) -> None:
        """One replica answers alone, what it has; here it is the only one."""
        self.up()
        answers = [self.kv(*words.split()) for words in ("get a --session", "put a 1", "get a", "get a --session", "get --session a")]
        self.assertEqual(answers, ["none", "ok", "is 1", "is 1", "is 1"])

    def test_line(self) -> None:
        """The line of each command, as a node reads it."""
        way = Way(batcher=1, reader=2, replica=3)
        lines = [command.line(4, 5, way) for command in (Command("put", "a", "1"), Command("del", "a"), Command("get", "a"),
                                                         Command("get", "a", session=True))]
        self.assertEqual(lines, ["write client:4 5 batcher:1 put a 1", "write client:4 5 batcher:1 del a",
                                 "read client:4 5 reader:2 replica:3 a", "session client:4 5 replica:3 a"])

    def test_ways(self) -> None:
        """Each reader comes to be with each replica, so that a read needs no two that are down together."""
        counted = SMALL.replace("batchers = 1", "batchers = 2")
        for readers, replicas in ((1, 1), (1, 3), (2, 2), (2, 3), (3, 2), (2, 4), (8, 8)):
            text = counted.replace("readers = 1", f"readers = {readers}").replace("replicas = 1", f"replicas = {replicas}")
            header = header_of(f"{text}base_port = 20000\n", "header")
            tried = list(itertools.islice(ways(header), readers * replicas))
            with self.subTest(readers=readers, replicas=replicas):
                self.assertEqual(len({(way.reader, way.replica) for way in tried}), readers * replicas)
                most = max(2, readers, replicas)
                first = list(itertools.islice(ways(header), most))
                counts = [len({getattr(way, name) for way in first}) for name in ("batcher", "reader", "replica")]
                self.assertEqual(counts, [2, readers, replicas])
                self.assertEqual(list(itertools.islice(waits(header), 2 * most + 1)), [1.0] * most + [2.0] * most + [4.0])

    def test_each_client_in_turn(self) -> None:
        self.up()
        for client in range(self.header.count("client")):
            self.assertEqual(self.kv("--client", client, "app", "a", "x"), f"len {client + 1}")

    def test_a_taken_port(self) -> None:
        self.up()
        with self.held(Role("client", 3)):
            self.fails(6, "^kv: the port of client:3 was taken for 0.5 s", "kv", "--cluster", self.file, "--client", 3, "--seconds", 0.5,
                       "put", "a", "1")
            for _ in range(4):
                self.assertEqual(self.kv("get", "a"), "none")
        self.assertEqual(self.kv("--client", 3, "put", "a", "1"), "ok")

    def test_many_at_once(self) -> None:
        """More commands than clients, all as the same two: each waits for a port, and all act."""
        self.up()
        with concurrent.futures.ThreadPoolExecutor(6) as pool:
            tasks = [pool.submit(tell, self.header, "app", "a", "x", client=at % 2) for at in range(12)]
        self.assertEqual(sorted(task.result() for task in tasks), sorted(f"len {at}" for at in range(1, 13)))

    def test_silence(self) -> None:
        """A port of the cluster is bound, and nobody answers there; or there is no cluster at all."""
        words = ["--cluster", self.file, "--seconds", 1.5, "get", "a"]
        self.fails(8, "^kv: nothing answered within 1.5 s$", "kv", *words)
        self.fails(8, "^kv: nothing answered within 1.5 s; the command may act or not$", "kv", *words[:-2], "del", "a")
        with self.held(Role("reader", 0)):
            self.fails(8, "^kv: nothing answered within 1.5 s", "kv", *words)

    def test_bad_words(self) -> None:
        for words in ("", "put", "put a", "put a b c", "put a b --session", "get", "get a b", "del a b", "move a b", "get a/b", "put a b=c", f"get {'k' * 33}",
                      f"put a {'x' * 65}", "--client x get a", "--seconds 0 get a", "--seconds no get a", "--client 8 get a", "--client -1 get a"):
            with self.subTest(words=words):
                self.fails(2, "^kv( \\w+)?: ", "kv", "--cluster", self.file, *words.split())

    def test_words_that_begin_with_a_minus(self) -> None:
        self.up()
        for words in ("put -a 1", "put a -b", "get a -x", "del -k"):
            self.fails(2, "a key or a text that begins with - goes behind --, as in: put -- -a -1$", "kv", "--cluster", self.file, *words.split())
        asked = ["put -- -a -b", "get -- -a", "app a -- -", "put -1 2", "get -1"]
        self.assertEqual([self.kv(*words.split()) for words in asked], ["ok", "is -b", "len 1", "ok", "is 2"])
        for words in ("put a", "--seconds 0 get a", "--client x get a"):
            self.fails(2, "(required: TEXT|at most a day|invalid int value: 'x')$", "kv", "--cluster", self.file, *words.split())

    def test_what_is_no_cluster(self) -> None:
        for text, why in (("f = 1\n", "needs leaders"), ("not = toml =", "no TOML"), (f"{SMALL}base_port = 80\n", "needs base_port"),
                          (f"{SMALL}base_port = 20000\nmore = 1\n", "a key more")):
            self.file.write_text(text)
            self.fails(1, f"c.toml: .*{why}", "kv", "--cluster", self.file, "get", "a")
        self.fails(1, "No such file or directory", "kv", "--cluster", self.room / "none", "get", "a")
        self.fails(1, "Is a directory", "kv", "--cluster", self.room, "get", "a")

    def test_what_is_no_program(self) -> None:
        for name in (self.room / "none", self.room, self.file):
            with mock.patch.dict(os.environ, COMPAX=str(name)):
                self.fails(1, "^kv: COMPAX names .* which is no program$", "kv", "--cluster", self.file, "get", "a")
        with mock.patch.dict(os.environ, COMPAX="/bin/false"):
            self.fails(1, "^kv: the node ended with status 1: it said nothing$", "kv", "--cluster", self.file, "get", "a")

    def test_by_hand(self) -> None:
        """The file itself runs, and says how it is used."""
        ran = subprocess.run([TOOLS / "kv", "--help"], capture_output=True, text=True, check=True)
        self.assertTrue(re.search(r"tools/kv --cluster FILE put KEY TEXT +ok\n", ran.stdout))


if __name__ == "__main__":
    unittest.main()
