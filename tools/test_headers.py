"""Tests of how roles are numbered and spread over processes, and of what the program takes as a header. $COMPAX may name it."""

import subprocess
import unittest

from headers import KINDS, Header, Role, Unusable, can_lose_any, enough_processes, header_of, program, spread, why_needed

USUAL = {"f": 1, "leaders": 1, "proxies": 2, "acceptors": 4, "replicas": 3, "batchers": 2, "unbatchers": 2, "readers": 2, "clients": 16,
         "batch": 1, "base_port": 20000}
LEFT_OUT = {"pool": 3, "replacers": 0, "one_entry_a_grid": 0, "own_proxies": 0, "keep_sets": 0}          # what it then has of these


def header(**numbers: int) -> Header:
    return header_of("".join(f"{key} = {number}\n" for key, number in (USUAL | numbers).items()), "header")


def named(words: str) -> list[Role]:
    return [Role(kind, int(index)) for kind, index in (word.split(":") for word in words.split())]


class HeaderTest(unittest.TestCase):
    def test_ports_are_in_the_order_of_the_kinds(self) -> None:
        roles = [role for kind in KINDS for role in header().roles(kind)]
        self.assertEqual([header().port(role) for role in roles], list(range(20000, 20000 + 35)))
        self.assertEqual([str(role) for role in roles[16:25]],
                         "batcher:0 batcher:1 leader:0 proxy:0 proxy:1 acceptor:0 acceptor:1 acceptor:2 acceptor:3".split())
        self.assertEqual([str(role) for role in roles[25:31]], "match:0 match:1 match:2 replica:0 replica:1 replica:2".split())

    def test_what_is_below_the_line_is_no_header(self) -> None:
        text = header().text
        self.assertEqual(header_of(f"{text}---\nread client:0 1 reader:0 replica:0 a\n", "").numbers, USUAL | LEFT_OUT)
        self.assertEqual(header_of(text, "").input, f"{text}---\n")

    def test_ranges(self) -> None:
        for numbers in ({"f": 4}, {"f": -1}, {"acceptors": 65}, {"replicas": 1}, {"base_port": 1023}, {"base_port": 60001}, {"batch": 0}):
            with self.subTest(numbers=numbers), self.assertRaises(Unusable):
                header(**numbers)

    def test_sets_of_matchmakers(self) -> None:
        self.assertEqual(header().numbers, USUAL | LEFT_OUT)
        larger = header(pool=7, replacers=2)
        self.assertEqual([larger.count("match"), larger.matchmakers, larger.count("replacer")], [7, 3, 2])
        self.assertEqual(larger.port(Role("replacer", 1)), 20000 + 35 + 4 + 1)
        for numbers in ({"pool": 2}, {"pool": 65}, {"replacers": 5}, {"replacers": -1}):
            with self.subTest(numbers=numbers), self.assertRaises(Unusable):
                header(**numbers)

    def test_choices(self) -> None:
        self.assertEqual(header(one_entry_a_grid=1, own_proxies=1).numbers, USUAL | LEFT_OUT | {"one_entry_a_grid": 1, "own_proxies": 1})
        self.assertEqual(header(replacers=1, keep_sets=1).numbers, USUAL | LEFT_OUT | {"replacers": 1, "keep_sets": 1})
        self.assertEqual(header(leaders=2, proxies=4, own_proxies=1).numbers["own_proxies"], 1)
        self.assertEqual(header(leaders=2, proxies=3).numbers["own_proxies"], 0)
        for numbers in ({"one_entry_a_grid": 2}, {"one_entry_a_grid": -1}, {"own_proxies": 2}, {"own_proxies": -1}, {"keep_sets": 2}, {"keep_sets": -1},
                        {"own_proxies": 1, "leaders": 2, "proxies": 3}, {"own_proxies": 1, "leaders": 3}):
            with self.subTest(numbers=numbers), self.assertRaises(Unusable):
                header(**numbers)

    def test_the_grid_has_two_rows_where_it_can(self) -> None:
        self.assertEqual(header().grid, [named("acceptor:0 acceptor:1"), named("acceptor:2 acceptor:3")])
        self.assertEqual(header(acceptors=3).grid, [named("acceptor:0 acceptor:1 acceptor:2")])
        self.assertEqual([len(row) for row in header(acceptors=64).grid], [8, 8])


class ProgramTest(unittest.TestCase):
    """Round the edges of the form. Which fault a header has, the contract of cx_cluster's `read` says."""

    ONES = "f = 0\nleaders = 1\nproxies = 1\nacceptors = 1\nreplicas = 1\nbatchers = 1\nunbatchers = 1\nreaders = 1\nclients = 1\nbatch = 1\n"
    WITHOUT_F = ONES.removeprefix("f = 0\n")

    def answers(self, header: str) -> tuple[int, str, str]:
        ran = subprocess.run([program(), "replay"], input=f"{header}---\n", capture_output=True, text=True, timeout=60)
        return ran.returncode, ran.stdout, ran.stderr

    def test_what_is_no_header(self) -> None:
        without_f = ("", "f = 4", "f = -1", "f = 9223372036854775807", "f = 9223372036854775808", "f = 3", "f = 1.0", 'f = "0"', "f.a = 0",
                     "f = 00", "x = 1")
        further = ("x = 1", "y = 1\nX = 1\nx = 1", "base_port = 1023", "base_port = 60001", 'base_port = "a"', "f = 0", "\a")
        for line, rest in [*((line, self.WITHOUT_F) for line in without_f), *((line, self.ONES) for line in further)]:
            with self.subTest(line=line):
                self.assertEqual(self.answers(f"{line}\n{rest}"), (3, "", "bad input at line 0\n"))

    def test_what_is_one(self) -> None:
        for line, rest in (("f = 0", self.WITHOUT_F), ("base_port = 1024", self.ONES), ("base_port = 60000", self.ONES)):
            with self.subTest(line=line):
                self.assertEqual(self.answers(f"{line}\n{rest}"), (0, "chosen 0\nreplica:0 held 0\n", ""))


class SpreadTest(unittest.TestCase):
    def test_each_role_but_clients_is_hosted_once(self) -> None:
        for f in range(4):
            for processes in range(1, 17):
                whole = header(f=f, acceptors=20, replicas=8, leaders=3)
                hosted = [role for roles in spread(whole, processes) for role in roles]
                self.assertEqual(len(hosted), len(set(hosted)))
                self.assertEqual(set(hosted), {role for kind in KINDS[1:] for role in whole.roles(kind)})

    def test_what_can_be_lost(self) -> None:
        whole = header()
        for words, why in (("", None), ("acceptor:3 match:0 replica:1 reader:0", None), ("acceptor:2 acceptor:3", "an acceptor of each column"),
                           ("acceptor:1 acceptor:3", "an acceptor of each row"), ("match:0 match:2", "fewer than 2 matchmakers"),
                           ("replica:0 replica:1", "fewer than 2 replicas"), ("proxy:1", "a proxy leader"), ("leader:0", "the leader"),
                           ("batcher:0", None), ("batcher:0 batcher:1", "every batcher"), ("unbatcher:0", None),
                           ("unbatcher:0 unbatcher:1", "every unbatcher"), ("reader:0 reader:1", "every reader")):
            with self.subTest(words=words):
                found = why_needed(whole, named(words))
                self.assertIn(why, found) if why and found else self.assertEqual((why, found), (None, None))

    def test_enough_processes(self) -> None:
        self.assertEqual([enough_processes(header(f=f, acceptors=n, replicas=r)) for f, n, r in ((1, 4, 3), (0, 1, 1), (2, 16, 5), (3, 16, 8))],
                         [3, 1, 4, 4])
        self.assertTrue(can_lose_any(header(), spread(header(), 3)))
        self.assertTrue(can_lose_any(header(), spread(header(), 4)))
        self.assertFalse(can_lose_any(header(), spread(header(), 2)))
        self.assertEqual(enough_processes(header(acceptors=3)), 3)
        self.assertIn("each row", str(why_needed(header(acceptors=3), spread(header(acceptors=3), 3)[1])))


if __name__ == "__main__":
    unittest.main()
