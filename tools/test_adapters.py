"""Tests of what real sockets and files get and give: nodes of one role or two, and plain sockets of this test in the place of the others."""

import contextlib
import os
import pathlib
import re
import signal
import socket
import subprocess
from collections.abc import Iterator

import workloads
from headers import KINDS, Role, program
from trials import LONGEST, Trial, until

CLIENT, BATCHER, UNBATCHER, LEADER, PROXY, REPLICA = (
    Role(kind, 0) for kind in ("client", "batcher", "unbatcher", "leader", "proxy", "replica"))
ACCEPTORS = [Role("acceptor", index) for index in range(2)]
HEADER = "f = 0\nleaders = 1\nproxies = 1\nacceptors = 2\nreplicas = 1\nbatchers = 1\nunbatchers = 1\nreaders = 1\nclients = 1\nbatch = 1\n"
WRITE = "write client:0 1 batcher:0 put a 1\n"
PUT = bytes.fromhex("0000" "0000000000000001" "01" "0161" "0131")
ANSWER = bytes.fromhex("0000000000000001" "0000000000000001" "00")
FIRST, SECOND = (bytes.fromhex(it) for it in ("00000001" "0000" "00000000", "00000002" "0000" "00000000"))
LOOPBACK = "0100007F"                   # as /proc/net/udp writes 127.0.0.1


def datagram(kind: int, sender: Role, receiver: Role, body: bytes, version: int = 1) -> bytes:
    ends = b"".join(bytes([KINDS.index(role.kind) + 1]) + role.index.to_bytes(2, "big") for role in (sender, receiver))
    return b"CX" + bytes([version, kind]) + ends + len(body).to_bytes(2, "big") + body


def journal(*payloads: bytes) -> bytes:
    return b"".join(b"\1" + len(payload).to_bytes(4, "big") + payload for payload in payloads) + b"\0"


class AdaptersTest(Trial):
    def setUp(self) -> None:
        super().setUp()
        self.header = self.new(HEADER)

    def port(self, role: Role) -> int:
        return self.header.port(role)

    @contextlib.contextmanager
    def plain(self, role: Role) -> Iterator[socket.socket]:
        """A plain socket at the port of a role."""
        with socket.socket(socket.AF_INET, socket.SOCK_DGRAM) as it:
            it.settimeout(LONGEST)
            it.bind(("127.0.0.1", self.port(role)))
            yield it

    @contextlib.contextmanager
    def node(self, *roles: Role, lines: str = "") -> Iterator[subprocess.Popen[str]]:
        """A node with these roles, which is killed at the end."""
        words = [program(), "node", "--tend", "1024", "--turns", "1000000000", *map(str, roles)]
        pipes = {"stdin": subprocess.PIPE, "stdout": subprocess.PIPE, "stderr": subprocess.PIPE}
        with subprocess.Popen(words, cwd=self.room, text=True, **pipes) as it:
            try:
                assert it.stdin
                it.stdin.write(f"{self.file.read_text()}---\n{lines}")
                it.stdin.close()
                it.stdin = None         # so that `communicate` leaves it alone
                yield it
            finally:
                it.kill()

    def asked(self, it: socket.socket, kind: int, acceptor: Role, body: bytes) -> bytes:
        """What an acceptor answers to the leader, from its own port. It may not have bound it yet, so it is asked until it does."""
        it.settimeout(0.2)
        for _ in range(int(LONGEST / 0.2)):
            with contextlib.suppress(OSError):
                self.send(it, acceptor, datagram(kind, LEADER, acceptor, body))
                answer, sender = it.recvfrom(65_536)
                self.assertEqual(sender, ("127.0.0.1", self.port(acceptor)))
                return answer
        raise AssertionError(f"{acceptor} does not answer")

    def file_of(self, role: Role) -> pathlib.Path:
        return self.room / f"compax-{role.kind}-{role.index}.journal"

    def bound(self, role: Role) -> list[str]:
        """The addresses at which some process has the port of a role."""
        places = re.findall(r"^ *\d+: (\w+):(\w{4}) ", pathlib.Path("/proc/net/udp").read_text(), re.MULTILINE)
        return [address for address, port in places if int(port, 16) == self.port(role)]

    def send(self, it: socket.socket, receiver: Role, sent: bytes) -> None:
        it.sendto(sent, ("127.0.0.1", self.port(receiver)))

    def test_a_datagram_goes_out_and_one_comes_in(self) -> None:
        with self.plain(BATCHER) as batcher, self.node(CLIENT, lines=WRITE) as node:
            self.assertEqual(batcher.recv(65_536), datagram(1, CLIENT, BATCHER, PUT))
            batcher.sendto(datagram(16, UNBATCHER, CLIENT, ANSWER), ("127.0.0.1", self.port(CLIENT)))
            out, said = node.communicate(timeout=LONGEST)
        self.assertEqual((node.returncode, out, said), (0, "answer client:0 1 at 1 ok\n", ""))

    def test_ports_are_of_the_loopback_alone(self) -> None:
        with self.plain(BATCHER) as batcher, self.node(CLIENT, lines=WRITE):
            batcher.recv(65_536)
            self.assertEqual(self.bound(CLIENT), [LOOPBACK])

    def test_sockets_are_asked_in_turn(self) -> None:
        """What waits at one port doesn't keep the others waiting."""
        one, two = ACCEPTORS
        with self.plain(LEADER) as leader, self.node(*ACCEPTORS) as node:
            for acceptor in ACCEPTORS:
                self.asked(leader, 7, acceptor, FIRST)
            node.send_signal(signal.SIGSTOP)
            os.waitid(os.P_PID, node.pid, os.WSTOPPED)
            for acceptor in (one, one, one, two):
                self.send(leader, acceptor, datagram(7, LEADER, acceptor, SECOND))
            node.send_signal(signal.SIGCONT)
            leader.settimeout(LONGEST)
            wanted = {datagram(8, acceptor, LEADER, SECOND + bytes(9)): acceptor for acceptor in ACCEPTORS}
            answered = (wanted[got] for got in iter(lambda: leader.recv(65_536), b"") if got in wanted)
            self.assertEqual({next(answered), next(answered)}, {one, two})

    def test_files_hold_what_their_roles_keep(self) -> None:
        one, two = ACCEPTORS
        with self.plain(LEADER) as leader:
            with self.node(*ACCEPTORS):
                self.assertEqual(self.asked(leader, 7, one, FIRST), datagram(8, one, LEADER, FIRST + bytes(9)))
                self.assertEqual(self.asked(leader, 7, two, SECOND), datagram(8, two, LEADER, SECOND + bytes(9)))
            self.assertEqual(self.file_of(one).read_bytes(), bytes.fromhex("01" "0000000b" "01" "00000001" "0000" "00000000" "00"))
            self.assertEqual(self.file_of(two).read_bytes(), journal(b"\1" + SECOND))
            with self.node(two):
                self.assertEqual(self.asked(leader, 7, two, FIRST), datagram(9, two, LEADER, FIRST + SECOND))
            self.assertEqual(self.file_of(two).read_bytes(), journal(b"\1" + SECOND))

    def test_the_longest_record_is_kept(self) -> None:
        """A replica keeps a whole window of the greatest values at once, when that of the first slot comes last."""
        values = [workloads.told_value_at(slot + 1) for slot in range(32)]
        with self.plain(UNBATCHER) as unbatcher, self.plain(PROXY) as proxy, self.node(REPLICA):
            until(lambda: self.bound(REPLICA) == [LOOPBACK], "the replica has its port")
            for slot in reversed(range(32)):
                self.send(proxy, REPLICA, datagram(13, PROXY, REPLICA, slot.to_bytes(8, "big") + values[slot], version=2))
            unbatcher.recv(65_536)
        record = b"\7\x20" + b"".join(values)
        self.assertEqual((len(record), self.file_of(REPLICA).read_bytes()), (30_018, journal(record)))
