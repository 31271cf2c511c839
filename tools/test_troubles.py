"""Tests of what a node says on standard error where a port is taken or a store fails: with --tend also the system's words."""

import contextlib
import fcntl
import resource
import socket
import subprocess
from collections.abc import Callable, Iterator

from headers import Role, program
from trials import LONGEST, SMALL, Trial

ACCEPTOR, LEADER, REPLICA = (Role(kind, 0) for kind in ("acceptor", "leader", "replica"))


class TroublesTest(Trial):
    before: Callable[[], None] | None = None        # what the process of a node does first

    def setUp(self) -> None:
        super().setUp()
        self.header = self.new(SMALL)

    def said(self, *words: str) -> tuple[int, str, list[str]]:
        """How a node ends: its status, and the lines of both streams. A file that gets too long ends it by no signal."""
        given = {"cwd": self.room, "input": self.header.input, "text": True, "timeout": LONGEST}
        ran = subprocess.run([program(), "node", *words], capture_output=True, preexec_fn=self.before, restore_signals=False, **given)
        return ran.returncode, ran.stdout, ran.stderr.splitlines()

    def ends(self, status: int, line: str, further: str, *words: str) -> None:
        """A node ends so, and says more only where it tends its roles."""
        self.assertEqual(self.said(*words), (status, "", [line]))
        self.assertEqual(self.said("--tend", "64", *words), (status, "", [line, further]))

    @contextlib.contextmanager
    def held(self, role: Role) -> Iterator[int]:
        """Has the port of a role."""
        with socket.socket(socket.AF_INET, socket.SOCK_DGRAM) as holder:
            port = self.header.port(role)
            holder.bind(("127.0.0.1", port))
            yield port

    def test_a_taken_port(self) -> None:
        with self.held(LEADER) as port:
            self.ends(6, "link failed", f"port {port}: Address already in use (os error 98)", "acceptor:0", "leader:0")

    def test_a_folder_in_the_place_of_a_journal(self) -> None:
        (self.room / ACCEPTOR.files[0]).mkdir()
        self.ends(7, "store failed: acceptor:0", "compax-acceptor-0.journal: Is a directory (os error 21)", "acceptor:0")

    def test_a_file_that_is_no_journal(self) -> None:
        (self.room / REPLICA.files[1]).write_text("text")
        self.ends(7, "store failed: replica:0", "compax-replica-0.other: by its first bytes it is no journal", "replica:0")

    def test_a_journal_that_is_in_use(self) -> None:
        with open(self.room / ACCEPTOR.files[0], "w") as file:
            fcntl.flock(file, fcntl.LOCK_EX)
            self.ends(7, "store failed: acceptor:0", "compax-acceptor-0.journal: another process has it open", "acceptor:0")

    def test_a_write_that_fails(self) -> None:
        """A leader keeps its first round in a file that must stay empty."""
        self.before = lambda: resource.setrlimit(resource.RLIMIT_FSIZE, (0, 0))
        self.ends(7, "store failed: leader:0", "compax-leader-0.journal: File too large (os error 27)", "leader:0")

    def test_a_device_without_sync(self) -> None:
        (self.room / LEADER.files[0]).symlink_to("/dev/full")
        self.ends(7, "store failed: leader:0", "compax-leader-0.journal: Invalid argument (os error 22)", "leader:0")

    def test_no_other_status_has_a_further_line(self) -> None:
        self.assertEqual(self.said("--tend", "64", "--turns", "1", "acceptor:0"), (0, "", []))
        (self.room / ACCEPTOR.files[0]).write_bytes(b"\1\0\0\0\1\xff\0")
        self.assertEqual(self.said("--tend", "64", "acceptor:0"), (10, "", ["bad store: acceptor:0 at 5"]))
