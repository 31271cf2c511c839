"""A load that lasts as long as it is wanted, of clients whose answers are all known beforehand.

A node hosts the clients, in a process of its own, and prints answers as they come: what is timed is what a user sees. Its input has some
hundreds of lines of each client. Shortly before one client has none left, the node is killed, and the next one goes on with further lines.

What a client asks under a number follows from the number alone, and so does the key: it has keys of its own, and uses one after the
other. A node has a line outstanding only where the one 64 numbers before it is answered. So with 64 keys no two commands of one key are
outstanding at once, and an answer is known, however many are outstanding in all.

A node that is killed may have taken an answer, and told so with the next command that it sent, but not printed it; then that command is
never answered again. So the next node goes on above all numbers that may have been sent. What wasn't answered of them has acted before
all that comes then, or never does: until the next answers of its key tell which, the key has one of several texts.

A share of what is asked can be of keys that all clients use. Those answers aren't known; they are noted, with a time before which the
command wasn't sent: a client with one line outstanding sends it once the line before is answered, which is after the one before that was
printed.
"""

import fcntl
import os
import pathlib
import queue
import subprocess
import threading
import time
from dataclasses import dataclass, field
from typing import NamedTuple

from asking import Command, Way
from clients import Lost, reply_of
from headers import Header, program
from supervisor import TURNS

LINES = 20_000                  # of an input: more of them take a node longer to read, fewer are used up sooner
FEW = 0.1                       # the share of lines left with which a client gets further ones
KEYS, KEYS_IN_A_WINDOW = 8, 64  # of each client
VERBS = ("put", "app", "app", "put", "app", "del", "app")
SHARED_VERBS = ("get", "app", "get", "put", "get", "del", "get")     # so many gets that few orders are left to try
WIDE = 32                       # commands outstanding in all: above it clients ask again sooner
TEND, WIDE_TEND = 1024, 256
CHUNK = 1 << 16                 # bytes that are read at once
SHARED_KEYS = 4
PIPE = 1 << 20                  # bytes of answers that a node may be ahead
QUIET = 2.0                     # seconds without an answer until gets go by another way


class Shared(NamedTuple):
    """A command of a key that all clients use; times are None, and the reply, where it wasn't answered."""

    client: int
    number: int
    command: Command
    asked: float
    answered: float | None
    reply: str | None


@dataclass
class Asking:
    """One client: what it asks, what is answered, and the texts of its keys by then."""

    index: int
    keys: int
    share: float = 0.0                                      # of gets
    seed: int = 0
    shared: float = 0.0                                     # the share of commands of keys that all clients use
    first: int = 1                                          # the first number that isn't answered
    end: int = 0                                            # the last number that a node was given
    answered: set[int] = field(default_factory=set)         # numbers above the first one
    texts: dict[str, set[str]] = field(default_factory=dict)    # those that a key may have; none is an empty text
    places: dict[str, int] = field(default_factory=dict)    # of each key, `at` of its last answer
    gets_from: int | None = None                            # the first number from which on it only gets
    unsent: tuple[float, float] = (0.0, 0.0)                # before the first time the first number wasn't sent, before the other the next one
    history: list[Shared] = field(default_factory=list)

    def turn(self, number: int) -> int:
        return number // self.keys + number + self.seed + self.index

    def only_gets_at(self, number: int) -> bool:
        return self.gets_from is not None and number >= self.gets_from

    def is_shared(self, number: int) -> bool:
        return self.shared > 0 and not self.only_gets_at(number) and self.turn(number) * 6007 % 1000 < 1000 * self.shared

    def key(self, number: int) -> str:
        return f"shared.{number % SHARED_KEYS}" if self.is_shared(number) else f"c{self.index}.{number % self.keys}"

    def verb(self, number: int) -> str:
        """What it does under a number."""
        turn = self.turn(number)
        if self.only_gets_at(number) or self.share and turn * 7919 % 100 < 100 * self.share:
            return "get"
        return (SHARED_VERBS if self.is_shared(number) else VERBS)[turn % len(VERBS)]

    def text(self, number: int) -> str:
        return f"{self.index}.{number}" if self.is_shared(number) else f"v{number}"

    def command(self, number: int) -> Command:
        verb = self.verb(number)
        return Command(verb, self.key(number), self.text(number) if verb in ("put", "app") else "")

    def open(self) -> list[int]:
        """The numbers up to its last one that aren't answered."""
        return [number for number in range(self.first, self.end + 1) if number not in self.answered]

    def left(self) -> int:
        return self.end - self.first + 1 - len(self.answered)

    def hear(self, number: int, at: int, reply: str, since: float = 0.0, now: float = 0.0) -> None:
        """Takes an answer, which was printed between two times. It must be a known one, and stand behind the one before of the same key."""
        if not self.first <= number <= self.end or number in self.answered:
            raise Lost(f"client:{self.index} was answered {reply!r} to {number}, for which it doesn't wait")
        command = self.command(number)
        if self.is_shared(number):
            self.history.append(Shared(self.index, number, command, self.unsent[0], now, reply))
        else:
            self.compare(number, command, at, reply)
        self.unsent = self.unsent[1], since
        self.answered.add(number)
        while self.first in self.answered:
            self.answered.remove(self.first)
            self.first += 1

    def compare(self, number: int, command: Command, at: int, reply: str) -> None:
        """Compares an answer to a command of a key of its own with what is known."""
        self.texts[command.key] = self.texts_after(number, command, reply)
        before = self.places.get(command.key, 0)
        if at < before + (command.verb != "get"):
            raise Lost(f"client:{self.index} was answered {reply!r} at {at} to {number}, {command}, and the one before at {before}")
        self.places[command.key] = at

    def texts_after(self, number: int, command: Command, reply: str) -> set[str]:
        """The texts that its key may have after an answer."""
        before = self.texts.get(command.key, {""})
        outcomes = [outcome(text, command) for text in before]
        after = {text for known, text in outcomes if known == reply}
        if not after:
            known = " or ".join(repr(known) for known, _ in outcomes)
            raise Lost(f"client:{self.index} was answered {reply!r} to {number}, {command}, to which the answer is {known}")
        return after

    def give_up(self) -> None:
        """It waits for nothing more. What may have been sent has acted, or never does."""
        ahead = 2 if self.keys == KEYS else 2 * KEYS_IN_A_WINDOW        # as many as may be sent, where each of a window was answered
        last = min(self.end, self.first + ahead - 1)
        for number in range(self.first, last + 1):
            command = self.command(number)
            if number in self.answered or command.verb == "get":
                continue
            if self.is_shared(number):
                self.history.append(Shared(self.index, number, command, self.unsent[0], None, None))
            else:
                texts = self.texts.get(command.key, {""})
                self.texts[command.key] = texts | {outcome(text, command)[1] for text in texts}
        self.first, self.end = last + 1, last
        self.answered.clear()

    def only_gets(self) -> None:
        """From now on it asks for each of its keys, once."""
        self.gets_from, self.end = self.first, self.first + self.keys - 1


def outcome(text: str, command: Command) -> tuple[str, str]:
    """The answer to a command where its key has a text, and the text then."""
    texts = {command.key: text} if text else {}
    return reply_of(texts, command), texts.get(command.key, "")


class Load:
    """Clients under a node that is renewed."""

    def __init__(self, folder: pathlib.Path, header: Header, window: int = 1, share: float = 0.0, seed: int = 0, first: int = 1, shared: float = 0.0) -> None:
        """Clients whose numbers begin with `first`: a client that others have used goes on above their numbers."""
        self.folder = folder
        self.header = header
        self.window = window
        count = header.count("client")
        self.batchers, self.readers, self.replicas = [header.count(kind) for kind in ("batcher", "reader", "replica")]
        keys = KEYS if window == 1 else KEYS_IN_A_WINDOW
        self.clients = [Asking(index, keys, share, seed, shared, first, first - 1) for index in range(count)]
        self.lines = max(LINES // count, 2 * keys)           # of each client in an input
        self.times: list[float] = []                        # of all answers
        self.nodes = 0
        self.node: subprocess.Popen[bytes] | None = None
        self.came: queue.SimpleQueue[tuple[float, float, bytes]] = queue.SimpleQueue()
        self.reader = threading.Thread()
        self.held = b""

    def way(self, client: Asking, number: int) -> Way:
        """By which roles a line goes in. After the node is renewed gets that weren't answered go by others."""
        turn = number + self.nodes
        return Way(client.index % self.batchers, turn % self.readers, turn // self.readers % self.replicas)

    def lines_of(self, client: Asking) -> list[str]:
        """The lines of what a client has to ask, made at once, since the clients wait for them."""
        write = f"write client:{client.index}"
        return [f"{write} {number} batcher:{client.index % self.batchers} {verb} {client.key(number)}{'' if verb == 'del' else f' {client.text(number)}'}\n"
                if (verb := client.verb(number)) != "get" else f"{client.command(number).line(client.index, number, self.way(client, number))}\n"
                for number in client.open()]

    def input(self) -> str:
        """The input of the next node."""
        lines = [self.header.input]
        for client in self.clients:
            if client.gets_from is None:
                client.end = client.first + self.lines
            lines += self.lines_of(client)
        return "".join(lines)

    def start(self) -> None:
        self.nodes += 1
        for client in self.clients:
            client.unsent = time.monotonic(), time.monotonic()
        (self.folder / "input").write_text(self.input())
        tend = WIDE_TEND if len(self.clients) * self.window > WIDE else TEND
        words = [str(program()), "node", "--turns", str(TURNS), "--tend", str(tend), *(["--window", str(self.window)] if self.window > 1 else [])]
        with open(self.folder / "input") as given, open(self.folder / "said", "a") as said:
            self.node = subprocess.Popen([*words, *[f"client:{client.index}" for client in self.clients]], cwd=self.folder, stdin=given,
                                         stdout=subprocess.PIPE, stderr=said)
        self.reader = threading.Thread(target=self.read, args=[self.node], daemon=True)
        self.reader.start()

    def read(self, node: subprocess.Popen[bytes]) -> None:
        """Notes when a node's answers came, up to their end."""
        assert node.stdout
        pipe = node.stdout.fileno()
        fcntl.fcntl(pipe, fcntl.F_SETPIPE_SZ, PIPE)
        since = now = time.monotonic()
        while read := os.read(pipe, CHUNK):
            now = time.monotonic()
            self.came.put((since, now, read))
            since = now if len(read) < CHUNK else since     # then all that was printed by now was read
        self.came.put((since, now, b""))

    def kill(self) -> None:
        """Ends the node, if there is one; what it has printed is left to be heard."""
        if self.node is None:
            return
        self.node.kill()
        self.node.wait()
        self.reader.join()
        assert self.node.stdout
        self.node.stdout.close()
        self.node = None

    def stop(self) -> None:
        """Ends the node, and hears all that it has printed."""
        self.kill()
        while not self.came.empty():
            self.hear(*self.came.get())
        self.held = b""
        for client in self.clients:
            if client.gets_from is None:
                client.give_up()

    def hear(self, since: float, now: float, read: bytes) -> None:
        *lines, self.held = (self.held + read).split(b"\n")
        for line in lines:
            _, client, number, _, at, reply = line.decode().split(" ", 5)
            self.clients[int(client[7:])].hear(int(number), int(at), reply, since, now)
        self.times += [now] * len(lines)

    def history(self) -> list[Shared]:
        return [command for client in self.clients for command in client.history]

    def go_on(self, seconds: float) -> None:
        """Lets it go on for so long."""
        end = time.monotonic() + seconds
        while (left := end - time.monotonic()) > 0:
            try:
                since, now, read = self.came.get(timeout=left)
            except queue.Empty:
                return
            self.hear(since, now, read)
            if not read or min(client.left() for client in self.clients) < FEW * self.lines:
                self.renew()

    def renew(self) -> None:
        """Another node goes on."""
        self.check_status()
        self.stop()
        self.start()

    def check_status(self) -> None:
        assert self.node
        status = self.node.poll()
        if status not in (None, 0):
            raise Lost(f"the clients' node ended with status {status}: {(self.folder / 'said').read_text().strip()}")

    def finish(self, seconds: float) -> None:
        """Gets all keys, through readers; where nothing is answered for a while, by another way."""
        self.stop()
        for client in self.clients:
            client.only_gets()
        until = time.monotonic() + seconds
        while any(client.left() for client in self.clients):
            if time.monotonic() > until:
                waiting = sum(client.left() for client in self.clients)
                raise Lost(f"not within {seconds:g} s: the last answers, of which {waiting} are missing")
            self.start()
            self.hear_all()
            self.stop()

    def hear_all(self) -> None:
        """Takes answers until the node ends, or prints nothing for a while."""
        assert self.node
        while True:
            try:
                since, now, read = self.came.get(timeout=QUIET)
            except queue.Empty:
                return
            self.hear(since, now, read)
            if not read:
                self.check_status()
                return
