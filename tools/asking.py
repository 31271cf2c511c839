"""Asks a running cluster, as one of its clients, by a node that hosts this client alone."""

import itertools
import math
import pathlib
import random
import re
import socket
import subprocess
import time
from collections.abc import Iterator, Sequence
from dataclasses import dataclass

from headers import PORT_TAKEN, Header, Role, Unusable, taken
from statuses import ending

UNANSWERED = 8                  # a status, of a node and of the tools
FIRST_WAIT = 1.0                # seconds until it is asked by another way
TURNS_A_SECOND = 2000           # more than an idle node makes
PAUSE = 0.1                     # seconds until a taken port is tried again
ANSWER = re.compile(r"(?:answer|read) client:\d+ \d+ at \d+ (.*)\n")


@dataclass(frozen=True)
class Way:
    """The roles by which a command goes in. One that is down is silent, so the next time it goes by others."""

    batcher: int
    reader: int
    replica: int


@dataclass(frozen=True)
class Command:
    """What is asked: `put`, `app`, `del` or `get`, with a key, of the first two a text, and of the last whether in a session."""

    verb: str
    key: str
    text: str = ""
    session: bool = False

    @property
    def doubt(self) -> str:
        """What isn't known of it where it has no answer."""
        return "" if self.verb == "get" else "; the command may act or not"

    def line(self, client: int, number: int, way: Way) -> str:
        """The line of a node's input. A session of one node alone has heard of nothing, so any replica answers it at once."""
        if self.session:
            return f"session client:{client} {number} replica:{way.replica} {self.key}"
        if self.verb == "get":
            return f"read client:{client} {number} reader:{way.reader} replica:{way.replica} {self.key}"
        return f"write client:{client} {number} batcher:{way.batcher} {self.verb} {self.key} {self.text}".rstrip()


def ways(header: Header) -> Iterator[Way]:
    """All ways in turn, from one at random on. Each next one has others of all roles, and in the end each reader was with each replica: so
    whichever of them are down together, a read comes to two that aren't."""
    counts = [header.count(kind) for kind in ("batcher", "reader", "replica")]
    starts = [random.randrange(count) for count in counts]
    _, readers, replicas = counts
    met = math.lcm(readers, replicas)       # then the same two would meet again
    for turn in itertools.count():
        shifts = (turn, turn, turn + turn // met)
        yield Way(*[(start + shift) % count for start, shift, count in zip(starts, shifts, counts)])


def waits(header: Header) -> Iterator[float]:
    """How long each way is given: a second, until each role was asked, and then each time twice as long."""
    most = max(header.count(kind) for kind in ("batcher", "reader", "replica"))
    return (FIRST_WAIT * 2 ** (turn // most) for turn in itertools.count())


class Asker:
    """Gets an answer to one command, at the latest after so many seconds.

    A client's numbers must rise, and a repeated number acts once. So a command has its client for itself until it ends, and its number
    is the time in nanoseconds at which it got the client; nothing has to be stored.
    """

    def __init__(self, program: pathlib.Path, header: Header, command: Command, seconds: float) -> None:
        self.program = program
        self.header = header
        self.command = command
        self.seconds = seconds
        self.until = time.monotonic() + seconds

    def left(self) -> float:
        return max(0.0, self.until - time.monotonic())

    def held(self, client: int) -> socket.socket | None:
        """Holds a client for as long as this socket is open; None where another command or program has it."""
        port = self.header.port(Role("client", client))
        holder = socket.socket(socket.AF_UNIX, socket.SOCK_DGRAM)
        try:
            holder.bind(f"\0compax-client-{port}")     # a name that is gone with the socket, and is no file
            if not taken(port):
                return holder
        except OSError:
            pass
        holder.close()
        return None

    def first_free(self, clients: Sequence[int]) -> tuple[int, socket.socket]:
        """The first of these clients that is free, held. It is waited for."""
        for client in itertools.cycle(clients):
            holder = self.held(client)
            if holder:
                return client, holder
            if not self.left():
                break
            if client == clients[-1]:
                time.sleep(PAUSE)
        raise Unusable(f"{of_clients(clients)} taken for {self.seconds:g} s, by other commands or other programs", PORT_TAKEN)

    def node(self, client: int, number: int, way: Way, wait: float) -> tuple[int, str, str]:
        """What a node gives that asks one way: its status, and what it wrote to both streams."""
        words = [str(self.program), "node", "--turns", str(max(1000, int(TURNS_A_SECOND * wait))), "--tend", "1024", f"client:{client}"]
        given = f"{self.header.input}{self.command.line(client, number, way)}\n"
        try:
            ran = subprocess.run(words, input=given, capture_output=True, text=True, timeout=wait)
        except subprocess.TimeoutExpired:
            return UNANSWERED, "", ""
        return ran.returncode, ran.stdout, ran.stderr

    def ask(self, clients: Sequence[int]) -> str:
        """Asks one way after another until there is an answer."""
        client, holder = self.first_free(clients)
        with holder:
            number = time.time_ns()
            for way, wait in zip(ways(self.header), waits(self.header)):
                status, out, said = self.node(client, number, way, min(wait, self.left()))
                found = ANSWER.fullmatch(out)
                if found:
                    return found[1]
                if status not in (PORT_TAKEN, UNANSWERED):
                    raise Unusable(f"the node ended with status {status}: {ending(said) or 'it said nothing'}")
                if not self.left():
                    break
                time.sleep(PAUSE if status == PORT_TAKEN else 0)
        raise Unusable(f"nothing answered within {self.seconds:g} s{self.command.doubt}", UNANSWERED)


def of_clients(clients: Sequence[int]) -> str:
    return f"the port of client:{clients[0]} was" if len(clients) == 1 else "the ports of all clients were"


def ask(program: pathlib.Path, header: Header, command: Command, clients: Sequence[int], seconds: float) -> str:
    """The answer to a command, asked as one of these clients: `ok`, `was V`, `none`, `len N`, `full`, or of a get `is V` or `none`."""
    return Asker(program, header, command, seconds).ask(clients)


def any_client(header: Header) -> list[int]:
    """All clients, in an order at random, so that commands that run at once seldom meet."""
    return random.sample(range(header.count("client")), header.count("client"))
