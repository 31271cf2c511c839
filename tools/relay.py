"""A network between the processes of a cluster that loses, delays, repeats and reorders datagrams, and can be cut.

    python3 relay.py        as Network starts it

Each process has a header of its own, with its own ports for all roles: its view of the cluster. In a view the roles of other processes
are this relay, which has their ports. What it takes at one, it sends on to the role itself, from the port that the sender has in the
receiver's view. What goes on within one process it doesn't see.

Standard input has a line of JSON, and then orders: `cut VIEW both`, `cut VIEW in`, `cut VIEW out`, `heal`. Where it ends, the relay ends,
and prints what became of all datagrams. The same seed gives the same fates, to datagrams that come in the same order.
"""

import collections
import contextlib
import heapq
import itertools
import json
import os
import random
import selectors
import socket
import subprocess
import sys
import time
from collections.abc import Sequence
from dataclasses import asdict, dataclass

from headers import Header, Role

LONGEST = 65_536                # bytes of a datagram
AT_ONCE = 32                    # datagrams of one socket before the others' turn
BUFFER = 1 << 20


@dataclass(frozen=True)
class Weather:
    """Shares of datagrams that are lost, that come twice, and that come late, by up to so many seconds."""

    lost: float = 0.0
    twice: float = 0.0
    late: float = 0.0
    most: float = 0.03

    @property
    def is_fair(self) -> bool:
        return not (self.lost or self.twice or self.late)


class Fates:
    """What becomes of one datagram after another."""

    def __init__(self, weather: Weather, seed: int) -> None:
        self.weather = weather
        self.chance = random.Random(seed)

    def next(self) -> list[float]:
        """After how many seconds it is delivered, each time that it is: never where it is lost."""
        draw = self.chance.random
        if draw() < self.weather.lost:
            return []
        first = draw() * self.weather.most if draw() < self.weather.late else 0.0
        return [first, draw() * self.weather.most] if draw() < self.weather.twice else [first]


@dataclass(frozen=True)
class Plan:
    """Where all views have their ports, and in which view each role is hosted."""

    first: int                  # port of the first view
    span: int                   # ports of a view, one for each role
    owners: list[int]           # of each role, in the order of ports
    views: int
    weather: Weather
    seed: int

    def port(self, view: int, place: int) -> int:
        return self.first + view * self.span + place


class Relay:
    """The sockets of all views, and what is under way."""

    def __init__(self, plan: Plan) -> None:
        self.plan = plan
        self.fates = Fates(plan.weather, plan.seed)
        self.sockets: dict[tuple[int, int], socket.socket] = {}
        self.cuts: set[tuple[int, str]] = set()
        self.counts: collections.Counter[str] = collections.Counter()
        self.waiting: list[tuple[float, int, socket.socket, bytes, int]] = []      # when, in which order, from where, what, to which port
        self.order = itertools.count()
        self.selector = selectors.DefaultSelector()
        for view in range(plan.views):
            for place, owner in enumerate(plan.owners):
                if owner != view:
                    self.sockets[view, place] = self.bound(view, place)

    def bound(self, view: int, place: int) -> socket.socket:
        it = socket.socket(socket.AF_INET, socket.SOCK_DGRAM)
        it.setsockopt(socket.SOL_SOCKET, socket.SO_RCVBUF, BUFFER)
        it.bind(("127.0.0.1", self.plan.port(view, place)))
        it.setblocking(False)
        self.selector.register(it, selectors.EVENT_READ, (view, place))
        return it

    def take(self, at: socket.socket, view: int, place: int) -> None:
        """Takes what has come from a view for a role."""
        with contextlib.suppress(OSError):
            for _ in range(AT_ONCE):
                data, (_, port) = at.recvfrom(LONGEST)
                self.pass_on(data, port, view, place)

    def pass_on(self, data: bytes, port: int, view: int, place: int) -> None:
        owner = self.plan.owners[place]
        sender = self.sockets.get((owner, port - self.plan.port(view, 0)))
        if sender is None:
            self.counts["of strangers"] += 1
        elif {(view, "out"), (owner, "in")} & self.cuts:
            self.counts["cut"] += 1
        else:
            self.deliver(self.fates.next(), sender, data, self.plan.port(owner, place))

    def deliver(self, delays: Sequence[float], sender: socket.socket, data: bytes, port: int) -> None:
        self.counts["lost" if not delays else "late" if delays[0] else "passed"] += 1
        self.counts["repeated"] += len(delays) > 1
        for delay in delays:
            if delay:
                heapq.heappush(self.waiting, (time.monotonic() + delay, next(self.order), sender, data, port))
            else:
                send(sender, data, port)

    def send_due(self) -> float | None:
        """Sends what was delayed for long enough. Gives the seconds until there is more of it."""
        while self.waiting and self.waiting[0][0] <= time.monotonic():
            send(*heapq.heappop(self.waiting)[2:])
        return max(0.0, self.waiting[0][0] - time.monotonic()) if self.waiting else None

    def order_of(self, line: str) -> None:
        match line.split():
            case ["cut", view, "both"]:
                self.cuts |= {(int(view), "in"), (int(view), "out")}
            case ["cut", view, "in" | "out" as way]:
                self.cuts.add((int(view), way))
            case ["heal"]:
                self.cuts.clear()

    def run(self, orders: int) -> None:
        """Relays until its orders end."""
        self.selector.register(orders, selectors.EVENT_READ, None)
        held = b""
        while True:
            for key, _ in self.selector.select(self.send_due()):
                if key.data is not None:
                    self.take(key.fileobj, *key.data)
                    continue
                read = os.read(orders, 4096)
                if not read:
                    return
                *lines, held = (held + read).split(b"\n")
                for line in lines:
                    self.order_of(line.decode())


def send(sender: socket.socket, data: bytes, port: int) -> None:
    with contextlib.suppress(OSError):
        sender.sendto(data, ("127.0.0.1", port))


class Network:
    """A relay in a process of its own."""

    def __init__(self, views: Sequence[Header], hosted: Sequence[Sequence[Role]], roles: Sequence[Role], weather: Weather, seed: int) -> None:
        """The headers of all processes, the last of which has the clients."""
        owners = [next((number for number, some in enumerate(hosted) if role in some), len(hosted)) for role in roles]
        first = views[0].numbers["base_port"]
        plan = Plan(first, len(roles), owners, len(views), weather, seed)
        self.process = subprocess.Popen([sys.executable, __file__], stdin=subprocess.PIPE, stdout=subprocess.PIPE, text=True)
        self.tell(json.dumps(asdict(plan)))
        assert self.process.stdout
        if self.process.stdout.readline() != "ready\n":
            raise OSError("the relay did not begin: a port may be taken")

    def tell(self, line: str) -> None:
        assert self.process.stdin
        self.process.stdin.write(f"{line}\n")
        self.process.stdin.flush()

    def end(self) -> dict[str, int]:
        """What became of the datagrams."""
        out, _ = self.process.communicate()
        return json.loads(out)


def main() -> None:
    words = b""
    while not words.endswith(b"\n"):
        words += os.read(0, 1)
    given = json.loads(words)
    relay = Relay(Plan(**{**given, "weather": Weather(**given["weather"])}))
    print("ready", flush=True)
    relay.run(0)
    print(json.dumps(relay.counts))


if __name__ == "__main__":
    main()
