"""A cluster's header: its roles, their ports, and how they are spread over processes; and where the program is."""

import functools
import os
import pathlib
import random
import re
import socket
import tomllib
from collections.abc import Mapping
from dataclasses import dataclass

TOP = pathlib.Path(__file__).resolve().parent.parent
PROGRAMS = (TOP / "crates/compax/out/compax", TOP / "out/compax")      # as `rt ci` leaves it, and as tools/build does
KINDS = ("client", "batcher", "leader", "proxy", "acceptor", "match", "replica", "unbatcher", "reader", "replacer")  # in the order of their ports
COUNTED_BY = {"client": "clients", "batcher": "batchers", "leader": "leaders", "proxy": "proxies", "acceptor": "acceptors", "match": "pool",
              "replica": "replicas", "unbatcher": "unbatchers", "reader": "readers", "replacer": "replacers"}
KEEPING = ("leader", "acceptor", "match", "replica", "reader", "replacer")      # the kinds with a journal
RANGES = {"f": (0, 3), "leaders": (1, 8), "proxies": (1, 16), "acceptors": (1, 64), "replicas": (1, 8), "batchers": (1, 8),
          "unbatchers": (1, 8), "readers": (1, 8), "clients": (1, 64), "batch": (1, 8), "base_port": (1024, 60000),
          "pool": (1, 64), "replacers": (0, 4), "one_entry_a_grid": (0, 1), "own_proxies": (0, 1), "keep_sets": (0, 1)}
GRID_MOST = 16                  # acceptors in a grid
PORTS = tuple(map(int, os.environ.get("COMPAX_PORTS", "25000-32000").split("-")))      # below those that systems hand out by themselves
PORT_TAKEN = 6                  # the status of a node, and of the tools


class Unusable(Exception):
    """What the user asked for can't be done, said in a line; the tool ends with this status."""

    def __init__(self, text: str, status: int = 1) -> None:
        super().__init__(text)
        self.status = status


def program() -> pathlib.Path:
    """The built program: $COMPAX, else the proved one, else that of tools/build."""
    named = os.environ.get("COMPAX")
    for path in [pathlib.Path(named).absolute()] if named else PROGRAMS:
        if path.is_file() and os.access(path, os.X_OK):
            return path
    if named:
        raise Unusable(f"COMPAX names {named}, which is no program")
    raise Unusable("there is no program yet: tools/build makes one without proofs, .ci/run a proved one")


def taken(port: int) -> str | None:
    """Why a UDP port of the loopback can't be had; None where it can."""
    with socket.socket(socket.AF_INET, socket.SOCK_DGRAM) as it:
        try:
            it.bind(("127.0.0.1", port))
        except OSError as error:
            return error.strerror
    return None


def free_ports(count: int) -> int:
    """The first of so many UDP ports in a row that are free just now."""
    for _ in range(100):
        first = random.randrange(PORTS[0], PORTS[1] - count)
        if not any(taken(port) for port in range(first, first + count)):
            return first
    raise Unusable(f"no {count} free ports in a row were found from {PORTS[0]} on", PORT_TAKEN)


@dataclass(frozen=True)
class Role:
    kind: str
    index: int

    def __str__(self) -> str:
        return f"{self.kind}:{self.index}"

    @property
    def files(self) -> list[str]:
        """The names of its files: of a replica two, of a role that keeps nothing none."""
        endings = {"replica": ["journal", "other"]}.get(self.kind, ["journal"]) if self.kind in KEEPING else []
        return [f"compax-{self.kind}-{self.index}.{ending}" for ending in endings]


@dataclass(frozen=True)
class Header:
    text: str                           # the lines above ---
    numbers: Mapping[str, int]

    @property
    def input(self) -> str:
        """The input of a node without requests."""
        return f"{self.text.rstrip()}\n---\n"

    def count(self, kind: str) -> int:
        return self.numbers[COUNTED_BY[kind]]

    @property
    def matchmakers(self) -> int:
        """How many matchmakers a set has; the first set are the first ones."""
        return 2 * self.numbers["f"] + 1

    def roles(self, kind: str) -> list[Role]:
        return [Role(kind, index) for index in range(self.count(kind))]

    def port(self, role: Role) -> int:
        before = KINDS[: KINDS.index(role.kind)]
        return self.numbers["base_port"] + sum(map(self.count, before)) + role.index

    @functools.cached_property
    def grid(self) -> list[list[Role]]:
        """The rows of the grid with which a node's leader begins: its first acceptors, in two rows where their number is even."""
        members = self.roles("acceptor")[:GRID_MOST]
        columns = len(members) // (2 if len(members) % 2 == 0 else 1)
        return [members[at : at + columns] for at in range(0, len(members), columns)]


def header_of(text: str, name: str) -> Header:
    """Reads a header, or an input that begins with one. What else the program refuses of it, the program says."""
    above = re.split(r"^---\s*$", text, maxsplit=1, flags=re.MULTILINE)[0]
    try:
        values = tomllib.loads(above)
    except tomllib.TOMLDecodeError as error:
        raise Unusable(f"{name}: the header is no TOML: {error}") from None
    for key in values:
        if key not in RANGES:
            raise Unusable(f"{name}: no header has a key {key}")
    values.setdefault("pool", 2 * values["f"] + 1 if type(values.get("f")) is int else 1)
    for key in ("replacers", "one_entry_a_grid", "own_proxies", "keep_sets"):
        values.setdefault(key, 0)
    for key, (low, high) in RANGES.items():
        value = values.get(key)
        if type(value) is not int or not low <= value <= high:
            raise Unusable(f"{name}: the header needs {key}, a number from {low} to {high}")
    if values["replicas"] <= values["f"]:
        raise Unusable(f"{name}: the header needs more than f replicas")
    if values["pool"] <= 2 * values["f"]:
        raise Unusable(f"{name}: the header needs a pool of more than 2f matchmakers")
    if values["own_proxies"] and values["proxies"] % values["leaders"]:
        raise Unusable(f"{name}: with own_proxies the header needs as many proxies for each leader")
    return Header(above, values)


def read_header(path: pathlib.Path) -> Header:
    try:
        return header_of(path.read_text(), str(path))
    except UnicodeDecodeError:
        raise Unusable(f"{path}: the header is no text") from None
    except OSError as error:
        raise Unusable(f"{path}: {error.strerror}") from None


def spread(header: Header, processes: int) -> list[list[Role]]:
    """The roles of each process: all but the clients.

    A slot belongs to one proxy leader, so all of these are beside the leader, with the other roles that no write can do without: then
    the loss of another process stops no write. Acceptors go to processes in order, so that one process has them in one row of the
    grid; the other kinds go round from the second process on.
    """
    hosted: list[list[Role]] = [[] for _ in range(processes)]
    for kind in ("leader", "batcher", "proxy", "unbatcher"):
        hosted[0] += header.roles(kind)
    acceptors = header.roles("acceptor")
    within = min(len(acceptors), GRID_MOST)
    for role in acceptors:
        hosted[role.index * processes // within if role.index < within else role.index % processes].append(role)
    for kind in ("match", "replica", "reader", "replacer"):
        for role in header.roles(kind):
            hosted[(role.index + 1) % processes].append(role)
    return hosted


def why_needed(header: Header, lost: list[Role]) -> str | None:
    """Why a cluster can't go on while the process with these roles is down; None where it can."""
    left = {kind: [role for role in header.roles(kind) if role not in lost] for kind in KINDS}
    up = set(left["acceptor"])
    needed = header.numbers["f"] + 1
    reasons = {
        "it has the leader": len(left["leader"]) < header.count("leader"),
        "it has a proxy leader": len(left["proxy"]) < header.count("proxy"),
        "it has every batcher": not left["batcher"],
        "it has every unbatcher": not left["unbatcher"],
        "it has every reader": not left["reader"],
        "it has an acceptor of each column of the grid": not any(up.issuperset(column) for column in zip(*header.grid)),
        "it has an acceptor of each row of the grid": not any(up.issuperset(row) for row in header.grid),
        f"it leaves fewer than {needed} matchmakers": sum(role.index < header.matchmakers for role in left["match"]) < needed,
        f"it leaves fewer than {needed} replicas": len(left["replica"]) < needed,
    }
    return next((reason for reason, is_so in reasons.items() if is_so), None)


def can_lose_any(header: Header, hosted: list[list[Role]]) -> bool:
    """Whether any one process but the leader's can be down while the cluster goes on."""
    return not any(why_needed(header, roles) for roles in hosted[1:])


def enough_processes(header: Header) -> int:
    """The least number of processes of which any but the leader's can be down. With f = 0, or where no number will do: 2f + 1."""
    least = 2 * header.numbers["f"] + 1
    if least == 1:
        return 1
    return next((n for n in range(2, GRID_MOST + 1) if can_lose_any(header, spread(header, n))), least)
