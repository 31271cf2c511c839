#!/usr/bin/env python3
"""Measures what recording costs: one node with all roles answers the same commands with `--record` and without, in turn.

    bench/record.py [--rounds N] [--commands N] [--folder F]

Sixteen clients ask so many commands in all, 4,000 where no number is given, in batches of 8: some 20 to 30 thousand lines of a record. A
time is a process's from its start to its end. The last line has the medians, and how much of the plain node's throughput the recording
node has. The exit status is 1 where that is below two thirds, or a node doesn't end well.
"""

import argparse
import pathlib
import random
import statistics
import subprocess
import sys
import tempfile
import time

TOP = pathlib.Path(__file__).resolve().parent.parent
sys.path.insert(0, str(TOP / "tools"))

from clients import Client  # noqa: E402
from headers import KINDS, Header, Unusable, free_ports, header_of, program  # noqa: E402

HEADER = """\
f = 1
leaders = 1
proxies = 2
acceptors = 4
replicas = 2
batchers = 2
unbatchers = 2
readers = {readers}
clients = {clients}
batch = 8
base_port = {port}
"""
LEAST = 2 / 3


def cluster(clients: int, readers: int) -> Header:
    """A cluster with f = 1 that one node hosts, on ports that are free just now."""
    text = HEADER.format(clients=clients, readers=readers, port=1024)
    count = sum(len(header_of(text, "header").roles(kind)) for kind in KINDS)
    return header_of(HEADER.format(clients=clients, readers=readers, port=free_ports(count)), "header")


def asked(header: Header, count: int) -> str:
    clients = [Client(at, random.Random(at)) for at in range(header.count("client"))]
    for at in range(count):
        client = clients[at % len(clients)]
        client.ask(client.chance.choice(("put", "app", "app", "del", "get")), client.chance.choice(client.keys))
    return header.input + "".join(client.lines(header) for client in clients)


def seconds(header: Header, given: str, room: pathlib.Path, *words: str) -> float:
    """How long a node takes over this input, in an empty folder."""
    roles = [str(role) for kind in KINDS for role in header.roles(kind)]
    with tempfile.TemporaryDirectory(dir=room) as folder, open(pathlib.Path(folder) / "out", "wb") as out:
        began = time.monotonic()
        subprocess.run([str(program()), "node", *words, "--tend", "1024", "--turns", "100000000", *roles], input=given.encode(), cwd=folder, stdout=out,
                       check=True)
        return time.monotonic() - began


def main() -> int:
    reader = argparse.ArgumentParser(description=__doc__, formatter_class=argparse.RawDescriptionHelpFormatter)
    reader.add_argument("--rounds", type=int, default=5)
    reader.add_argument("--commands", type=int, default=4000)
    reader.add_argument("--folder", type=pathlib.Path, default=pathlib.Path(tempfile.gettempdir()))
    words = reader.parse_args()
    header = cluster(clients=16, readers=2)
    given = asked(header, words.commands)
    plain, recorded = [], []
    for _ in range(words.rounds):
        plain.append(seconds(header, given, words.folder))
        recorded.append(seconds(header, given, words.folder, "--record"))
        print(f"plain {plain[-1]:.3f} s, with a record {recorded[-1]:.3f} s", flush=True)
    one, other = statistics.median(plain), statistics.median(recorded)
    print(f"{words.commands / one:,.0f} answers a second, {words.commands / other:,.0f} with a record: {one / other:.2f} of the throughput")
    return 0 if one / other >= LEAST else 1


if __name__ == "__main__":
    try:
        sys.exit(main())
    except Unusable as error:
        sys.exit(f"record: {error}")
