#!/usr/bin/env python3
"""Measures what quorum reads cost in one node with all roles, in which 64 clients read and write half and half.

    bench/reads.py [--rounds N] [--commands N] [--waits W] [--folder F] PROGRAM [PROGRAM]

The programs, say one of before a change and one of after it, take the same input in turn. Each client asks so many commands, 100 where no
number is given: puts and reads in turn, and has at most W of them outstanding, 1 where none is given. A line for each program has the
medians of the rounds: commands answered a second from a process's start to its end, and, of a further run that records, how many
datagrams a read has taken. The exit status is 1 where a node doesn't end well.
"""

import argparse
import collections
import pathlib
import re
import statistics
import subprocess
import sys
import tempfile
import time

TOP = pathlib.Path(__file__).resolve().parent.parent
sys.path.insert(0, str(TOP / "tools"))

from headers import KINDS, Header, Unusable  # noqa: E402
from picture import READS  # noqa: E402

from record import cluster  # noqa: E402

CLIENTS = 64
SENT = re.compile(r"\+\d+ \S+ \S+ (\w+) ", re.MULTILINE)
RECORDED = 10                   # commands of each client in the run that records, which has at most 65,535 lines


def asked(header: Header, count: int) -> str:
    """Each client's puts and reads in turn; half of the clients begin with a read."""
    lines = []
    for number in range(1, count + 1):
        for client in range(CLIENTS):
            if (number + client) % 2:
                lines.append(f"write client:{client} {number} batcher:{client % 2} put k{client} v{number}")
            else:
                lines.append(f"read client:{client} {number} reader:0 replica:{client % 2} k{client}")
    return header.input + "".join(f"{line}\n" for line in lines)


def ran(program: pathlib.Path, header: Header, given: str, room: pathlib.Path, *words: str) -> tuple[float, bytes]:
    """How long a node takes over this input in an empty folder, and what it writes."""
    roles = [str(role) for kind in KINDS for role in header.roles(kind)]
    with tempfile.TemporaryDirectory(dir=room) as folder:
        began = time.monotonic()
        node = subprocess.run([str(program), "node", *words, "--tend", "1024", "--turns", "100000000", *roles], input=given.encode(), cwd=folder,
                              stdout=subprocess.PIPE, check=True)
        return time.monotonic() - began, node.stdout


def datagrams(program: pathlib.Path, header: Header, window: str, room: pathlib.Path) -> float:
    """How many datagrams were sent for each read that was answered, in a run that is recorded and replayed."""
    record = ran(program, header, asked(header, RECORDED), room, "--record", *window.split())[1]
    trace = subprocess.run([str(program), "replay"], input=record, stdout=subprocess.PIPE, check=True).stdout.decode()
    counts = collections.Counter(SENT.findall(trace))
    return sum(counts[name] for name in READS) / (CLIENTS * RECORDED // 2)


def main() -> int:
    reader = argparse.ArgumentParser(description=__doc__, formatter_class=argparse.RawDescriptionHelpFormatter)
    reader.add_argument("programs", metavar="PROGRAM", type=pathlib.Path, nargs="+")
    reader.add_argument("--rounds", type=int, default=5)
    reader.add_argument("--commands", type=int, default=100)
    reader.add_argument("--waits", type=int, default=1)
    reader.add_argument("--folder", type=pathlib.Path, default=pathlib.Path(tempfile.gettempdir()))
    words = reader.parse_args()
    header = cluster(clients=CLIENTS, readers=1)
    window = f"--window {words.waits}"
    given = asked(header, words.commands)
    programs = [path.absolute() for path in words.programs]
    times: dict[pathlib.Path, list[float]] = {path: [] for path in programs}
    for _ in range(words.rounds):
        for path in programs:
            times[path].append(ran(path, header, given, words.folder, *window.split())[0])
    for path in programs:
        took = statistics.median(times[path])
        print(f"{path.name}: {CLIENTS * words.commands / took:,.0f} commands answered a second, half of them reads; "
              f"{datagrams(path, header, window, words.folder):.1f} datagrams a read", flush=True)
    return 0


if __name__ == "__main__":
    try:
        sys.exit(main())
    except (Unusable, subprocess.CalledProcessError) as error:
        sys.exit(f"reads: {error}")
