#!/usr/bin/env python3
"""How long a node takes to start after many commands over eight keys, with snaps and without, and how large its files are then.

Use:  [PROGRAM=FILE] bench/start.py [--folder F] [COMMANDS..]

A node hosts all roles of a cluster with f = 0, and 64 clients that put in batches of 8, until so many commands are answered: 10,000,
100,000 and 1,000,000 where no number is given, which takes some two minutes. Its replica snaps meanwhile. Then the values that its
acceptor voted for are written to a plain journal, as a replica had them that never snapped. A line has for so many commands:

    plain       the size of that journal, and how long a node that hosts the replica takes to start from it
    snapped     the size of both files of the replica that snapped, and how long the same takes from them
    all roles   the size of all files of the node, and how long it takes to start with all its roles

A start is from the process's begin to its end after one turn, in seconds (s), and in seconds of a processor (cpu), which a busy machine
changes less; the medians of five runs. Sizes are in MB of 1,000,000 bytes. Files lie in a folder of F, else of the system's temporary
folder. Without PROGRAM the program is found as the tools find it. The exit status is 1 where the snapped replica takes a second or
more, or has files of 1 MB or more.
"""
import argparse
import dataclasses
import os
import pathlib
import resource
import statistics
import subprocess
import sys
import time

import load

sys.path.insert(0, str(pathlib.Path(__file__).resolve().parent.parent / "tools"))
import headers
import journals
import statuses

HEADER = """\
f = 0
leaders = 1
proxies = 1
acceptors = 1
replicas = 1
batchers = 1
unbatchers = 1
readers = 1
clients = 64
batch = 8
base_port = {port}
"""
COUNTS = [10_000, 100_000, 1_000_000]
LINES = 60_000                  # of a node's input, which has at most 65,535
RUNS = 5
VALUE = 1 + 10 + 8 + 8          # where the value of a vote begins, behind the tag, the round, the slot and the watermark


@dataclasses.dataclass
class Start:
    """From how many bytes it was, and how many seconds it took, in all and of a processor."""

    size: int
    time: float
    spent: float

    def __str__(self):
        return f"{self.size / 1e6:12.3f} {self.time:6.3f} {self.spent:6.3f}"


def spent_by_children():
    """The seconds of a processor that the processes have taken that this one has started."""
    used = resource.getrusage(resource.RUSAGE_CHILDREN)
    return used.ru_utime + used.ru_stime


class Node:
    """A folder, and the header of the nodes that are started in it."""

    def __init__(self, program, folder):
        self.program, self.folder = program, pathlib.Path(folder)
        self.header = headers.header_of(HEADER.format(port=load.free_port()), "header")
        self.clients = self.header.count("client")
        self.roles = [str(role) for kind in headers.KINDS[1:] for role in self.header.roles(kind)]

    def run(self, words, lines=""):
        """Runs a node to its end. Gives how many lines it printed."""
        given = self.header.input + lines
        ran = subprocess.run([self.program, "node", *words], cwd=self.folder, input=given, capture_output=True, text=True)
        if ran.returncode != 0:
            sys.exit(f"start.py: a node ended with status {ran.returncode}: {statuses.line_of(ran.returncode, ran.stderr)}")
        return ran.stdout.count("\n")

    def put(self, count):
        """Puts until so many commands are answered."""
        own = [f"client:{client}" for client in range(self.clients)]
        for at in range(0, count, LINES):
            lines = "".join(f"write client:{number % self.clients} {number + 1} batcher:0 put k{number % 8} v{number}\n"
                            for number in range(at, min(at + LINES, count)))
            answered = self.run(["--turns", "1000000000", "--tend", "1024", *own, *self.roles], lines)
            assert answered == min(LINES, count - at)

    def start(self, names, roles):
        """How long a start of these roles takes that have these files."""
        times, spent = [], []
        for _ in range(RUNS):
            began, before = time.monotonic(), spent_by_children()
            self.run(["--turns", "1", *roles])
            times.append(time.monotonic() - began)
            spent.append(spent_by_children() - before)
        return Start(sum(path.stat().st_size for path in self.folder.glob(names)), statistics.median(times), statistics.median(spent))


def plain_of(acceptor):
    """The journal of a replica that never snapped, by the votes of the only acceptor. The last vote of a slot has the chosen value."""
    with open(acceptor, "rb") as file:
        votes = (frame.payload for frame in journals.Journal(file, "acceptor").frames() if frame.tag("acceptor").name == "Vote")
        values = {vote[11:19]: vote[VALUE:] for vote in votes}
    logs = (b"\7\1" + value for _, value in sorted(values.items()))
    return b"".join(b"\1" + len(log).to_bytes(4, "big") + log for log in logs) + b"\0"


def measured(program, place, count):
    """The starts of a line."""
    with load.new_folder(place) as folder:
        node = Node(program, folder)
        node.put(count)
        snapped, whole = node.start("compax-replica-*", ["replica:0"]), node.start("compax-*", node.roles)
        plain = plain_of(node.folder / "compax-acceptor-0.journal")
        for file in node.folder.glob("compax-replica-*"):
            file.unlink()
        (node.folder / "compax-replica-0.journal").write_bytes(plain)
        return node.start("compax-replica-*", ["replica:0"]), snapped, whole


def main():
    parser = argparse.ArgumentParser(description=__doc__, formatter_class=argparse.RawDescriptionHelpFormatter)
    parser.add_argument("--folder")
    parser.add_argument("counts", metavar="COMMANDS", type=int, nargs="*", default=COUNTS)
    args = parser.parse_args()
    try:
        program = os.environ.get("PROGRAM") or headers.program()
    except headers.Unusable as why:
        sys.exit(f"start.py: {why}")
    print(f"{'commands':>9} | " + " | ".join(f"{name + ' MB':>12} {'s':>6} {'cpu':>6}" for name in ("plain", "snapped", "all roles")))
    is_met = True
    for count in args.counts:
        plain, snapped, whole = measured(program, args.folder, count)
        print(f"{count:9,} | {plain} | {snapped} | {whole}", flush=True)
        is_met = is_met and snapped.time < 1 and snapped.size < 1_000_000
    return 0 if is_met else 1


if __name__ == "__main__":
    sys.exit(main())
