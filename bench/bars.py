#!/usr/bin/env python3
"""Measures a cluster, and says of each bar whether it is met; `bench/node.sh --tend 1024 --bars` calls it. The last line counts the
bars that are not met, and the exit status is 0 where there is none, else 1.

All lines are measured once in each of five rounds, since a disk and a machine that others use swing within a minute. A bar on answers,
on slots and syncs or on idle processes is held against the median of the rounds; that no client waits for long holds of each round.
Each round first says how long a sync takes, and how much of the processors the machine's host took away meanwhile: read the verdicts of
a run in which these stay about the same. It takes less than five minutes.

The words, as `--tend 1024`, are passed to each node; but the process of the clients has at most 256 turns from one beat to the next, so
that of 64 clients in batches of 1, which is more than the window has slots, none waits for long.

Use: bench/bars.py [--seconds S] [--rounds N] [--folder F] PROGRAM [WORD..]
"""
import argparse
import dataclasses
import os
import pathlib
import shutil
import statistics
import sys
import time
from collections.abc import Callable

import load

ALONE, ALONE_8, SOME, MANY, MANY_1 = (1, 1), (1, 8), (16, 8), (64, 8), (64, 1)           # clients, batch
LINES = [ALONE, ALONE_8, SOME, MANY, MANY_1]
PEERS = [1, 16, 64]
SYNCS = 50
CLIENTS_TEND = 256


@dataclasses.dataclass
class Round:
    """What one round measured: of each line, of etcd for so many clients, and of each idle process."""

    lines: dict[tuple[int, int], load.Figures]
    peers: dict[int, load.Figures]
    idle: list[float]


@dataclasses.dataclass
class Verdict:
    bar: str
    is_met: bool
    why: str

    def __str__(self) -> str:
        return f"{'met   ' if self.is_met else 'MISSED'} {self.bar}: {self.why}"


def middle(values: list[float]) -> float:
    return statistics.median(values) if values else float("nan")


def listed(values: list[float], form: str = ".0f") -> str:
    return f"{middle(values):{form}} (" + ", ".join(f"{value:{form}}" for value in values) + ")"


def named(line: tuple[int, int]) -> str:
    clients, batch = line
    return f"{clients} client{'s' if clients > 1 else ''} in batches of {batch}"


def at_least(bar: str, got: list[float], least: float) -> Verdict:
    return Verdict(bar, middle(got) >= least, listed(got))


def at_most(bar: str, got: list[float], most: float, form: str) -> Verdict:
    return Verdict(bar, middle(got) <= most, listed(got, form))


def not_below(bar: str, got: list[float], other: list[float]) -> Verdict:
    """What wasn't measured meets no bar."""
    return Verdict(bar, middle(got) >= middle(other), f"{listed(got)} beside {listed(other)}")


def not_silent(bar: str, waits: list[float]) -> Verdict:
    return Verdict(bar, max(waits) < 2, ", ".join(f"{it:.2f} s" for it in waits))


def verdicts(rounds: list[Round], answered: int) -> list[Verdict]:
    """Each bar, by these rounds, and by how many of the starts in one folder were answered."""
    def rates(line: tuple[int, int]) -> list[float]:
        return [each.lines[line].rate for each in rounds]

    def peers(clients: int) -> list[float]:
        return [each.peers[clients].rate for each in rounds if clients in each.peers]

    alone = [each.lines[ALONE] for each in rounds]
    busiest = max(([each.idle[at] for each in rounds] for at in range(len(rounds[0].idle))), key=middle)
    return [
        at_least("one client: at least 300 answers a second", rates(ALONE), 300),
        at_most("one client: at most 1.2 slots a command", [each.slots for each in alone], 1.2, ".2f"),
        at_most("one client: at most 10 syncs a command", [each.syncs for each in alone], 10, ".2f"),
        at_least("16 clients in batches of 8: at least 2,000 answers a second", rates(SOME), 2000),
        not_below("64 clients in batches of 8: not below 16", rates(MANY), rates(SOME)),
        *(not_below(f"{named(line)}: not below etcd", rates(line), peers(line[0])) for line in (ALONE, ALONE_8, SOME, MANY)),
        *(not_silent(f"{named(line)}: none waits for 2 seconds", [each.lines[line].silence for each in rounds]) for line in (MANY, MANY_1)),
        Verdict("an idle process: below 2 % of a processor", middle(busiest) < 2, listed(busiest, ".1f")),
        Verdict(f"{load.STARTS} starts in one folder", answered == load.STARTS, f"{answered} answered"),
    ]


def taken_away() -> float:
    """The seconds that the machine's host took its processors away."""
    fields = pathlib.Path("/proc/stat").read_text().splitlines()[0].split()
    return int(fields[8]) / load.TICKS


def sync_times(folder: str) -> list[float]:
    """In milliseconds, how long syncs of a file take that grows."""
    times = []
    with open(pathlib.Path(folder, "syncs"), "wb", buffering=0) as file:
        for _ in range(SYNCS):
            began = time.monotonic()
            file.write(bytes(64))
            os.fsync(file.fileno())
            times.append(1000 * (time.monotonic() - began))
    return sorted(times)


def said(line: object) -> None:
    print(line, flush=True)


def in_folder(place: str | None, measure: Callable[[str], load.Figures]) -> load.Figures:
    """Measures a line in a folder of its own, and prints it."""
    with load.new_folder(place) as folder:
        figures = measure(folder)
    said(figures)
    return figures


def one_round(args: argparse.Namespace, has_peer: bool) -> Round:
    away, began = taken_away(), time.monotonic()
    with load.new_folder(args.folder) as folder:
        syncs = sync_times(folder)
        idle = load.idle(folder, args.seconds, args.program, args.words)
    said(load.idle_line(idle))
    lines, peers = {}, {}
    for clients, batch in LINES:
        lines[clients, batch] = in_folder(
            args.folder, lambda folder: load.compax(folder, args.seconds, args.program, "five", clients, batch, args.words, CLIENTS_TEND))
        if has_peer and clients in PEERS and clients not in peers:
            peers[clients] = in_folder(args.folder, lambda folder: load.etcd(folder, args.seconds, clients))
    share = 100 * (taken_away() - away) / (time.monotonic() - began) / (os.cpu_count() or 1)
    said(f"machine: a sync {syncs[SYNCS // 2]:.2f} ms, the slowest {syncs[-1]:.2f} ms; its host took {share:.1f} % of the processors")
    return Round(lines, peers, idle)


def main() -> int:
    parser = argparse.ArgumentParser(description=__doc__, formatter_class=argparse.RawDescriptionHelpFormatter)
    parser.add_argument("--seconds", type=float, default=3)
    parser.add_argument("--rounds", type=int, default=5)
    parser.add_argument("--folder", default=None)
    parser.add_argument("program", type=os.path.abspath)
    parser.add_argument("words", nargs=argparse.REMAINDER)
    args = parser.parse_args()
    has_peer = shutil.which("etcd") is not None
    rounds = []
    for number in range(1, args.rounds + 1):
        said(f"round {number} of {args.rounds}")
        rounds.append(one_round(args, has_peer))
    with load.new_folder(args.folder) as folder:
        answered, longest = load.starts(folder, args.program, args.words)
    said(load.starts_line(answered, longest))
    found = verdicts(rounds, answered)
    for verdict in found:
        said(verdict)
    missed = sum(not verdict.is_met for verdict in found)
    said(f"{len(found)} bars, {missed} missed")
    return 1 if missed else 0


if __name__ == "__main__":
    sys.exit(main())
