"""Random schedules, made in pieces from the trace so far, and the program beside a reference on them: what tools/snaps and tools/sessions share."""

import argparse
import pathlib
import random
import shlex
import subprocess
import sys
from collections import Counter

from headers import GRID_MOST, KINDS, RANGES, Unusable, header_of, program
from traces import events_of, stops_of

SIZES = {"f": (0, 0, 1), "leaders": (1, 2), "proxies": (1, 2), "acceptors": (2, 3, 4, 6), "replicas": (1, 2, 2, 3),
         "batchers": (1, 2), "unbatchers": (1, 2), "readers": (1, 2), "clients": (1, 3, 64), "batch": (1, 1, 2, 8)}
ENDS = ("standard output", "standard error", "status")


def random_header(rng, sizes):
    """The header of a small cluster, of one of these sizes; of any in one schedule of eight."""
    numbers = {key: rng.choice(some) for key, some in sizes.items()}
    if rng.random() < 1 / 8:
        numbers = {key: rng.randint(*RANGES[key]) for key in sizes}
    numbers["replicas"] = max(numbers["replicas"], numbers["f"] + 1)
    if "pool" in numbers:
        numbers["pool"] = min(RANGES["pool"][1], max(numbers["pool"], 2 * numbers["f"] + 1))
    numbers["base_port"] = 20000
    return header_of("".join(f"{key} = {number}\n" for key, number in numbers.items()), "a made header")


class Maker:
    """Says the next lines of a schedule from the events so far. What its schedules are for, a class of its own adds."""

    def __init__(self, rng, sizes=SIZES):
        self.rng, self.header = rng, random_header(rng, sizes)
        self.servers = [kind for kind in KINDS if kind != "client" and self.header.count(kind)]
        self.loss, self.again = rng.choice([(0, 0.02), (0.01, 0.05), (0.05, 0.2)])
        self.behind = self.any("replica") if rng.random() < 0.5 else None       # most that is chosen doesn't reach this replica:
        self.missed = 0.6                                                       # so much of it
        self.lost, self.asked, self.numbers = set(), [], Counter()
        self.sent = []                  # the datagrams so far, by number

    def any(self, kind):
        return str(self.rng.choice(self.header.roles(kind)))

    def cut(self, chance):
        return self.rng.choice([" torn", " kept"]) if self.rng.random() < chance else ""

    def grid(self):
        acceptors = range(self.header.count("acceptor"))
        rows = self.rng.randint(1, min(4, len(acceptors)))
        columns = self.rng.randint(1, min(GRID_MOST, len(acceptors), 4 * rows) // rows)
        return f"{rows}x{columns} " + ",".join(map(str, self.rng.sample(acceptors, rows * columns)))

    def arrivals(self):
        """What was sent to other roles than clients and didn't arrive; some of it never does, and some arrives twice."""
        for it in self.sent:
            if it.arrivals or it.number in self.lost or it.receiver.startswith("client"):
                continue
            if self.rng.random() < (self.missed if it.name == "Chosen" and it.receiver == self.behind else self.loss):
                self.lost.add(it.number)
            else:
                yield f"deliver {it.number}{self.cut(0.005)}"
            if self.rng.random() < self.again:
                yield f"deliver {self.rng.randrange(len(self.sent))}"

    def asker(self, client=None):
        """A client, a new number of its own as a line says it, often with a floor, and a key."""
        client, key = client or self.any("client"), f"k{self.rng.randrange(12)}"
        self.numbers[client] += self.rng.choice([1, 1, 1, 2])
        number = self.numbers[client]
        return client, self.rng.choice([str(number), f"{number}/{max(0, number - self.rng.randint(1, 64))}"]), key

    def request(self):
        client, told, key = self.asker()
        if self.rng.random() < 0.2:
            return f"read {client} {told} {self.any('reader')} {self.any('replica')} {key}"
        number = self.numbers[client]
        what = self.rng.choice([f"put {key} v{number}", f"app {key} x{number}", f"del {key}"])
        return f"write {client} {told} {self.any('batcher')} {what}"

    def requests(self):
        for _ in range(self.rng.randint(1, 6)):
            if not self.asked or self.rng.random() < 0.9:
                self.asked.append(self.request())
                yield self.asked[-1]
            else:
                yield self.rng.choice(self.asked)

    def ticks(self):
        return [f"tick {self.any(self.rng.choice([*self.servers, 'replica', 'replica']))}" for _ in range(self.rng.randint(1, 4))]

    def orders(self):
        """Orders to leaders, or a crash."""
        leader = self.any("leader") if self.rng.random() < 0.3 else "leader:0"
        what = self.rng.choice([f"lead {leader} {self.grid()}", f"change {leader} {self.grid()}", f"collect {leader}",
                                f"crash {self.any(self.rng.choice(self.servers))}"])
        return [what]

    def kinds(self):
        """What a piece may be, and how often."""
        return {self.arrivals: 60, self.requests: 14, self.ticks: 6, self.orders: 2}

    def look(self, events):
        """Learns what happened."""
        self.sent = [it for event in events for it in event.sent]

    def piece(self, events):
        """The next lines."""
        self.look(events)
        if not events:
            return [f"lead leader:0 {self.grid()}"]
        down = [who for who, stops in stops_of(events).items() if stops[-1][1] is None]
        if down and self.rng.random() < 0.3:
            return [f"restart {who}" for who in down]
        kinds = self.kinds()
        [make] = self.rng.choices(list(kinds), list(kinds.values()))
        return list(make())

    def ending(self, lines):
        """What stands behind the last line."""
        return ""


def replayed(command, text):
    """What a replay writes to both streams, and its status."""
    ended = subprocess.run([*command, "replay"], input=text.encode(), capture_output=True)
    return ended.stdout, ended.stderr, ended.returncode


def schedule(command, make, rng, count):
    """A schedule of so many events."""
    maker, events, lines = make(rng), [], []
    text = maker.header.input
    while len(lines) < count:
        piece = maker.piece(events)[: count - len(lines)]
        if not piece:
            continue
        lines += piece
        text = maker.header.input + "".join(f"{line}\n" for line in lines)
        events = events_of(replayed(command, text)[0].decode())
    return text + maker.ending(lines)


def arguments(tool, doc, words):
    reader = argparse.ArgumentParser(tool, description=doc, formatter_class=argparse.RawDescriptionHelpFormatter)
    reader.add_argument("reference", type=shlex.split, metavar="REFERENCE")
    reader.add_argument("--runs", type=int, default=20)
    reader.add_argument("--first", type=int, default=1)
    reader.add_argument("--events", type=int, default=400)
    reader.add_argument("--keep", type=pathlib.Path, default=pathlib.Path(f"{tool}-kept"))
    return reader.parse_args(words)


def compare(tool, doc, words, make, counted):
    """Compares the program with a reference on schedules, and prints what of their events is counted. Returns the tool's status."""
    asked = arguments(tool, doc, words)
    try:
        command = [str(program())]
    except Unusable as error:
        sys.exit(f"{tool}: {error}")
    counts, differ = Counter(), 0
    for number in range(asked.first, asked.first + asked.runs):
        text = schedule(command, make, random.Random(f"{tool} {number}"), asked.events)
        got, wanted = replayed(command, text), replayed(asked.reference, text)
        events = events_of(got[0].decode())
        counts += counted(events) + Counter(events=len(events), answers=sum(len(event.answers) for event in events))
        counts[f"status {got[2]}"] += 1
        if got != wanted:
            differ += 1
            asked.keep.mkdir(parents=True, exist_ok=True)
            kept = asked.keep / f"{number}.schedule"
            kept.write_text(text)
            print(f"{kept}: other {', '.join(what for what, ours, other in zip(ENDS, got, wanted) if ours != other)}", flush=True)
    for name, count in sorted(counts.items()):
        print(f"{name}: {count}")
    print(f"{asked.runs} schedules, {differ} differ")
    return 1 if differ else 0
