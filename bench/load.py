#!/usr/bin/env python3
"""Puts a cluster under load for some seconds, and prints one line of figures; bench/node.sh calls it for each of its lines.

Use: bench/load.py [--seconds S] [--folder F] [--clients-tend N] [--asks KIND] compax PROGRAM one|five CLIENTS BATCH [WORD..]
     bench/load.py [--seconds S] [--folder F] idle PROGRAM [WORD..]
     bench/load.py [--seconds S] [--folder F] etcd CLIENTS
     bench/load.py [--folder F] starts PROGRAM [WORD..]

The words, as `--tend 1024`, are passed to each node. With --clients-tend a process of clients alone has this number in place of theirs.
Clients put; with `--asks reads` or `--asks sessions` each puts once, and then asks for keys, of the one or the other replica, by a reader
or in a session.

The exit status is 1 where a process ends that was to run on, which is said with its line on standard error, or nothing was answered.
"""
import argparse
import base64
import contextlib
import dataclasses
import json
import os
import pathlib
import re
import select
import selectors
import socket
import subprocess
import sys
import tempfile
import time

sys.path.insert(0, str(pathlib.Path(__file__).resolve().parent.parent / "tools"))
from statuses import line_of  # noqa: E402

LINES = 60_000                  # of a node's input, which has at most 65,535
TICKS = os.sysconf("SC_CLK_TCK")
STARTS = 100
LONGEST_END = 5                 # seconds from a node's last answer to its end
UNANSWERED = 8                  # a node's status

# A replica beside the leader has what comes to the leader wait in its sockets while it syncs. Without one the window of 32 slots is
# full more often, and what comes to a full window is dropped: of 64 clients in batches of 1 some then wait for seconds.
SERVERS = {
    "first": "batcher:0 leader:0 proxy:0 acceptor:0 match:0 replica:0 unbatcher:0 reader:0",
    "second": "proxy:1 acceptor:1 match:1 replica:1",
    "third": "acceptor:2 match:2",
    "fourth": "acceptor:3",
}


def free_port():
    """A port from which on a hundred are likely to be free."""
    return 20_000 + os.getpid() % 380 * 100


def header(clients, batch):
    counts = {"f": 1, "leaders": 1, "proxies": 2, "acceptors": 4, "replicas": 2, "batchers": 1, "unbatchers": 1, "readers": 1,
              "clients": clients, "batch": batch, "base_port": free_port()}
    return "".join(f"{key} = {value}\n" for key, value in counts.items()) + "---\n"


def writes(clients):
    for number in range(1, LINES // clients + 1):
        for client in range(clients):
            yield f"write client:{client} {number} batcher:0 put k{number % 8} v{number}\n"


def questions(clients, line):
    """Each client puts once. Then come its questions, each the line of a client and a number."""
    for client in range(clients):
        yield f"write client:{client} 1 batcher:0 put k{client % 8} v{client}\n"
    for number in range(2, LINES // clients + 1):
        for client in range(clients):
            yield line(client, number)


def reads(clients):
    return questions(clients, lambda client, number: f"read client:{client} {number} reader:0 replica:{client % 2} k{number % 8}\n")


def sessions(clients):
    return questions(clients, lambda client, number: f"session client:{client} {number} replica:{client % 2} k{number % 8}\n")


ASKED = {"puts": writes, "reads": reads, "sessions": sessions}


def processor_time(process):
    """The seconds of processor time that a process has taken."""
    fields = pathlib.Path(f"/proc/{process.pid}/stat").read_text().rpartition(")")[2].split()
    return (int(fields[11]) + int(fields[12])) / TICKS


class Process(subprocess.Popen):
    """A process, and what it says on standard error."""

    def __init__(self, words, **streams):
        self.said = tempfile.TemporaryFile()
        super().__init__(words, stderr=self.said, **streams)

    def check(self, may_end=False):
        """Stops the measurement where the process has ended, but well where it may."""
        status = self.poll()
        if status is None or may_end and status == 0:
            return
        self.said.seek(0)
        said = self.said.read().decode(errors="replace")
        sys.exit(f"load.py: {' '.join(map(str, self.args))} ended with status {status}: {line_of(status, said)}")


@contextlib.contextmanager
def processes():
    """Starts processes, and ends at the end those that it has started."""
    running = []

    def start(words, folder, stdin=subprocess.DEVNULL, stdout=subprocess.DEVNULL):
        running.append(Process(words, cwd=folder, stdin=stdin, stdout=stdout))
        return running[-1]

    try:
        yield start, running
    finally:
        for process in running:
            process.kill()
            process.wait()
            process.said.close()


@dataclasses.dataclass
class Figures:
    """What a line says of so many seconds: answers a second, milliseconds from one answer of a client to its next, milliseconds of
    processor time a command, how many clients got no answer, and the longest time in seconds that one was without an answer."""

    what: str
    rate: float
    median: float
    late: float
    cost: float
    unanswered: int
    silence: float
    slots: float | None = None      # a command
    syncs: float | None = None

    def __str__(self):
        kept = "" if self.slots is None else f", slots {self.slots:6.2f} and syncs {self.syncs:7.2f} a command"
        return (f"{self.what}: {self.rate:7.0f} a second, median {self.median:8.2f} ms, 99 of 100 {self.late:8.2f} ms, "
                f"processor {self.cost:6.2f} ms a command, unanswered {self.unanswered}, longest silence {self.silence:5.2f} s{kept}")


class Times:
    """When each client was answered."""

    def __init__(self):
        self.last = {}
        self.gaps = []              # of one client, from an answer to the next
        self.begun = []             # from the first answer of all to the first of each
        self.count = 0
        self.first = None

    def answered(self, client):
        now = time.monotonic()
        self.first = self.first or now
        if client in self.last:
            self.gaps.append(now - self.last[client])
        else:
            self.begun.append(now - self.first)
        self.last[client] = now
        self.count += 1

    def below(self, part):
        """In milliseconds, what this part of the gaps stays below."""
        gaps = sorted(self.gaps)
        return 1000 * gaps[min(len(gaps) - 1, int(len(gaps) * part))] if gaps else float("nan")

    def silence(self, ended, clients):
        """The longest time that one of the clients had no answer, from the first answer of any of them on."""
        if not self.first:
            return float("inf")
        waits = [ended - at for at in self.last.values()] + [ended - self.first] * (clients - len(self.last))
        return max(self.gaps + self.begun + waits)

    def figures(self, what, ended, spent, clients):
        rate = self.count / (ended - self.first) if self.first else 0.0
        cost = 1000 * spent / self.count if self.count else float("nan")
        return Figures(what, rate, self.below(0.5), self.below(0.99), cost, clients - len(self.last), self.silence(ended, clients))


def writes_of(process):
    """How many writes a process has made to files. Each of a node's to a journal is synced; what a node sends is none."""
    return int(re.search(r"^syscw: (\d+)$", pathlib.Path(f"/proc/{process.pid}/io").read_text(), re.MULTILINE)[1])


def node(program, words, roles):
    return [program, "node", "--turns", "1000000000", *words, *roles.split()]


def clients_words(words, tend):
    """The words for a process of clients alone."""
    if tend is None or "--tend" not in words:
        return words
    at = words.index("--tend") + 1
    return [*words[:at], str(tend), *words[at + 1:]]


def compax(folder, seconds, program, layout, clients, batch, words, tend=None, asks="puts"):
    own = " ".join(f"client:{client}" for client in range(clients))
    servers = SERVERS if layout == "five" else {}
    roles = own if servers else " ".join([own, *SERVERS.values()])
    head = header(clients, batch)
    nothing, asked = pathlib.Path(folder, "nothing"), pathlib.Path(folder, "writes")
    nothing.write_text(head)
    asked.write_text(head + "".join(ASKED[asks](clients)))
    times, slots = Times(), 0
    with processes() as (start, running):
        for server in servers.values():
            start(node(program, words, server), folder, nothing.open())
        time.sleep(0.5 if servers else 0)
        for process in running:
            process.check()
        asking = start(node(program, clients_words(words, tend) if servers else words, roles), folder, asked.open(), subprocess.PIPE)
        pipe, held, read, ends = asking.stdout.fileno(), b"", b"-", time.monotonic() + seconds
        while (left := ends - time.monotonic()) > 0:
            if not select.select([pipe], [], [], left)[0]:
                break
            read = os.read(pipe, 1 << 16)
            if not read:
                break
            *lines, held = (held + read).split(b"\n")
            for line in lines:
                _, client, _, _, slot, *_ = line.split()
                times.answered(client)
                slots = max(slots, int(slot))
        ended = time.monotonic()
        spent = sum(processor_time(process) for process in running)
        written = sum(writes_of(process) for process in running)
        if not read:
            asking.wait(LONGEST_END)
        for process in running:
            process.check(may_end=process is asking)
    count = max(times.count, 1)
    what = f"batch {batch}" if asks == "puts" else f"{asks:>8}"
    figures = times.figures(f"compax in {layout:>4}, {clients:2} clients, {what}", ended, spent, clients)
    if asks != "puts":
        return figures
    return dataclasses.replace(figures, slots=slots / count, syncs=(written - times.count) / count)


def idle(folder, seconds, program, words):
    """How much of a processor, in hundredths, each process takes that nobody asks anything."""
    nothing = pathlib.Path(folder, "nothing")
    nothing.write_text(header(1, 1))
    with processes() as (start, running):
        for server in SERVERS.values():
            start(node(program, words, server), folder, nothing.open())
        time.sleep(1)
        before, began = [processor_time(process) for process in running], time.monotonic()
        time.sleep(seconds)
        passed = time.monotonic() - began
        for process in running:
            process.check()
        return [100 * (processor_time(process) - old) / passed for process, old in zip(running, before)]


def idle_line(shares):
    return "idle: " + ", ".join(f"{share:.1f}" for share in shares) + " % of a processor in each of four processes"


def starts(folder, program, words):
    """Starts all roles in one folder, again and again, each time with one write. Gives how many of them were answered, and the
    longest time that one took, in seconds."""
    head, answered, longest = header(1, 1), 0, 0.0
    roles = " ".join(["client:0", *SERVERS.values()])
    for number in range(1, STARTS + 1):
        began = time.monotonic()
        with contextlib.suppress(subprocess.TimeoutExpired):
            ran = subprocess.run(node(program, words, roles), cwd=folder, text=True, capture_output=True, timeout=10,
                                 input=f"{head}write client:0 {number} batcher:0 put k v{number}\n")
            if ran.returncode not in (0, UNANSWERED):
                sys.exit(f"load.py: start {number} ended with status {ran.returncode}: {line_of(ran.returncode, ran.stderr)}")
            answered += ran.returncode == 0 and ran.stdout.startswith(f"answer client:0 {number} at ")
        longest = max(longest, time.monotonic() - began)
    return answered, longest


def starts_line(answered, longest):
    return f"starts: {answered} of {STARTS} starts in one folder were answered, each within {longest:.1f} s"


def put_request(client, number):
    """A put of etcd's, over its gateway for JSON."""
    def text(words):
        return base64.b64encode(words.encode()).decode()

    body = json.dumps({"key": text(f"k{number % 8}"), "value": text(f"v{number}")})
    return f"POST /v3/kv/put HTTP/1.1\r\nHost: localhost\r\nContent-Length: {len(body)}\r\n\r\n{body}".encode()


def is_whole(answer):
    """Whether an answer has come to its end; one that isn't 200 stops the measurement."""
    head, found, body = answer.partition(b"\r\n\r\n")
    if not found:
        return False
    if not head.startswith(b"HTTP/1.1 200"):
        sys.exit(f"load.py: etcd answered {head.decode(errors='replace')}")
    lines = (line.partition(b":") for line in head.split(b"\r\n"))
    return len(body) >= next(int(value) for key, _, value in lines if key.lower() == b"content-length")


def members(start, folder):
    """Starts three members, and returns the port of the first for clients, once it takes a put."""
    port = free_port()
    urls = {name: (f"http://127.0.0.1:{port + 2 * at}", f"http://127.0.0.1:{port + 2 * at + 1}") for at, name in enumerate("abc")}
    cluster = ",".join(f"{name}={peer}" for name, (peer, _) in urls.items())
    for name, (peer, client) in urls.items():
        start(["etcd", "--name", name, "--data-dir", f"{folder}/{name}", "--listen-peer-urls", peer,
               "--initial-advertise-peer-urls", peer, "--listen-client-urls", client, "--advertise-client-urls", client,
               "--initial-cluster", cluster], folder)
    for _ in range(100):
        with contextlib.suppress(OSError), socket.create_connection(("127.0.0.1", port + 1), timeout=3) as connection:
            connection.sendall(put_request(0, 0))
            if connection.recv(1 << 16).startswith(b"HTTP/1.1 200"):
                return port + 1
        time.sleep(0.3)
    sys.exit("load.py: etcd takes no put")


def etcd(folder, seconds, clients):
    times = Times()
    with processes() as (start, running), selectors.DefaultSelector() as waiting:
        port = members(start, folder)
        before = sum(processor_time(process) for process in running)
        held, numbers = {}, {}
        for client in range(clients):
            connection = socket.create_connection(("127.0.0.1", port))
            waiting.register(connection, selectors.EVENT_READ, client)
            connection.sendall(put_request(client, 0))
            held[client], numbers[client] = b"", 0
        ends = time.monotonic() + seconds
        while (left := ends - time.monotonic()) > 0:
            for key, _ in waiting.select(left):
                client = key.data
                held[client] += key.fileobj.recv(1 << 16)
                if is_whole(held[client]):
                    times.answered(client)
                    held[client], numbers[client] = b"", numbers[client] + 1
                    key.fileobj.sendall(put_request(client, numbers[client]))
        ended = time.monotonic()
        spent = sum(processor_time(process) for process in running) - before
        for key in list(waiting.get_map().values()):
            key.fileobj.close()
    return times.figures(f"etcd, three members, {clients:2} clients", ended, spent, clients)


@contextlib.contextmanager
def new_folder(place):
    with tempfile.TemporaryDirectory(prefix="load.", dir=place) as folder:
        yield folder


def parsed():
    parser = argparse.ArgumentParser(description=__doc__, formatter_class=argparse.RawDescriptionHelpFormatter)
    parser.add_argument("--seconds", type=float, default=3)
    parser.add_argument("--folder", default=None)
    parser.add_argument("--clients-tend", type=int, default=None)
    parser.add_argument("--asks", choices=[*ASKED], default="puts")
    kinds = parser.add_subparsers(dest="kind", required=True)
    one = kinds.add_parser("compax")
    one.add_argument("program")
    one.add_argument("layout", choices=["one", "five"])
    one.add_argument("clients", type=int)
    one.add_argument("batch", type=int)
    one.add_argument("words", nargs=argparse.REMAINDER)
    still = kinds.add_parser("idle")
    still.add_argument("program")
    still.add_argument("words", nargs=argparse.REMAINDER)
    again = kinds.add_parser("starts")
    again.add_argument("program")
    again.add_argument("words", nargs=argparse.REMAINDER)
    kinds.add_parser("etcd").add_argument("clients", type=int)
    return parser.parse_args()


def measured(args, folder):
    match args.kind:
        case "compax":
            return compax(folder, args.seconds, args.program, args.layout, args.clients, args.batch, args.words, args.clients_tend, args.asks)
        case "idle":
            return idle_line(idle(folder, args.seconds, args.program, args.words))
        case "starts":
            return starts_line(*starts(folder, args.program, args.words))
        case "etcd":
            return etcd(folder, args.seconds, args.clients)


def main():
    args = parsed()
    if "program" in args:
        args.program = os.path.abspath(args.program)
    with new_folder(args.folder) as folder:
        figures = measured(args, folder)
    print(figures, flush=True)
    return 1 if isinstance(figures, Figures) and not figures.rate else 0


if __name__ == "__main__":
    sys.exit(main())
