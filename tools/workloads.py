#!/usr/bin/env python3
"""Writes an input that is too large to be stored:  tools/workloads.py NAME SIZE

Schedules of SIZE lines after the header:

    puts        one put after another is carried to its answer, in a cluster of one of each role
    crowd       the same by 64 clients in turn, each put to a key of its own
    reads       one put, then nine reads, and so on
    changes     puts, with four acceptors; after each fourth the leader changes its grid and retires the round before
    ticks       a proxy leader ticks that waits for nothing
    keys        puts of long values, each to a key of its own, in an order that is not theirs
    batches     by 64 clients at once in batches of eight: a key in less than three lines, with keys, texts and floors as long and as low as
                may be; in the last two lines the replica forgets what it may and dies of it, and is opened again
    folds       puts of 64 clients in turn; after each twentieth the replica crashes and is opened again
    wide        f = 3, a grid of 4x4 among 64 acceptors, batches of eight: 64 puts at once are carried to their answers, and so on
    lagging     f = 1: of twenty puts one replica hears nothing, then it asks the other for each value, and so on
    snapshots   of two replicas the first executes sixty commands of 64 clients, the second asks it for fifty values; then both forget
                what they may, and are opened again, and so on; sometimes a renewal is cut off
    repeats     one put is carried to its answer; then its datagrams and those of its round arrive again, over and over
    stale       half of the lines are puts of one client, the others ask something else with the same numbers
    resend      half of the lines are puts of one client, the others send the same puts again
    restarts    half of the lines are puts that are carried to their answers; in the others the replica crashes and is opened again
    revotes     the same with the acceptor
    rounds      in a tenth of the lines a round is begun, of which only the last is carried on; then puts
    leads       a round is begun in each line, but for the last two, in which its leader crashes and is opened again
    resends     a proxy leader asks for a whole window of values, again and again: 16 acceptors for each
    promises    an acceptor that has votes for a whole window tells them over and over, each for a value of the greatest size

Schedules of another form:

    log         a log of SIZE values, an even number; then the roles with records crash and are opened again, ten times; the replica forgets the
                first value alone and dies of it, and is opened again; and a put is answered
    header      a header of SIZE bytes, and nothing else
    line        one event, in a line of SIZE bytes
    requests    SIZE puts of one client, for a node
    padded      the same, each in a line of 1,024 bytes

Journals of a cluster of one of each role in which the first SIZE slots are chosen, with one command each:

    leader, matchmaker, acceptor, replica
    informed    of an acceptor that has no votes, and was told that they are chosen
    long-votes  of an acceptor whose votes are for eight commands of the greatest size each
    long-window the same, where it was told of no slot that is chosen, so that it holds all its votes
    longest     of a replica whose log has them in records of 32 values, with eight commands of the greatest size each
    told-window, told-longest
                the last two, where each command tells a floor as far below its number as may be
"""
import itertools
import struct
import sys

KEYS = ("f", "leaders", "proxies", "acceptors", "replicas", "batchers", "unbatchers", "readers", "clients", "batch")


def header(**counts):
    """A cluster with one of each role, but for these counts."""
    return [*(f"{key} = {counts.get(key, int(key != 'f'))}" for key in KEYS), "---"]


def delivered(*numbers):
    return [f"deliver {number}" for number in numbers]


def led(grid="1x1 0", f=0, batchers=1):
    """The leader begins the first round: MatchA and MatchB for each of the 2f + 1 matchmakers, and Leads for each batcher."""
    return [f"lead leader:0 {grid}", *delivered(*range(2 * (2 * f + 1) + batchers))]


def carried(n, command):
    """A command is carried to its answer, and the leader is told that its replica has it: datagrams n to n + 9.

    They are Submit, Batch, Propose, Phase2A, Phase2B, Chosen, ChosenIn, Results, Answer and Held."""
    return [command, *delivered(*range(n, n + 6), n + 7), "tick replica:0", *delivered(n + 9)]


def put(at, clients=1, key=None):
    """The put with this place in a workload."""
    return f"write client:{at % clients} {at // clients + 1} batcher:0 put {key or f'k{at % 8}'} v{at % 10}"


def puts():
    yield from led()
    for at in itertools.count():
        yield from carried(3 + 10 * at, put(at))


def crowd():
    yield from led()
    for at in itertools.count():
        yield from carried(3 + 10 * at, put(at, clients=64, key=f"key-{at}"))


def asked(n, read):
    """A read is carried to its answer: datagrams n to n + 6, from ReadReq to ReadAnswer."""
    return [read, *delivered(*range(n, n + 6))]


def reads():
    yield from led()
    n = 3
    for number in itertools.count(1):
        if number % 10 == 1:
            yield from carried(n, f"write client:0 {number} batcher:0 put k{number % 8} v{number}")
            n += 10
        else:
            yield from asked(n, f"read client:0 {number} reader:0 replica:0 k{number % 8}")
            n += 7


def carried_by_column(n, command):
    """`carried` where a column has two acceptors: datagrams n to n + 11, of which two are Phase2A and two Phase2B."""
    return [command, *delivered(*range(n, n + 8), n + 9), "tick replica:0", *delivered(n + 11)]


def changed(n, grid):
    """The leader begins its next round with a grid of the same four acceptors: datagrams n to n + 2.

    They are MatchA, MatchB and Leads: all that it proposed is held, so it proposes nothing again."""
    return [f"change leader:0 {grid}", *delivered(n, n + 1, n + 2)]


def retired(n):
    """It retires all earlier rounds: datagrams n to n + 7.

    They are four Inform, the Informed of acceptors 0 and 2, which are a column, GarbageA and GarbageB."""
    return ["collect leader:0", *delivered(n, n + 2, n + 4, n + 5, n + 6, n + 7)]


def changes():
    grids = itertools.cycle(("2x2 0,1,2,3", "2x2 3,2,1,0"))
    yield from led(next(grids))
    n = 3
    for at in itertools.count():
        yield from carried_by_column(n, put(at))
        n += 12
        if at % 4 == 3:
            yield from [*changed(n, next(grids)), *retired(n + 3)]
            n += 11


def ticks():
    return itertools.repeat("tick proxy:0")


def keys():
    """Numbers modulo a prime: no key comes twice before the 100,003rd put."""
    yield from led()
    for at in itertools.count():
        yield from carried(3 + 10 * at, f"write client:0 {at + 1} batcher:0 put key-{at * 7919 % 100003} {'v' * 60}")


def batches():
    """Each turn has 121 datagrams: 64 Submit, 8 Batch, 8 Propose, 8 Phase2A, 8 Phase2B, 8 times Chosen and ChosenIn, 8 Results, Held."""
    yield from led()
    for turn in itertools.count():
        n = 3 + 121 * turn
        for at in range(64):
            key = f"key-{(64 * turn + at) * 7919 % 100003}".ljust(32, "-")
            yield f"write client:{at} {turn + 1}/{max(0, turn - 63)} batcher:0 put {key} {f'v{at}'.ljust(64, 'v')}"
        yield from delivered(*range(n, n + 96), *range(n + 96, n + 112, 2))
        yield from ["tick replica:0", *delivered(n + 120)]


def restarted(role):
    return [f"crash {role}", f"restart {role}"]


def snapped(size):
    yield from itertools.islice(batches(), size - 2)
    yield from ["snap replica:0 kept", "restart replica:0"]


def folds():
    yield from led()
    for at in itertools.count():
        yield from carried(3 + 10 * at, put(at, clients=64, key=f"k{at % 64}"))
        if at % 20 == 19:
            yield from restarted("replica:0")


def wide():
    """Each turn has 360 datagrams: 64 Submit, 8 Batch, 8 Propose, 32 Phase2A, 32 Phase2B, 64 Chosen and 8 ChosenIn, 8 Results,
    64 Answer, which arrive nowhere; then from each replica a Held for each leader, and a Fetch."""
    yield from led("4x4 " + ",".join(map(str, range(0, 64, 4))), f=3, batchers=8)
    for turn in itertools.count():
        n = 22 + 360 * turn
        for at in range(64):
            client = (at * 37 + turn) % 64
            yield f"write client:{client} {turn + 1} batcher:{at // 8} put key{(at * 31 + turn) % 100} {'v' * (at + 1)}"
        yield from delivered(*range(n, n + 224))
        yield from (f"tick replica:{index}" for index in range(8))
        yield from delivered(*range(n + 288, n + 360))


def lagging():
    """A slot's Results come from replica 0 where the slot is even, else from replica 1.

    A put sends Submit, Batch, Propose, Phase2A, Phase2B, two Chosen and ChosenIn; Results and Answer at once if its slot is even;
    then Held and Fetch of replica 0. Later there are Held and Fetch of replica 1 and a Chosen, and the other Results and Answer."""
    yield from led(f=1)
    n = 7
    for behind in itertools.count(0, 20):
        slots = range(behind, behind + 20)
        for slot in slots:
            yield from [put(slot), *delivered(*range(n, n + 6), n + 7)]
            n += 8
            if slot % 2 == 0:
                yield from delivered(n)
                n += 2
            yield from ["tick replica:0", *delivered(n, n + 1)]
            n += 2
        for slot in slots:
            yield from ["tick replica:1", *delivered(n, n + 1, n + 2)]
            n += 3
            if slot % 2 == 1:
                yield from delivered(n)
                n += 2


def changing(at):
    """The command with this place: a put to one of 300 keys, later an append. Clients of an even number tell floor 0."""
    client, number = at % 64, at // 64 + 1
    seq = f"{number}/0" if client % 2 == 0 and number <= 64 else number
    return f"write client:{client} {seq} batcher:0 {'put' if at < 300 else 'app'} key-{at * 7 % 300} v{at % 10}"


def snapshots():
    """Datagrams as in `lagging`, but the second replica stays behind. Each turn begins with the command before it, which is answered again.

    Replica 0 asks for what nobody has, in the turn's last datagram. Replica 1 asks for what it lacks; the first of these Fetch comes once
    more after the renewal, and is past, unless the renewal was lost."""
    yield from led()
    n, held = 3, 0
    for turn in itertools.count():
        for slot in range(60 * turn, 60 * turn + 60):
            yield from [changing(max(0, slot - turn - 1)), *delivered(*range(n, n + 6), n + 7)]
            n += 8
            if slot % 2 == 0:
                yield from delivered(n)
                n += 2
            yield from ["tick replica:0", *delivered(n)]
            n += 2
        fetches = (n + 1, n - 1)
        for slot in range(held, held + 50):
            yield from ["tick replica:1", *delivered(n + 1, n + 2)]
            n += 3
            if slot % 2 == 1:
                yield from delivered(n)
                n += 2
        held += 50
        cut = ("", " kept", "", " torn")[turn % 4]
        yield from [f"snap replica:0{cut}", *restarted("replica:0"), *delivered(*fetches), "snap replica:1", *restarted("replica:1")]
        n += cut == " torn"


def repeats():
    """The round and the put have the datagrams 0 to 12; of these 11 is Answer, which arrives nowhere, and 12 is Held."""
    yield from [*led(), *carried(3, put(0))]
    yield from itertools.cycle(delivered(*range(11), 12))


def asked_twice(size, text):
    """The text is what the puts of the second half set."""
    half = size // 2
    yield from (put(at, key="a") for at in range(half))
    yield from (f"write client:0 {at % half + 1} batcher:0 put a {text or f'v{at % half % 10}'}" for at in itertools.count())


def crashing(size, role):
    """As many puts as fit in half of the lines."""
    yield from led()
    for at in range((size // 2 - 4) // 10):
        yield from carried(3 + 10 * at, put(at))
    yield from itertools.cycle(restarted(role))


def rounds(size):
    """A lead sends MatchA alone. Of the last one's, MatchB and Leads follow."""
    grid = "1x16 " + ",".join(map(str, range(16)))
    begun = max(size // 10, 1)
    yield from [f"lead leader:0 {grid}"] * begun
    yield from delivered(*range(begun - 1, begun + 2))
    for at in itertools.count():
        yield from carried(begun + 2 + 10 * at, put(at))


def leads(size):
    yield from itertools.repeat("lead leader:0 1x1 0", size - 2)
    yield from restarted("leader:0")


def resends():
    """The one Batch, datagram 4, is delivered for each slot; the Propose after it go to a column each, which has one acceptor."""
    yield from led("1x16 " + ",".join(map(str, range(16))))
    yield from [put(0), *delivered(3, *[4] * 32, *range(5, 37))]
    yield from itertools.repeat("tick proxy:0")


def promises():
    """The one Batch, datagram 11, is delivered for each slot, then its Propose and Phase2A. The second leader's Phase1A is datagram 110."""
    yield from led()
    last = 2**64 - 1
    yield from (f"write client:{at} {last}/{last - 64} batcher:0 put {f'key-{at}'.ljust(32, '-')} {'v' * 64}" for at in range(8))
    yield from delivered(*range(3, 11))
    for n in range(12, 12 + 3 * 32, 3):
        yield from delivered(11, n, n + 1)
    yield from ["lead leader:1 1x1 0", *delivered(108, 109)]
    yield from itertools.repeat("deliver 110")


def log(size):
    """The one Batch, datagram 4, is delivered for each slot. Then come Propose, Phase2A, Phase2B, Chosen for each replica, ChosenIn, and
    Results where the slot is even; at each sixteenth slot Held and Fetch. The second replica holds the first value, and asks for the next."""
    yield from [*led(), put(0), *delivered(3)]
    n = 5
    for slot in range(size):
        yield from delivered(4, n, n + 1, n + 2, n + 3)
        n += 7 if slot % 2 == 0 else 6
        if slot % 16 == 15 or slot == size - 1:
            yield from ["tick replica:0", *delivered(n)]
            n += 2
    for _ in range(10):
        for role in ("acceptor:0", "match:0", "replica:0"):
            yield from restarted(role)
    yield from [*delivered(9), "tick replica:1", *delivered(n + 1), "snap replica:0 kept", "restart replica:0"]
    n += 3
    yield from [put(1), *delivered(*range(n, n + 6), n + 8)]


def long_header(size):
    """Its last line but one is a comment."""
    lines = header()
    comment = size - sum(len(line) + 1 for line in lines[:-1]) - 1
    return [*lines[:-1], "#" * comment, lines[-1]]


def long_line(size):
    return [*header(), "deliver ".ljust(size, "0")]


def with_port(lines):
    return [*header()[:-1], "base_port = 23890", "---", *lines]


def padded(at):
    """The number has as many zeros before it as the line has room for."""
    before, after = "write client:0 ", " batcher:0 put a 1"
    return before + f"{at + 1}".rjust(1024 - len(before + after), "0") + after


def cut(size, lines, **counts):
    """So many lines of a schedule, after the header."""
    return [*header(**counts), *itertools.islice(lines, size)]


WIDE = {"f": 3, "leaders": 8, "proxies": 16, "acceptors": 64, "replicas": 8, "batchers": 8, "unbatchers": 8, "readers": 8,
        "clients": 64, "batch": 8}
SCHEDULES = {
    "puts": lambda size: cut(size, puts()),
    "crowd": lambda size: cut(size, crowd(), clients=64),
    "reads": lambda size: cut(size, reads()),
    "changes": lambda size: cut(size, changes(), acceptors=4),
    "ticks": lambda size: cut(size, ticks()),
    "keys": lambda size: cut(size, keys()),
    "batches": lambda size: cut(size, snapped(size), clients=64, batch=8),
    "folds": lambda size: cut(size, folds(), clients=64),
    "wide": lambda size: cut(size, wide(), **WIDE),
    "lagging": lambda size: cut(size, lagging(), f=1, replicas=2),
    "snapshots": lambda size: cut(size, snapshots(), replicas=2, clients=64),
    "repeats": lambda size: cut(size, repeats()),
    "stale": lambda size: cut(size, asked_twice(size, "other")),
    "resend": lambda size: cut(size, asked_twice(size, None)),
    "restarts": lambda size: cut(size, crashing(size, "replica:0")),
    "revotes": lambda size: cut(size, crashing(size, "acceptor:0")),
    "rounds": lambda size: cut(size, rounds(size), acceptors=16),
    "leads": lambda size: cut(size, leads(size)),
    "resends": lambda size: cut(size, resends(), acceptors=16),
    "promises": lambda size: cut(size, promises(), leaders=2, clients=8, batch=8),
    "log": lambda size: [*header(replicas=2), *log(size)],
    "header": long_header,
    "line": long_line,
    "requests": lambda size: with_port(map(put, range(size))),
    "padded": lambda size: with_port(map(padded, range(size))),
}

ROUND = struct.pack(">IHI", 1, 0, 0)
GRID = struct.pack(">BBH", 1, 1, 0)


def spelled(text):
    return bytes([len(text)]) + text.encode()


def command(number, key, text):
    """Client 0 puts."""
    return struct.pack(">HQB", 0, number, 1) + spelled(key) + spelled(text)


def told_command(number, key, text):
    """The same with a floor as far below the number as may be; that of number 1 isn't told."""
    floor = max(0, number - 64)
    return struct.pack(">HQBQ", 0, number, 4, floor) + spelled(key) + spelled(text) if floor + 1 < number else command(number, key, text)


def value(*commands):
    return bytes([1, len(commands)]) + b"".join(commands)


def value_at(slot):
    return value(command(slot + 1, f"k{slot % 8}", f"v{slot % 10}"))


def long_value_at(slot, spell=command):
    """Eight commands, each with a key of 32 bytes and a text of 64."""
    return value(*(spell(8 * slot + at + 1, f"key-{at}".ljust(32, "-"), f"{slot}".rjust(64, "0")) for at in range(8)))


def told_value_at(slot):
    return long_value_at(slot, told_command)


def journal(records):
    """Each record after an open gate and its length, then a closed gate."""
    return b"".join(b"\1" + struct.pack(">I", len(record)) + record for record in records) + b"\0"


def votes(size, voted=value_at, told=16):
    """The votes of the first round. With each goes what the acceptor is told: how many slots are chosen and held, a multiple of `told`."""
    for slot in range(size):
        yield b"\2" + ROUND + struct.pack(">QQ", slot, slot - slot % told) + voted(slot)


def long_records(size, stored=long_value_at):
    for first in range(0, size, 32):
        slots = range(first, min(first + 32, size))
        yield bytes([7, len(slots)]) + b"".join(map(stored, slots))


JOURNALS = {
    "leader": lambda size: [b"\6" + ROUND + GRID],
    "matchmaker": lambda size: [b"\4" + ROUND + GRID],
    "acceptor": votes,
    "replica": lambda size: (b"\7\1" + value_at(slot) for slot in range(size)),
    "informed": lambda size: [b"\3" + ROUND + struct.pack(">Q", size)],
    "long-votes": lambda size: votes(size, long_value_at),
    "long-window": lambda size: votes(size, long_value_at, told=size),
    "longest": long_records,
    "told-window": lambda size: votes(size, told_value_at, told=size),
    "told-longest": lambda size: long_records(size, told_value_at),
}


def written(name, size):
    if name in JOURNALS:
        return journal(JOURNALS[name](size))
    return "".join(f"{line}\n" for line in SCHEDULES[name](size)).encode()


def main(words):
    if len(words) != 2 or words[0] not in {*SCHEDULES, *JOURNALS} or not words[1].isdecimal():
        sys.exit(__doc__)
    sys.stdout.buffer.write(written(words[0], int(words[1])))


if __name__ == "__main__":
    main(sys.argv[1:])
