#!/usr/bin/env python3
"""Prints the table of bytes that the tests of cx_test_wire read: `tools/vectors.py REFERENCE > crates/cx_test_wire/src/vectors.rt`.

REFERENCE is the folder of a second, independent implementation of the wire format, in Python: a module `wire` with `msg`,
`record`, `encode`, `decode`, `record_bytes` and `record_from`, and a module `base` with the types of their fields. All bytes
and all places of faults in the table are its answers. The same reference gives the same table.
"""

import random
import re
import sys

sys.path.insert(0, sys.argv[1])

import base  # noqa: E402
import wire  # noqa: E402
from base import NOOP, SLOTS, U16, U32, U64, ZERO, Answered, Datagram, Entry, Grid, RoleId, Round, Told, Token  # noqa: E402

pick = random.Random(2021)
LETTERS = "ABCDEFGHIJKLMNOPQRSTUVWXYZabcdefghijklmnopqrstuvwxyz0123456789_-."
WIDTH = 112
PER_KIND, PER_TAG = 8, 6


def word(size):
    return "".join(pick.choice(LETTERS) for _ in range(size))


def key():
    return word(pick.choice([1, 2, 5, 32]))


def text():
    return word(pick.choice([1, 3, 9, 64]))


def some_round():
    return pick.choice([Round(1, 0, 0), Round(7, 1, 3), Round(U32, U16, U32), Round(pick.randint(1, 9), pick.randint(0, 3), pick.randint(0, 9)),
                        Round(256, 258, 65537)])


def watermark():
    return pick.choice([ZERO, some_round()])


def index():
    return pick.choice([0, 1, 2, 300, U16])


def grid(shape=None):
    rows, cols = shape or pick.choice([(1, 1), (1, 2), (2, 2), (2, 3), (3, 5), (4, 4), (1, 16), (16, 1), (8, 2)])
    return Grid(rows, cols, tuple(pick.sample([*range(20), 255, 256, 4096, U16], rows * cols)))


def slot():
    return pick.choice([0, 1, 31, 32, 255, 65536, SLOTS - 1, pick.randrange(SLOTS)])


def mark():
    return pick.choice([0, 1, 33, SLOTS, pick.randrange(SLOTS)])


def at():
    return pick.choice([1, 2, 257, SLOTS])


def seq():
    return pick.choice([1, 2, 256, U64])


def slot_and_mark():
    s = slot()
    return s, pick.choice([s, max(0, s - 31), max(0, s - 5)])


def command(op=None, longest=False):
    op = op or pick.choice(["put", "del", "app"])
    k, t = (word(32), word(64)) if longest else (key(), text())
    return base.command(index(), seq(), (op, k) if op == "del" else (op, k, t))


def commands(count):
    return tuple(command() for _ in range(count))


def told(op, number, below):
    """A command that tells its floor, which is so much below its number."""
    return base.Command(index(), number, number - below, (op, key()) if op == "del" else (op, key(), text()))


def value():
    return pick.choice([NOOP, NOOP, commands(1), commands(2)])


REPLIES = [("ok",), ("was", "x"), ("was", word(64)), ("none",), ("len", 1), ("len", 64), ("full",)]


def reply():
    return pick.choice(REPLIES)


def entries(count):
    rounds = sorted({Round(pick.randint(1, 5), pick.randint(0, 3), pick.randint(0, 9)) for _ in range(count * 4)})[:count]
    assert len(rounds) == count
    return tuple(Entry(r, grid((1, 16) if i == 0 else None)) for i, r in enumerate(rounds))


def votes(cw, count, worth=value):
    slots = sorted(pick.sample(range(cw, min(cw + 32, SLOTS)), count))
    return tuple(Told(some_round(), s, worth()) for s in slots)


def answers(replies):
    return tuple(Answered(index(), seq(), at(), r) for r in replies)


def token():
    """A client and its number; an asking, a reader and its turn, is spelled the same."""
    return Token(index(), seq())


def found():
    return pick.choice([None, "y", word(64)])


def noop():
    return NOOP


M, R = wire.msg, wire.record
FULL = tuple(command(op, longest=True) for op in ("put", "app", "put", "put", "app", "app", "put", "put"))


def propose():
    s, cw = slot_and_mark()
    return M.Propose(some_round(), grid(), s, cw, value())


def phase2a():
    s, cw = slot_and_mark()
    return M.Phase2A(some_round(), s, cw, value())


def phase1b():
    cw = pick.choice([0, 1, 1000, SLOTS - 32])
    return M.Phase1B(some_round(), cw, votes(cw, pick.choice([1, 2, 3])))


# for each kind the messages that must be there, and how to make more
MESSAGES = {
    1: ([M.Submit(command(op)) for op in ("put", "del", "app")] + [M.Submit(command("put", longest=True))], lambda: M.Submit(command())),
    2: ([M.Batch(FULL), M.Batch(commands(1))], lambda: M.Batch(commands(pick.choice([1, 2, 3])))),
    3: ([M.Leads(Round(1, 0, 0)), M.Leads(Round(U32, U16, U32))], lambda: M.Leads(some_round())),
    4: ([M.MatchA(some_round(), grid(s)) for s in ((1, 1), (4, 4), (16, 1))], lambda: M.MatchA(some_round(), grid())),
    5: ([M.MatchB(some_round(), ZERO, ()), M.MatchB(some_round(), ZERO, entries(17)), M.MatchB(some_round(), some_round(), entries(1))],
        lambda: M.MatchB(some_round(), watermark(), entries(pick.choice([0, 1, 2])))),
    6: ([M.MatchNack(some_round(), n, some_round()) for n in (0, 1, 2)], lambda: M.MatchNack(some_round(), pick.choice([0, 1, 2]), some_round())),
    7: ([M.Phase1A(Round(1, 0, 0)), M.Phase1A(Round(U32, U16, U32))], lambda: M.Phase1A(some_round())),
    8: ([M.Phase1B(some_round(), SLOTS, ()), M.Phase1B(some_round(), 0, votes(0, 32, noop)),
         M.Phase1B(some_round(), SLOTS - 32, votes(SLOTS - 32, 32, noop)), M.Phase1B(some_round(), 7, votes(7, 1, lambda: FULL))], phase1b),
    9: ([M.Nack(Round(1, 0, 0), Round(U32, U16, U32))], lambda: M.Nack(some_round(), some_round())),
    10: ([M.Propose(Round(1, 0, 0), grid((1, 1)), 0, 0, NOOP), M.Propose(some_round(), grid((2, 8)), SLOTS - 1, SLOTS - 32, FULL)], propose),
    11: ([M.Phase2A(Round(1, 0, 0), 31, 0, NOOP), M.Phase2A(some_round(), SLOTS - 1, SLOTS - 1, FULL)], phase2a),
    12: ([M.Phase2B(Round(1, 0, 0), 0), M.Phase2B(Round(U32, U16, U32), SLOTS - 1)], lambda: M.Phase2B(some_round(), slot())),
    13: ([M.Chosen(0, NOOP), M.Chosen(SLOTS - 1, FULL)], lambda: M.Chosen(slot(), value())),
    14: ([M.ChosenIn(Round(1, 0, 0), 0), M.ChosenIn(Round(U32, U16, U32), SLOTS - 1)], lambda: M.ChosenIn(some_round(), slot())),
    15: ([M.Results(0, answers([r])) for r in REPLIES] + [M.Results(SLOTS - 1, answers(REPLIES + [("full",)]))],
         lambda: M.Results(slot(), answers([reply() for _ in range(pick.choice([1, 2]))]))),
    16: ([M.Answer(1, 1, r) for r in REPLIES] + [M.Answer(U64, SLOTS, ("ok",))], lambda: M.Answer(seq(), at(), reply())),
    17: ([M.Held(0), M.Held(SLOTS)], lambda: M.Held(mark())),
    18: ([M.Fetch(0), M.Fetch(SLOTS)], lambda: M.Fetch(mark())),
    19: ([M.Inform(Round(1, 0, 0), 0), M.Inform(Round(U32, U16, U32), SLOTS)], lambda: M.Inform(some_round(), mark())),
    20: ([M.Informed(Round(1, 0, 0), 0), M.Informed(Round(U32, U16, U32), SLOTS)], lambda: M.Informed(some_round(), mark())),
    21: ([M.GarbageA(some_round(), grid(s)) for s in ((1, 16), (2, 3))], lambda: M.GarbageA(some_round(), grid())),
    22: ([M.GarbageB(Round(1, 0, 0)), M.GarbageB(Round(U32, U16, U32))], lambda: M.GarbageB(some_round())),
    23: ([M.ReadReq(1, 0, "a"), M.ReadReq(U64, U16, word(32))], lambda: M.ReadReq(seq(), index(), key())),
    24: ([M.MatchRead(Token(0, 1)), M.MatchRead(Token(U16, U64))], lambda: M.MatchRead(token())),
    25: ([M.MatchReadAck(token(), ZERO, ()), M.MatchReadAck(token(), some_round(), entries(17))],
         lambda: M.MatchReadAck(token(), watermark(), entries(pick.choice([0, 1, 2])))),
    26: ([M.PreRead(token(), ZERO)], lambda: M.PreRead(token(), watermark())),
    27: ([M.PreReadAck(token(), ZERO, 0), M.PreReadAck(token(), some_round(), SLOTS)], lambda: M.PreReadAck(token(), watermark(), mark())),
    28: ([M.Read(token(), 0, "."), M.Read(token(), SLOTS, word(32))], lambda: M.Read(token(), mark(), key())),
    29: ([M.ReadAnswer(1, 0, None), M.ReadAnswer(U64, SLOTS, word(64)), M.ReadAnswer(2, 1, "-")], lambda: M.ReadAnswer(seq(), mark(), found())),
}

RECORDS = {
    1: ([R.Promise(Round(1, 0, 0)), R.Promise(Round(U32, U16, U32))], lambda: R.Promise(some_round())),
    2: ([R.Vote(Round(1, 0, 0), 0, 0, NOOP), R.Vote(some_round(), SLOTS - 1, SLOTS, FULL)], lambda: R.Vote(some_round(), slot(), mark(), value())),
    3: ([R.Water(Round(1, 0, 0), 0), R.Water(Round(U32, U16, U32), SLOTS)], lambda: R.Water(some_round(), mark())),
    4: ([R.Match(some_round(), grid(s)) for s in ((1, 1), (4, 4))], lambda: R.Match(some_round(), grid())),
    5: ([R.Garbage(some_round(), grid(s)) for s in ((1, 16), (16, 1))], lambda: R.Garbage(some_round(), grid())),
    6: ([R.Round(some_round(), grid(s)) for s in ((2, 2), (3, 5))], lambda: R.Round(some_round(), grid())),
    7: ([R.Log((NOOP,)), R.Log((NOOP,) * 32), R.Log((FULL, NOOP))], lambda: R.Log(tuple(value() for _ in range(pick.choice([1, 2, 3]))))),
}


def fault_of(read, data):
    try:
        read(data)
    except wire.WireFault as bad:
        return str(bad)
    raise AssertionError("the reference takes these bytes")


def beginnings(read, data, first, cut):
    """Where the basic fields after the first bytes begin, as the reference says where a cut is met."""
    places = []
    for k in range(first, len(data)):
        place = int(re.fullmatch(r"Field\{kind: \d+, at: (\d+)\}", fault_of(read, cut(data, k))).group(1))
        assert place <= k
        if not places or place > places[-1]:
            assert place == k, "a field is bad at its first byte"
            places.append(place)
        assert place == places[-1]
    return places


def hexadecimal(data, places):
    """The bytes, with a mark where a field begins."""
    parts = [data[a:b].hex() for a, b in zip([0, *places], [*places, len(data)])]
    return "_".join(parts)


def shorter(data, k):
    """A datagram cut to k bytes, with the length that it then has."""
    return data[:10] + (k - 12).to_bytes(2, "big") + data[12:k]


def datagram_entry(message, sender, getter=None):
    d = Datagram(RoleId(sender, index()), RoleId(getter or message.tos[0], index()), message)
    data = wire.encode(d)
    assert wire.decode(data) == d
    for k in range(len(data)):
        said = f"Short{{need: 12, have: {k}}}" if k < 12 else f"Length{{said: {len(data) - 12}, have: {k - 12}}}"
        assert fault_of(wire.decode, data[:k]) == said
    assert fault_of(wire.decode, data + b"\0") == f"Trailing{{at: {len(data)}}}"
    assert fault_of(wire.decode, bytes([data[0] ^ 1]) + data[1:]) == "Magic"
    return hexadecimal(data, beginnings(wire.decode, data, 12, shorter))


def datagrams():
    for kind, (must, more) in sorted(MESSAGES.items()):
        messages = list(must)
        while len(messages) < PER_KIND:
            messages.append(more())
        for i, message in enumerate(messages):
            assert message.kind == kind
            yield datagram_entry(message, message.froms[i % len(message.froms)])


def record_entry(rec):
    data = wire.record_bytes(rec)
    assert wire.record_from(data) == rec
    assert fault_of(wire.record_from, b"") == "Short{need: 1, have: 0}"
    assert fault_of(wire.record_from, data + b"\0") == f"Trailing{{at: {len(data)}}}"
    assert fault_of(wire.record_from, bytes([data[0] ^ 128]) + data[1:]) == f"Kind({data[0] ^ 128})"
    return hexadecimal(data, beginnings(wire.record_from, data, 1, lambda data, k: data[:k]))


def records():
    for tag, (must, more) in sorted(RECORDS.items()):
        kept = list(must)
        while len(kept) < PER_TAG:
            kept.append(more())
        for rec in kept:
            assert rec.tag == tag
            yield record_entry(rec)


def floors():
    """Datagrams of the second version, and records, whose commands tell floors: one of each kind that has commands, and more."""
    least, far, most = told("put", 2, 2), told("del", 70, 64), told("app", U64, 2)
    early = (Told(some_round(), 3, (far,)), Told(some_round(), 34, NOOP))
    late = (Told(some_round(), 4, commands(1)), Told(some_round(), 5, (command(), least)))
    for message in [
        M.Submit(least), M.Submit(far), M.Submit(most), M.Batch((least, command())), M.Batch((command(), most, far)),
        M.Phase1B(some_round(), 3, early), M.Phase1B(some_round(), 3, late), M.Propose(some_round(), grid(), 9, 3, (most,)),
        M.Phase2A(some_round(), 9, 9, (command(), far)), M.Chosen(SLOTS - 1, (least, most)),
    ]:
        yield datagram_entry(message, message.froms[0])
    for rec in [R.Vote(some_round(), 5, 1, (most, command())), R.Log(((least,), NOOP, (command(), far)))]:
        yield record_entry(rec)


def renewed():
    """The records of a list that begins anew, six of each."""
    pairs = lambda n: tuple((key(), text()) for _ in range(n))
    notes = lambda n: tuple((seq(), at(), reply()) for _ in range(n))
    bases = [R.Base(0, 0, 0, 0), R.Base(SLOTS, SLOTS, U32, 255)] + [R.Base(mark(), mark(), pick.randint(0, 300), pick.randint(0, 64)) for _ in range(4)]
    maps = [R.Pairs(((word(32), word(64)),)), R.Pairs(pairs(40))] + [R.Pairs(pairs(pick.choice([1, 2, 3]))) for _ in range(4)]
    tables = [R.Notes(0, 0, notes(1)), R.Notes(U16, U64, notes(64))] + [R.Notes(index(), pick.choice([0, 7, U64]), notes(pick.choice([1, 2]))) for _ in range(4)]
    tails = [R.Tail((NOOP,)), R.Tail((NOOP,) * 32), R.Tail((FULL, NOOP))] + [R.Tail(tuple(value() for _ in range(pick.choice([1, 2])))) for _ in range(3)]
    for rec in [*bases, *maps, *tables, *tails]:
        yield record_entry(rec)


def sessions():
    """The datagrams of session reads, eight."""
    messages = [M.SessRead(2, 0, "a"), M.SessRead(3, 1, "a"), M.SessRead(1, SLOTS, "-"), M.SessRead(U64, SLOTS, word(32))]
    while len(messages) < PER_KIND:
        messages.append(M.SessRead(seq(), mark(), key()))
    for message in messages:
        assert message.kind == 38
        yield datagram_entry(message, message.froms[0])


def turns():
    """The records of turns, six."""
    kept = [R.Turn(1), R.Turn(2), R.Turn(255), R.Turn(U32), R.Turn(U64 - 1), R.Turn(U64)]
    for rec in kept:
        assert rec.tag == 16
        yield record_entry(rec)


def some_set(size=None):
    """Ids of matchmakers, rising."""
    return tuple(sorted(pick.sample([*range(12), 63, 255, 256, U16], size or pick.choice([1, 3, 5, 7]))))


def replacing():
    """The datagrams by which matchmakers are replaced, of the kinds 30 to 37, four of each, and the records of the tags 12 to 15, four of each."""
    widest = tuple(U16 - n for n in range(6, -1, -1))
    messages = [
        *[M.StopA(r) for r in (Round(1, 0, 0), Round(U32, U16, U32), some_round(), some_round())],
        M.StopB(Round(1, 0, 0), ZERO, (), ZERO, ()), M.StopB(some_round(), some_round(), entries(1), Round(U32, U16, U32), widest),
        M.StopB(some_round(), ZERO, entries(17), ZERO, ()), M.StopB(some_round(), some_round(), entries(2), Round(1, 0, 0), (0,)),
        *[M.StopNack(r, some_round()) for r in (Round(1, 0, 0), Round(U32, U16, U32), some_round(), some_round())],
        *[M.NextA(some_round(), s) for s in (some_set(1), widest, some_set(3), ())],
        *[M.NextB(r) for r in (Round(1, 0, 0), Round(U32, U16, U32), some_round(), some_round())],
        M.BootA((1,), ZERO, ()), M.BootA(widest, some_round(), entries(1)), M.BootA(some_set(5), some_round(), entries(17)), M.BootA((), ZERO, entries(2)),
        *[M.BootB(s) for s in ((0,), widest, some_set(3), ())],
    ]
    for message in messages:
        yield datagram_entry(message, message.froms[0])
    for i, s in enumerate(((1,), widest, some_set(3), ())):
        message = M.Sets(s)
        yield datagram_entry(message, message.froms[0], message.tos[i % len(message.tos)])
    for rec in [
        *[R.Ballot(r) for r in (Round(1, 0, 0), Round(U32, U16, U32), some_round(), some_round())],
        *[R.Stop(r) for r in (Round(1, 0, 0), Round(U32, U16, U32), some_round(), some_round())],
        *[R.Next(some_round(), s) for s in (some_set(1), widest, some_set(5), ())],
        R.Boot((1,), ZERO, ()), R.Boot(widest, some_round(), entries(17)), R.Boot(some_set(3), some_round(), entries(1)), R.Boot((), ZERO, entries(2)),
    ]:
        yield record_entry(rec)


print("""\
//! Bytes of datagrams and records, as another implementation of the format writes them: tools/vectors.py prints this file.

/// Datagrams of the kinds 1 to 29, eight of each, then records of the first seven tags, six of each, then ten datagrams and two
/// records whose commands tell floors, then records of the tags 8 to 11, six of each, then eight datagrams of the last kind, 38,
/// then six records of the last tag, 16, and then datagrams of the kinds 30 to 37 and records of the tags 12 to 15, four of each,
/// in hexadecimal. A semicolon ends an entry. A mark `_` stands where a basic field of the body begins, as the other
/// implementation says where it meets a cut.
pub const VECTORS: &str = "\
""")
for entry in [*datagrams(), *records(), *floors(), *renewed(), *sessions(), *turns(), *replacing()]:
    entry += ";"
    for i in range(0, len(entry), WIDTH):
        print(entry[i:i + WIDTH])
print('";')
