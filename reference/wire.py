"""The bytes of a datagram's body, as the trace shows it. From cx_letter/specs/Messages and cx_field/specs/Fields.

Numbers are big-endian. Only spelling is here: a replay reads no datagram.
"""

import struct
from collections.abc import Callable
from typing import Any

import messages as msg
from terms import Answered, Asking, Command, Entry, Grid, Op, Reply, Round, Token, Value, Vote

Spelling = Callable[[Any], bytes]               # how a field is spelled

OPS = {"put": 1, "del": 2, "app": 3}            # with a floor that is told 3 more
REPLIES = {"ok": 0, "was": 1, "none": 2, "len": 3, "full": 4}
REASONS = {"collected": 0, "later": 1, "full": 2}


def number(size: int) -> Spelling:
    """A number in so many bytes."""
    return lambda n: n.to_bytes(size)


def counted(spell: Spelling) -> Spelling:
    """How many there are, in one byte, and then each."""
    return lambda items: u8(len(items)) + b"".join(map(spell, items))


u8, u16, u64 = number(1), number(2), number(8)


def name(text: str) -> bytes:
    """A key or a text, behind its length."""
    return u8(len(text)) + text.encode()


def round_(i: Round) -> bytes:
    """The three numbers of a round; no round is three zeros."""
    return struct.pack(">IHI", *i)


def grid(g: Grid) -> bytes:
    """The sides of a grid, and its members row by row."""
    return u8(g.rows) + u8(g.cols) + b"".join(map(u16, g.members))


def op(number: int, floor: int, what: Op) -> bytes:
    """An operation, with the floor that is told before its key, where that isn't the number just below the client's."""
    told = floor + 1 != number
    text = name(what.text) if what.verb != "del" else b""
    return u8(OPS[what.verb] + 3 * told) + (u64(floor) if told else b"") + name(what.key) + text


def command(c: Command) -> bytes:
    """A command: its client, its number, and its operation with its floor."""
    return u16(c.client) + u64(c.seq) + op(c.seq, c.floor, c.op)


def value(v: Value) -> bytes:
    """0 nothing to do, 1 commands."""
    return u8(1) + commands(v) if v else u8(0)


def reply(r: Reply) -> bytes:
    """What a command is answered."""
    return u8(REPLIES[r.word]) + (b"" if r.said is None else u8(r.said) if isinstance(r.said, int) else name(r.said))


def answered(a: Answered) -> bytes:
    """A command's answer."""
    return u16(a.client) + u64(a.seq) + u64(a.at) + reply(a.reply)


def entry(e: Entry) -> bytes:
    """A round and its grid."""
    return round_(e.round) + grid(e.grid)


def vote(v: Vote) -> bytes:
    """An acceptor's vote."""
    return round_(v.round) + u64(v.slot) + value(v.value)


def token(t: Token | Asking) -> bytes:
    """A client and its number, or a reader and its turn."""
    return u16(t[0]) + u64(t[1])


def found(text: str | None) -> bytes:
    """What a read found: 0 nothing, 1 a text."""
    return u8(0) if text is None else u8(1) + name(text)


def reason(why: str) -> bytes:
    """Why a matchmaker refuses a round."""
    return u8(REASONS[why])


slot = mark = seq = at = u64                    # numbers of slots and of requests
asking, ballot = token, round_
commands, entries, votes, answers = counted(command), counted(entry), counted(vote), counted(answered)
ids = counted(u16)               # a set of matchmakers, or none

FIELDS: dict[type, tuple[Spelling, ...]] = {    # how each kind's fields are spelled, in their order
    msg.Submit: (command,), msg.Batch: (commands,), msg.Leads: (round_,), msg.MatchA: (round_, grid), msg.MatchB: (round_, round_, entries),
    msg.MatchNack: (round_, reason, round_), msg.Phase1A: (round_,), msg.Phase1B: (round_, mark, votes), msg.Nack: (round_, round_),
    msg.Propose: (round_, grid, slot, mark, value), msg.Phase2A: (round_, slot, mark, value), msg.Phase2B: (round_, slot),
    msg.Chosen: (slot, value), msg.ChosenIn: (round_, slot), msg.Results: (slot, answers), msg.Answer: (seq, at, reply), msg.Held: (mark,),
    msg.Fetch: (mark,), msg.Inform: (round_, mark), msg.Informed: (round_, mark), msg.GarbageA: (round_, grid), msg.GarbageB: (round_,),
    msg.ReadReq: (seq, u16, name), msg.MatchRead: (asking,), msg.MatchReadAck: (asking, round_, entries), msg.PreRead: (asking, round_),
    msg.PreReadAck: (asking, round_, mark), msg.Read: (token, mark, name), msg.ReadAnswer: (seq, mark, found), msg.StopA: (ballot,),
    msg.StopB: (ballot, round_, entries, ballot, ids), msg.StopNack: (ballot, ballot), msg.NextA: (ballot, ids), msg.NextB: (ballot,),
    msg.BootA: (ids, round_, entries), msg.BootB: (ids,), msg.Sets: (ids,), msg.SessRead: (seq, mark, name),
}


def body(said: msg.Msg) -> bytes:
    """The bytes of a message."""
    return b"".join(spell(part) for spell, part in zip(FIELDS[type(said)], said))
