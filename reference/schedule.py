"""The lines of a schedule, and the events that they spell. From cx_script/specs (Grammar, Words, Places, Lines)."""

import re
from collections.abc import Callable
from typing import NamedTuple, TypeVar

from events import KEPT, TORN, WHOLE, Change, Collect, Crash, Deliver, Event, Lead, Offer, Ordered, Read, Replace, Restart, Session
from events import Snap, Tick, Write
from header import stripped
from terms import KEY_MOST, KINDS, SLOTS, TEXT_MOST, Cluster, Command, Grid, Op, Role, Set, floor_fits

LINE_MOST = 1024                # bytes of a line
LINES_MOST = 65_535             # lines behind the header
MEMBERS_MOST = 16               # acceptors of a grid
T = TypeVar("T")


class BadLine(Exception):
    """A line is outside the grammar."""


Parsed = NamedTuple("Parsed", [("events", list[Event]), ("bad", int | None)])         # events before the first bad line, and its number


class Words:
    """The words of a line, taken from left to right."""

    def __init__(self, cluster: Cluster, words: list[str]) -> None:
        self.cluster, self.words, self.at = cluster, words, 0

    def word(self) -> str:
        """The next word."""
        self.at += 1
        if self.at > len(self.words):
            raise BadLine("a word is missing")
        return self.words[self.at - 1]

    def ended(self, it: T) -> T:
        """This, where no word is left."""
        if self.at < len(self.words):
            raise BadLine("a word too many")
        return it

    def index(self, kind: str) -> int:
        """`client:C` and the like: the index of a role of this kind."""
        found, _, digits = self.word().partition(":")
        if found != kind:
            raise BadLine("another kind of role")
        return index_below(self.cluster.count_of(kind), digits)

    def server(self) -> Role:
        """A role of any kind but a client."""
        kind, _, digits = self.word().partition(":")
        if kind not in KINDS[1:]:
            raise BadLine("no kind of role")
        return Role(kind, index_below(self.cluster.count_of(kind), digits))

    def renewing(self) -> Role:
        """A role that puts its list anew."""
        role = self.server()
        if role.kind not in ("acceptor", "replica", "reader"):
            raise BadLine("no list that is put anew")
        return role

    def seq_and_floor(self) -> tuple[int, int]:
        """SEQ or SEQ/FLOOR."""
        seq, slash, floor = self.word().partition("/")
        numbers = number(seq), number(floor) if slash else max(number(seq) - 1, 0)
        if not floor_fits(*numbers):
            raise BadLine("no floor of this number")
        return numbers

    def name(self, most: int) -> str:
        """A key or a text."""
        word = self.word()
        if len(word) > most or not re.fullmatch(r"[A-Za-z0-9_.-]+", word, re.ASCII):
            raise BadLine("no name")
        return word

    def cut(self) -> str:
        """At the end of a line: `torn`, `kept` or nothing."""
        word = self.word() if self.at < len(self.words) else WHOLE
        if word not in (WHOLE, TORN, KEPT):
            raise BadLine("no cut")
        return self.ended(word)

    def grid(self) -> Grid:
        """RxC a,b,..: the sides of a grid and its members, which are different acceptors of the cluster."""
        sides = self.word().partition("x")
        rows, cols = number(sides[0]), number(sides[2])
        if not (rows >= 1 and cols >= 1 and rows * cols <= MEMBERS_MOST):
            raise BadLine("no sides of a grid")
        members = self.ids(self.cluster.acceptors)
        if len(members) != rows * cols or len(set(members)) < len(members):
            raise BadLine("no members of this grid")
        return Grid(rows, cols, members)

    def set(self) -> Set:
        """a,b,..: a set of matchmakers, whose ids rise."""
        members = self.ids(self.cluster.pool)
        if len(members) != 2 * self.cluster.f + 1 or any(m >= n for m, n in zip(members, members[1:])):
            raise BadLine("no set")
        return members

    def ids(self, count: int) -> tuple[int, ...]:
        """Ids below a count, with commas between them."""
        return tuple(index_below(count, part) for part in self.word().split(","))

    def op(self) -> Op:
        """put K V, del K, app K V."""
        verb = self.word()
        if verb not in ("put", "del", "app"):
            raise BadLine("no operation")
        key = self.name(KEY_MOST)
        return Op(verb, key) if verb == "del" else Op(verb, key, self.name(TEXT_MOST))


def number(word: str) -> int:
    """A word of decimal digits whose number has 64 bits at most."""
    if not re.fullmatch("[0-9]+", word, re.ASCII) or int(word) >= 2**64:
        raise BadLine("no number")
    return int(word)


def index_below(count: int, digits: str) -> int:
    """A number below a count."""
    index = number(digits)
    if index >= count:
        raise BadLine("not in the cluster")
    return index


def write(words: Words) -> Event:
    """client:C SEQ batcher:B, then what to do."""
    client, (seq, floor), batcher = words.index("client"), words.seq_and_floor(), words.index("batcher")
    return words.ended(Write(Command(client, seq, floor, words.op()), batcher))


def read(words: Words) -> Event:
    """client:C SEQ reader:R replica:P K"""
    client, (seq, floor) = words.index("client"), words.seq_and_floor()
    return words.ended(Read(client, seq, floor, words.index("reader"), words.index("replica"), words.name(KEY_MOST)))


def session(words: Words) -> Event:
    """client:C SEQ replica:P K"""
    client, (seq, floor) = words.index("client"), words.seq_and_floor()
    return words.ended(Session(client, seq, floor, words.index("replica"), words.name(KEY_MOST)))


def offer(words: Words) -> Event:
    """replica:P replica:Q S: another replica, and a slot."""
    replica, to, slot = words.index("replica"), words.index("replica"), number(words.word())
    if to == replica:
        raise BadLine("to itself")
    if slot > SLOTS:
        raise BadLine("no slot")
    return words.ended(Ordered(Role("replica", replica), Offer(to, slot), WHOLE))


VERBS: dict[str, Callable[[Words], Event]] = {          # arguments are evaluated from left to right, as the words stand
    "write": write,
    "read": read,
    "session": session,
    "deliver": lambda words: Deliver(number(words.word()), words.cut()),
    "tick": lambda words: words.ended(Tick(words.server())),
    "lead": lambda words: Ordered(Role("leader", words.index("leader")), Lead(words.grid()), words.cut()),
    "change": lambda words: Ordered(Role("leader", words.index("leader")), Change(words.grid()), words.cut()),
    "collect": lambda words: words.ended(Ordered(Role("leader", words.index("leader")), Collect(), WHOLE)),
    "replace": lambda words: Ordered(Role("replacer", words.index("replacer")), Replace(words.set()), words.cut()),
    "offer": offer,
    "snap": lambda words: Snap(words.renewing(), words.cut()),
    "crash": lambda words: words.ended(Crash(words.server())),
    "restart": lambda words: words.ended(Restart(words.server())),
}


def event_of(cluster: Cluster, line: bytes) -> Event | None:
    """The event of a line; none of a comment or of blanks."""
    if len(line) > LINE_MOST:
        raise BadLine("too long")
    first, *others = [word for word in re.split("[ \t]", line.decode("latin-1")) if word] or ["#"]
    if first.startswith("#"):
        return None
    if first not in VERBS:
        raise BadLine("no event")
    return VERBS[first](Words(cluster, others))


def lines_of(text: bytes) -> list[bytes]:
    """The lines, the last one also where its line feed is missing."""
    parts = text.split(b"\n")
    return [stripped(part) for part in (parts if parts[-1] else parts[:-1])]


def schedule_of(cluster: Cluster, text: bytes) -> Parsed:
    """What the bytes behind a header spell."""
    events: list[Event] = []
    for at, line in enumerate(lines_of(text), 1):
        try:
            if at > LINES_MOST:
                raise BadLine("too many")
            event = event_of(cluster, line)
        except BadLine:
            return Parsed(events, at)
        if event is not None:
            events.append(event)
    return Parsed(events, None)


def seq_text(seq: int, floor: int) -> str:
    """A request's number, and after a slash the floor that it tells, where that isn't the number before."""
    return str(seq) if floor + 1 == seq else f"{seq}/{floor}"


def op_text(op: Op) -> str:
    """An operation, as a line spells it."""
    return f"{op.verb} {op.key} {op.text}".rstrip()


def head_text(event: Event) -> str:
    """What an event's line begins with, which its line in the trace has too: the verb, and a request's client and number, a datagram's number, or
    the role."""
    verb = type(event).__name__.lower()
    match event:
        case Write(Command(client, seq, floor)) | Read(client, seq, floor) | Session(client, seq, floor):
            return f"{verb} client:{client} {seq_text(seq, floor)}"
        case Deliver(at):
            return f"{verb} {at}"
        case Ordered(role, order):
            return f"{type(order).__name__.lower()} {role}"
        case _:
            return f"{verb} {event.role}"


def line_of(event: Event) -> str:
    """The line that spells an event."""
    match event:
        case Write(command, batcher):
            rest = f"batcher:{batcher} {op_text(command.op)}"
        case Read(_, _, _, reader, replica, key):
            rest = f"reader:{reader} replica:{replica} {key}"
        case Session(_, _, _, replica, key):
            rest = f"replica:{replica} {key}"
        case Ordered(_, Lead(grid) | Change(grid), cut):
            rest = f"{grid.rows}x{grid.cols} {','.join(map(str, grid.members))} {cut}"
        case Ordered(_, Replace(ids), cut):
            rest = f"{','.join(map(str, ids))} {cut}"
        case Ordered(_, Offer(to, slot)):
            rest = f"replica:{to} {slot}"
        case Deliver(_, cut) | Snap(_, cut):
            rest = cut
        case _:
            rest = ""
    return f"{head_text(event)} {rest}".rstrip()
