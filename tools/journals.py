"""Reads the journals of roles: their records in words, and where a file is no journal.

A journal is a list of records, then a closed gate. A record is its gate, the byte 1; a length of four bytes, 1 to 32,768; and so many
bytes: a tag and the record's fields, numbers with the highest byte first. A closed gate is any other byte, 0 as a node writes it.
Bytes of an append that was cut off may follow.

A replica has two files, of which one is live: it has the records. The other takes the next list that is written anew. A file of at
least three bytes, the first of them 4, has a generation, its second byte, and its records begin after that. Another one is plain.
"""

import collections
import os
import pathlib
import re
from collections.abc import Callable, Iterator, Sequence
from dataclasses import dataclass, field
from typing import BinaryIO

OPEN = b"\x01"
LONGEST = 32_768                # bytes of a record
MOST_SLOTS = 1 << 40
GREATEST = (1 << 64) - 1
GENERATIONS = 3                 # 1 comes after 0, 2 after 1, and 0 after 2
NAME = re.compile(r"compax-(?:(\w+)-\d+\.journal|(replica)-\d+\.other)")
LETTERS = frozenset(b"ABCDEFGHIJKLMNOPQRSTUVWXYZabcdefghijklmnopqrstuvwxyz0123456789_-.")


class Break(Exception):
    """The first byte that shows that a file is no journal, and why."""

    def __init__(self, at: int, why: str) -> None:
        super().__init__(f"byte {at}: {why}")
        self.at = at


class Body:
    """The bytes of a record, read field by field. A record that is cut off by the file's end has fewer than its length says."""

    def __init__(self, at: int, length: int, payload: bytes) -> None:
        self.at = at                    # the place of the first byte in the file
        self.length = length
        self.payload = payload
        self.read = 0

    def place(self) -> int:
        return self.at + self.read

    def number(self, size: int, what: str, low: int, high: int) -> int:
        end = self.read + size
        if end > self.length:
            raise Break(self.place(), f"the record ends in its {what}")
        if end > len(self.payload):
            raise Break(self.at + len(self.payload), "the file ends in a record")
        number = int.from_bytes(self.payload[self.read : end], "big")
        if not low <= number <= high:
            raise Break(self.place(), f"{what} {number} is out of range")
        self.read = end
        return number

    def end(self) -> None:
        if self.read < self.length:
            raise Break(self.place(), "the record has bytes after its last field")


def text_of(body: Body, what: str, most: int) -> str:
    length = body.number(1, f"length of a {what}", 1, most)
    letters = bytearray()
    for _ in range(length):
        at = body.place()
        letters.append(body.number(1, what, 0, 255))
        if letters[-1] not in LETTERS:
            raise Break(at, f"a {what} has the byte {letters[-1]}")
    return letters.decode("ascii")


def round_of(body: Body) -> str:
    """A round as NUMBER.LEADER.CHANGE."""
    whole = body.number(10, "round", 1 << 48, (1 << 80) - 1)
    return f"round {whole >> 48}.{whole >> 32 & 0xFFFF}.{whole & 0xFFFF_FFFF}"


def grid_of(body: Body) -> str:
    rows = body.number(1, "grid's rows", 1, 255)
    columns = body.number(1, "grid's columns", 1, 16 // rows)
    members: list[int] = []
    for _ in range(rows * columns):
        at = body.place()
        member = body.number(2, "grid's member", 0, 0xFFFF)
        if member in members:
            raise Break(at, f"acceptor {member} is in the grid twice")
        members.append(member)
    return f"grid {rows}x{columns} {','.join(map(str, members))}"


def slot_of(body: Body) -> str:
    return f"slot {body.number(8, 'slot', 0, MOST_SLOTS - 1)}"


def watermark_of(body: Body) -> str:
    return f"watermark {body.number(8, 'watermark', 0, MOST_SLOTS)}"


def floor_of(body: Body, number: int) -> int:
    """A floor that is told: it is below the command's number, at most 64 below it, and not the number just below it."""
    at = body.place()
    floor = body.number(8, "floor", 0, GREATEST)
    if not 2 <= number - floor <= 64:
        raise Break(at, f"floor {floor} is out of range")
    return floor


def command_of(body: Body) -> str:
    client = body.number(2, "client", 0, 0xFFFF)
    number = body.number(8, "command's number", 1, GREATEST)
    tells, operation = divmod(body.number(1, "operation", 1, 6) - 1, 3)
    told = f"{number}/{floor_of(body, number)}" if tells else str(number)
    words = [f"client:{client} {told} {('put', 'del', 'app')[operation]} {text_of(body, 'key', 32)}"]
    if operation != 1:
        words.append(text_of(body, "text", 64))
    return " ".join(words)


def value_of(body: Body) -> str:
    """A no-op, or one to eight commands."""
    if body.number(1, "kind of a value", 0, 1) == 0:
        return "noop"
    count = body.number(1, "number of commands", 1, 8)
    return ", ".join(command_of(body) for _ in range(count))


def vote_of(body: Body) -> str:
    return f"{round_of(body)} {slot_of(body)} {watermark_of(body)}: {value_of(body)}"


def voted_of(body: Body) -> str:
    """How an acceptor's list that was written anew begins: its promise, one more than the greatest slot that it voted at, and its votes
    from its watermark on."""
    front = f"{round_of(body)} top {body.number(8, 'number of slots', 0, MOST_SLOTS)} {watermark_of(body)}"
    votes = [f"{round_of(body)} {slot_of(body)} {value_of(body)}" for _ in range(body.number(1, "number of votes", 0, 32))]
    return f"{front}: {' | '.join(votes)}"


def log_of(body: Body) -> str:
    """The values of the next slots; which slots these are the record doesn't say."""
    count = body.number(1, "number of values", 1, 32)
    return " | ".join(value_of(body) for _ in range(count))


def round_and_grid(body: Body) -> str:
    return f"{round_of(body)} {grid_of(body)}"


def base_of(body: Body) -> str:
    """How a list that was written anew begins: its first slot, how many slots it held, and how many pairs and clients follow."""
    first = body.number(8, "first slot", 0, MOST_SLOTS)
    held = body.number(8, "number of slots", 0, MOST_SLOTS)
    pairs = body.number(4, "number of pairs", 0, (1 << 32) - 1)
    return f"first {first} held {held} pairs {pairs} clients {body.number(1, 'number of clients', 0, 255)}"


def pairs_of(body: Body) -> str:
    count = body.number(1, "number of pairs", 1, 255)
    return " ".join(f"{text_of(body, 'key', 32)}={text_of(body, 'text', 64)}" for _ in range(count))


def reply_of(body: Body) -> str:
    reply = ("ok", "was", "none", "len", "full")[body.number(1, "reply", 0, 4)]
    if reply == "was":
        return f"was {text_of(body, 'text', 64)}"
    return f"len {body.number(1, 'length', 1, 64)}" if reply == "len" else reply


def note_of(body: Body) -> str:
    """The answer to a command, as a client prints it."""
    number = body.number(8, "command's number", 1, GREATEST)
    return f"{number} at {body.number(8, 'number of slots', 1, MOST_SLOTS)} {reply_of(body)}"


def notes_of(body: Body) -> str:
    """A client's floor, and the answers to its commands above it."""
    client = body.number(2, "client", 0, 0xFFFF)
    floor = body.number(8, "floor", 0, GREATEST)
    count = body.number(1, "number of notes", 1, 64)
    return f"client:{client} floor {floor}: " + ", ".join(note_of(body) for _ in range(count))


def turn_of(body: Body) -> str:
    """A turn of a reader."""
    return str(body.number(8, "turn", 1, GREATEST))


def ballot_of(body: Body) -> str:
    """A round that a replacer began, of a set of matchmakers."""
    return round_of(body).replace("round", "ballot")


def set_of(body: Body) -> str:
    """The matchmakers of a set, their indices rising."""
    members: list[int] = []
    for _ in range(body.number(1, "number of matchmakers", 0, 7)):
        at = body.place()
        members.append(body.number(2, "matchmaker", 0, 0xFFFF))
        if members[1:] and members[-1] <= members[-2]:
            raise Break(at, f"matchmaker {members[-1]} doesn't rise in the set")
    return f"set {','.join(map(str, members))}"


def watermark_round_of(body: Body) -> str:
    """The round below which all are forgotten, or none, which is all zeros."""
    whole = body.number(10, "round", 0, (1 << 80) - 1)
    if 0 < whole < 1 << 48:
        raise Break(body.place() - 10, "a round begins with 0")
    return f"watermark {whole >> 48}.{whole >> 32 & 0xFFFF}.{whole & 0xFFFF_FFFF}" if whole else "watermark none"


def joined_of(body: Body) -> str:
    """With what a matchmaker begins as a member of a set: a watermark, and rounds that rise."""
    words = [set_of(body), watermark_round_of(body)]
    words += [round_and_grid(body) for _ in range(body.number(1, "number of rounds", 0, 254))]
    return " ".join(words)


@dataclass(frozen=True)
class Tag:
    """A kind of record, the role that has it, and what reads its fields."""

    name: str
    kind: str
    words: Callable[[Body], str]


TAGS = {
    1: Tag("Promise", "acceptor", round_of),
    2: Tag("Vote", "acceptor", vote_of),
    3: Tag("Water", "acceptor", lambda body: f"{round_of(body)} {watermark_of(body)}"),
    4: Tag("Match", "match", round_and_grid),
    5: Tag("Garbage", "match", round_and_grid),
    6: Tag("Round", "leader", round_and_grid),
    7: Tag("Log", "replica", log_of),
    8: Tag("Base", "replica", base_of),
    9: Tag("Pairs", "replica", pairs_of),
    10: Tag("Notes", "replica", notes_of),
    11: Tag("Tail", "replica", log_of),
    12: Tag("Ballot", "replacer", ballot_of),
    13: Tag("Stop", "match", ballot_of),
    14: Tag("Next", "match", lambda body: f"{ballot_of(body)} {set_of(body)}"),
    15: Tag("Boot", "match", joined_of),
    16: Tag("Turn", "reader", turn_of),
    17: Tag("Voted", "acceptor", voted_of),
    18: Tag("Known", "replacer", set_of),
}
KINDS = tuple(dict.fromkeys(tag.kind for tag in TAGS.values()))     # of roles with a journal


@dataclass(frozen=True)
class Frame:
    """A record as it lies in its file."""

    at: int                             # the place of its gate
    slot: int                           # the first slot after the records before it, where they are those of a replica
    length: int
    payload: bytes

    def tag(self, kind: str | None) -> Tag:
        """What it is; a break where a role of this kind has no such record. None is any kind."""
        if not self.payload:
            raise Break(self.at + 5, "the file ends in a record")
        tag = TAGS.get(self.payload[0])
        if tag is None or kind not in (None, tag.kind):
            whose = "that no role has" if tag is None else f"of the kind {tag.kind}, in a journal of the kind {kind}"
            raise Break(self.at + 5, f"a record {whose} (tag {self.payload[0]})")
        return tag

    def words(self, kind: str | None) -> str:
        """Its name and its fields."""
        tag = self.tag(kind)
        body = Body(self.at + 5, self.length, self.payload)
        body.number(1, "tag", 0, 255)
        fields = tag.words(body)
        body.end()
        return f"{tag.name} {self.slots_named()}{fields}"

    def slots_named(self) -> str:
        """Which slots it has values of."""
        count = self.slots()
        if not count:
            return ""
        return f"slot {self.slot}: " if count == 1 else f"slots {self.slot} to {self.slot + count - 1}: "

    def slots(self) -> int:
        """Of how many slots it has values."""
        return self.payload[1] if TAGS[self.payload[0]].words is log_of and len(self.payload) > 1 else 0

    def next_slot(self) -> int:
        """The first slot after it."""
        return int.from_bytes(self.payload[1:9], "big") if TAGS[self.payload[0]].words is base_of else self.slot + self.slots()


class Journal:
    """An open file that is read as a journal of a role of one kind, from its front."""

    def __init__(self, file: BinaryIO, kind: str | None) -> None:
        self.file = file
        self.kind = kind
        self.size = os.fstat(file.fileno()).st_size
        self.front = file.read(3)
        self.generation = self.front[1] if len(self.front) == 3 and self.front[0] == 4 and kind in (None, "replica") else None
        self.beside: int | None = None  # the generation of the replica's other file
        self.closed = 0                 # the place of the closed gate, once all frames were read

    def frames(self) -> Iterator[Frame]:
        """Its records, unread; a break where there is no next one and no closed gate. The first tells the kind, where it isn't known."""
        fault = self.fault()
        if fault:
            raise fault
        at, slot = 0 if self.generation is None else 2, 0
        self.file.seek(at)
        while self.size > 1 and self.is_open(at):
            frame = self.frame(at, slot)
            self.kind = frame.tag(self.kind).kind
            yield frame
            at += 5 + frame.length
            slot = frame.next_slot()
        self.closed = at

    def fault(self) -> Break | None:
        """Why a node refuses it by its front, if it does: by the first byte, by what follows a first byte 0, or by its generation. While
        a replica's file is written anew it begins with 0, a generation and the gate of the first record."""
        first = self.front[:1]
        if first not in (b"\0\1\4" if self.kind in (None, "replica") else b"\0\1"):
            return Break(0, f"no journal begins with the byte {first[0]}")
        is_written = self.kind == "replica" and self.front[1:2] < bytes([GENERATIONS]) and self.front[2:] <= OPEN
        if first == b"\0" and self.size > 1 + 4 + LONGEST + 1 and not is_written:
            return Break(0, "the first byte is 0, and more than one record's bytes follow")
        if self.generation is not None and self.generation >= GENERATIONS:
            return Break(1, f"there is no generation {self.generation}")
        if self.generation is not None and self.generation == self.beside:
            return Break(1, f"generation {self.generation} is that of the other file too")
        return None

    def is_open(self, at: int) -> bool:
        gate = self.file.read(1)
        if not gate:
            raise Break(at, "the file ends where a gate is missing")
        return gate == OPEN

    def frame(self, at: int, slot: int) -> Frame:
        """The record after an open gate."""
        said = self.file.read(4)
        if len(said) < 4:
            raise Break(at + 1 + len(said), "the file ends in the length of a record")
        length = int.from_bytes(said, "big")
        if not 1 <= length <= LONGEST:
            raise Break(at + 1, f"{length} bytes are no length of a record")
        return Frame(at, slot, length, self.file.read(length))

    def left(self) -> int:
        """How many bytes follow the closed gate."""
        return max(0, self.size - self.closed - 1)


def live_of(journals: Sequence[Journal]) -> Journal:
    """Of a role's one or two files the live one; where a node refuses them by their fronts, the first one that has a fault."""
    if len(journals) == 1:
        return journals[0]
    first, second = journals
    first.beside, second.beside = second.generation, first.generation
    for journal in journals:
        if journal.fault():
            return journal
    if first.generation is None or second.generation is None:
        return first if second.generation is None else second
    return second if second.generation == (first.generation + 1) % GENERATIONS else first


@dataclass
class Outline:
    """How many records of each kind a journal has, and the last one in words."""

    counts: collections.Counter[str] = field(default_factory=collections.Counter)
    last: str = ""

    def __str__(self) -> str:
        records = sum(self.counts.values())
        each = ", ".join(f"{count:,} {name}" for name, count in self.counts.items())
        return f"{records:,} record{'s' * (records != 1)}" + (f": {each}" if each else "")


def kind_of(path: pathlib.Path) -> str | None:
    """The kind of role whose journal a file is by its name; None where its name is another."""
    found = NAME.fullmatch(path.name)
    kind = found and (found[1] or found[2])
    return kind if kind in KINDS else None


def outlined(journal: Journal) -> tuple[Outline, Break | None]:
    """What a journal has up to its end, or up to its first break, which is given too. Only the last record is read whole."""
    outline, frame, found = Outline(), None, None
    try:
        for frame in journal.frames():
            if len(frame.payload) < frame.length:
                frame.words(journal.kind)
            outline.counts[frame.tag(journal.kind).name] += 1
        outline.last = frame.words(journal.kind) if frame else ""
    except Break as broken:
        found = broken
    return outline, found
