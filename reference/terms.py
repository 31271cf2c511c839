"""What messages, records and states are made of: roles, rounds, grids, commands, values. All of it is plain tuples, which never change.

From cx_base/specs (Round, Role, Grid, Sets, Fold), cx_base/src/command.rt and cx_field/src/parts.rt.
"""

from collections.abc import Iterable
from dataclasses import dataclass
from typing import NamedTuple

WINDOW = 32                     # slots from a chosen watermark on in which values may be proposed
SLOTS = 2**40                   # slots are the numbers below this
OUTSTANDING = 64                # a floor is at most this far below its number
TEXT_MOST = 64                  # bytes of a text
KEY_MOST = 32                   # bytes of a key
COUNTED_BY = {"client": "clients", "batcher": "batchers", "leader": "leaders", "proxy": "proxies", "acceptor": "acceptors", "match": "pool",
              "replica": "replicas", "unbatcher": "unbatchers", "reader": "readers", "replacer": "replacers"}
KINDS = tuple(COUNTED_BY)       # of roles


class Role(NamedTuple):
    """A role by name. It is printed as its kind and its index."""
    kind: str
    index: int

    def __str__(self) -> str:
        return f"{self.kind}:{self.index}"


@dataclass(frozen=True, slots=True)
class Cluster:
    """How many roles of each kind there are, what a set of matchmakers survives the loss of, and how many commands a batch has."""
    f: int
    leaders: int
    proxies: int
    acceptors: int
    replicas: int
    batchers: int
    unbatchers: int
    readers: int
    clients: int
    batch: int
    pool: int
    replacers: int
    one_entry_a_grid: bool = False
    own_proxies: bool = False   # each leader has proxy leaders of its own
    keep_sets: bool = False     # a replacer keeps the sets that it comes to know

    def count_of(self, kind: str) -> int:
        """How many roles of a kind there are."""
        return getattr(self, COUNTED_BY[kind])

    def proxy_of(self, leader: int, slot: int) -> int:
        """The proxy leader of a leader's slot: they take turns, all of them or the leader's own."""
        if not self.own_proxies:
            return slot % self.proxies
        share = self.proxies // self.leaders
        return leader * share + slot % share

    @property
    def enough(self) -> int:
        """How many of the 2f + 1 matchmakers of a set, or of the replicas, are enough."""
        return self.f + 1

    @property
    def first_set(self) -> tuple[int, ...]:
        """The set of matchmakers with which the cluster begins."""
        return tuple(range(2 * self.f + 1))


class Round(NamedTuple):
    """A round, or a replacer's ballot: tuples are ordered by number, then leader, then the leader's count of changes."""
    r: int
    id: int
    s: int


NO_ROUND = Round(0, 0, 0)       # before each real one


def lead_after(own: Round, seen: Round, index: int) -> Round | None:
    """A leader's first round above its own and the greatest that it has seen; none where rounds end."""
    greatest = max(own.r, seen.r)
    return None if greatest == 2**32 - 1 else Round(greatest + 1, index, 0)


def change_after(own: Round) -> Round | None:
    """The next round of the same leader; none where its count of changes ends."""
    return None if own.s == 2**32 - 1 else Round(own.r, own.id, own.s + 1)


Set = tuple[int, ...]           # a set of matchmakers: ids that rise


def is_above(one: Set, other: Set) -> bool:
    """Whether every id of the one set is above every id of the other."""
    return all(m > n for m in one for n in other)


class Grid(NamedTuple):
    """A rectangle of acceptors, row by row."""
    rows: int
    cols: int
    members: tuple[int, ...]

    def row(self, a: int) -> tuple[int, ...]:
        """The members of a row, which is a read quorum."""
        return self.members[a * self.cols : (a + 1) * self.cols]

    def column(self, b: int) -> tuple[int, ...]:
        """The members of a column, which is a write quorum."""
        return self.members[b :: self.cols]

    def row_whole(self, marks: Iterable[int]) -> bool:
        """Whether some row is marked from end to end."""
        marked = set(marks)
        return any(marked.issuperset(self.row(a)) for a in range(self.rows))

    def column_whole(self, marks: Iterable[int]) -> bool:
        """Whether some column is marked from end to end."""
        marked = set(marks)
        return any(marked.issuperset(self.column(b)) for b in range(self.cols))


class Op(NamedTuple):
    """What is done to a key: `put`, `del` or `app`; a `del` has no text."""
    verb: str
    key: str
    text: str = ""


# A client's numbered operation; the client is done with all its numbers up to the floor.
Command = NamedTuple("Command", [("client", int), ("seq", int), ("floor", int), ("op", Op)])
Value = tuple[Command, ...]     # what is chosen for a slot: a batch of one to eight commands, or none, which is nothing to do
NOOP: Value = ()


class Reply(NamedTuple):
    """What a command is answered: `ok`, `was` a text, `none`, `len` and a number, or `full`."""
    word: str
    said: str | int | None = None


Answered = NamedTuple("Answered", [("client", int), ("seq", int), ("at", int), ("reply", Reply)])       # `at` is one more than the slot
Placed = NamedTuple("Placed", [("slot", int), ("value", Value)])
Entry = NamedTuple("Entry", [("round", Round), ("grid", Grid)])
Vote = NamedTuple("Vote", [("round", Round), ("slot", int), ("value", Value)])
Token = NamedTuple("Token", [("client", int), ("seq", int)])                # a request
Asking = NamedTuple("Asking", [("reader", int), ("turn", int)])             # what a reader asks under


def floor_fits(seq: int, floor: int) -> bool:
    """Whether a client may tell a floor with a number."""
    return floor < seq <= floor + OUTSTANDING
