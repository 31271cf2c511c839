"""Compares what the replicas of a cluster hold: the values of each slot, and the map and client table that these leave.

A replica's list begins with what was executed before (a snapshot: map and client table after so many slots), and goes on with values, slot by
slot. From its snapshot on it can show map and table after each slot; of the values before, it may have some that another replica may ask for.
So those that can show it are compared at the beginning of each snapshot, and each value that several have is compared too. That is enough: what follows
the same state by the same values is the same.

A record in a file has no checksum. A byte that changed from one letter to another is read as if it had been stored so, by a node too; only
another replica tells. A byte that makes the record no record is found in the file alone.
"""

import collections
import contextlib
import copy
import hashlib
import os
import pathlib
import re
import time
from collections.abc import Hashable, Iterator, Mapping, Sequence
from dataclasses import dataclass, field

from execution import executed
from headers import Header, Role
from journals import Break, Journal, live_of
from supervisor import ROLES, rooms_of

NOT_COMPARED = "not compared: "     # a line that begins so is no fault
TRIES = 10                      # how often files are read that change meanwhile
PAUSE = 0.02                    # seconds until they are read again
MOST_NAMED = 8                  # keys, or clients, that differ; how many more there are is said
BASE = re.compile(r"first (\d+) held (\d+) pairs (\d+) clients (\d+)")
NOTES = re.compile(r"client:(\d+) floor (\d+): (.*)")
COMMAND = re.compile(r"client:(?P<client>\d+) (?P<number>\d+)(?:/(?P<floor>\d+))? (?P<verb>\w+) (?P<key>\S+)(?: (?P<text>\S+))?")


def is_fault(line: str) -> bool:
    return not line.startswith(NOT_COMPARED)


@dataclass
class State:
    """What executing leaves: the map, and of each client its floor and the answers to its numbers above that."""

    slots: int = 0                      # how many were executed
    map: dict[str, str] = field(default_factory=dict)
    floors: dict[int, int] = field(default_factory=dict)
    answers: dict[int, dict[int, str]] = field(default_factory=dict)

    def execute(self, value: str) -> None:
        """Executes the value of the next slot, in the words of tools/journal."""
        self.slots += 1
        for words in [] if value == "noop" else value.split(", "):
            self.execute_command(COMMAND.fullmatch(words))

    def execute_command(self, it: re.Match[str]) -> None:
        """A command acts if its client isn't done with its number, and no earlier command had it. Its floor counts where the client isn't done."""
        client, number = int(it["client"]), int(it["number"])
        floor = int(it["floor"]) if it["floor"] else number - 1
        before, answers = self.floors.get(client, 0), self.answers.get(client, {})
        if number <= before:
            return
        if number not in answers:
            text, reply = executed(self.map.get(it["key"]), it["verb"], it["text"] or "")
            if text is None:
                self.map.pop(it["key"], None)
            else:
                self.map[it["key"]] = text
            answers[number] = f"{number} at {self.slots} {reply}"
        self.floors[client] = max(before, floor)
        self.answers[client] = {number: answer for number, answer in answers.items() if number > self.floors[client]}

    def of_client(self, client: int) -> str:
        answers = self.answers.get(client, {})
        return f"floor {self.floors[client]}: {', '.join(answers[number] for number in sorted(answers))}" if client in self.floors else "nothing"

    def digest(self) -> str:
        """A few letters that tell two states apart."""
        whole = [sorted(self.map.items()), [(client, self.of_client(client)) for client in sorted(self.floors)]]
        return hashlib.sha256(repr(whole).encode()).hexdigest()[:12]


@dataclass
class Held:
    """What a replica's list has: the state that it begins with, and the values from a slot on."""

    begun: State = field(default_factory=State)
    first: int = 0
    values: list[str] = field(default_factory=list)
    wanted: tuple[int, int] = (0, 0)    # how many pairs and clients the snapshot has

    @property
    def is_whole(self) -> bool:
        """Whether it has all that its first record says it has."""
        return (len(self.begun.map), len(self.begun.floors)) == self.wanted and self.begun.slots <= self.end

    @property
    def end(self) -> int:
        """How many slots it holds."""
        return self.first + len(self.values)

    def can_show(self, slots: int) -> bool:
        return self.begun.slots <= slots <= self.end

    def after(self, slots: int) -> State:
        """The state after so many slots."""
        state = copy.deepcopy(self.begun)
        for value in self.values[state.slots - self.first : slots - self.first]:
            state.execute(value)
        return state

    def take(self, record: str) -> None:
        """A record more of its list, in words."""
        name, _, rest = record.partition(" ")
        if name == "Base":
            self.first, self.begun.slots, *wanted = map(int, BASE.fullmatch(rest).groups())
            self.wanted = tuple(wanted)
        elif name == "Pairs":
            self.begun.map |= dict(pair.split("=") for pair in rest.split(" "))
        elif name == "Notes":
            client, floor, notes = NOTES.fullmatch(rest).groups()
            self.begun.floors[int(client)] = int(floor)
            self.begun.answers[int(client)] = {int(note.split(" ")[0]): note for note in notes.split(", ")}
        else:
            self.values += rest.partition(": ")[2].split(" | ")


class Unread(Exception):
    """Why a replica's list can't be compared; `is_fault` where something is wrong with it."""

    def __init__(self, why: str, is_fault: bool = True) -> None:
        super().__init__(why)
        self.is_fault = is_fault


def fronts_of(paths: Sequence[pathlib.Path]) -> list[bytes]:
    """What tells which of two files is live, and whether the other one is just being written."""
    fronts = []
    for path in paths:
        with open(path, "rb") as file:
            fronts.append(file.read(3))
    return fronts


def read_once(paths: Sequence[pathlib.Path], role: Role) -> Held:
    held = Held()
    with contextlib.ExitStack() as opened:
        live = live_of([Journal(opened.enter_context(open(path, "rb")), role.kind) for path in paths])
        try:
            for frame in live.frames():
                held.take(frame.words(role.kind))
        except Break as broken:
            raise Unread(f"{live.file.name} is not a journal from {broken}") from None
    if not held.is_whole:
        raise Unread(f"{live.file.name} lacks some of what its first record says it has")
    return held


def read(room: pathlib.Path, role: Role) -> Held:
    """A replica's list. A node may append to it meanwhile: then what it had before is read. Where the other file became the live one it is read
    again, and so is one that seems to be wrong, since it may have been overwritten while it was read."""
    first, *others = [room / name for name in role.files]
    if not first.exists():
        raise Unread(f"{first} is missing")
    paths = [first, *filter(pathlib.Path.exists, others)]
    wrong: Unread | None = None
    for _ in range(TRIES):
        try:
            before = fronts_of(paths)
            held = read_once(paths, role)
            if fronts_of(paths) == before:
                return held
        except OSError as error:
            raise Unread(f"{error.filename}: {error.strerror}") from None
        except Unread as unread:
            if fronts_of(paths) == before and wrong is not None and str(wrong) == str(unread):
                raise
            wrong = unread
        time.sleep(PAUSE)
    raise wrong or Unread(f"the files of {role} change faster than they are read", is_fault=False)


def rooms_by_role(folder: pathlib.Path) -> dict[str, pathlib.Path]:
    """The folder of each role."""
    found = {}
    for room in rooms_of(folder):
        with contextlib.suppress(OSError):
            found |= {word: room for word in (room / ROLES).read_text().split()}
    return found


def told_apart(claims: Mapping[str, Hashable]) -> dict[str, str]:
    """Of replicas that say different things those that are named, each with what the others are called: the ones that most don't agree with,
    or all where no more than half agree."""
    (most, count), *_ = collections.Counter(claims.values()).most_common(1)
    if 2 * count > len(claims):
        return {name: "the others" for name, claim in claims.items() if claim != most}
    return {name: "" for name in claims}


def line_of(what: str, claims: Mapping[str, str]) -> str:
    """What differs, in a line."""
    named = told_apart(claims)
    parts = [f"{name} has {claims[name]}" for name in named]
    rest = [claim for name, claim in claims.items() if name not in named]
    return f"{what}: {', '.join(parts)}" + (f", and the others have {rest[0]}" if rest else "")


class Comparison:
    """What the replicas of a cluster hold, as their files say."""

    def __init__(self, header: Header, folder: pathlib.Path) -> None:
        self.lines: list[str] = []              # what differs, or isn't compared
        self.held: dict[str, Held] = {}
        rooms = rooms_by_role(folder)
        for role in header.roles("replica"):
            try:
                if str(role) not in rooms:
                    raise Unread(f"{folder} has no folder with it")
                self.held[str(role)] = read(rooms[str(role)], role)
            except Unread as unread:
                self.lines.append(f"{'' if unread.is_fault else NOT_COMPARED}{role}: {unread}")
        self.named: set[str] = set()            # those of which a difference was said
        self.groups = self.groups_shown()
        self.compare_values()
        self.compare_states()

    def groups_shown(self) -> dict[int, list[str]]:
        """After how many slots several replicas can show what they have: at the beginning of each snapshot."""
        groups = {slots: [name for name, held in self.held.items() if held.can_show(slots)] for slots in {it.begun.slots for it in self.held.values()}}
        return {slots: groups[slots] for slots in sorted(groups) if len(groups[slots]) > 1}

    def compare_values(self) -> None:
        """Says of each replica the first slot in which it has another value."""
        for slot in range(min((held.first for held in self.held.values()), default=0), max((held.end for held in self.held.values()), default=0)):
            claims = {name: held.values[slot - held.first] for name, held in self.held.items() if held.first <= slot < held.end}
            if len(set(claims.values())) > 1 and not self.named.issuperset(told_apart(claims)):
                self.lines.append(line_of(f"slot {slot}", claims))
                self.named |= set(told_apart(claims))

    def compare_states(self) -> None:
        """Says in what maps and tables differ, of replicas of which nothing was said before."""
        shown = {name for group in self.groups.values() for name in group}
        for name, held in self.held.items():
            if name not in shown and len(self.held) > 1:
                others = ", ".join(f"{other} from {it.begun.slots} to {it.end}" for other, it in self.held.items() if other != name)
                self.lines.append(f"{NOT_COMPARED}{name} can show what it has after {held.begun.slots} to {held.end} slots, {others}")
        for slots, group in self.groups.items():
            states = {name: self.held[name].after(slots) for name in group if name not in self.named}
            keys = {key for state in states.values() for key in state.map}
            self.add(f"after {slots} slots, key ", {key: {name: it.map.get(key, "no text") for name, it in states.items()} for key in sorted(keys)})
            clients = {client for state in states.values() for client in state.floors}
            self.add(f"after {slots} slots, client:", {str(client): {name: it.of_client(client) for name, it in states.items()}
                                                       for client in sorted(clients)})

    def add(self, what: str, claims: Mapping[str, Mapping[str, str]]) -> None:
        """Says of which keys or clients replicas claim different things."""
        differ = [name for name, each in claims.items() if len(set(each.values())) > 1]
        lines = [line_of(f"{what}{name}", claims[name]) for name in differ[:MOST_NAMED]]
        if len(differ) > MOST_NAMED:
            lines[-1] += f" (and {len(differ) - MOST_NAMED} more)"
        self.lines += lines
        self.named.update(*[told_apart(claims[name]) for name in differ])

    def figures(self) -> Iterator[str]:
        """What each replica holds, and what that leaves; those that hold as much leave the same."""
        for name, held in self.held.items():
            state = held.after(held.end)
            yield (f"{name} holds {held.end} slots, its snapshot is of the first {held.begun.slots}; they leave {len(state.map)} keys, "
                   f"{len(state.floors)} clients, {state.digest()}")


def compare(header: Header, folder: pathlib.Path) -> list[str]:
    """A line for each difference between the replicas whose files are in the folders of a cluster, and for each replica that can't be read.
    A line for which `is_fault` is false says what could not be compared, as where one lags behind the snapshots of the others."""
    return Comparison(header, folder).lines
