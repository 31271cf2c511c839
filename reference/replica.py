"""The replica: it keeps the chosen values in order, executes their commands, and answers commands and reads.

From cx_model/specs/Replica and cx_base/specs/Log (VLDB 2021; deferred reads, snapshots and offers are the project's own).
"""

from collections.abc import Sequence
from dataclasses import dataclass, field
from typing import NamedTuple

import messages as msg
import records as kept
from events import Offer
from machine import Machine
from messages import Letter
from rules import Outcome, Rules, refused
from terms import SLOTS, WINDOW, Role, Token, Value

READS = 64                      # reads that wait at a replica
PAIRS, VALUES = 255, 32         # in a record of a renewed list
KEYS = 2**32                    # a map of so many keys isn't written anew


Deferred = NamedTuple("Deferred", [("token", Token), ("mark", int), ("key", str)])      # a read that is answered once so many slots are held


@dataclass(slots=True)
class Durable:
    """The chosen values that it has, the first of them at slot `first`, and what all values that it kept leave."""
    first: int = 0
    log: list[Value] = field(default_factory=list)
    machine: Machine = field(default_factory=Machine)

    @property
    def held(self) -> int:
        """How many slots it holds."""
        return self.first + len(self.log)


@dataclass(slots=True)
class Volatile:
    """The values that came before their turn, by slot, the reads that wait, and the greatest slot that the replica before this one asked for."""
    early: dict[int, Value] = field(default_factory=dict)
    deferred: list[Deferred] = field(default_factory=list)
    fetched: int = 0


def pieces(size: int, items: Sequence) -> list[tuple]:
    """A list in pieces of so many, the last of which may be shorter."""
    return [tuple(items[at : at + size]) for at in range(0, len(items), size)]


class Replica(Rules):
    """Its list is its values, or begins anew with a map and a client table."""
    durable: Durable
    volatile: Volatile

    def empty(self) -> Durable:
        return Durable()

    def after(self, record: kept.Record) -> None:
        d = self.durable
        match record:
            case kept.Log(values):
                for value in values:
                    d.machine.execute_value(d.held, value)
                    d.log.append(value)
            case kept.Base(first):
                d.first = first
            case kept.Pairs(pairs):
                d.machine.pairs.update(pairs)
            case kept.Notes(client, floor, answers):
                d.machine.floors[client] = floor
                d.machine.notes[client] = {it.seq: it for it in answers}
            case kept.Tail(values):
                d.log += values

    def fresh(self) -> Volatile:
        return Volatile()

    def chosen(self, sender: Role, s: int, value: Value) -> Outcome:
        """A proxy leader, or another replica, sends a chosen value: the first for a slot waits for its turn, and lets out those that follow it."""
        d, v = self.durable, self.volatile
        if no := refused(past=s < d.held, window=s >= d.held + WINDOW):
            return no
        if s > d.held:
            v.early.setdefault(s, value)
            return Outcome("early")
        values = [value]
        while len(values) < WINDOW and s + len(values) < SLOTS and s + len(values) in v.early:
            values.append(v.early[s + len(values)])
        return self.apply(tuple(values))

    def apply(self, values: tuple[Value, ...]) -> Outcome:
        """Values are executed in slot order; then the reads that waited for them are answered. The durable part stays, so a copy executes."""
        d, v = self.durable, self.volatile
        machine, sends = d.machine.copy(), []
        for slot, value in enumerate(values, d.held):
            answers = machine.execute_value(slot, value)
            if answers and slot % self.cluster.replicas == self.me.index:
                sends.append(self.send(Role("unbatcher", slot % self.cluster.unbatchers), msg.Results(slot, tuple(answers))))
        held = d.held + len(values)
        sends += [self.read_answer(held, machine, it) for it in v.deferred if it.mark <= held]
        v.early = {s: value for s, value in v.early.items() if s >= held}
        v.deferred = [it for it in v.deferred if it.mark > held]
        return Outcome("applied", sends, kept.Log(values))

    def read(self, sender: Role, token: Token, mark: int, key: str) -> Outcome:
        """A reader asks for a key's text, once so many slots are held."""
        d, v, r = self.durable, self.volatile, Deferred(token, mark, key)
        if mark <= d.held:
            return Outcome("answered", [self.read_answer(d.held, d.machine, r)])
        if no := refused(same=any(it.token == token for it in v.deferred), full=len(v.deferred) >= READS):
            return no
        v.deferred.append(r)
        return Outcome("deferred")

    def session_read(self, client: Role, seq: int, mark: int, key: str) -> Outcome:
        """A client in a session does."""
        return self.read(client, Token(client.index, seq), mark, key)

    def read_answer(self, held: int, machine: Machine, r: Deferred) -> Letter:
        """A read is answered with the key's text in the map that so many values leave."""
        return self.send(Role("client", r.token.client), msg.ReadAnswer(r.token.seq, held, machine.pairs.get(r.key)))

    def fetch(self, sender: Role, s: int) -> Outcome:
        """Another replica asks for the value of a slot, which may be forgotten."""
        d, v = self.durable, self.volatile
        if sender.index == (self.me.index - 1) % self.cluster.replicas:
            v.fetched = max(v.fetched, s)
        if no := refused(past=s < d.first, idle=s >= d.held):
            return no
        return Outcome("fetched", [self.send(sender, msg.Chosen(s, d.log[s - d.first]))])

    def offer(self, to: int, first: int) -> Outcome:
        """The order to send another replica the values that are kept of 32 slots from this one on, the greatest first."""
        d, other = self.durable, Role("replica", to)
        values = [self.send(other, msg.Chosen(s, d.log[s - d.first])) for s in reversed(range(first, first + WINDOW)) if d.first <= s < d.held]
        return Outcome("fetched", values) if values else Outcome("idle")

    def tick(self) -> Outcome:
        """Leaders learn how much is held, and the next replica is asked for a value that it may have."""
        held, replicas = self.durable.held, self.cluster.replicas
        sends = self.send_all("leader", range(self.cluster.leaders), msg.Held(held))
        if replicas > 1:
            sends.append(self.send(Role("replica", (self.me.index + 1) % replicas), msg.Fetch(held)))
        return Outcome("resent", sends)

    def snap(self) -> int | None:
        """No other replica asks for values below this slot: the only one holds all, else the one before this has asked for it."""
        d = self.durable
        limit = d.held if self.cluster.replicas == 1 else min(d.held, self.volatile.fetched)
        return None if limit <= d.first or len(d.machine.pairs) >= KEYS else limit

    def renewed(self, first: int) -> list[kept.Record]:
        """How far it goes, the map, the client table, and the values from that slot on."""
        d, m = self.durable, self.durable.machine
        clients = sorted(m.floors.items())
        return [kept.Base(first, d.held, len(m.pairs), len(clients)),
                *map(kept.Pairs, pieces(PAIRS, sorted(m.pairs.items()))),
                *(kept.Notes(client, floor, tuple(it for _, it in sorted(m.notes.get(client, {}).items()))) for client, floor in clients),
                *map(kept.Tail, pieces(VALUES, d.log[first - d.first :]))]

    ROWS = {msg.Chosen: chosen, msg.Read: read, msg.SessRead: session_read, msg.Fetch: fetch, Offer: offer}
