"""The proxy leader: it asks a column for votes and announces what is chosen. From cx_model/specs/Proxy (VLDB 2021)."""

from dataclasses import dataclass, field

import messages as msg
from messages import Letter
from rules import Outcome, Rules, refused
from terms import NO_ROUND, WINDOW, Grid, Role, Round, Value


@dataclass(slots=True)
class Pending:
    """A value for which votes are asked: the chosen watermark that came with it, who voted, and whether all was announced."""
    slot: int
    round: Round
    grid: Grid
    cw: int
    value: Value
    marks: set[int] = field(default_factory=set)
    done: bool = False


@dataclass(slots=True)
class Volatile:
    """The greatest chosen watermark that it knows, and one pending value at each slot from there on."""
    known: int = 0
    pending: dict[int, Pending] = field(default_factory=dict)


class Proxy(Rules):
    """It keeps no records."""
    volatile: Volatile

    def fresh(self) -> Volatile:
        return Volatile()

    def raise_to(self, cw: int) -> None:
        """A greater chosen watermark drops the pendings below it."""
        v = self.volatile
        v.known = max(v.known, cw)
        v.pending = {s: p for s, p in v.pending.items() if s >= v.known}

    def propose(self, sender: Role, i: Round, grid: Grid, s: int, cw: int, value: Value) -> Outcome:
        """A leader hands over a value for a slot: the column that the slot belongs to is asked."""
        self.raise_to(cw)
        v, p = self.volatile, Pending(s, i, grid, cw, value)
        last = v.pending[s].round if s in v.pending else NO_ROUND
        if no := refused(past=s < v.known, old=i < last, same=i == last):
            return no
        v.pending[s] = p
        return Outcome("asking", self.ask(p, grid.column(s % grid.cols)))

    def vote(self, acceptor: Role, i: Round, s: int) -> Outcome:
        """An acceptor has voted; a whole column makes the value chosen."""
        p = self.volatile.pending.get(s)
        if p is None or p.round != i or acceptor.index not in p.grid.members:
            return Outcome("unasked")
        if no := refused(done=p.done, same=acceptor.index in p.marks):
            return no
        p.marks.add(acceptor.index)
        p.done = p.grid.column_whole(p.marks)
        return Outcome("chosen", self.announce(p)) if p.done else Outcome("counted")

    def tick(self) -> Outcome:
        """Each pending value is asked for again, of the whole grid, or announced again."""
        v = self.volatile
        if not v.pending:
            return Outcome("idle")
        sends: list[Letter] = []
        for s in range(v.known, v.known + WINDOW):
            if p := v.pending.get(s):
                sends += self.announce(p) if p.done else self.ask(p, p.grid.members)
        return Outcome("resent", sends)

    def ask(self, p: Pending, acceptors: tuple[int, ...]) -> list[Letter]:
        """These acceptors are asked for their votes, by rising index."""
        return self.send_all("acceptor", sorted(acceptors), msg.Phase2A(p.round, p.slot, p.cw, p.value))

    def announce(self, p: Pending) -> list[Letter]:
        """The value goes to every replica, and the leader of the round learns that it is chosen."""
        replicas = self.send_all("replica", range(self.cluster.replicas), msg.Chosen(p.slot, p.value))
        return [*replicas, self.send(Role("leader", p.round.id), msg.ChosenIn(p.round, p.slot))]

    ROWS = {msg.Propose: propose, msg.Phase2B: vote}
