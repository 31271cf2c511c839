"""The acceptor: it promises rounds and votes for values. From cx_model/specs/Acceptor (VLDB 2021)."""

from dataclasses import dataclass, field

import messages as msg
import records as kept
from rules import Outcome, Rules, refused
from terms import NO_ROUND, Asking, Role, Round, Value, Vote


@dataclass(slots=True)
class Durable:
    """The promised round, the chosen watermark, the last vote at each slot from there on, and one more than the greatest slot ever voted at."""
    promise: Round = NO_ROUND
    cw: int = 0
    votes: dict[int, Vote] = field(default_factory=dict)
    top: int = 0


class Acceptor(Rules):
    """All that an acceptor knows is durable."""
    durable: Durable

    def empty(self) -> Durable:
        return Durable()

    def after(self, record: kept.Record) -> None:
        d = self.durable
        match record:
            case kept.Promise(i):
                d.promise = i
            case kept.Vote(i, s, cw, value):
                self.raise_to(i, cw)
                d.votes[s] = Vote(i, s, value)
                d.top = max(d.top, s + 1)
            case kept.Water(i, cw):
                self.raise_to(i, cw)
            case kept.Voted(i, top, cw, votes):
                self.durable = Durable(i, cw, {vote.slot: vote for vote in votes}, top)

    def votes(self) -> tuple[Vote, ...]:
        """Its votes by rising slot."""
        return tuple(self.durable.votes[s] for s in sorted(self.durable.votes))

    def snap(self) -> int | None:
        """One that promised nothing has no record."""
        return 0 if self.durable.promise > NO_ROUND else None

    def renewed(self, first: int) -> list[kept.Record]:
        """One record of all that it knows."""
        d = self.durable
        return [kept.Voted(d.promise, d.top, d.cw, self.votes())]

    def raise_to(self, i: Round, cw: int) -> None:
        """A round is promised, and the votes below a chosen watermark are forgotten."""
        d = self.durable
        d.promise, d.cw = i, max(d.cw, cw)
        d.votes = {s: vote for s, vote in d.votes.items() if s >= d.cw}

    def nack(self, i: Round) -> Outcome:
        """A greater round was promised, which the leader of the refused one learns."""
        return Outcome("nack", [self.send(Role("leader", i.id), msg.Nack(i, self.durable.promise))])

    def phase1a(self, leader: Role, i: Round) -> Outcome:
        """A leader asks to promise its round, and for what was voted in earlier ones."""
        d = self.durable
        if i < d.promise:
            return self.nack(i)
        promised = [self.send(leader, msg.Phase1B(i, d.cw, self.votes()))]
        return Outcome("same", promised) if i == d.promise else Outcome("promised", promised, kept.Promise(i))

    def phase2a(self, proxy: Role, i: Round, s: int, cw: int, value: Value) -> Outcome:
        """A proxy leader asks for a vote."""
        d = self.durable
        if i < d.promise:
            return self.nack(i)
        if no := refused(past=s < d.cw):
            return no
        voted = [self.send(proxy, msg.Phase2B(i, s))]
        if s in d.votes and d.votes[s].round == i:
            return Outcome("same", voted)
        return Outcome("voted", voted, kept.Vote(i, s, cw, value))

    def inform(self, leader: Role, i: Round, cw: int) -> Outcome:
        """A leader that retires earlier rounds reports that enough replicas hold this many slots."""
        d = self.durable
        if i < d.promise:
            return self.nack(i)
        informed = [self.send(leader, msg.Informed(i, max(d.cw, cw)))]
        if i == d.promise and cw <= d.cw:
            return Outcome("same", informed)
        return Outcome("informed", informed, kept.Water(i, cw))

    def pre_read(self, reader: Role, asking: Asking, w: Round) -> Outcome:
        """A reader asks from which slot on nothing is chosen by its vote."""
        return Outcome("asked", [self.send(reader, msg.PreReadAck(asking, w, max(self.durable.cw, self.durable.top)))])

    ROWS = {msg.Phase1A: phase1a, msg.Phase2A: phase2a, msg.Inform: inform, msg.PreRead: pre_read}
