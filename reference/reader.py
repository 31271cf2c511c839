"""The reader: reads wait, and at most one batch of them runs. For a batch the reader keeps its next turn, asks enough matchmakers for the live
grids, then a row of each for its greatest voted slot; then it asks one replica for each read.

From cx_model/specs/Reader (VLDB 2021: quorum reads; over several grids, and in batches, the project's own).
"""

from dataclasses import dataclass, field
from typing import NamedTuple

import messages as msg
import records as kept
from matched import MatchAnswer, greatest_watermark, is_counted, live_entries, members_of, rows_whole
from messages import Letter
from rules import Outcome, Rules, refused
from terms import Asking, Entry, Role, Round, Set, Token, is_above

READS = 64                      # reads that wait or run
LAST_TURN = 2**64 - 1


Asked = NamedTuple("Asked", [("token", Token), ("replica", int), ("key", str)])         # a read, and the replica that is to answer it
Acked = NamedTuple("Acked", [("acceptor", int), ("mark", int)])         # it voted in no slot from the mark on


@dataclass(slots=True)
class Batch:
    """The running batch: its turn, its reads in the order in which they came, and the answers that were counted. It is in its first stage until
    enough matchmakers have answered, then in its second."""
    turn: int
    reads: list[Asked]
    told: list[MatchAnswer] = field(default_factory=list)
    acks: list[Acked] = field(default_factory=list)


@dataclass(slots=True)
class Volatile:
    """The reads that wait for the next batch, the running one, and the set of matchmakers that it knows."""
    set: Set
    waiting: list[Asked] = field(default_factory=list)
    running: Batch | None = None


def with_asked(one: Asked, reads: list[Asked]) -> list[Asked]:
    """The reads with one in the place of the earlier one of its token."""
    return [one if it.token == one.token else it for it in reads]


class Reader(Rules):
    """Its durable part is its last turn."""
    durable: int
    volatile: Volatile

    def empty(self) -> int:
        return 0

    def after(self, record: kept.Turn) -> None:
        self.durable = max(self.durable, record.turn)

    def snap(self) -> int | None:
        """One without a turn has no record."""
        return 0 if self.durable else None

    def renewed(self, first: int) -> list[kept.Record]:
        """The last turn."""
        return [kept.Turn(self.durable)]

    def fresh(self) -> Volatile:
        return Volatile(set=self.cluster.first_set)

    def is_matched(self, batch: Batch) -> bool:
        """Whether enough matchmakers have answered."""
        return len(batch.told) >= self.cluster.enough

    def running_batch(self, asking: Asking) -> Batch | None:
        """The running batch, where a datagram is of it."""
        batch = self.volatile.running
        return batch if batch and asking == Asking(self.me.index, batch.turn) else None

    def request(self, client: Role, seq: int, replica: int, key: str) -> Outcome:
        """A client asks for a key. A read that waits waits on, with what it asks now; the first of the running batch begins that anew, with all
        that wait."""
        v, one = self.volatile, Asked(Token(client.index, seq), replica, key)
        if any(it.token == one.token for it in v.waiting):
            v.waiting = with_asked(one, v.waiting)
            return Outcome("again")
        running = v.running.reads if v.running else []
        if running and running[0].token == one.token:
            return self.begin("again", [], with_asked(one, running) + v.waiting)
        if no := refused(same=any(it.token == one.token for it in running), full=len(v.waiting) + len(running) >= READS):
            return no
        if v.running is None:
            return self.begin("started", [], [*v.waiting, one])
        v.waiting.append(one)
        return Outcome("queued")

    def begin(self, why: str, first: list[Letter], reads: list[Asked]) -> Outcome:
        """A batch of these reads begins behind what is sent first: its turn is kept, and all matchmakers of the known set are asked. Where there
        is no turn any more, nothing changes."""
        if self.durable == LAST_TURN:
            return Outcome("end")
        v, turn = self.volatile, self.durable + 1
        v.waiting, v.running = [], Batch(turn, reads)
        return Outcome(why, first + self.ask_matchmakers(v.running), kept.Turn(turn))

    def finish(self, batch: Batch, n: int) -> Outcome:
        """The replicas are asked, and the batch has ended; where reads wait, the next one begins, at the last turn none."""
        v = self.volatile
        asked = [self.send(Role("replica", it.replica), msg.Read(it.token, n, it.key)) for it in batch.reads]
        if v.waiting and self.durable != LAST_TURN:
            return self.begin("sent", asked, v.waiting)
        v.running = None
        return Outcome("sent", asked)

    def match_ack(self, sender: Role, asking: Asking, w: Round, entries: tuple[Entry, ...]) -> Outcome:
        """A matchmaker answers. Where no grid is live nothing was ever voted for."""
        batch, matchmaker = self.running_batch(asking), sender.index
        if batch is None or self.is_matched(batch) or matchmaker not in self.volatile.set:
            return Outcome("unasked")
        if no := refused(same=is_counted(matchmaker, batch.told)):
            return no
        batch.told.append(MatchAnswer(matchmaker, w, entries))
        if not self.is_matched(batch):
            return Outcome("counted")
        return Outcome("asking", self.ask_acceptors(batch)) if live_entries(batch.told) else self.finish(batch, 0)

    def pre_read_ack(self, sender: Role, asking: Asking, w: Round, n: int) -> Outcome:
        """An acceptor of a live grid answers, with the retirement watermark that it was asked with."""
        batch, acceptor = self.running_batch(asking), sender.index
        if batch is None:
            return Outcome("unasked")
        live = live_entries(batch.told)
        if no := refused(unasked=not self.is_matched(batch) or not any(acceptor in it.grid.members for it in live),
                         old=w != greatest_watermark(batch.told), same=any(it.acceptor == acceptor for it in batch.acks)):
            return no
        batch.acks.append(Acked(acceptor, n))
        if not rows_whole(live, (it.acceptor for it in batch.acks)):
            return Outcome("counted")
        return self.finish(batch, max(it.mark for it in batch.acks))

    def learn(self, replacer: Role, ids: Set) -> Outcome:
        """A replacer sends a set that took over: its members are asked anew, where the earlier ones haven't all answered."""
        v = self.volatile
        if no := refused(old=not is_above(ids, v.set)):
            return no
        v.set = ids
        if v.running is None or self.is_matched(v.running):
            return Outcome("learnt")
        v.running.told = []
        return Outcome("learnt", self.ask_matchmakers(v.running))

    def tick(self) -> Outcome:
        """A tick asks again: the matchmakers in the first stage, the acceptors in the second."""
        batch = self.volatile.running
        if batch is None:
            return Outcome("idle")
        return Outcome("resent", self.ask_acceptors(batch) if self.is_matched(batch) else self.ask_matchmakers(batch))

    def ask_matchmakers(self, batch: Batch) -> list[Letter]:
        """All matchmakers of the known set are asked."""
        return self.send_all("match", self.volatile.set, msg.MatchRead(Asking(self.me.index, batch.turn)))

    def ask_acceptors(self, batch: Batch) -> list[Letter]:
        """The members of all live grids are asked."""
        asking = Asking(self.me.index, batch.turn)
        return self.send_all("acceptor", members_of(live_entries(batch.told)), msg.PreRead(asking, greatest_watermark(batch.told)))

    ROWS = {msg.ReadReq: request, msg.MatchReadAck: match_ack, msg.PreReadAck: pre_read_ack, msg.Sets: learn}
