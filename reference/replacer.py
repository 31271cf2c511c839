"""The replacer: it stops a set of matchmakers, has the next set decided among them, and lets its members begin with what the earlier ones
recorded.

From cx_model/specs/Replacer (JSys 2021: matchmakers are replaced by a consensus among the old; the rows are the project's own).
"""

from dataclasses import dataclass, field
from typing import NamedTuple

import messages as msg
import records as kept
from events import Replace
from matched import MatchAnswer, greatest_watermark, live_entries
from messages import Letter
from rules import Outcome, Rules, refused
from terms import NO_ROUND, Entry, Role, Round, Set, is_above, lead_after

IDLE, STOPPING, DECIDING, BOOTING = "idle", "stopping", "deciding", "booting"
JOINED = 254                    # rounds with which a matchmaker begins


# A stopped matchmaker's answer that was counted, with the set that it accepted last and the ballot in which it did.
Halt = NamedTuple("Halt", [("answer", MatchAnswer), ("accepted", Round), ("next", Set)])


@dataclass(slots=True)
class Durable:
    """The greatest ballot that it began, and the last set that it kept."""
    own: Round = NO_ROUND
    known: Set = ()


@dataclass(slots=True)
class Volatile:
    """What it is doing; the greatest ballot that it was told of; the set that it knows; the set that is to follow: the one that was ordered, then
    the one that is to be decided; the answers of stopped matchmakers, and who answered the later questions; and what the members of the next set
    begin with."""
    set: Set
    mode: str = IDLE
    seen: Round = NO_ROUND
    next: Set = ()
    halts: list[Halt] = field(default_factory=list)
    counted: set[int] = field(default_factory=set)
    watermark: Round = NO_ROUND
    entries: tuple[Entry, ...] = ()


def joined_entries(halts: list[Halt]) -> tuple[Entry, ...]:
    """What several stopped matchmakers recorded, from their greatest retirement watermark on, by rising round; of one round the first stays."""
    joined: dict[Round, Entry] = {}
    for entry in live_entries([it.answer for it in halts]):
        joined.setdefault(entry.round, entry)
    return tuple(joined[i] for i in sorted(joined))


def to_decide(ordered: Set, halts: list[Halt]) -> Set:
    """The set that was accepted in the greatest ballot, which may have been decided already; else the one that was ordered."""
    latest = max(halts, key=lambda it: it.accepted)
    return latest.next if latest.accepted != NO_ROUND else ordered


class Replacer(Rules):
    """Its ballot is durable, and a set that it kept; whatever else it knows it learns again."""
    durable: Durable
    volatile: Volatile

    def empty(self) -> Durable:
        return Durable()

    def after(self, record: kept.Ballot | kept.Known) -> None:
        match record:
            case kept.Ballot(ballot):
                self.durable.own = ballot
            case kept.Known(ids):
                self.durable.known = ids

    def fresh(self) -> Volatile:
        return Volatile(set=self.known_set)

    @property
    def known_set(self) -> Set:
        """The set that it kept, or the first one: which it knows when it is opened."""
        return self.durable.known or self.cluster.first_set

    def known_record(self, ids: Set) -> kept.Known | None:
        """Where the header says so, a set that it comes to know is kept."""
        return kept.Known(ids) if self.cluster.keep_sets and is_above(ids, self.known_set) else None

    def replace(self, ids: Set) -> Outcome:
        """The order to replace the known set by another one, which lies above it: it begins a ballot, if there is one."""
        v = self.volatile
        ballot = lead_after(self.durable.own, v.seen, self.me.index)
        if no := refused(old=not is_above(ids, v.set), end=ballot is None):
            return no
        v.mode, v.next, v.halts, v.counted = STOPPING, ids, [], set()
        return Outcome("started", self.send_all("match", v.set, msg.StopA(ballot)), kept.Ballot(ballot))

    def stop_b(self, sender: Role, b: Round, w: Round, entries: tuple[Entry, ...], accepted: Round, ids: Set) -> Outcome:
        """A matchmaker has stopped. Once enough have, what they recorded is joined, and the next set is asked for."""
        v, m = self.volatile, sender.index
        if no := refused(old=v.mode != STOPPING or b != self.durable.own or m not in v.set, same=any(it.answer.matchmaker == m for it in v.halts)):
            return no
        v.halts.append(Halt(MatchAnswer(m, w, entries), accepted, ids))
        if len(v.halts) < self.cluster.enough:
            return Outcome("counted")
        joined = joined_entries(v.halts)
        if len(joined) > JOINED:
            v.mode = IDLE
            return Outcome("full")
        v.mode, v.next, v.counted = DECIDING, to_decide(v.next, v.halts), set()
        v.watermark, v.entries = greatest_watermark(it.answer for it in v.halts), joined
        return Outcome("asking", self.ask_next())

    def next_b(self, matchmaker: Role, b: Round) -> Outcome:
        """A matchmaker has accepted the next set; enough of them decide it."""
        v = self.volatile
        if no := refused(old=v.mode != DECIDING or b != self.durable.own, same=matchmaker.index in v.counted):
            return no
        v.counted.add(matchmaker.index)
        if len(v.counted) < self.cluster.enough:
            return Outcome("counted")
        v.mode, v.counted = BOOTING, set()
        return Outcome("decided", self.ask_to_boot())

    def boot_b(self, matchmaker: Role, ids: Set) -> Outcome:
        """A member of the next set has begun; enough of them make it the known set."""
        v = self.volatile
        if no := refused(old=v.mode != BOOTING or ids != v.next, same=matchmaker.index in v.counted):
            return no
        v.counted.add(matchmaker.index)
        if len(v.counted) < self.cluster.enough:
            return Outcome("counted")
        v.mode, v.set = IDLE, v.next
        return Outcome("replaced", self.tell_all(), self.known_record(v.set))

    def stop_nack(self, matchmaker: Role, b: Round, other: Round) -> Outcome:
        """A matchmaker has promised a greater ballot, which is noted whatever the answer."""
        v = self.volatile
        v.seen = max(v.seen, other)
        if no := refused(old=b != self.durable.own or v.mode in (IDLE, BOOTING)):
            return no
        v.mode = IDLE
        return Outcome("nacked")

    def learn(self, replacer: Role, ids: Set) -> Outcome:
        """Another replacer tells a set."""
        v = self.volatile
        if no := refused(old=not is_above(ids, v.set)):
            return no
        v.mode, v.set = IDLE, ids
        return Outcome("learnt", (), self.known_record(ids))

    def tick(self) -> Outcome:
        """What is waited for is asked again; a later set than the first is told again."""
        v = self.volatile
        if v.mode == STOPPING:
            return Outcome("resent", self.send_all("match", v.set, msg.StopA(self.durable.own)))
        if v.mode == DECIDING:
            return Outcome("resent", self.ask_next())
        if v.mode == BOOTING:
            return Outcome("resent", self.ask_to_boot())
        return Outcome("resent", self.tell_all()) if is_above(v.set, self.cluster.first_set) else Outcome("idle")

    def ask_next(self) -> list[Letter]:
        """The known set is asked to accept the next one."""
        return self.send_all("match", self.volatile.set, msg.NextA(self.durable.own, self.volatile.next))

    def ask_to_boot(self) -> list[Letter]:
        """The next set is asked to begin."""
        v = self.volatile
        return self.send_all("match", v.next, msg.BootA(v.next, v.watermark, v.entries))

    def tell_all(self) -> list[Letter]:
        """All leaders, readers and other replacers are told the set."""
        c, told = self.cluster, msg.Sets(self.volatile.set)
        others = [it for it in range(c.replacers) if it != self.me.index]
        return (self.send_all("leader", range(c.leaders), told) + self.send_all("reader", range(c.readers), told)
                + self.send_all("replacer", others, told))

    ROWS = {Replace: replace, msg.StopB: stop_b, msg.NextB: next_b, msg.BootB: boot_b, msg.StopNack: stop_nack, msg.Sets: learn}
