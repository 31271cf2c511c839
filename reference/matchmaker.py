"""The matchmaker: it records which grid each round uses, and is replaced as a member of a set.

From cx_model/specs/Matchmaker (JSys 2021; the rows of being replaced are the project's own).
"""

from dataclasses import dataclass, field

import messages as msg
import records as kept
from rules import Outcome, Rules, refused
from terms import NO_ROUND, Asking, Entry, Grid, Role, Round, Set

ROUNDS = 16                     # a matchmaker that has this many rounds records no further one, but in the place of others with its grid,
JOINED = 254                    # and none where it has this many


@dataclass(slots=True)
class Durable:
    """The retirement watermark; the recorded rounds, rising; the set with which it began, if it follows another; the greatest ballot that it
    promised, which stopped it; and the ballot in which it accepted a next set last, with that set."""
    watermark: Round = NO_ROUND
    entries: list[Entry] = field(default_factory=list)
    booted: Set | None = None
    ballot: Round = NO_ROUND
    accepted: Round = NO_ROUND
    next: Set = ()


class Matchmaker(Rules):
    """All that a matchmaker knows is durable."""
    durable: Durable

    def empty(self) -> Durable:
        return Durable()

    def after(self, record: kept.Record) -> None:
        d = self.durable
        match record:
            case kept.Match(i, grid):
                if len(d.entries) >= ROUNDS:
                    d.entries = [it for it in d.entries if it.round == d.watermark or it.grid != grid]
                d.entries.append(Entry(i, grid))
            case kept.Garbage(i, grid):
                d.watermark = i
                d.entries = [it for it in d.entries if it.round >= i]
                if not self.has(i):
                    d.entries.insert(0, Entry(i, grid))
            case kept.Stop(b):
                d.ballot = b
            case kept.Next(b, ids):
                d.ballot, d.accepted, d.next = b, b, ids
            case kept.Boot(ids, w, entries):
                d.booted, d.watermark, d.entries = ids, w, list(entries)

    def has(self, i: Round) -> bool:
        """Whether a round is recorded."""
        return any(it.round == i for it in self.durable.entries)

    def has_room(self, grid: Grid) -> bool:
        """Whether a round with this grid can be recorded: there are few, or it can take the place of one with its grid."""
        entries = self.durable.entries
        others = self.cluster.one_entry_a_grid and any(it.grid == grid for it in entries)
        return len(entries) < ROUNDS or (others and len(entries) < JOINED)

    @property
    def set(self) -> Set | None:
        """The set that it is a member of: it began in it, or it is one of the first."""
        if self.durable.booted is None and self.me.index in self.cluster.first_set:
            return self.cluster.first_set
        return self.durable.booted

    def at_work(self) -> Outcome | None:
        """Why it answers no leader and no reader, if it doesn't: it isn't of a set as yet, or it has stopped."""
        return refused(new=self.set is None, stopped=self.durable.ballot != NO_ROUND)

    def match_read(self, reader: Role, asking: Asking) -> Outcome:
        """A reader asks for the retirement watermark and all entries."""
        d = self.durable
        return self.at_work() or Outcome("asked", [self.send(reader, msg.MatchReadAck(asking, d.watermark, tuple(d.entries)))])

    def match_a(self, leader: Role, i: Round, grid: Grid) -> Outcome:
        """A leader asks for the earlier rounds and their grids."""
        d = self.durable
        if no := self.at_work():
            return no
        greatest = d.entries[-1].round if d.entries else NO_ROUND
        if i < d.watermark:
            return Outcome("collected", [self.send(leader, msg.MatchNack(i, "collected", d.watermark))])
        if any(i < it.round for it in d.entries):
            return Outcome("later", [self.send(leader, msg.MatchNack(i, "later", greatest))])
        matched = [self.send(leader, msg.MatchB(i, d.watermark, tuple(it for it in d.entries if it.round < i)))]
        if self.has(i):
            all_told = [self.send(leader, msg.MatchB(i, d.watermark, tuple(d.entries)))]
            return Outcome("same", all_told if self.cluster.one_entry_a_grid else matched)
        if not self.has_room(grid):
            return Outcome("full", [self.send(leader, msg.MatchNack(i, "full", greatest))])
        return Outcome("matched", matched, kept.Match(i, grid))

    def garbage_a(self, leader: Role, i: Round, grid: Grid) -> Outcome:
        """A leader asks to forget the rounds below its own; its own entry stays, or is made."""
        forgotten = [self.send(leader, msg.GarbageB(i))]
        if no := self.at_work():
            return no
        return Outcome("raised", forgotten, kept.Garbage(i, grid)) if self.durable.watermark < i else Outcome("same", forgotten)

    def stop_a(self, replacer: Role, b: Round) -> Outcome:
        """A replacer asks it to stop."""
        d = self.durable
        if no := self.not_voting(replacer, b):
            return no
        stopped = [self.send(replacer, msg.StopB(b, d.watermark, tuple(d.entries), d.accepted, d.next))]
        return Outcome("same", stopped) if b == d.ballot else Outcome("halted", stopped, kept.Stop(b))

    def next_a(self, replacer: Role, b: Round, ids: Set) -> Outcome:
        """A replacer asks it to accept the next set."""
        d = self.durable
        if no := self.not_voting(replacer, b):
            return no
        accepted = [self.send(replacer, msg.NextB(b))]
        return Outcome("same", accepted) if b == d.accepted else Outcome("accepted", accepted, kept.Next(b, ids))

    def not_voting(self, replacer: Role, b: Round) -> Outcome | None:
        """Why it doesn't answer a ballot, if it doesn't: it isn't of a set as yet, or it promised a greater one."""
        nack = Outcome("nack", [self.send(replacer, msg.StopNack(b, self.durable.ballot))])
        return refused(new=self.set is None) or (nack if b < self.durable.ballot else None)

    def boot_a(self, replacer: Role, ids: Set, w: Round, entries: tuple[Entry, ...]) -> Outcome:
        """A replacer asks it to begin in a set that was decided."""
        if no := refused(unasked=self.me.index not in ids, old=self.set not in (None, ids)):
            return no
        booted = [self.send(replacer, msg.BootB(ids))]
        return Outcome("same", booted) if self.set else Outcome("booted", booted, kept.Boot(ids, w, entries))

    ROWS = {msg.MatchA: match_a, msg.GarbageA: garbage_a, msg.MatchRead: match_read, msg.StopA: stop_a, msg.NextA: next_a, msg.BootA: boot_a}
