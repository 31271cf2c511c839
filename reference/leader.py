"""The leader: it begins rounds and retires the earlier ones, and gives each batch a slot while it leads.

From cx_model/specs (Leader, Plan, Collection) (JSys 2021 for rounds, VLDB 2021 for slots).
"""

from dataclasses import dataclass, field
from typing import NamedTuple

import messages as msg
import records as kept
from events import Change, Collect, Lead
from matched import MatchAnswer, is_counted, live_entries, members_of, rows_whole
from messages import Letter
from rules import Outcome, Rules, refused
from terms import NO_ROUND, NOOP, SLOTS, WINDOW, Command, Entry, Grid, Placed, Role, Round, Set, Vote, change_after, is_above, lead_after

IDLE, MATCHING, PHASE1, LEADING = "idle", "matching", "phase1", "leading"
OFF, INFORMING, COLLECTING, RETIRED = "off", "informing", "collecting", "retired"


# An acceptor's answer that was counted: what it voted from the slot `cw` on.
Promised = NamedTuple("Promised", [("acceptor", int), ("cw", int), ("votes", tuple[Vote, ...])])


@dataclass(slots=True)
class Collection:
    """How far it is in retiring earlier rounds: the stage, the number of slots that is sent, and who has answered in this stage."""
    stage: str = OFF
    mark: int = 0
    counted: set[int] = field(default_factory=set)


@dataclass(slots=True)
class Volatile:
    """What it is doing; the greatest round that a refusal named; the set of matchmakers that it knows; the greatest number of slots that each
    replica reported; the answers that it counted; the chosen watermark, the next free slot, and the slot behind the last one that it proposed
    when it began to lead; the values that it proposed from the chosen watermark on, and which of these slots it knows to be chosen in its
    round; and how far it is in retiring the earlier rounds."""
    set: Set
    held: list[int]
    mode: str = IDLE
    seen: Round = NO_ROUND
    told: list[MatchAnswer] = field(default_factory=list)
    promises: list[Promised] = field(default_factory=list)
    cw: int = 0
    next: int = 0
    end: int = 0
    proposed: list[Placed] = field(default_factory=list)
    chosen: set[int] = field(default_factory=set)
    collection: Collection = field(default_factory=Collection)


def plan(low: int, promises: list[Promised]) -> tuple[int, list[Placed]]:
    """From the greatest chosen watermark reported, and at least this one, to after the greatest slot reported: in each slot the value of the
    greatest round voted there, of several votes of that round the one counted first, or nothing to do."""
    cw = max([low, *(it.cw for it in promises)])
    best: dict[int, Vote] = {}
    for promised in promises:
        for vote in promised.votes:
            if vote.slot not in best or best[vote.slot].round < vote.round:
                best[vote.slot] = vote
    end = max([cw, *(s + 1 for s in best)])
    return cw, [Placed(s, best[s].value if s in best else NOOP) for s in range(cw, end)]


def held_by(count: int, held: list[int]) -> int:
    """The greatest of the numbers that so many of them reach."""
    return max((n for n in held if sum(it >= n for it in held) >= count), default=0)


class Leader(Rules):
    """Its durable part is its last round with its grid; no round of a leader that never began one, which is idle."""
    durable: Entry
    volatile: Volatile

    def empty(self) -> Entry:
        return Entry(NO_ROUND, Grid(0, 0, ()))

    def after(self, record: kept.Round) -> None:
        self.durable = Entry(*record)

    def fresh(self) -> Volatile:
        return Volatile(set=self.cluster.first_set, held=[0] * self.cluster.replicas)

    @property
    def own(self) -> Round:
        """Its own last round."""
        return self.durable.round

    def is_in(self, mode: str, i: Round) -> bool:
        """Whether it does this, and a datagram is of its own round."""
        return self.volatile.mode == mode and i == self.own

    # ---- orders

    def lead(self, grid: Grid) -> Outcome:
        """A round above all that it has seen."""
        return self.begin(grid, lead_after(self.own, self.volatile.seen, self.me.index))

    def change(self, grid: Grid) -> Outcome:
        """It goes on with another grid, in the next round of its own."""
        return refused(idle=self.volatile.mode != LEADING) or self.begin(grid, change_after(self.own))

    def begin(self, grid: Grid, i: Round | None) -> Outcome:
        """It begins a round, if there is one: the round is kept before the matchmakers are asked to record it."""
        if i is None:
            return Outcome("end")
        v = self.volatile
        v.mode, v.told, v.promises, v.collection = MATCHING, [], [], Collection()
        return Outcome("started", self.ask_matchmakers(msg.MatchA(i, grid)), kept.Round(i, grid))

    def collect(self) -> Outcome:
        """The order to retire all earlier rounds: all that it proposed when it began to lead has to be known to be chosen."""
        v = self.volatile
        settled = all(s in v.chosen for s in range(v.cw, v.end))
        if no := refused(idle=v.mode != LEADING, same=v.collection.stage != OFF, waiting=not settled):
            return no
        v.collection = Collection(INFORMING, v.cw)
        return Outcome("informing", self.stage_sends())

    # ---- datagrams

    def match_b(self, sender: Role, i: Round, w: Round, entries: tuple[Entry, ...]) -> Outcome:
        """A matchmaker answers. Enough answers lead a round that came by a change, which asks no acceptor; another one to its first phase."""
        v, matchmaker = self.volatile, sender.index
        if no := refused(old=not self.is_in(MATCHING, i) or matchmaker not in v.set, same=is_counted(matchmaker, v.told)):
            return no
        v.told.append(MatchAnswer(matchmaker, w, entries))
        if len(v.told) < self.cluster.enough:
            return Outcome("counted")
        if self.own.s > 0:
            v.mode, v.end, v.chosen = LEADING, v.next, set()
            return Outcome("bypassed", self.propose_all(v.proposed) + self.tell_batchers())
        if not (live := live_entries(v.told)):
            return self.finish()
        v.mode = PHASE1
        return Outcome("phase1", self.send_all("acceptor", members_of(live), msg.Phase1A(self.own)))

    def phase1b(self, sender: Role, i: Round, cw: int, votes: tuple[Vote, ...]) -> Outcome:
        """An acceptor promises, and reports its votes; the phase ends when each live grid has a whole row."""
        v, acceptor, live = self.volatile, sender.index, live_entries(self.volatile.told)
        if no := refused(old=not self.is_in(PHASE1, i), unasked=not any(acceptor in it.grid.members for it in live),
                         same=any(it.acceptor == acceptor for it in v.promises)):
            return no
        v.promises.append(Promised(acceptor, cw, votes))
        return self.finish() if rows_whole(live, (it.acceptor for it in v.promises)) else Outcome("counted")

    def finish(self) -> Outcome:
        """Its first phase is done: it leads, and proposes what the plan says."""
        v = self.volatile
        v.cw, v.proposed = plan(v.cw, v.promises)
        v.mode, v.promises, v.chosen = LEADING, [], set()
        v.next = v.end = v.cw + len(v.proposed)
        return Outcome("leads", self.propose_all(v.proposed) + self.tell_batchers())

    def nack(self, sender: Role, i: Round, promise: Round) -> Outcome:
        """An acceptor has promised a greater round, which is noted whatever the answer."""
        v = self.volatile
        v.seen = max(v.seen, promise)
        if no := refused(old=v.mode == IDLE or i != self.own):
            return no
        v.mode = IDLE
        return Outcome("nacked")

    def match_nack(self, sender: Role, i: Round, reason: str, other: Round) -> Outcome:
        """A matchmaker doesn't record the round, and reports a greater one; where it has no room the leader goes on."""
        v = self.volatile
        v.seen = max(v.seen, other)
        if no := refused(old=v.mode == IDLE or i != self.own or sender.index not in v.set, full=reason == "full"):
            return no
        v.mode = IDLE
        return Outcome("nacked")

    def batch(self, sender: Role, commands: tuple[Command, ...]) -> Outcome:
        """A batcher hands in a batch, which gets the next free slot of the window."""
        v = self.volatile
        if no := refused(idle=v.mode != LEADING, window=v.next in (v.cw + WINDOW, SLOTS)):
            return no
        v.proposed.append(Placed(v.next, commands))
        v.next += 1
        return Outcome("proposed", self.propose_all(v.proposed[-1:]))

    def chosen_in(self, sender: Role, i: Round, s: int) -> Outcome:
        """A proxy leader reports that a slot is chosen in this round."""
        v = self.volatile
        if no := refused(old=not self.is_in(LEADING, i), past=s < v.cw, unasked=s >= v.next, same=s in v.chosen):
            return no
        v.chosen.add(s)
        return Outcome("chosen")

    def held(self, replica: Role, n: int) -> Outcome:
        """A replica reports how many slots it holds. What f + 1 replicas hold is never lost, and is the chosen watermark: the slots below it are
        forgotten, and none of them is free."""
        v = self.volatile
        if no := refused(same=n <= v.held[replica.index]):
            return no
        v.held[replica.index] = n
        v.cw = max(v.cw, held_by(self.cluster.enough, v.held))
        v.next = max(v.next, v.cw)
        v.proposed = [it for it in v.proposed if it.slot >= v.cw]
        v.chosen = {s for s in v.chosen if s >= v.cw}
        return Outcome("held")

    def informed(self, acceptor: Role, i: Round, cw: int) -> Outcome:
        """An acceptor of its grid knows how many slots are held; a whole column ends the stage."""
        v, k = self.volatile, self.volatile.collection
        if no := refused(old=not self.is_in(LEADING, i) or k.stage != INFORMING or cw < k.mark,
                         unasked=acceptor.index not in self.durable.grid.members, same=acceptor.index in k.counted):
            return no
        k.counted.add(acceptor.index)
        if not self.durable.grid.column_whole(k.counted):
            return Outcome("counted")
        v.collection = Collection(COLLECTING, k.mark)
        return Outcome("collecting", self.stage_sends())

    def garbage_b(self, matchmaker: Role, i: Round) -> Outcome:
        """A matchmaker has forgotten the earlier rounds; enough of them end the stage."""
        v, k = self.volatile, self.volatile.collection
        if no := refused(old=not self.is_in(LEADING, i) or k.stage != COLLECTING or matchmaker.index not in v.set,
                         same=matchmaker.index in k.counted):
            return no
        k.counted.add(matchmaker.index)
        if len(k.counted) < self.cluster.enough:
            return Outcome("counted")
        k.stage = RETIRED
        return Outcome("retired")

    def learn(self, replacer: Role, ids: Set) -> Outcome:
        """A replacer sends a set that took over: its members are asked the same, and what was counted of the earlier set goes."""
        v = self.volatile
        if no := refused(old=not is_above(ids, v.set)):
            return no
        v.set = ids
        if v.mode == MATCHING:
            v.told = []
            return Outcome("learnt", self.ask_matchmakers(msg.MatchA(*self.durable)))
        if v.mode == LEADING and v.collection.stage == COLLECTING:
            v.collection.counted = set()
            return Outcome("learnt", self.stage_sends())
        return Outcome("learnt")

    ROWS = {Lead: lead, Change: change, Collect: collect, msg.MatchB: match_b, msg.MatchNack: match_nack, msg.Phase1B: phase1b, msg.Nack: nack,
            msg.Batch: batch, msg.ChosenIn: chosen_in, msg.Held: held, msg.Informed: informed, msg.GarbageB: garbage_b, msg.Sets: learn}

    # ---- what is sent, and sent again

    def tick(self) -> Outcome:
        """What is waited for is asked again: the values whose slots aren't known to be chosen are proposed again."""
        v = self.volatile
        if v.mode == IDLE:
            return Outcome("idle")
        if v.mode == MATCHING:
            return Outcome("resent", self.ask_matchmakers(msg.MatchA(*self.durable)))
        if v.mode == PHASE1:
            return Outcome("resent", self.send_all("acceptor", members_of(live_entries(v.told)), msg.Phase1A(self.own)))
        unknown = [it for it in v.proposed if it.slot not in v.chosen]
        return Outcome("resent", self.propose_all(unknown) + self.tell_batchers() + self.stage_sends())

    def ask_matchmakers(self, body: msg.Msg) -> list[Letter]:
        """The members of the known set are asked."""
        return self.send_all("match", self.volatile.set, body)

    def propose_all(self, proposed: list[Placed]) -> list[Letter]:
        """Values are proposed in its round, each by the proxy leader that its slot belongs to."""
        return [self.send(Role("proxy", self.cluster.proxy_of(self.me.index, it.slot)),
                          msg.Propose(*self.durable, it.slot, self.volatile.cw, it.value)) for it in proposed]

    def tell_batchers(self) -> list[Letter]:
        """All batchers are told that it leads."""
        return self.send_all("batcher", range(self.cluster.batchers), msg.Leads(self.own))

    def stage_sends(self) -> list[Letter]:
        """What the present stage of retiring asks."""
        k = self.volatile.collection
        if k.stage == INFORMING:
            return self.send_all("acceptor", sorted(self.durable.grid.members), msg.Inform(self.own, k.mark))
        return self.ask_matchmakers(msg.GarbageA(*self.durable)) if k.stage == COLLECTING else []
