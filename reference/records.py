"""What roles store: a record of these is appended to a role's list. From cx_letter/src/kept.rt."""

from typing import NamedTuple

from terms import Answered, Entry, Grid, Round as AnyRound, Set, Value, Vote as CastVote

ROUND, BALLOT, GRID, VALUES = ("round", AnyRound), ("ballot", AnyRound), ("grid", Grid), ("values", tuple[Value, ...])

# of an acceptor: it promises a round; it votes, where enough replicas hold all slots below cw; it learns that they hold so many
Promise = NamedTuple("Promise", [ROUND])
Vote = NamedTuple("Vote", [ROUND, ("slot", int), ("cw", int), ("value", Value)])
Water = NamedTuple("Water", [ROUND, ("mark", int)])
# or its list begins anew, with its promise, one more than the greatest slot voted at, the chosen watermark, and its votes from there on
Voted = NamedTuple("Voted", [ROUND, ("top", int), ("cw", int), ("votes", tuple[CastVote, ...])])
# of a matchmaker: it records a round, forgets those below one, stops under a ballot, accepts the next set, begins in a set
Match = NamedTuple("Match", [ROUND, GRID])
Garbage = NamedTuple("Garbage", [ROUND, GRID])
Stop = NamedTuple("Stop", [BALLOT])
Next = NamedTuple("Next", [BALLOT, ("set", Set)])
Boot = NamedTuple("Boot", [("set", Set), ("watermark", AnyRound), ("entries", tuple[Entry, ...])])
# a leader begins a round, a reader uses its next turn, a replacer begins a ballot, or comes to know a set
Round = NamedTuple("Round", [ROUND, GRID])
Turn = NamedTuple("Turn", [("turn", int)])
Ballot = NamedTuple("Ballot", [BALLOT])
Known = NamedTuple("Known", [("set", Set)])
# of a replica: it executes values; or its list begins anew, with how far it goes, its map, its client table, and values executed before
Log = NamedTuple("Log", [VALUES])
Base = NamedTuple("Base", [("first", int), ("held", int), ("pairs", int), ("clients", int)])
Pairs = NamedTuple("Pairs", [("pairs", tuple[tuple[str, str], ...])])
Notes = NamedTuple("Notes", [("client", int), ("floor", int), ("answers", tuple[Answered, ...])])
Tail = NamedTuple("Tail", [VALUES])

Record = Promise | Vote | Water | Voted | Match | Garbage | Stop | Next | Boot | Round | Turn | Ballot | Known | Log | Base | Pairs | Notes | Tail
