"""The messages, in the order of their numbers; docs/ARCHITECTURE.md ("The protocol") shows who sends and who gets each.

From cx_letter/specs (Letter, Messages).
"""

from typing import NamedTuple

from terms import Answered, Asking, Command, Entry, Grid, Reply, Role, Round, Set, Token, Value, Vote

ROUND, BALLOT, WATERMARK, ENTRIES, SLOT = ("round", Round), ("ballot", Round), ("watermark", Round), ("entries", tuple[Entry, ...]), ("slot", int)
CW, MARK, SEQ, ASKING, VALUE = ("cw", int), ("mark", int), ("seq", int), ("asking", Asking), ("value", Value)

Submit = NamedTuple("Submit", [("command", Command)])                       # a client hands in a command
Batch = NamedTuple("Batch", [("commands", Value)])                          # a batcher hands in a batch
Leads = NamedTuple("Leads", [ROUND])                                        # a leader leads in this round
MatchA = NamedTuple("MatchA", [ROUND, ("grid", Grid)])                      # a leader asks to record its round
MatchB = NamedTuple("MatchB", [ROUND, WATERMARK, ENTRIES])                  # the earlier rounds that are recorded
MatchNack = NamedTuple("MatchNack", [ROUND, ("reason", str), ("other", Round)])     # refused: `collected`, `later` or `full`
Phase1A = NamedTuple("Phase1A", [ROUND])                                    # a leader asks for a promise
Phase1B = NamedTuple("Phase1B", [ROUND, CW, ("votes", tuple[Vote, ...])])   # an acceptor promises, and reports its votes
Nack = NamedTuple("Nack", [ROUND, ("promise", Round)])                      # an acceptor has promised a greater round
Propose = NamedTuple("Propose", [ROUND, ("grid", Grid), SLOT, CW, VALUE])   # a leader hands over a value for a slot
Phase2A = NamedTuple("Phase2A", [ROUND, SLOT, CW, VALUE])                   # a proxy leader asks for a vote
Phase2B = NamedTuple("Phase2B", [ROUND, SLOT])                              # an acceptor has voted
Chosen = NamedTuple("Chosen", [SLOT, VALUE])                                # a value is chosen for a slot
ChosenIn = NamedTuple("ChosenIn", [ROUND, SLOT])                            # a slot is chosen in this round
Results = NamedTuple("Results", [SLOT, ("answers", tuple[Answered, ...])])  # the answers to the commands of a slot
Answer = NamedTuple("Answer", [SEQ, ("at", int), ("reply", Reply)])         # a client's answer
Held = NamedTuple("Held", [MARK])                                           # so many slots a replica holds
Fetch = NamedTuple("Fetch", [MARK])                                         # a replica asks for the value of this slot
Inform = NamedTuple("Inform", [ROUND, MARK])                                # so many slots are held by enough replicas
Informed = NamedTuple("Informed", [ROUND, MARK])                            # an acceptor has stored that
GarbageA = NamedTuple("GarbageA", [ROUND, ("grid", Grid)])                  # a leader asks to forget the rounds below its own
GarbageB = NamedTuple("GarbageB", [ROUND])                                  # a matchmaker has forgotten them
ReadReq = NamedTuple("ReadReq", [SEQ, ("replica", int), ("key", str)])      # a client asks for a key
MatchRead = NamedTuple("MatchRead", [ASKING])                               # a reader asks for all live rounds
MatchReadAck = NamedTuple("MatchReadAck", [ASKING, WATERMARK, ENTRIES])     # all rounds that are recorded
PreRead = NamedTuple("PreRead", [ASKING, WATERMARK])                        # from which slot on has an acceptor never voted?
PreReadAck = NamedTuple("PreReadAck", [ASKING, WATERMARK, MARK])            # from this one on
Read = NamedTuple("Read", [("token", Token), MARK, ("key", str)])           # a reader asks a replica, once it holds so many slots
ReadAnswer = NamedTuple("ReadAnswer", [SEQ, MARK, ("text", str | None)])    # what a read found after so many slots
StopA = NamedTuple("StopA", [BALLOT])                                       # a replacer asks a matchmaker to stop
StopB = NamedTuple("StopB", [BALLOT, WATERMARK, ENTRIES, ("accepted", Round), ("next", Set)])   # it has; the next set that it accepted last
StopNack = NamedTuple("StopNack", [BALLOT, ("other", Round)])               # a matchmaker has promised a greater ballot
NextA = NamedTuple("NextA", [BALLOT, ("set", Set)])                         # a replacer asks to accept the next set
NextB = NamedTuple("NextB", [BALLOT])                                       # a matchmaker has
BootA = NamedTuple("BootA", [("set", Set), WATERMARK, ENTRIES])             # a replacer asks to begin with this in the next set
BootB = NamedTuple("BootB", [("set", Set)])                                 # a matchmaker has
Sets = NamedTuple("Sets", [("set", Set)])                                   # this set is at work
SessRead = NamedTuple("SessRead", [SEQ, MARK, ("key", str)])                # a client in a session asks a replica

Msg = (Submit | Batch | Leads | MatchA | MatchB | MatchNack | Phase1A | Phase1B | Nack | Propose | Phase2A | Phase2B | Chosen | ChosenIn | Results
       | Answer | Held | Fetch | Inform | Informed | GarbageA | GarbageB | ReadReq | MatchRead | MatchReadAck | PreRead | PreReadAck | Read
       | ReadAnswer | StopA | StopB | StopNack | NextA | NextB | BootA | BootB | Sets | SessRead)
Letter = NamedTuple("Letter", [("sender", Role), ("to", Role), ("msg", Msg)])       # a datagram
