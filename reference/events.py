"""What can happen in a run: the events, one a line of a schedule. From cx_base/src/event.rt."""

from typing import NamedTuple

from terms import Command, Grid, Role, Set

WHOLE, TORN, KEPT = "", "torn", "kept"          # whether a role crashes while its store is changed, and whether the change is then kept

# A client asks: with a command, by a reader, or one replica alone.
Write = NamedTuple("Write", [("command", Command), ("batcher", int)])
Read = NamedTuple("Read", [("client", int), ("seq", int), ("floor", int), ("reader", int), ("replica", int), ("key", str)])
Session = NamedTuple("Session", [("client", int), ("seq", int), ("floor", int), ("replica", int), ("key", str)])
Request = Write | Read | Session

# Orders to a leader: begin a round above all that it has seen, go on with another grid, retire all earlier rounds. One to a replacer, and one to a
# replica: send another one the values that are kept of 32 slots.
Lead = NamedTuple("Lead", [("grid", Grid)])
Change = NamedTuple("Change", [("grid", Grid)])
Collect = NamedTuple("Collect", [])
Replace = NamedTuple("Replace", [("set", Set)])
Offer = NamedTuple("Offer", [("to", int), ("slot", int)])
Order = Lead | Change | Collect | Replace | Offer

Deliver = NamedTuple("Deliver", [("number", int), ("cut", str)])            # the datagram of this number reaches its role
Ordered = NamedTuple("Ordered", [("role", Role), ("order", Order), ("cut", str)])
Snap = NamedTuple("Snap", [("role", Role), ("cut", str)])                   # a role puts its list anew
Tick = NamedTuple("Tick", [("role", Role)])                                 # a role sends again what it waits for
Crash = NamedTuple("Crash", [("role", Role)])                               # a role stops
Restart = NamedTuple("Restart", [("role", Role)])                           # a role is opened from its records

Event = Write | Read | Session | Deliver | Ordered | Snap | Tick | Crash | Restart
