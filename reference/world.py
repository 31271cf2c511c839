"""The run of a list of events: all roles, what was stored and sent, and what clients asked and heard.

From cx_model/specs (World, Request, Heard).
"""

from typing import NamedTuple

from acceptor import Acceptor
from batcher import Batcher, Unbatcher
from events import Crash, Deliver, Event, Ordered, Read, Request, Restart, Session, Snap, Tick, Write
from leader import Leader
from matchmaker import Matchmaker
from messages import Answer, Letter, ReadAnswer, ReadReq, SessRead, Submit
from proxy import Proxy
from reader import Reader
from records import Record
from replacer import Replacer
from replica import Replica
from rules import Outcome, Rules
from terms import Cluster, Op, Role, Token

RULES: dict[str, type[Rules]] = {"batcher": Batcher, "leader": Leader, "proxy": Proxy, "acceptor": Acceptor, "match": Matchmaker,
                                 "replica": Replica, "unbatcher": Unbatcher, "reader": Reader, "replacer": Replacer}


Kept = NamedTuple("Kept", [("role", Role), ("what", Record | int)])     # a change of a store: a record, or the slot of a snap
Effect = NamedTuple("Effect", [("who", Role | None), ("why", str), ("sends", list[Letter])])     # what an event did, and at which role


class Clients:
    """What clients asked and heard, of all events so far."""

    def __init__(self) -> None:
        self.asked: dict[Token, tuple[type, Op | str]] = {}     # of each request that was sent: its kind, and what it asks
        self.floors: dict[int, int] = {}                        # the greatest floor that a client told in a request that was sent
        self.heard: dict[int, int] = {}                         # the greatest number in the answers that were delivered to a client

    def send(self, token: Token, floor: int, asks: tuple[type, Op | str]) -> bool:
        """A request is sent, unless it is stale: an earlier one that was sent has the same client and number but asks something else; or none has
        them, and one of the client's requests that were sent tells a floor that the number is not above."""
        client, seq = token
        greatest = self.floors.get(client, 0)
        if self.asked.get(token, asks) != asks or (token not in self.asked and seq <= greatest):
            return False
        self.asked[token], self.floors[client] = asks, max(floor, greatest)
        return True

    def hear(self, letter: Letter) -> None:
        """A datagram is delivered to a client."""
        match letter.msg:
            case Answer(_, n, _) | ReadAnswer(_, n, _):
                self.heard[letter.to.index] = max(n, self.heard.get(letter.to.index, 0))


class World:
    """A cluster's run. At its start all roles run."""

    def __init__(self, cluster: Cluster) -> None:
        names = [Role(kind, index) for kind in RULES for index in range(cluster.count_of(kind))]
        self.cluster = cluster
        self.roles = {name: RULES[name.kind](cluster, name) for name in names}
        self.clients = Clients()
        self.events = 0                 # how many there were
        self.kept: list[Kept] = []
        self.sent: list[Letter] = []

    def step(self, event: Event) -> Effect:
        """The next event. What it sends has the next numbers."""
        effect = self.change(event)
        self.events += 1
        self.sent += effect.sends
        return effect

    def change(self, event: Event) -> Effect:
        """What an event does."""
        match event:
            case Write() | Read() | Session():
                return self.ask(event)
            case Deliver(number, cut):
                return self.deliver(number, cut)
            case Tick(role):
                return self.turned(role, self.roles[role].ticked())
            case Ordered(role, order, cut):
                return self.turned(role, self.roles[role].ordered(order, cut))
            case Snap(role, cut):
                return self.turned(role, self.roles[role].snapped(cut))
            case Crash(role):
                return self.turned(role, self.roles[role].crash())
            case Restart(role):
                return self.turned(role, self.roles[role].restart())

    def turned(self, role: Role, o: Outcome) -> Effect:
        """What an act does at a role: the change of its store goes to the history."""
        if o.kept is not None:
            self.kept.append(Kept(role, o.kept))
        return Effect(role, o.why, list(o.sends))

    def deliver(self, number: int, cut: str) -> Effect:
        """A datagram is delivered, if one has this number; a client hears whatever it is given."""
        if number >= len(self.sent):
            return Effect(None, "absent", [])
        letter = self.sent[number]
        if letter.to.kind == "client":
            self.clients.hear(letter)
            return Effect(letter.to, "heard", [])
        return self.turned(letter.to, self.roles[letter.to].take(letter, cut))

    def ask(self, event: Request) -> Effect:
        """A client asks, unless its request is stale. In a session a replica is told of how many values the client has heard."""
        clients = self.clients
        match event:
            case Write(command, batcher):
                client, seq, floor, asked = command
                to, said = Role("batcher", batcher), Submit(command)
            case Read(client, seq, floor, reader, replica, asked):
                to, said = Role("reader", reader), ReadReq(seq, replica, asked)
            case Session(client, seq, floor, replica, asked):
                to, said = Role("replica", replica), SessRead(seq, clients.heard.get(client, 0), asked)
        me = Role("client", client)
        is_sent = clients.send(Token(client, seq), floor, (type(event), asked))
        return Effect(me, "sent", [Letter(me, to, said)]) if is_sent else Effect(me, "stale", [])
