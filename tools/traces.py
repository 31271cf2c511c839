"""Reads a trace, the text that `compax replay` prints: its events, the datagrams that they send, and who was answered."""

import re
from dataclasses import dataclass, field

EVENT = re.compile(r"@(\d+) ([a-z]+)(?: (\d+))?(?: ([a-z]+:\d+))?(?: (\d+(?:/\d+)?))? ([a-z0-9]+)")
DATAGRAM = re.compile(r"\+(\d+) ([a-z]+:\d+) ([a-z]+:\d+) (\w+) ?([0-9a-f]*)")
ANSWER = re.compile(r"(?:answer|read) client:\d+ .*")
SUMMARY = re.compile(r"chosen \d+")

STOPS = {"crashed", "torn", "kept"}     # the results after which the role is stopped
OPENS = "opened"                        # and the one after which it runs again
FORGETS = "snapped"                     # a role puts its list anew; a replica forgets values by that


class Unreadable(Exception):
    """The text is no trace, or lacks what is asked for."""


@dataclass
class Datagram:
    number: int
    sender: str
    receiver: str
    name: str
    body: str                                           # in hexadecimal
    sent: int                                           # the event that sends it
    arrivals: list[int] = field(default_factory=list)   # the events that deliver it

    def __str__(self):
        return f"+{self.number} {self.sender} {self.receiver} {self.name} {self.body}"


@dataclass
class Event:
    number: int
    what: str                       # its first word, and a number where it has one
    who: str | None                 # None where the datagram to deliver was never sent
    word: str                       # its result
    delivered: Datagram | None
    line: str
    sent: list[Datagram] = field(default_factory=list)
    answers: list[str] = field(default_factory=list)    # lines of answers to clients, which it sends

    @property
    def slot(self):
        """The slot that a proxy leader finds chosen here, or None. The body of a Chosen begins with the slot, in eight bytes."""
        bodies = [it.body for it in self.sent if it.name == "Chosen"] if self.word == "chosen" else []
        return int(bodies[0][:16], 16) if bodies else None


def event_of(line, datagrams):
    """The event of a line, or None if the line has another form."""
    if not (found := EVENT.fullmatch(line)):
        return None
    number, kind, delivered, who, request, word = found.groups()
    datagram = datagrams.get(int(delivered)) if delivered else None
    if delivered and who and datagram is None:
        raise Unreadable(f"datagram {delivered} is delivered, but no line before it sends it")
    return Event(int(number), " ".join(filter(None, [kind, delivered or request])), who, word, datagram, line)


def add(line, events, datagrams):
    """Adds what a line says."""
    if event := event_of(line, datagrams):
        if event.number != len(events) + 1:
            raise Unreadable(f"this is event {event.number}, but event {len(events) + 1} comes next")
        if event.delivered:
            event.delivered.arrivals.append(event.number)
        events.append(event)
    elif events and (found := DATAGRAM.fullmatch(line)):
        datagram = Datagram(int(found[1]), *found.groups()[1:], events[-1].number)
        datagrams[datagram.number] = datagram
        events[-1].sent.append(datagram)
    elif events and ANSWER.fullmatch(line):
        events[-1].answers.append(line)
    else:
        raise Unreadable(f"this is no line of a trace: {line[:80]!r}")


def events_of(text):
    """The events of a trace. The summary at its end is passed over, and all that follows."""
    events, datagrams = [], {}
    for number, line in enumerate(text.splitlines(), 1):
        if SUMMARY.fullmatch(line):
            break
        try:
            add(line, events, datagrams)
        except Unreadable as error:
            raise Unreadable(f"line {number}: {error}") from None
    if not events:
        raise Unreadable("it has no event")
    return events


def stops_of(events):
    """When each role is stopped: pairs of the event that stops it and the one that opens it, or None if none does."""
    stops = {}
    for event in events:
        if event.word in STOPS:
            stops.setdefault(event.who, []).append((event.number, None))
        elif event.word == OPENS and event.who in stops:
            stops[event.who][-1] = (stops[event.who][-1][0], event.number)
    return stops
