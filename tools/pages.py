"""What stands where in a picture of a trace: rows and columns, and where labels have room."""

import math
from collections import defaultdict
from dataclasses import dataclass

from traces import FORGETS

KINDS = ["client", "batcher", "leader", "match", "proxy", "acceptor", "replica", "unbatcher", "reader", "replacer"]     # from left to right

# Lengths are in pixels.
EDGE = 14               # around everything
ROW = 28                # the height of an event
MARK = 19               # the height of a mark at the right edge
BAND = 40               # after so many events the names of the roles stand again
STUB = 28               # the arrow of a datagram that is never delivered
BESIDE = 9              # from a role's line to a label beside it
SIZES = {"role": 12.5, "row": 11, "word": 12, "name": 10.5, "mark": 11.5}      # of text
LONGEST = {"row": 24, "mark": 48}       # letters of a text at an edge


def width(kind, said):
    """About how wide a text is."""
    return len(said) * SIZES[kind] * (0.58 if kind == "role" else 0.53)


def place(role):
    """Where a role stands among all: by its kind, then by its number."""
    kind, _, index = role.partition(":")
    return (KINDS.index(kind) if kind in KINDS else len(KINDS), kind, int(index))


def cut(kind, said):
    return said if len(said) <= LONGEST[kind] else said[:LONGEST[kind] - 2] + ".."


def row_text(event):
    """What stands at the left edge of an event's row: also its result, where it happens at no role."""
    return cut("row", f"@{event.number} {event.what}" + ("" if event.who else f" {event.word}"))


def marks(event):
    """What is said of an event at the right edge: the class and the text of each mark."""
    chosen = [] if event.slot is None else [("chosen", f"slot {event.slot} chosen")]
    return chosen + [("answer", it) for it in event.answers]


def sign_of(event):
    """What stands on the line of life of an event's role."""
    if marks(event):
        return marks(event)[0][0]
    return "snap" if event.word == FORGETS else "event"


@dataclass
class Line:
    """A straight line, downwards."""
    x1: float
    y1: float
    x2: float
    y2: float

    def at(self, y):
        return self.x1 + (self.x2 - self.x1) * (y - self.y1) / (self.y2 - self.y1)

    def crosses(self, box):
        left, top, right, bottom = box
        top, bottom = max(top, self.y1), min(bottom, self.y2)
        if top >= bottom:
            return False
        x, other = self.at(top), self.at(bottom)
        return min(x, other) < right and left < max(x, other)

    def shortened(self, by):
        """The line without its last part."""
        length = math.hypot(self.x2 - self.x1, self.y2 - self.y1)
        part = 1 - by / length
        return Line(self.x1, self.y1, self.x1 + (self.x2 - self.x1) * part, self.y1 + (self.y2 - self.y1) * part)


class Room:
    """Which boxes on a page are taken, and by which lines boxes are crossed. A box is left, top, right and bottom."""

    def __init__(self):
        self.boxes = defaultdict(list)      # by shelves, stripes of the page
        self.lines = defaultdict(list)

    @staticmethod
    def shelves(top, bottom):
        return range(int(top // 64), int(bottom // 64) + 1)

    def is_free(self, box):
        left, top, right, bottom = box
        return not any(left < it[2] and it[0] < right and top < it[3] and it[1] < bottom
                       for shelf in self.shelves(top, bottom) for it in self.boxes[shelf])

    def take(self, box):
        for shelf in self.shelves(box[1], box[3]):
            self.boxes[shelf].append(box)

    def cross(self, line):
        for shelf in self.shelves(line.y1, line.y2):
            self.lines[shelf].append(line)

    def crossings(self, box):
        return sum(line.crosses(box) for shelf in self.shelves(box[1], box[3]) for line in self.lines[shelf])

    def best(self, boxes):
        """Takes the free box that the fewest lines cross, the first of several, and returns it; None if none is free."""
        found = min(filter(self.is_free, boxes), key=self.crossings, default=None)
        if found:
            self.take(found)
        return found


class Page:
    """The rows and columns of the events from `first` to `last`, of all those of a trace. `top` is where its rows begin."""

    def __init__(self, events, first, last):
        self.events = [it for it in events if first <= it.number <= last]
        self.first, self.last = self.events[0].number, self.events[-1].number
        self.datagrams = self.of_events()
        self.roles = sorted({role for it in self.datagrams for role in (it.sender, it.receiver)}
                            | {it.who for it in self.events if it.who}, key=place)
        self.set_columns()
        self.set_rows(0)

    def of_events(self):
        """The datagrams that these events send or deliver, by their numbers."""
        found = {it.number: it for event in self.events for it in [*event.sent, *filter(None, [event.delivered])]}
        return [found[number] for number in sorted(found)]

    def set_columns(self):
        self.left = 2 * EDGE + max(width("row", row_text(it)) for it in self.events)
        self.lane = max([48, *(width("role", it) + 12 for it in self.roles), *(width("name", it.name) + 12 for it in self.datagrams),
                         *(width("word", it.word) + 2 * BESIDE for it in self.events)])
        self.columns = {role: self.left + self.lane * (at + 0.5) for at, role in enumerate(self.roles)}
        self.right = self.left + self.lane * (len(self.roles) + 0.4)
        margin = max((width("mark", cut("mark", said)) + 12 for it in self.events for _, said in marks(it)), default=0)
        self.width = max(self.right + margin + EDGE, 420)

    def set_rows(self, top):
        self.top, self.rows, self.bands = top, {}, []
        y = top
        for at, event in enumerate(self.events):
            if at % BAND == 0 and 0 < at < len(self.events) - BAND // 4:
                self.bands.append(y + ROW)
                y += ROW
            y += max(ROW, MARK * len(marks(event)))
            self.rows[event.number] = y
        self.bottom = y + ROW

    def y(self, event):
        """The height of an event; an edge for one that isn't shown, the lower one for none."""
        return self.rows.get(event, self.top if event and event < self.first else self.bottom)

    def side(self, datagram):
        """On which side of its sender a datagram goes: 1 is right, -1 left."""
        return 1 if place(datagram.receiver) >= place(datagram.sender) else -1

    def arrow(self, datagram, arrival):
        """The line of a delivery; at an edge its end is at the role's line."""
        return Line(self.columns[datagram.sender], self.y(datagram.sent), self.columns[datagram.receiver], self.y(arrival))

    def shows(self, datagram, arrival):
        """Whether a delivery, or the sending before it, is shown."""
        return arrival >= self.first and datagram.sent <= self.last and (arrival <= self.last or datagram.sent >= self.first)

    def deliveries(self):
        """The deliveries that the page shows: each a datagram, and the event that delivers it."""
        return [(it, arrival) for it in self.datagrams for arrival in it.arrivals if self.shows(it, arrival)]

    def stubs(self, event):
        """The datagrams of an event that are never delivered, and the line of each: a short one, towards the receiver."""
        found = []
        for side in (-1, 1):
            lost = [it for it in event.sent if not it.arrivals and self.side(it) == side]
            x, y = self.columns.get(event.who), self.rows[event.number]
            for at, datagram in enumerate(lost):
                angle = math.radians(14 + at * min(22, 60 / max(len(lost) - 1, 1)))
                found.append((datagram, Line(x, y, x + side * STUB * math.cos(angle), y + STUB * math.sin(angle))))
        return found
