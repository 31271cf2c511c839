"""Draws the page of a trace in SVG. Each function returns parts of the picture as text."""

from html import escape

from pages import BESIDE, EDGE, MARK, SIZES, Page, Room, cut, marks, row_text, sign_of, width
from traces import STOPS, stops_of

ROUNDS = {"Leads", "MatchA", "MatchB", "MatchNack", "Phase1A", "Phase1B", "Nack", "Inform", "Informed", "GarbageA", "GarbageB"}
READS = {"ReadReq", "MatchRead", "MatchReadAck", "PreRead", "PreReadAck", "Read", "ReadAnswer", "SessRead"}
SETS = {"StopA", "StopB", "StopNack", "NextA", "NextB", "BootA", "BootB", "Sets"}
ANSWERS = {"Answer", "ReadAnswer"}                                          # to clients
COLOURS = {"command": "#0072b2", "round": "#b34700", "read": "#007a5a", "set": "#882255"}  # dark in print, and told apart by the colour-blind
SIGN = 32               # a legend's sign, and the space behind it
WIDEST = 1.25           # so much wider than usual are the letters of some words, and of some fonts
APART = 16              # how far its words are from the next sign at least

STYLE = "\n".join([
    'text { font-family: Helvetica, Arial, "Liberation Sans", sans-serif; fill: #111 }',
    *(f".{kind} {{ font-size: {size}px }}" for kind, size in SIZES.items()),
    ".role { font-weight: bold; text-anchor: middle } .row { fill: #666 } .name { text-anchor: middle } .strong { font-weight: bold }",
    ".word, .name { paint-order: stroke; stroke: #fff; stroke-width: 3px; stroke-linejoin: round }",
    ".guide { stroke: #eee } .life { stroke: #999; stroke-width: 2 } .gap { stroke: #111; stroke-width: 2.5 } .band { fill: #f4f4f4 }",
    ".arrow { stroke-width: 1.4 } .again .arrow { stroke-dasharray: 6 3 } .cross { fill: none; stroke: #111; stroke-width: 1.8 }",
    ".reach { stroke: #fff; stroke-opacity: 0; stroke-width: 9 }",
    ".chosen { fill: #f0e442; stroke: #111 } .answer { fill: #a9dcf7; stroke: #111 } .snap { fill: #d9d9d9; stroke: #111 }",
    *(f".{group} .arrow {{ stroke: {colour} }} text.{group} {{ fill: {colour} }}" for group, colour in COLOURS.items())])


def group_of(datagram):
    """What a datagram serves."""
    groups = {"round": ROUNDS, "read": READS, "set": SETS}
    return next((group for group, names in groups.items() if datagram.name in names), "command")


def number(value):
    return f"{value:.1f}".removesuffix(".0")


def text(kind, x, y, said, anchor=""):
    more = f' text-anchor="{anchor}"' if anchor else ""
    return f'<text class="{kind}" x="{number(x)}" y="{number(y)}"{more}>{escape(said)}</text>'


def path(kind, x1, y1, x2, y2, more=""):
    return f'<path class="{kind}" d="M{number(x1)} {number(y1)}L{number(x2)} {number(y2)}"{more}/>'


def titled(kind, title, *parts):
    """A group with a tooltip."""
    return f'<g class="{kind}"><title>{escape(title)}</title>{"".join(parts)}</g>'


def point(kind, x, y):
    """What stands on a role's line at an event."""
    match kind:
        case "chosen":
            return f'<path class="chosen" d="M{number(x)} {number(y - 8)}l8 8l-8 8l-8 -8z"/>'
        case "answer":
            return f'<path class="answer" d="M{number(x - 6)} {number(y - 6)}h12v12h-12z"/>'
        case "snap":
            return f'<path class="snap" d="M{number(x - 7)} {number(y - 6)}h14l-7 12z"/>'
    return f'<circle cx="{number(x)}" cy="{number(y)}" r="3.5"/>'


def cross(x, y):
    return f'<path class="cross" d="M{number(x - 4)} {number(y - 4)}l8 8m0 -8l-8 8"/>'


# Lines of life

def role_names(page, y):
    return [text("role", x, y, role) for role, x in page.columns.items()]


def life(page, x, stops):
    """A role's line, with a gap for each time that it is stopped, which begins and ends with a bar."""
    drawn, y = [], page.top
    for stop, restart in stops:
        if stop > page.last or restart and restart < page.first:
            continue
        above, below = page.y(stop), page.y(restart)
        bars = [page.rows[it] for it in (stop, restart) if it in page.rows]
        drawn += [path("life", x, y, x, above)] * (above > y)
        drawn.append('<path class="gap" d="' + "".join(f"M{number(x - 8)} {number(it)}h16" for it in bars) + '"/>')
        y = below
    return drawn + [path("life", x, y, x, page.bottom)] * (y < page.bottom)


def lives(page, stops):
    return [part for role, x in page.columns.items() for part in life(page, x, stops.get(role, []))]


# Arrows

def head(group):
    return f' marker-end="url(#{group})"'


def arrow(page, datagram, arrival):
    """The arrow of a delivery, dashed where the datagram was delivered before, without a head where it comes after the page."""
    whole, group = page.arrow(datagram, arrival), group_of(datagram)
    shown = arrival <= page.last
    line = whole.shortened(5) if shown else whole
    kind = "again" if arrival != datagram.arrivals[0] else "delivered"
    reach = path("reach", line.x1, line.y1, line.x2, line.y2)
    drawn = path("arrow", line.x1, line.y1, line.x2, line.y2, head(group) if shown else "")
    return titled(f"datagram {kind} {group}", str(datagram), reach, drawn)


def stub(datagram, line):
    """The short arrow of a datagram that no event delivers. An answer to a client is told all the same; what else isn't delivered is lost."""
    group = group_of(datagram)
    if datagram.name in ANSWERS:
        return titled(f"datagram told {group}", str(datagram), path("arrow", line.x1, line.y1, line.x2, line.y2, head(group)))
    drawn = path("arrow", line.x1, line.y1, line.x2, line.y2)
    return titled(f"datagram lost {group}", str(datagram), drawn, cross(line.x2, line.y2))


def arrows(page):
    return [arrow(page, *it) for it in page.deliveries()] + [stub(*it) for event in page.events for it in page.stubs(event)]


# Labels

def word_boxes(page, event):
    """Where an event's result may stand: beside its point, and first above it and away from the arrow that comes in."""
    x, y, wide = page.columns[event.who], page.rows[event.number], width("word", event.word)
    side = page.side(event.delivered) if event.delivered else 1
    lefts = [x + BESIDE if it > 0 else x - BESIDE - wide for it in (side, -side)]
    return [(left, y + up, left + wide, y + up + 12) for up in (-16, 5) for left in lefts]


def word(page, room, event):
    boxes = word_boxes(page, event)
    left, _, right, bottom = room.best(boxes) or boxes[0]
    strong = " strong" if event.word in STOPS or sign_of(event) != "event" else ""
    if left < page.columns[event.who]:
        return text("word" + strong, right, bottom - 2, event.word, "end")
    return text("word" + strong, left, bottom - 2, event.word)


def name_boxes(page, datagram, arrival):
    """Where a datagram's name may stand: on its arrow and between two lines of life, from the receiver's back."""
    line, wide, side = page.arrow(datagram, arrival), width("name", datagram.name), page.side(datagram)
    found = []
    for lane in range(round(abs(line.x2 - line.x1) / page.lane)):
        for shift in (0, -12, 12):
            x = line.x2 - side * (page.lane * (lane + 0.5) + shift)
            y = line.y2 + (line.y1 - line.y2) * (line.x2 - x) / (line.x2 - line.x1)
            found.append((x - wide / 2, y - 6, x + wide / 2, y + 6))
    return found


def name(room, datagram, boxes):
    """A datagram's name, if there is room for it."""
    if not (box := room.best(boxes)):
        return []
    return [text(f"name {group_of(datagram)}", (box[0] + box[2]) / 2, box[3] - 2.5, datagram.name)]


def stub_name_boxes(line, side, wide):
    """Where a name may stand at a short arrow: behind its end, or below it."""
    places = [(line.x2 + side * 7, line.y2 - 6), (line.x2 + side * 7, line.y2), (line.x1 + side * 5, line.y2 + 5), (line.x1 + side * 5, line.y2 + 9)]
    return [(min(x, x + side * wide), y, max(x, x + side * wide), y + 12) for x, y in places]


def stub_names(page, room, event):
    """The names of an event's datagrams that no event delivers, each name once on each side."""
    drawn, seen = [], set()
    for datagram, line in page.stubs(event):
        side = page.side(datagram)
        if (side, datagram.name) not in seen:
            drawn += name(room, datagram, stub_name_boxes(line, side, width("name", datagram.name)))
        seen.add((side, datagram.name))
    return drawn


def fill(page, room):
    """Takes the room in which no name may stand: that of lines of life and of the names of roles. Says where arrows go."""
    for x in page.columns.values():
        room.take((x - 3, page.top, x + 3, page.bottom))
    for y in page.bands:
        room.take((0, y - 14, page.right, y + 6))
    for it in page.deliveries():
        room.cross(page.arrow(*it))
    for event in page.events:
        for _, line in page.stubs(event):
            room.cross(line)
            room.take((line.x2 - 5, line.y2 - 5, line.x2 + 5, line.y2 + 5))


def labels(page):
    """All results, and the names of datagrams where there is room."""
    room = Room()
    fill(page, room)
    words = [word(page, room, it) for it in page.events if it.who]
    lost = [part for it in page.events for part in stub_names(page, room, it)]
    return lost + [part for it in page.deliveries() for part in name(room, it[0], name_boxes(page, *it))] + words


# Rows

def row(page, event):
    """What an event is, and its point."""
    y = page.rows[event.number]
    drawn = [text("row", EDGE, y + 4, row_text(event))]
    if event.who:
        drawn.append(titled("event", event.line, point(sign_of(event), page.columns[event.who], y)))
    return drawn


def edge(page, event):
    """The marks of an event at the right edge, the last of them in its row."""
    drawn, top = [], page.rows[event.number] - 9 - MARK * (len(marks(event)) - 1)
    for kind, said in marks(event):
        size = f'width="{number(width("mark", cut("mark", said)) + 12)}" height="{MARK - 2}"'
        box = f'<rect class="{kind}" x="{number(page.right)}" y="{number(top)}" {size} rx="4"/>'
        drawn.append(titled(f"{kind}-mark", said, box, text("mark", page.right + 6, top + 12.5, cut("mark", said))))
        top += MARK
    return drawn


def band(page, y):
    return [f'<rect class="band" x="0" y="{number(y - 14)}" width="{number(page.right)}" height="20"/>', *role_names(page, y)]


# The whole

def signs(page, stops):
    """The signs that the page has, each with what it means."""
    groups = [it for it in COLOURS if it in {group_of(datagram) for datagram in page.datagrams}]
    kinds = {kind for event in page.events for kind, _ in marks(event)} | {sign_of(it) for it in page.events}
    found = [(f'<g class="{it}">{path("arrow", 0, 0, 26, 0, head(it))}</g>', it + "s") for it in groups]
    if any(arrival != it.arrivals[0] for it, arrival in page.deliveries()):
        found.append((f'<g class="{groups[0]} again">{path("arrow", 0, 0, 26, 0)}</g>', "delivered again"))
    if any(datagram.name not in ANSWERS for it in page.events for datagram, _ in page.stubs(it)):
        found.append((f'<g class="{groups[0]}">{path("arrow", 2, 0, 22, 0)}</g>{cross(22, 0)}', "never delivered"))
    if any("gap" in it for it in lives(page, stops)):
        found.append(('<path class="gap" d="M5 -5h16M5 5h16"/>', "stopped"))
    meant = ("chosen", "a slot is chosen"), ("answer", "an answer"), ("snap", "a list put anew")
    return found + [(point(kind, 13, 0), said) for kind, said in meant if kind in kinds]


def legend(page, stops):
    """The legend, in as many lines as it needs, and the height of the last."""
    drawn, x, y = [], EDGE, 18
    for sign, said in signs(page, stops):
        wide = SIGN + WIDEST * width("row", said) + APART
        if x > EDGE and x + wide > page.width:
            x, y = EDGE, y + 20
        drawn.append(f'<g class="legend" transform="translate({number(x)} {number(y)})">{sign}{text("row", SIGN, 4, said)}</g>')
        x += wide
    return drawn, y


def parts(page, stops):
    """All parts of the picture, from the lowest."""
    signs_drawn, y = legend(page, stops)
    page.set_rows(y + 38)
    guides = [path("guide", page.left - EDGE / 2, y, page.right, y) for y in page.rows.values()]
    bands = [part for y in page.bands for part in band(page, y)]
    rows = [part for it in page.events for part in row(page, it)]
    marked = [part for it in page.events for part in edge(page, it)]
    return [*signs_drawn, *role_names(page, page.top - 7), *guides, *lives(page, stops), *arrows(page), *bands, *rows, *labels(page), *marked]


def marker(group, colour):
    return (f'<marker id="{group}" viewBox="0 0 10 10" refX="9" refY="5" markerWidth="7" markerHeight="7" orient="auto">'
            f'<path d="M0 1L10 5L0 9z" fill="{colour}"/></marker>')


def svg(events, first, last):
    """The picture of the events from `first` to `last`, of all those of a trace."""
    page = Page(events, first, last)
    drawn = parts(page, stops_of(events))
    wide, high = number(page.width), number(page.bottom + EDGE)
    return "\n".join([f'<svg xmlns="http://www.w3.org/2000/svg" width="{wide}" height="{high}" viewBox="0 0 {wide} {high}" role="img">',
                      f"<title>Events {page.first} to {page.last} of a run of compax</title>", f"<style>\n{STYLE}\n</style>",
                      "<defs>" + "".join(marker(*it) for it in COLOURS.items()) + "</defs>",
                      '<rect width="100%" height="100%" fill="#fff"/>', *drawn, "</svg>", ""])
