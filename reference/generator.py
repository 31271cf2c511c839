"""The generator of events: a linear congruential sequence, four draws an event. From cx_script/specs/Generator and cx_replay/specs/Generated."""

from events import KEPT, TORN, WHOLE, Change, Collect, Crash, Deliver, Event, Lead, Ordered, Read, Restart, Tick, Write
from terms import KINDS, Cluster, Command, Grid, Op, Role
from world import World

CLUSTER = Cluster(f=1, leaders=2, proxies=2, acceptors=6, replicas=2, batchers=1, unbatchers=1, readers=1, clients=4, batch=2, pool=3, replacers=0)
SERVERS = [Role(kind, index) for kind in KINDS[1:] for index in range(CLUSTER.count_of(kind))]
GRIDS = (Grid(2, 2, (0, 1, 2, 3)), Grid(2, 2, (2, 3, 4, 5)), Grid(1, 3, (0, 2, 4)))


class Generator:
    """Makes the events of a seed."""

    def __init__(self, seed: int) -> None:
        self.x, self.made = seed, 0

    def draw(self) -> int:
        """The top 32 bits of the next number."""
        self.x = (self.x * 6364136223846793005 + 1442695040888963407) % 2**64
        return self.x >> 32

    def next_event(self, sent: int) -> Event:
        """The next event, when so many datagrams were sent."""
        draws = [self.draw() for _ in range(4)]
        event = later_event(self.made, sent, *draws) if self.made else Ordered(SERVERS[1], Lead(GRIDS[0]), WHOLE)
        self.made += 1
        return event


def op_of(c: int, d: int) -> Op:
    """An operation on one of eight keys."""
    key, text = f"k{c % 8}", f"v{d // 3 % 10}"
    return (Op("put", key, text), Op("del", key), Op("app", key, text))[d % 3]


def later_event(made: int, sent: int, a: int, b: int, c: int, d: int) -> Event:
    """An event after the first, by what is left of the first draw over 100; a request's floor is the number before its own."""
    a %= 100
    leader, server = Role("leader", b % 2), SERVERS[b % len(SERVERS)]
    if a <= 64:
        last = sent - 1 - b % min(sent, 24) if sent else 0          # one of the last 24 datagrams
        return Deliver(last, {0: TORN, 1: KEPT}.get(c % 64, WHOLE))
    if a <= 76:
        return Write(Command(b % 4, made + 1, made, op_of(c, d)), 0)
    if a <= 81:
        return Read(b % 4, made + 1, made, 0, d % 2, f"k{c % 8}")
    if a <= 90:
        return Tick(server)
    if a <= 93:
        return Ordered(leader, {91: Lead(GRIDS[c % 3]), 92: Change(GRIDS[c % 3]), 93: Collect()}[a], WHOLE)
    return Crash(server) if a <= 94 else Restart(server)


def generated(seed: int, count: int) -> tuple[World, list[Event]]:
    """The run of so many events of a seed, and these events."""
    generator, world, events = Generator(seed), World(CLUSTER), []
    for _ in range(count):
        events.append(generator.next_event(len(world.sent)))
        world.step(events[-1])
    return world, events
