"""Random schedules of all kinds of events, over clusters of all sizes, for tools/differential. What may be delivered is known from the reference,
which runs along, so a schedule is made in a few milliseconds."""

import random
import sys
from collections import Counter
from collections.abc import Callable

from headers import TOP

sys.path.append(str(TOP / "reference"))

from events import KEPT, TORN, WHOLE, Change, Collect, Crash, Deliver, Event, Lead, Offer, Ordered, Read, Replace, Restart, Session
from events import Snap, Tick, Write
from schedule import line_of
from terms import KINDS, SLOTS, Cluster, Command, Grid, Op, Role
from world import World


def random_cluster(rng: random.Random) -> Cluster:
    """A cluster, mostly a small one."""
    f = rng.choice([0, 0, 0, 1, 1, 2, 3])
    some = {"leaders": (1, 2, 3, 8), "proxies": (1, 2, 3, 16), "acceptors": (1, 2, 3, 4, 6, 9, 16, 64), "replicas": (1, 1, 2, 3, 8),
            "batchers": (1, 1, 2, 8), "unbatchers": (1, 2, 8), "readers": (1, 1, 2, 8), "clients": (1, 2, 4, 64), "batch": (1, 1, 2, 3, 8),
            "pool": (1, 3, 5, 9, 20, 64), "replacers": (0, 1, 2, 4)}
    least = {"replicas": f + 1, "pool": 2 * f + 1}
    counts = {key: max(rng.choice(its), least.get(key, 0)) for key, its in some.items()}
    own = counts["proxies"] % counts["leaders"] == 0 and rng.random() < 0.5
    return Cluster(f=f, **counts, one_entry_a_grid=rng.random() < 0.3, own_proxies=own, keep_sets=rng.random() < 0.5)


class Wide:
    """Makes the events of a schedule. In most of them little goes wrong, so that slots are chosen and held, rounds retired and values forgotten."""

    def __init__(self, rng: random.Random) -> None:
        self.rng, self.cluster = rng, random_cluster(rng)
        self.world = World(self.cluster)
        self.fresh: list[int] = []                      # the numbers of the datagrams that weren't delivered
        self.numbers: Counter[int] = Counter()          # the greatest number of each client
        self.keys = [f"k{it}" for it in range(rng.choice([1, 3, 30]))]
        calm = rng.random() < 0.7
        self.cuts = rng.choice([0, 0, 0.01, 0.05] if calm else [0, 0.02, 0.1, 0.3])
        self.lost = rng.choice([0, 0, 0.02] if calm else [0, 0.02, 0.2])
        self.again = rng.choice([0, 0.05, 0.3])
        self.mixed = rng.choice([1, 3, 30])             # one of so many that were sent first arrives
        self.weights: dict[Callable[[], Event | None], float] = {
            self.delivery: rng.choice([40, 80] if calm else [10, 40, 80]), self.write: rng.choice([6, 12] if calm else [0, 1, 3, 8]),
            self.tick: rng.choice([3, 8] if calm else [0, 1, 3, 8]), self.restart: rng.choice([1, 3]),
            **{it: rng.choice([0, 1, 3, 8]) for it in (self.read, self.session, self.snap, self.offer)},
            **{it: rng.choice([0, 0.1, 0.4] if calm else [0, 1, 3, 8]) for it in (self.lead, self.change, self.replace, self.collect, self.crash)}}

    def some(self, kind: str) -> Role:
        return Role(kind, self.rng.randrange(self.cluster.count_of(kind)))

    def server(self) -> Role:
        return self.some(self.rng.choice([kind for kind in KINDS[1:] if self.cluster.count_of(kind)]))

    def cut(self) -> str:
        return self.rng.choice([TORN, KEPT]) if self.rng.random() < self.cuts else WHOLE

    def grid(self) -> Grid:
        most = min(16, self.cluster.acceptors)
        rows = self.rng.randint(1, most)
        columns = self.rng.randint(1, most // rows)
        return Grid(rows, columns, tuple(self.rng.sample(range(self.cluster.acceptors), rows * columns)))

    def asker(self) -> tuple[int, int, int]:
        """A client, mostly a new number of its own, else an earlier one, and a floor."""
        client = self.some("client").index
        if not self.numbers[client] or self.rng.random() < 0.7:
            self.numbers[client] += self.rng.choice([1, 1, 2, 5])
            seq = self.numbers[client]
        else:
            seq = max(1, self.numbers[client] - self.rng.randint(0, 5))
        return client, seq, self.rng.choice([seq - 1, self.rng.randint(max(0, seq - 64), seq - 1)])

    def write(self) -> Event:
        key, (client, seq, floor) = self.rng.choice(self.keys), self.asker()
        op = self.rng.choice([Op("put", key, f"v{seq}"), Op("del", key), Op("app", key, "x" * self.rng.choice([1, 10, 40, 64]))])
        return Write(Command(client, seq, floor, op), self.some("batcher").index)

    def read(self) -> Event:
        return Read(*self.asker(), self.some("reader").index, self.some("replica").index, self.rng.choice(self.keys))

    def session(self) -> Event:
        return Session(*self.asker(), self.some("replica").index, self.rng.choice(self.keys))

    def delivery(self) -> Event:
        """Mostly one of those that were sent first and didn't arrive, else any, or one that wasn't sent."""
        if not self.fresh or self.rng.random() < self.again:
            return Deliver(self.rng.randrange(len(self.world.sent) + 2), self.cut())
        number = self.fresh.pop(self.rng.randrange(min(self.mixed, len(self.fresh))))
        return self.delivery() if self.rng.random() < self.lost else Deliver(number, self.cut())

    def tick(self) -> Event:
        return Tick(self.rng.choice([self.server(), self.some("replica")]))

    def lead(self) -> Event:
        return Ordered(self.some("leader"), Lead(self.grid()), self.cut())

    def change(self) -> Event:
        return Ordered(self.some("leader"), Change(self.grid()), self.cut())

    def collect(self) -> Event:
        return Ordered(self.some("leader"), Collect(), WHOLE)

    def replace(self) -> Event | None:
        """Mostly by a set that lies above the first ones."""
        if not self.cluster.replacers:
            return None
        count, pool = 2 * self.cluster.f + 1, self.cluster.pool
        first = self.rng.choice([0, 1, 1, 2, 3]) * count
        ids = range(first, min(pool, first + count + self.rng.choice([0, 0, 2])))
        members = self.rng.sample(ids if len(ids) >= count else range(pool), count)
        return Ordered(self.some("replacer"), Replace(tuple(sorted(members))), self.cut())

    def offer(self) -> Event | None:
        """Mostly from a slot that is held, to one of the other replicas."""
        if self.cluster.replicas == 1:
            return None
        replica, to = self.rng.sample(range(self.cluster.replicas), 2)
        held = self.world.roles[Role("replica", replica)].durable.held
        return Ordered(Role("replica", replica), Offer(to, self.rng.choice([0, self.rng.randint(0, held), held + 1, SLOTS])), WHOLE)

    def snap(self) -> Event:
        return Snap(self.some("replica"), self.cut())

    def crash(self) -> Event:
        return Crash(self.server())

    def restart(self) -> Event:
        down = [name for name, role in self.world.roles.items() if not role.running]
        return Restart(self.rng.choice(down) if down and self.rng.random() < 0.9 else self.server())

    def schedule(self, count: int) -> str:
        """A schedule of so many events."""
        lines: list[str] = []
        while len(lines) < count:
            [make] = self.rng.choices([*self.weights], [*self.weights.values()]) if lines else [self.lead]
            if event := make():
                lines.append(line_of(event))
                first = len(self.world.sent)
                self.world.step(event)
                self.fresh += range(first, len(self.world.sent))
        keys = [f"{key} = {int(getattr(self.cluster, key))}" for key in Cluster.__slots__]
        return "".join(f"{line}\n" for line in [*keys, "---", *lines])
