"""A role, whatever its kind: its store, what that leaves, what it has taken since it was opened, and what an act does to it.

From cx_model/specs (Rules, Outcome, Turn).
"""

from collections.abc import Callable, Iterable
from typing import Any, ClassVar, NamedTuple

from events import KEPT, TORN, WHOLE, Order
from messages import Letter, Msg
from records import Record
from terms import Cluster, Role


class Outcome(NamedTuple):
    """What a row or an act gives: its word, what is sent, in order, and the change of the store: none, a record, or the slot of a snap."""
    why: str
    sends: Iterable[Letter] = ()
    kept: Record | int | None = None


def refused(**tests: bool) -> Outcome | None:
    """The first of these words whose test holds, where one does: then nothing else happens."""
    return next((Outcome(why) for why, holds in tests.items() if holds), None)


class Rules:
    """A role of a cluster. A kind of role adds its rows.

    The durable part is what the records leave: only `after` changes it. The volatile part is lost when the role stops, so a row changes it in
    place. A row never changes the durable part, since its record may be torn. In a replay each datagram is to a role of a kind that gets such
    ones, and names only roles of the cluster, as orders do; so nobody is a `stranger`, and no row tests for it.
    """

    ROWS: ClassVar[dict[type, Callable[..., Outcome]]] = {}     # the row of each message and order that it may get
    durable: Any
    volatile: Any

    def __init__(self, cluster: Cluster, me: Role) -> None:
        self.cluster, self.me = cluster, me
        self.records: list[Record] = []
        self.running = False
        self.restart()

    # ---- what a kind of role adds to its rows

    def empty(self) -> Any:
        """The durable part without records."""

    def after(self, record: Record) -> None:
        """Changes the durable part by a record."""

    def fresh(self) -> Any:
        """The volatile part of a role that was just opened."""

    def tick(self) -> Outcome:
        """The row of a tick."""
        return Outcome("idle")

    def snap(self) -> int | None:
        """From which slot on the renewed list has values, 0 of a role without values; none where the role doesn't put its list anew."""

    def renewed(self, first: int) -> list[Record]:
        """The list that is put anew."""
        return self.records

    # ---- what is sent, and what is stored

    def send(self, to: Role, msg: Msg) -> Letter:
        """A datagram of this role."""
        return Letter(self.me, to, msg)

    def send_all(self, kind: str, indices: Iterable[int], msg: Msg) -> list[Letter]:
        """The same datagram to several roles of a kind."""
        return [Letter(self.me, Role(kind, index), msg) for index in indices]

    def refold(self) -> None:
        """The durable part is the fold of the records."""
        self.durable = self.empty()
        for record in self.records:
            self.after(record)

    def keep(self, change: Record | int) -> None:
        """Changes the store: a record more, or the renewed list in the place of all."""
        if isinstance(change, int):
            self.records = self.renewed(change)
            self.refold()
        else:
            self.records.append(change)
            self.after(change)

    # ---- acts

    def take(self, letter: Letter, cut: str) -> Outcome:
        """A datagram to this role is delivered."""
        return refused(down=not self.running) or self.cut(cut, self.ROWS[type(letter.msg)](self, letter.sender, *letter.msg))

    def ordered(self, order: Order, cut: str) -> Outcome:
        """An order is given."""
        return refused(down=not self.running) or self.cut(cut, self.ROWS[type(order)](self, *order))

    def ticked(self) -> Outcome:
        """Time has passed. No tick stores anything."""
        return refused(down=not self.running) or self.tick()

    def snapped(self, cut: str) -> Outcome:
        """The role puts its list anew."""
        return refused(down=not self.running) or refused(idle=self.snap() is None) or self.cut(cut, Outcome("snapped", (), self.snap()))

    def crash(self) -> Outcome:
        """The role stops, and the volatile part is lost."""
        was_running, self.running, self.volatile = self.running, False, None
        return Outcome("crashed" if was_running else "down")

    def restart(self) -> Outcome:
        """The role is opened from its records."""
        if self.running:
            return Outcome("up")
        self.refold()
        self.running, self.volatile = True, self.fresh()
        return Outcome("opened")

    def cut(self, cut: str, o: Outcome) -> Outcome:
        """What becomes of a row. In one that changes the store the role may crash: then the change is lost or kept, and nothing is sent."""
        if o.kept is None:
            return o
        if cut != TORN:
            self.keep(o.kept)
        if cut == WHOLE:
            return o
        self.crash()
        return Outcome(cut, (), o.kept if cut == KEPT else None)
