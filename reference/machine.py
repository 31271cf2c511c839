"""What executing chosen values leaves: the map, and the client table.

From cx_base/specs (Fold, Noted) and cx_model/specs/Replica (Machine, execute).
"""

from dataclasses import dataclass, field

from terms import TEXT_MOST, Answered, Command, Op, Reply, Value


def act(pairs: dict[str, str], op: Op) -> Reply:
    """Does an operation to a map, and gives what it is answered. A text that would grow too long stays as it was."""
    old = pairs.get(op.key)
    if op.verb == "put":
        pairs[op.key] = op.text
        return Reply("ok")
    if op.verb == "del":
        return Reply("was", pairs.pop(op.key)) if old is not None else Reply("none")
    text = (old or "") + op.text
    if len(text) > TEXT_MOST:
        return Reply("full")
    pairs[op.key] = text
    return Reply("len", len(text))


@dataclass(slots=True)
class Machine:
    """The map; of each client the greatest floor that it told, and the answers noted for its numbers above that, by number."""
    pairs: dict[str, str] = field(default_factory=dict)
    floors: dict[int, int] = field(default_factory=dict)
    notes: dict[int, dict[int, Answered]] = field(default_factory=dict)

    def copy(self) -> "Machine":
        """Another machine with the same in it."""
        return Machine(dict(self.pairs), dict(self.floors), {client: dict(notes) for client, notes in self.notes.items()})

    def execute_value(self, slot: int, value: Value) -> list[Answered]:
        """Executes the commands of a slot. Gives the answers, in order."""
        return [answer for command in value for answer in self.execute(slot + 1, command)]

    def execute(self, at: int, command: Command) -> list[Answered]:
        """A command whose client is done with its number has no answer; one whose number has an answer has that again; any other one acts."""
        client, seq, floor, op = command
        if seq <= self.floors.get(client, 0):
            answers = []
        elif noted := self.notes.get(client, {}).get(seq):
            answers = [noted]
        else:
            answers = [Answered(client, seq, at, act(self.pairs, op))]
            self.notes.setdefault(client, {})[seq] = answers[0]
        self.tell(client, floor)
        return answers

    def tell(self, client: int, floor: int) -> None:
        """A client tells that it is done with its numbers up to a floor."""
        self.floors[client] = max(floor, self.floors.get(client, 0))
        notes = self.notes.get(client, {})
        for seq in [seq for seq in notes if seq <= floor]:
            del notes[seq]


class Fold:
    """The map that commands leave, by the rule of which of them act: of the commands before, each client's numbers and greatest floor."""

    def __init__(self) -> None:
        self.pairs: dict[str, str] = {}
        self.numbers: set[tuple[int, int]] = set()
        self.floors: dict[int, int] = {}

    def take(self, command: Command) -> bool:
        """Takes the next command. Whether it acts: no earlier one of its client has its number, or a floor that isn't below it."""
        client, seq, floor, op = command
        acts = (client, seq) not in self.numbers and seq > self.floors.get(client, 0)
        if acts:
            act(self.pairs, op)
        self.numbers.add((client, seq))
        self.floors[client] = max(floor, self.floors.get(client, 0))
        return acts
