"""What is chosen, from the votes and rounds that were stored alone, and what each replica kept. From cx_model/specs (Chosen, World)."""

from collections import defaultdict
from collections.abc import Iterable, Iterator

import records as kept
from terms import Grid, Role, Round, Value
from world import Kept


class Votes:
    """The votes and the rounds of a history."""

    def __init__(self, history: Iterable[Kept]) -> None:
        self.grids: dict[Round, list[Grid]] = defaultdict(list)
        self.voted: dict[int, list[Value]] = defaultdict(list)          # the values voted for in a slot, in the order in which they were kept
        self.rounds: dict[tuple[int, Value], dict[Round, set[int]]] = defaultdict(lambda: defaultdict(set))     # who voted for a value, by rounds
        for role, what in history:
            match what:
                case kept.Round(i, grid):
                    self.grids[i].append(grid)
                case kept.Vote(i, s, _, value):
                    self.voted[s].append(value)
                    self.rounds[s, value][i].add(role.index)

    def is_chosen(self, s: int, value: Value) -> bool:
        """A leader kept some round with its grid, and a column of that grid voted for the value in that round."""
        return any(grid.column_whole(voters) for i, voters in self.rounds[s, value].items() for grid in self.grids[i])

    def chosen_at(self, s: int) -> Value | None:
        """Of the values voted for in a slot the first that is chosen."""
        return next((value for value in self.voted[s] if self.is_chosen(s, value)), None)

    def chosen_prefix(self) -> Iterator[Value]:
        """The values chosen in slot 0, 1 and so on, up to the first slot without one."""
        s = 0
        while (value := self.chosen_at(s)) is not None:
            yield value
            s += 1


def log_of(replica: int, history: Iterable[Kept]) -> list[Value]:
    """The values that a replica kept, whatever it forgot."""
    me = Role("replica", replica)
    return [value for role, what in history if role == me and isinstance(what, kept.Log) for value in what.values]
