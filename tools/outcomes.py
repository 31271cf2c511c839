"""What came of trials of faults, as a table: a line each, and of several trials of one fault their medians and the worst of each figure."""

import dataclasses
import statistics
from collections.abc import Callable, Sequence
from dataclasses import dataclass, field
from typing import Any

from faults import Fault
from rates import Bar, Figures


@dataclass
class Outcome:
    """What came of one trial."""

    fault: Fault
    figures: Figures
    bars: list[Bar]             # none where only answers count
    answers: int                # in all
    nodes: int                  # how often a node of the clients was started
    load_average: float
    relayed: dict[str, int] = field(default_factory=dict)

    def missed(self) -> list[str]:
        return self.figures.missed(self.bars) if self.bars else []

    def stored(self) -> dict[str, Any]:
        return {**dataclasses.asdict(self), "fault": str(self.fault), "missed": self.missed()}


NEVER = float("inf")


@dataclass(frozen=True)
class Column:
    """A figure, and which of its values is the worst."""

    name: str
    value: Callable[[Figures], float]
    form: str
    worst: Callable[[Sequence[float]], float]

    def text(self, value: float) -> str:
        return f"{'never' if value == NEVER else format(value, self.form):>{len(self.name)}}"


def took(share: int) -> Callable[[Figures], float]:
    """After how many seconds the rate was back at the first or the second share."""
    def value(figures: Figures) -> float:
        found = list(figures.back.values())[share]
        return NEVER if found is None else found
    return value


def columns(figures: Figures) -> list[Column]:
    return [
        Column("  before", lambda it: it.before, ",.0f", min),
        Column("  during", lambda it: it.during, ",.0f", min),
        Column("    last", lambda it: it.last, ",.0f", min),
        *(Column(f"at {share:g} in", took(at), ".1f", max) for at, share in enumerate(figures.back)),
        Column("silent in it", lambda it: it.silence_during, ".2f", max),
        Column("after it", lambda it: it.silence_after, ".2f", max),
        Column("most lag", lambda it: it.most_lag, ",.0f", max),
        Column("end lag", lambda it: it.end_lag, ",.0f", max),
    ]


def heading(outcome: Outcome) -> str:
    return f"{'fault':14}  " + "  ".join(column.name for column in columns(outcome.figures))


def line(outcome: Outcome) -> str:
    each = columns(outcome.figures)
    missed = "".join(f"; missed: {bar}" for bar in outcome.missed())
    return f"{str(outcome.fault):14}  " + "  ".join(column.text(column.value(outcome.figures)) for column in each) + missed


def summary(name: str, outcomes: Sequence[Outcome], choose: Callable[[Column, list[float]], float]) -> str:
    """A line of one value of each figure."""
    each = columns(outcomes[0].figures)
    values = [[column.value(it.figures) for it in outcomes] for column in each]
    return f"{name:14}  " + "  ".join(column.text(choose(column, some)) for column, some in zip(each, values))


def summaries(outcomes: Sequence[Outcome]) -> list[str]:
    """Of each fault that was tried more than once the medians and the worst of each figure."""
    lines = []
    for fault in dict.fromkeys(outcome.fault for outcome in outcomes):
        some = [outcome for outcome in outcomes if outcome.fault == fault]
        if len(some) > 1:
            lines.append(f"{fault}, {len(some)} trials")
            lines.append(summary("  median", some, lambda _, values: statistics.median(values)))
            lines.append(summary("  worst", some, lambda column, values: column.worst(values)))
    return lines
