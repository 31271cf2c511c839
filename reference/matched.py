"""What matchmakers' answers say of the earlier rounds: the greatest retirement watermark, and the grids from there on.

From cx_model/specs/Matched (JSys 2021).
"""

from collections.abc import Iterable, Sequence
from typing import NamedTuple

from terms import NO_ROUND, Entry, Round


MatchAnswer = NamedTuple("MatchAnswer", [("matchmaker", int), ("watermark", Round), ("entries", tuple[Entry, ...])])     # one that was counted


def is_counted(matchmaker: int, told: Iterable[MatchAnswer]) -> bool:
    """Whether this matchmaker was counted."""
    return any(it.matchmaker == matchmaker for it in told)


def greatest_watermark(told: Iterable[MatchAnswer]) -> Round:
    """The greatest retirement watermark that was reported."""
    return max((it.watermark for it in told), default=NO_ROUND)


def live_entries(told: Sequence[MatchAnswer]) -> list[Entry]:
    """The reported entries that aren't retired, in the order in which they were told."""
    watermark = greatest_watermark(told)
    return [entry for answer in told for entry in answer.entries if entry.round >= watermark]


def members_of(entries: Iterable[Entry]) -> list[int]:
    """The acceptors that are members of one of these grids, by rising index."""
    return sorted({acceptor for entry in entries for acceptor in entry.grid.members})


def rows_whole(entries: Iterable[Entry], acceptors: Iterable[int]) -> bool:
    """Whether each of these grids has a whole row among these acceptors."""
    marked = set(acceptors)
    return all(entry.grid.row_whole(marked) for entry in entries)
