"""What the times of answers say of a fault: rates before it, in it and after it, how soon the rate was back, and which bars are met."""

import bisect
import math
from collections.abc import Sequence
from dataclasses import dataclass

WINDOW = 1.0                    # seconds over which a rate is taken
STEP = 0.1                      # seconds from a window to the next
LAST = 5.0                      # seconds at the end of what is watched
KEPT = 0.8                      # the share of the rate before that has to be kept from then on, so that one good second is no return
CAUGHT_UP = 64                  # slots that a replica may be behind


def rate(times: Sequence[float], begin: float, end: float) -> float:
    """The answers a second in a span; the times rise."""
    return (bisect.bisect_left(times, end) - bisect.bisect_left(times, begin)) / (end - begin) if end > begin else 0.0


def silence(times: Sequence[float], begin: float, end: float) -> float:
    """The longest time without an answer in a span."""
    inside = [begin, *times[bisect.bisect_left(times, begin) : bisect.bisect_left(times, end)], end]
    return max(later - earlier for earlier, later in zip(inside, inside[1:]))


def back(times: Sequence[float], begin: float, end: float, wanted: float, kept: float) -> float | None:
    """How many seconds after the beginning a window has ended whose rate is at least the wanted one, so that from the window's beginning
    on it stays at or above the kept one, on average. None where that isn't so within the span."""
    for step in range(math.floor((end - begin - WINDOW) / STEP + 1e-6) + 1):
        start = begin + step * STEP
        if rate(times, start, start + WINDOW) >= wanted and rate(times, start, end) >= kept:
            return round(start + WINDOW - begin, 3)
    return None


@dataclass(frozen=True)
class Bar:
    """Within so many seconds the rate is back at this share."""

    share: float
    seconds: float


def bars_of(verb: str, seconds: float, is_memory: bool) -> list[Bar]:
    """What has to hold after a fault."""
    is_short = verb in ("kill", "none") and seconds <= 1
    first, second = (3.0, 10.0) if is_short else (10.0, 15.0)
    return [Bar(0.8, first), Bar(0.9, second)] if is_memory else [Bar(0.7, first), Bar(0.9, 20.0)]


@dataclass(frozen=True)
class Figures:
    """What was measured round one fault."""

    before: float               # answers a second
    during: float
    last: float                 # in the last seconds
    each_second: list[int]      # answers in each second after the fault
    back: dict[float, float | None]     # of each share, after how many seconds the rate was back
    silence_during: float       # seconds
    silence_after: float
    most_lag: int               # slots
    end_lag: int

    def missed(self, bars: Sequence[Bar]) -> list[str]:
        """Which bars are missed, in words."""
        words = []
        for bar in bars:
            took = self.back[bar.share]
            if took is None or took > bar.seconds:
                words.append(f"{bar.share:g} of the rate before {'not at all' if took is None else f'after {took:.1f} s'}, not within {bar.seconds:g} s")
        if self.end_lag > CAUGHT_UP:
            words.append(f"a replica {self.end_lag:,} slots behind at the end")
        return words


def figures_of(times: Sequence[float], began: float, fault: tuple[float, float], end: float, lags: tuple[int, int], shares: Sequence[float]) -> Figures:
    """Figures of a run that is measured from `began` to `end`, with a fault in it."""
    fell, healed = fault
    before = rate(times, began, fell)
    seconds = [bisect.bisect_left(times, healed + at) for at in range(int(end - healed) + 1)]
    return Figures(
        before=before,
        during=rate(times, fell, healed),
        last=rate(times, max(healed, end - LAST), end),
        each_second=[later - earlier for earlier, later in zip(seconds, seconds[1:])],
        back={share: back(times, healed, end, share * before, min(share, KEPT) * before) for share in shares},
        silence_during=silence(times, fell, healed),
        silence_after=silence(times, healed, end),
        most_lag=lags[0],
        end_lag=lags[1],
    )
