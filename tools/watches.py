"""A load on a cluster that is watched: its answers, that its processes run, and how far its replicas are behind."""

import pathlib
import time
from collections.abc import Sequence
from dataclasses import dataclass
from typing import Protocol

from clients import Lost
from headers import Role
from lags import Lags
from loads import Load
from relay import Weather

WARM = 2.0                      # seconds from the first answers until a rate counts, but no more than are measured before a fault
LOOK = 0.5                      # seconds between looks at what the replicas hold
PATIENCE = 120.0                # seconds for what takes a second on a quiet machine


@dataclass(frozen=True)
class Setting:
    """What all trials have alike."""

    folder: pathlib.Path
    clients: int = 16
    batch: int = 1
    window: int = 1
    gets: float = 0.0           # the share of gets
    shared: float = 0.0         # the share of commands of keys that all clients use
    before: float = 5.0         # seconds
    after: float = 16.0
    sync: int = 0               # microseconds
    weather: Weather = Weather()
    words: tuple[str, ...] = () # further ones for each node that hosts no clients
    seed: int = 1
    is_memory: bool = True


class Under(Protocol):
    """Processes that a trial is done to."""

    def check(self) -> None: ...
    def end(self) -> None: ...
    def files(self, role: Role) -> list[pathlib.Path]: ...


class Watch:
    """A load on a cluster, and how far its replicas are behind."""

    def __init__(self, load: Load, processes: Under, replicas: Sequence[Role]) -> None:
        self.load = load
        self.processes = processes
        self.lags = Lags({role: processes.files(role) for role in replicas})
        self.most_lag = 0

    def until_answers(self) -> None:
        end = time.monotonic() + PATIENCE
        while len(self.load.times) < len(self.load.clients):
            self.go_on(0.05)
            if time.monotonic() > end:
                raise Lost(f"not within {PATIENCE:g} s: first answers")

    def go_on(self, seconds: float) -> None:
        """Lets the load go on, and looks at times."""
        end = time.monotonic() + seconds
        while (left := end - time.monotonic()) > 0:
            self.load.go_on(min(left, LOOK))
            self.processes.check()
            if left > LOOK:
                self.look()

    def look(self) -> int | None:
        """How far the last replica is behind, where that can be seen just now."""
        lag = self.lags.lag()
        self.most_lag = max(self.most_lag, lag or 0)
        return lag

    def end_lag(self) -> int:
        """The lag, while the load still goes on."""
        end = time.monotonic() + PATIENCE
        while (lag := self.look()) is None:
            self.go_on(LOOK)
            if time.monotonic() > end:
                raise Lost(f"not within {PATIENCE:g} s: files of replicas that can be read")
        return lag
