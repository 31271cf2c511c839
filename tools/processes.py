"""Processes of this machine, so named that a signal never reaches another one."""

import contextlib
import functools
import os
import pathlib
import signal
import time
from collections.abc import Sequence
from dataclasses import dataclass

PATIENCE = 5.0                  # seconds that a process has to end by itself
LOOK = 0.02                     # seconds between looks whether it has


@functools.cache
def boot() -> str:
    """What differs each time that the machine is started."""
    return pathlib.Path("/proc/sys/kernel/random/boot_id").read_text().strip()


def start_of(pid: int) -> int | None:
    """When a process was started; None where there is none, or it has ended and is only not yet waited for."""
    try:
        fields = pathlib.Path(f"/proc/{pid}/stat").read_text().rpartition(")")[2].split()
    except OSError:
        return None
    return None if fields[0] in "ZX" else int(fields[19])


@dataclass(frozen=True)
class Process:
    """A process. Its number can be another's later, but not with the same time of start."""

    pid: int
    start: int                  # in clock ticks since the machine was started
    boot: str

    @staticmethod
    def of(pid: int) -> "Process":
        return Process(pid, start_of(pid) or 0, boot())

    def lives(self) -> bool:
        return start_of(self.pid) == self.start and boot() == self.boot

    def send(self, number: signal.Signals) -> bool:
        """Sends a signal to this process; false where it has ended."""
        with contextlib.suppress(ProcessLookupError):
            handle = os.pidfd_open(self.pid)
            try:
                if self.lives():
                    signal.pidfd_send_signal(handle, number)
                    return True
            finally:
                os.close(handle)
        return False


def wait_for(processes: Sequence[Process], seconds: float) -> bool:
    """Waits until these have ended, for so long; whether they have."""
    until = time.monotonic() + seconds
    while any(process.lives() for process in processes):
        if time.monotonic() >= until:
            return False
        time.sleep(LOOK)
    return True


def end(processes: Sequence[Process]) -> int:
    """Ends these: they are asked to, and after a while made to. Gives how many of them lived."""
    living = [process for process in processes if process.send(signal.SIGTERM)]
    if not wait_for(living, PATIENCE):
        for process in living:
            process.send(signal.SIGKILL)
        wait_for(living, PATIENCE)
    return len(living)
