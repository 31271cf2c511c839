"""How a cluster is: what runs, and what each role has kept. `tools/cluster status` says it."""

import contextlib
import pathlib
import sys
import time
from collections.abc import Sequence
from dataclasses import dataclass, field

from hashing import compare, is_fault
from headers import Header, Role
from inventory import role_of
from journals import Journal, live_of, outlined
from states import Note, State


@dataclass
class Keeper:
    """How the supervisor is. These names, and those below, are the keys of `status --json`."""

    pid: int | None = None
    runs: bool = False
    condition: str = ""


@dataclass
class Seen:
    """How a process is."""

    number: int
    roles: list[str]
    runs: bool
    pid: int | None
    starts: int
    since: float
    ended: str
    condition: str
    again: float | None                 # in so many seconds it is tried to start it again

    def __str__(self) -> str:
        before = f"; started {self.starts} times, ended last with {self.ended}" if self.ended else ""
        condition = f"; {self.condition}" if self.condition else ""
        if self.runs:
            how = f"runs since {time.strftime('%Y-%m-%d %H:%M:%S', time.localtime(self.since))}, pid {self.pid}"
        elif self.again is None:
            how = "is down"
        else:
            how = f"is {'down, and tried' if self.condition else 'started'} again in {self.again:.1f} s"
        return f"process {self.number} {how}{before}{condition}"


@dataclass
class Stored:
    """What a role has kept."""

    process: int
    role: str
    whole: bool
    records: dict[str, int] = field(default_factory=dict)
    bytes: int = 0
    last: str = ""
    fault: str = ""
    outline: str = ""

    def __str__(self) -> str:
        if self.fault:
            return f"  {self.role}: {'; '.join(filter(None, [self.outline, self.fault]))}"
        return f"  {self.role}: {self.outline}; {self.bytes:,} bytes" + (f"; last {self.last}" if self.last else "")


@dataclass
class Report:
    """What `status` says."""

    cluster: str
    supervisor: Keeper
    processes: list[Seen]
    journals: list[Stored]
    differences: list[str]              # between replicas, as far as they can be compared
    answered: float | None = None

    def is_well(self) -> bool:
        run = self.supervisor.runs and all(seen.runs for seen in self.processes)
        has_condition = self.supervisor.condition or any(seen.condition for seen in self.processes)
        is_kept = all(kept.whole for kept in self.journals) and not any(map(is_fault, self.differences))
        return run and not has_condition and is_kept


def seen_of(note: Note, state: State | None) -> Seen:
    runs = note.process is not None and note.process.lives()
    is_kept = state is not None and state.supervisor.lives() and not runs
    again = max(0.0, note.again - time.time()) if is_kept else None
    pid = note.process.pid if note.process and runs else None
    return Seen(note.number, note.roles, runs, pid, note.starts, note.since, note.ended, note.condition, again)


def stored_by(folder: pathlib.Path, number: int, role: Role) -> Stored:
    """Whether a role's journal is whole, and what it has. A replica's second file may not have been made yet."""
    first, *others = [folder / str(number) / name for name in role.files]
    with contextlib.ExitStack() as opened:
        try:
            files = [opened.enter_context(open(path, "rb")) for path in [first, *filter(pathlib.Path.exists, others)]]
            journal = live_of([Journal(file, role.kind) for file in files])
            outline, broken = outlined(journal)
        except OSError as error:
            return Stored(number, str(role), False, fault=str(error.strerror))
    fault = f"{journal.file.name} is not a journal from {broken}" if broken else ""
    return Stored(number, str(role), not broken, dict(outline.counts), journal.size, outline.last, fault, str(outline))


def report_of(cluster: pathlib.Path, header: Header, folder: pathlib.Path, notes: Sequence[Note], state: State | None) -> Report:
    """How the cluster is with this header, in this folder."""
    supervisor = Keeper(state.supervisor.pid, state.supervisor.lives(), state.condition) if state else Keeper()
    journals = [stored_by(folder, note.number, role) for note in notes for role in map(role_of, note.roles) if role.files]
    return Report(str(cluster), supervisor, [seen_of(note, state) for note in notes], journals, compare(header, folder))


def print_report(report: Report) -> None:
    for seen in report.processes:
        print(seen)
        for kept in report.journals:
            if kept.process == seen.number:
                print(str(kept)[:200])
        others = [role for role in seen.roles if not role_of(role).files]
        if others:
            print(f"  {' '.join(others)}")
    for difference in report.differences:
        print(f"replicas: {difference}")
    if report.supervisor.condition:
        print(f"the supervisor: {report.supervisor.condition}")
    sys.stdout.flush()
