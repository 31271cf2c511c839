"""How many slots each replica of a running cluster holds, by its files, of which only what is new is read each time."""

import contextlib
import pathlib
import time
from collections.abc import Mapping, Sequence
from dataclasses import dataclass

from headers import Role
from journals import Break, Journal, live_of
from rates import CAUGHT_UP

TRIES, PAUSE = 5, 0.005         # replicas' files are read one after the other, so the least of some differences counts
BEGIN = 28                      # bytes with the first record of a list that was written anew: how many slots were forgotten and held


@dataclass
class Mark:
    """How far the live file of a replica was read."""

    path: pathlib.Path
    begin: bytes                # by which a list is told from the one that a file had before
    at: int
    slots: int


class Lags:
    """Reads the files of all replicas again and again."""

    def __init__(self, files: Mapping[Role, Sequence[pathlib.Path]]) -> None:
        self.files = files
        self.marks: dict[Role, Mark] = {}

    def held(self, replica: Role) -> int | None:
        """How many slots a replica holds by now; None while its files can't be read, since they are just written anew."""
        with contextlib.suppress(Break, OSError, IndexError), contextlib.ExitStack() as opened:
            journals = [Journal(opened.enter_context(open(path, "rb")), replica.kind) for path in self.files[replica]]
            live = live_of(journals)
            if live.fault():
                return None
            live.file.seek(0)
            path, begin = self.files[replica][journals.index(live)], live.file.read(BEGIN)
            mark = self.marks.get(replica)
            if not mark or (mark.path, mark.begin) != (path, begin):
                mark = Mark(path, begin, 0 if live.generation is None else 2, 0)
            self.marks[replica] = read_on(live, mark)
            return self.marks[replica].slots
        return None

    def lag(self) -> int | None:
        """By how many slots the last replica is behind the first one."""
        found: list[int] = []
        for _ in range(TRIES):
            held = [self.held(replica) for replica in self.files]
            known = [slots for slots in held if slots is not None]
            if len(known) == len(held):
                found.append(max(known) - min(known))
            if found and found[-1] <= CAUGHT_UP:
                break
            time.sleep(PAUSE)
        return min(found, default=None)


def read_on(journal: Journal, mark: Mark) -> Mark:
    """Reads the frames that have come since, up to the closed gate."""
    at, slots = mark.at, mark.slots
    journal.file.seek(at)
    while journal.size > at and journal.is_open(at):
        frame = journal.frame(at, slots)
        if len(frame.payload) < frame.length:
            break
        at, slots = at + 5 + frame.length, frame.next_slot()
    return Mark(mark.path, mark.begin, at, slots)
