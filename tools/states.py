"""What a supervisor started, and how that is: in state.json, and from the supervisor itself, which also answers where a disk is full.

It says its state to whoever connects to the socket that has the name of its folder. That name is in no file system.
"""

import dataclasses
import json
import pathlib
import socket
import struct
from dataclasses import dataclass, field
from typing import Any

from headers import Unusable
from processes import Process

STATE = "state.json"
PATIENCE = 2.0                          # seconds that a supervisor has to answer


@dataclass
class Note:
    """What is known of one process of a cluster."""

    number: int = 0                     # that of its folder
    roles: list[str] = field(default_factory=list)
    process: Process | None = None      # None while it doesn't run
    starts: int = 0
    since: float = 0.0                  # the time of the last start
    ended: str = ""                     # how it ended last
    again: float = 0.0                  # while it doesn't run, the time at which that is tried again
    condition: str = ""                 # what isn't as it has to be


@dataclass
class State:
    """What a supervisor started."""

    supervisor: Process
    notes: list[Note] = field(default_factory=list)
    condition: str = ""                 # of the supervisor's own files

    def text(self) -> str:
        return json.dumps(dataclasses.asdict(self), indent=1)

    def note(self, number: int) -> Note | None:
        return next((note for note in self.notes if note.number == number), None)

    def nodes(self) -> list[Process]:
        return [note.process for note in self.notes if note.process]

    def is_up(self) -> bool:
        return self.supervisor.lives() or any(node.lives() for node in self.nodes())


def note_from(stored: dict[str, Any], at: int) -> Note:
    """A note as it was stored. Those of older tools have no number, and are in order."""
    note, process = Note(**{"number": at, **stored}), stored["process"]
    note.process = Process(**process) if process else None
    return note


def state_from(text: bytes) -> State | None:
    """A state as it was stored; None where this is none."""
    try:
        stored = json.loads(text)
        notes = [note_from(note, at) for at, note in enumerate(stored["notes"])]
        return State(Process(**stored["supervisor"]), notes, stored.get("condition", ""))
    except (ValueError, TypeError, KeyError, AttributeError):
        return None


def read_state(folder: pathlib.Path) -> State | None:
    """What was noted last; None where nothing was."""
    path = folder / STATE
    try:
        state = state_from(path.read_bytes())
    except FileNotFoundError:
        return None
    except IsADirectoryError:
        state = None
    if not state:
        raise Unusable(f"{path} is damaged, and no supervisor answers: what was started can't be told. Nodes that still run have their "
                       f"current folder in {folder}; up goes on where the ports are free")
    return state


def name_of(folder: pathlib.Path) -> str:
    """The name of the socket of a folder's supervisor."""
    it = folder.stat()
    return f"\0compax-supervisor-{it.st_dev}-{it.st_ino}"


def listener_of(folder: pathlib.Path) -> socket.socket | None:
    """The socket of this folder's supervisor; None where it can't be had, and the state is in its file alone."""
    it = socket.socket(socket.AF_UNIX, socket.SOCK_STREAM)
    try:
        it.bind(name_of(folder))
        it.listen()
        it.setblocking(False)
    except OSError:
        it.close()
        return None
    return it


def answer(listener: socket.socket, state: State) -> None:
    """Says the state to one that has connected."""
    try:
        asking, _ = listener.accept()
    except OSError:
        return
    with asking:
        try:
            asking.setblocking(False)
            asking.sendall(state.text().encode())
        except OSError:
            pass                        # it went, or doesn't read what the socket has no room for


def asked(folder: pathlib.Path) -> State | None:
    """What the folder's supervisor says just now; None where none answers. Only one of the folder's owner or of root is believed."""
    with socket.socket(socket.AF_UNIX, socket.SOCK_STREAM) as it:
        it.settimeout(PATIENCE)
        try:
            it.connect(name_of(folder))
            pid, user, _ = struct.unpack("3i", it.getsockopt(socket.SOL_SOCKET, socket.SO_PEERCRED, struct.calcsize("3i")))
            said = b"".join(iter(lambda: it.recv(1 << 16), b""))
            is_believed = user in (0, folder.stat().st_uid)
        except OSError:
            return None
    state = state_from(said)
    return state if state and is_believed and state.supervisor.pid == pid else None


def state_of(folder: pathlib.Path) -> State | None:
    """What the supervisor says; where none answers, what was noted last; None where nothing was."""
    return asked(folder) or read_state(folder)
