"""Keeps the processes of a cluster running, and notes what it started.

    python3 supervisor.py FOLDER PROGRAM       as `tools/cluster up` starts it, which has looked at all folders first

FOLDER has a folder for each process, 0, 1 and so on, with the header, the roles and the journals. A process that ends is started again:
soon after a long run, and after short ones later each time. SIGTERM ends the supervisor and its processes; so does the removal of
FOLDER. What it started is noted in FOLDER/state.json, so that exactly that can be ended, also where the supervisor itself was killed.

Nothing that the system refuses ends it, nor a process that runs: it is said as a condition of that process, in its state, and tried again.

- A process whose folder is gone isn't started. A role of which a file is gone that was there isn't started either, since it would have
  forgotten what it answered; the other roles of its process are. FOLDER/inventory.json has which files were there.
- A process is started only where its folder has room. A leader that is started on a full disk begins a round that it can't end, and
  matchmakers have room for 16.
- Where a log can't be written, what a node says is kept in memory until it has ended.
"""

import errno
import math
import os
import pathlib
import select
import signal
import socket
import subprocess
import sys
import time

from headers import Unusable
from inventory import INVENTORY, Inventory, is_gone, read_inventory, role_of
from processes import Process, end
from states import STATE, Note, State, answer, listener_of
from statuses import ending
from writing import keep

TURNS = 1_000_000_000           # the most that a node makes
TEND = 1024
LONG_RUN = 10.0                 # seconds
FIRST_PAUSE, LONGEST_PAUSE = 0.2, 10.0
STORE_FAILED, STORE_PAUSE = 7, 30.0     # the longest pause after this status: disks seldom heal within seconds
LOOK = 1.0                      # seconds between looks whether all files are still there
RETRY = 2.0                     # seconds until it is tried again whether there is room
ROOM = 64 * 1024                # bytes that a folder must have room for
HEADER, ROLES, LOG, ROOM_TEST = "header.toml", "roles", "log", "room.test"
LOG_SIZE = 1 << 20              # bytes above which a log is put aside
ENDS = (signal.SIGTERM, signal.SIGINT)


def rooms_of(folder: pathlib.Path) -> list[pathlib.Path]:
    """The folders of the processes, in order."""
    rooms = [file.parent for file in folder.glob(f"*/{ROLES}") if file.parent.name.isdigit()]
    return sorted(rooms, key=lambda room: int(room.name))


def free_bytes(folder: pathlib.Path) -> float:
    """What its file system has room for, as far as that says so."""
    it = os.statvfs(folder)
    return (it.f_bavail if os.geteuid() else it.f_bfree) * it.f_frsize if it.f_blocks else math.inf


def no_room(room: pathlib.Path) -> str:
    """Why nothing can be appended in a folder; nothing where it can. A file that an earlier test has left is removed first.

    Only a write shows that there is room, as for quotas. But it must not take the last of it, which a process that runs may need."""
    test, fault = room / ROOM_TEST, ""
    try:
        test.unlink(missing_ok=True)
        if free_bytes(room) < 2 * ROOM:
            return os.strerror(errno.ENOSPC)
        with open(test, "wb") as file:
            file.write(os.urandom(ROOM))        # which no file system makes smaller
            file.flush()
            os.fsync(file.fileno())
    except OSError as error:
        fault = error.strerror
    try:
        test.unlink(missing_ok=True)
    except OSError as error:
        fault = fault or error.strerror
    return fault


def rotate(log: pathlib.Path) -> str:
    """Puts a long log aside, as the one older log that is kept. Gives why it can't, if so.

    That is done before a start alone, when no node has it open: of one that is cut while it is written a line could be lost. So a log can
    grow beyond its size in one run; but in a run a node says a few lines at most."""
    try:
        if log.is_file() and log.stat().st_size > LOG_SIZE:
            log.replace(log.with_name(f"{log.name}.1"))
    except OSError as error:
        return f"its log can't be put aside: {error.strerror}"
    return ""


def open_log(log: pathlib.Path) -> int:
    """Opens a log to be appended to. Only a plain file is one: others may be full for ever, or let whoever writes wait."""
    handle = os.open(log, os.O_RDWR | os.O_APPEND | os.O_CREAT | os.O_NONBLOCK | os.O_CLOEXEC, 0o644)
    if pathlib.Path(f"/proc/self/fd/{handle}").is_file():
        return handle
    os.close(handle)
    raise OSError(0, "it is no plain file")


class Output:
    """Where a node writes: its log, or memory."""

    def __init__(self, log: pathlib.Path, can_log: bool) -> None:
        self.handle = open_log(log) if can_log else os.memfd_create("log")
        self.begin = os.fstat(self.handle).st_size

    def close(self) -> str:
        """What the node has written, or the last of it."""
        try:
            size = os.fstat(self.handle).st_size
            text = os.pread(self.handle, LOG_SIZE, max(self.begin, size - LOG_SIZE))
        except OSError:
            text = b""
        os.close(self.handle)
        return text.decode(errors="replace")


class Kept:
    """A process that is kept running in its folder."""

    def __init__(self, room: pathlib.Path, program: str, note: Note, inventory: Inventory) -> None:
        self.room = room
        self.program = program
        self.note = note
        self.inventory = inventory
        self.conditions: dict[str, str] = {}    # by what is looked at
        self.child: subprocess.Popen[bytes] | None = None
        self.output: Output | None = None
        self.pause = 0.0
        self.due = 0.0                  # when it is to be started again, by the clock that is never set

    def say(self, what: str, condition: str) -> None:
        """Says a condition, or by an empty text that there is none."""
        is_news = condition and self.conditions.get(what) != condition
        self.conditions[what] = condition
        self.note.condition = "; ".join(filter(None, self.conditions.values()))
        if is_news and what != "log":
            self.log(condition)

    def log(self, text: str) -> bool:
        """Writes a line to the log; whether that could be done."""
        fault = ""
        try:
            handle = open_log(self.room / LOG)
            try:
                os.write(handle, f"{time.strftime('%Y-%m-%d %H:%M:%S')} {text}\n".encode())
            finally:
                os.close(handle)
        except OSError as error:
            fault = "" if is_gone(self.room) else f"its log can't be written: {error.strerror}"
        self.say("log", fault)
        return not fault

    def tend(self) -> None:
        """Sees whether it has ended and what is gone, and starts it where it is time."""
        self.see_end()
        self.look()
        if self.waits() == 0:
            self.start()

    def look(self) -> None:
        """Notes the files that are there, and says what is gone."""
        self.inventory.note(self.room, self.note.roles)
        if is_gone(self.room):
            self.say("gone", "its folder is gone")
        else:
            self.say("gone", ", ".join(f"{name} is gone" for name in self.inventory.gone(self.room, self.note.roles)))
        if self.conditions.get("log"):
            self.log("its log can be written again")

    def left(self) -> list[str]:
        """The roles of which nothing is gone."""
        gone = self.inventory.gone(self.room, self.note.roles)
        return [role for role in self.note.roles if not set(role_of(role).files) & set(gone)]

    def start(self) -> None:
        """Starts it where it has its folder and room, without the roles that would have forgotten something."""
        roles = [] if is_gone(self.room) else self.left()
        fault = no_room(self.room) if roles else ""
        self.say("room", f"no room ({fault})" if fault else "")
        starts = bool(roles) and not fault
        left_out = [role for role in self.note.roles if role not in roles]
        self.say("left out", f"runs without {' '.join(left_out)}" if starts and left_out else "")
        if starts:
            self.launch(roles)
        else:
            self.start_in(RETRY)

    def launch(self, roles: list[str]) -> None:
        self.note.starts += 1
        self.note.since = time.time()
        self.say("old log", rotate(self.room / LOG))
        try:
            self.output = Output(self.room / LOG, can_log=self.log(f"start {self.note.starts}"))
            words = [self.program, "node", "--turns", str(TURNS), "--tend", str(TEND), *roles]
            with open(self.room / HEADER) as header:
                self.child = subprocess.Popen(words, cwd=self.room, stdin=header, stdout=self.output.handle, stderr=self.output.handle)
            self.note.process = Process.of(self.child.pid)
        except OSError as error:
            self.note_end(f"no start: {error.filename or self.program}: {error.strerror}")

    def see_end(self) -> None:
        """Notes that the process has ended, if it has."""
        if self.child is None or self.child.poll() is None:
            return
        status = self.child.returncode
        how = f"signal {-status}" if status < 0 else f"status {status}"
        self.child = self.note.process = None
        self.note_end(how, STORE_PAUSE if status == STORE_FAILED else LONGEST_PAUSE)

    def note_end(self, how: str, longest: float = LONGEST_PAUSE) -> None:
        """Notes how it ended, and when it is to be started again."""
        said = ending(self.output.close()) if self.output else ""
        self.output = None
        is_long = time.time() - self.note.since > LONG_RUN
        self.pause = FIRST_PAUSE if is_long else min(longest, max(FIRST_PAUSE, 2 * self.pause))
        self.note.ended = f"{how}: {said}" if said else how
        self.start_in(self.pause)
        self.log(f"ended with {self.note.ended}; started again in {self.pause:.1f} s")

    def start_in(self, seconds: float) -> None:
        self.due = time.monotonic() + seconds
        self.note.again = time.time() + seconds

    def waits(self) -> float:
        """In how many seconds there is something to do."""
        return LOOK if self.child else min(LOOK, max(0.0, self.due - time.monotonic()))


class Supervisor:
    """All processes of a cluster."""

    def __init__(self, folder: pathlib.Path, program: str) -> None:
        rooms = rooms_of(folder)
        self.folder = folder
        self.inventory = read_inventory(folder) or Inventory()
        self.state = State(Process.of(os.getpid()), [Note(int(room.name), (room / ROLES).read_text().split()) for room in rooms])
        self.kept = [Kept(room, program, note, self.inventory) for room, note in zip(rooms, self.state.notes)]
        self.listener = listener_of(folder)
        self.signals, self.wakes = socket.socketpair()
        for each in (self.signals, self.wakes):
            each.setblocking(False)

    def keep_notes(self) -> None:
        """Has what it notes in its files. It stays in memory where it can't be written."""
        fault = keep(self.folder / INVENTORY, self.inventory.text())
        self.state.condition = fault
        faults = [fault, keep(self.folder / STATE, self.state.text(), is_synced=False)]
        self.state.condition = "; ".join(filter(None, faults))

    def tend(self) -> None:
        """Looks after each process once."""
        for kept in self.kept:
            try:
                kept.tend()
            except OSError as error:
                kept.say("fault", f"{error.filename or 'the system'}: {error.strerror}")
                kept.start_in(RETRY)
            else:
                kept.say("fault", "")
        self.keep_notes()

    def wait(self) -> bool:
        """Waits until there is something to do, and answers who asks for the state; whether it is to end."""
        watched = [self.signals, *filter(None, [self.listener])]
        ready, _, _ = select.select(watched, [], [], min((kept.waits() for kept in self.kept), default=LOOK))
        if self.listener in ready:
            answer(self.listener, self.state)
        return self.signals in ready and any(number in ENDS for number in self.signals.recv(1 << 12))

    def run(self) -> None:
        """Keeps them running until it is asked to end, or its folder is gone."""
        for number in (signal.SIGCHLD, *ENDS):
            signal.signal(number, lambda *_: None)      # what is to be done is done when it wakes
        signal.set_wakeup_fd(self.wakes.fileno(), warn_on_full_buffer=False)
        self.keep_notes()
        if not self.listener and self.state.condition:
            raise Unusable(f"nobody could tell what is started: {self.state.condition}")
        is_over = False
        while not (is_over or is_gone(self.folder)):
            self.tend()
            is_over = self.wait()

    def stop(self) -> None:
        """Ends what it started."""
        end(self.state.nodes())
        for kept in self.kept:
            if kept.child:
                kept.child.wait()
            kept.note.process = None
            kept.look()
        if not is_gone(self.folder):
            self.keep_notes()


def main() -> int:
    try:
        supervisor = Supervisor(pathlib.Path(sys.argv[1]), sys.argv[2])
        supervisor.run()
    except (OSError, Unusable) as error:        # before it has started anything
        print(f"supervisor: {error}", file=sys.stderr)
        return 1
    supervisor.stop()
    return 0


if __name__ == "__main__":
    sys.exit(main())
