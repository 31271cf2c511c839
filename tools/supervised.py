"""Faults of a cluster under its own supervisor, as `tools/cluster up` starts it: what ends there is started again by that alone."""

import contextlib
import os
import pathlib
import shutil
import signal
import subprocess
import sys
import time

from collections.abc import Iterator

from clients import Lost
from faults import Fault
from headers import Header, Role, Unusable
from inventory import role_of
from journals import Journal
from loads import Load
from outcomes import Outcome
from rates import figures_of
from running import SKIPPED, TOOLS, usual_header, with_ports
from states import Note, State, state_of
from supervisor import ROLES
from watches import WARM, Setting, Watch

FILE, PROCESSES = "cluster.toml", 3
DISK = 256 << 20                # bytes of the disk that fills up
MOST_ROUNDS = 3                 # that matchmakers may hold more, by a full disk: each has room for 16
BALLAST = "ballast"
LEFT = 20_480                   # bytes that are left when it is full
UNTIL_KILL = 1.0                # seconds from the removal of a folder until its process is killed
SHARES = (0.8, 0.9)
PATIENCE = 60.0                 # seconds for what takes a second on a quiet machine


class Supervised:
    """The processes of a cluster, which a supervisor keeps running."""

    def __init__(self, folder: pathlib.Path, header: Header, count: int) -> None:
        self.file = folder / FILE
        self.folder = folder / f"{FILE}.d"
        self.file.write_text(header.text)
        self.count = count
        self.gone: set[int] = set()                         # the processes whose folders were removed
        self.rooms: dict[Role, pathlib.Path] = {}
        self.header = header

    def start_all(self) -> None:
        up = subprocess.run([sys.executable, str(TOOLS / "cluster"), "up", str(self.file), str(self.count)], capture_output=True, text=True)
        if up.returncode:
            raise Lost(f"tools/cluster up ended with status {up.returncode}: {up.stderr.strip()}")
        for room in self.folder.glob(f"*/{ROLES}"):
            self.rooms |= {role: room.parent for role in map(role_of, room.read_text().split())}

    def state(self) -> State:
        state = state_of(self.folder)
        if not state:
            raise Lost(f"{self.folder} says nothing of what was started")
        return state

    def note(self, number: int) -> Note:
        return self.state().notes[number]

    def check(self) -> None:
        """Sees that the supervisor lives: it keeps what still runs."""
        if not self.state().supervisor.lives():
            said = (self.folder / "log").read_text().strip().splitlines()
            raise Lost(f"the supervisor has ended, and with it all processes: {said[-1] if said else 'it said nothing'}")

    def remove(self, number: int) -> None:
        """Removes a process's folder."""
        self.gone.add(number)
        shutil.rmtree(self.folder / str(number))

    def kill(self, number: int) -> None:
        process = self.note(number).process
        if not process or not process.send(signal.SIGKILL):
            raise Lost(f"process {number} doesn't run")

    def starts(self) -> list[int]:
        return [note.starts for note in self.state().notes]

    def runs(self, number: int) -> bool:
        process = self.note(number).process
        return process is not None and process.lives()

    def see(self, fault: Fault, before: list[int]) -> None:
        """Sees that all processes run, but one whose folder is gone, which must not have begun anew; it ended no other."""
        for number, (starts, had) in enumerate(zip(self.starts(), before)):
            runs = self.runs(number)
            if number in self.gone and runs:
                raise Lost(f"process {number} runs again, although all that it had kept is gone")
            if number not in self.gone and not runs:
                raise Lost(f"process {number} doesn't run: {self.note(number).ended}")
            if fault.verb == "gone" and number not in self.gone and starts != had:
                raise Lost(f"process {number} was started again: it ended with {self.note(number).ended}")

    def rounds(self) -> int:
        """How many rounds a matchmaker holds, at most."""
        most = 0
        for role in self.header.roles("match"):
            with open(self.rooms[role] / role.files[0], "rb") as file:
                most = max(most, rounds_held(Journal(file, role.kind)))
        return most

    def end(self) -> None:
        subprocess.run([sys.executable, str(TOOLS / "cluster"), "down", str(self.file)], capture_output=True)

    def files(self, role: Role) -> list[pathlib.Path]:
        return [self.rooms[role] / name for name in role.files]


def rounds_held(journal: Journal) -> int:
    """How many rounds a matchmaker that was never replaced holds: those it recorded, but for those below one for which it forgot."""
    held: list[tuple[int, ...]] = []
    for frame in journal.frames():
        name, _, round_, *_ = frame.words(journal.kind).split()
        at = tuple(map(int, round_.split(".")))
        held = [*held, at] if name == "Match" else [earlier for earlier in held if earlier >= at] if name == "Garbage" else held
    return len(held)


def mounts(room: pathlib.Path) -> list[list[str]]:
    """Ways to have a small disk: a file system of its own in a file, which is as those on real disks are, or memory."""
    image = room / "image"
    with open(image, "wb") as file:
        file.truncate(DISK)
    made = shutil.which("mkfs.ext4") and not subprocess.run(["mkfs.ext4", "-q", "-m", "0", str(image)], capture_output=True).returncode
    return [["-o", "loop", str(image)]] * bool(made) + [["-t", "tmpfs", "-o", f"size={DISK}", "none"]]


@contextlib.contextmanager
def disk_of(room: pathlib.Path) -> Iterator[pathlib.Path]:
    """A small disk, which nobody sees but this process and what it starts."""
    disk = room / "disk"
    disk.mkdir()
    for words in mounts(room):
        made = subprocess.run(["mount", *words, str(disk)], capture_output=True, text=True)
        if not made.returncode:
            break
    else:
        raise Unusable(f"skipped: a disk that fills up can't be mounted: {made.stderr.strip()}", SKIPPED)
    try:
        yield disk
    except Lost:
        (disk / BALLAST).unlink(missing_ok=True)
        shutil.copytree(disk, room / "kept")        # the disk is gone with this process
        raise
    finally:
        subprocess.run(["umount", "--lazy", str(disk)], capture_output=True)


def fill(disk: pathlib.Path) -> pathlib.Path:
    """Fills a disk up, but for a little. Gives the file that does."""
    ballast = disk / BALLAST
    with open(ballast, "wb") as file:
        free = os.statvfs(disk)
        os.posix_fallocate(file.fileno(), 0, max(1, free.f_bavail * free.f_frsize - LEFT))
    return ballast


def do(fault: Fault, watch: Watch, cluster: Supervised, place: pathlib.Path) -> None:
    """Does a fault, and lets the load go on meanwhile."""
    if fault.verb == "full":
        ballast = fill(place)
        watch.go_on(fault.seconds)
        ballast.unlink()
    else:
        cluster.remove(int(fault.who))
        watch.go_on(UNTIL_KILL)
        cluster.kill(int(fault.who))


def supervised_trial(setting: Setting, fault: Fault, room: pathlib.Path) -> Outcome:
    """One fault of a cluster of its own, and what came of it."""
    header = with_ports(usual_header(clients=setting.clients, batch=setting.batch))[0]
    with contextlib.ExitStack() as left:
        place = left.enter_context(disk_of(room)) if fault.verb == "full" else room
        cluster = Supervised(place, header, PROCESSES)
        left.callback(cluster.end)
        cluster.start_all()
        (room / "clients").mkdir()
        load = Load(room / "clients", header, setting.window, setting.gets, setting.seed, time.time_ns())
        left.callback(load.kill)
        load.start()
        watch = Watch(load, cluster, [role for role in header.roles("replica") if cluster.rooms[role].name != fault.who])
        watch.until_answers()
        watch.go_on(min(WARM, setting.before))
        began = time.monotonic()
        watch.go_on(setting.before)
        fell, watch.most_lag = time.monotonic(), 0
        starts, rounds = cluster.starts(), cluster.rounds() if fault.verb == "full" else 0
        do(fault, watch, cluster, place)
        healed, answered = time.monotonic(), len(load.times)
        while len(load.times) == answered:
            watch.go_on(0.5)
            if time.monotonic() > healed + PATIENCE:
                raise Lost(f"nothing was answered within {PATIENCE:g} s after the fault")
        watch.go_on(setting.after)
        end, end_lag = time.monotonic(), watch.end_lag()
        figures = figures_of(load.times, began, (fell, healed), end, (watch.most_lag, end_lag), SHARES)
        average = os.getloadavg()[0]
        cluster.see(fault, starts)
        load.finish(2 * PATIENCE)
        cluster.check()
        if fault.verb == "full" and cluster.rounds() > rounds + MOST_ROUNDS:
            raise Lost(f"a matchmaker holds {cluster.rounds()} rounds where it held {rounds}: a leader was started where there was no room")
        return Outcome(fault, figures, [], len(load.times), load.nodes, average)
