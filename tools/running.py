"""The processes of a cluster, each started, killed and stopped when a test says so, in a folder of its own."""

import os
import pathlib
import re
import shutil
import signal
import subprocess
import sys
import tempfile
from collections.abc import Mapping, Sequence
from dataclasses import dataclass

from clients import Lost
from headers import KINDS, Header, Role, Unusable, free_ports, header_of, program, read_header
from supervisor import TEND, TURNS

TOOLS = pathlib.Path(__file__).resolve().parent
SKIPPED = 77                    # the status of a tool that can't try something on this machine
INPUT, SAID = "input", "said"


def usual_header(**counts: int) -> Header:
    """The header that `tools/cluster new` writes, but for these numbers."""
    with tempfile.TemporaryDirectory(prefix="compax-header-") as room:
        file = pathlib.Path(room, "new.toml")
        subprocess.run([sys.executable, str(TOOLS / "cluster"), "new", str(file)], check=True, stdout=subprocess.DEVNULL)
        return changed(read_header(file), **counts)


def changed(header: Header, **counts: int) -> Header:
    """A header with other numbers."""
    text = header.text
    for key, count in counts.items():
        text, found = re.subn(rf"^{key} = \d+$", f"{key} = {count}", text, flags=re.MULTILINE)
        if not found:
            text += f"{key} = {count}\n"
    return header_of(text, "header")


def all_roles(header: Header) -> list[Role]:
    return [role for kind in KINDS for role in header.roles(kind)]


def with_ports(header: Header, views: int = 1) -> list[Header]:
    """The header with ports that are free just now, for each of so many views of the cluster other ones."""
    span = len(all_roles(header))
    first = free_ports(span * views)
    return [changed(header, base_port=first + span * view) for view in range(views)]


@dataclass(frozen=True)
class Slow:
    """What makes each sync of a node longer: a library that is loaded into it."""

    library: pathlib.Path
    microseconds: int

    @property
    def environment(self) -> dict[str, str]:
        return {"LD_PRELOAD": str(self.library), "SLOW": str(self.microseconds)}


def slow_syncs(folder: pathlib.Path, microseconds: int) -> Slow:
    """Compiles the library; where there is no compiler, that is skipped."""
    compiler = shutil.which("gcc") or shutil.which("cc")
    if not compiler:
        raise Unusable("skipped: slow syncs need a C compiler, gcc or cc", SKIPPED)
    library = folder / "slow.so"
    made = subprocess.run([compiler, "-O1", "-shared", "-fPIC", "-o", str(library), str(TOOLS / "slow.c"), "-ldl"], capture_output=True, text=True)
    if made.returncode:
        raise Unusable(f"skipped: {compiler} makes no library of slow.c: {made.stderr.strip()[-200:]}", SKIPPED)
    return Slow(library, microseconds)


class Running:
    """The processes of a cluster, and what this test does to them."""

    def __init__(self, folder: pathlib.Path, views: Sequence[Header], hosted: Sequence[Sequence[Role]], words: Sequence[str] = (),
                 environment: Mapping[str, str] | None = None) -> None:
        """With one view all processes have the same header, else each its own."""
        self.rooms = [folder / str(number) for number in range(len(hosted))]
        self.hosted = hosted
        self.words = words
        self.environment = {**os.environ, **(environment or {})}
        self.nodes: dict[int, subprocess.Popen[bytes]] = {}
        self.stopped: set[int] = set()
        for number, room in enumerate(self.rooms):
            room.mkdir()
            (room / INPUT).write_text(views[number % len(views)].input)

    def start(self, number: int) -> None:
        room = self.rooms[number]
        words = [str(program()), "node", "--turns", str(TURNS), "--tend", str(TEND), *self.words, *map(str, self.hosted[number])]
        with open(room / INPUT) as given, open(room / SAID, "a") as said:
            self.nodes[number] = subprocess.Popen(words, cwd=room, stdin=given, stdout=said, stderr=said, env=self.environment)

    def start_all(self) -> None:
        for number in range(len(self.rooms)):
            self.start(number)

    def kill(self, number: int) -> None:
        self.check(number)
        node = self.nodes.pop(number)
        node.kill()
        node.wait()
        self.stopped.discard(number)

    def stop(self, number: int) -> None:
        self.check(number)
        self.nodes[number].send_signal(signal.SIGSTOP)
        self.stopped.add(number)

    def go_on(self, number: int) -> None:
        self.nodes[number].send_signal(signal.SIGCONT)
        self.stopped.discard(number)

    def check(self, *numbers: int) -> None:
        """Sees that these processes run, or all that were started."""
        for number in numbers or list(self.nodes):
            node = self.nodes[number]
            if node.poll() is not None:
                said = (self.rooms[number] / SAID).read_text().strip().splitlines()
                raise Lost(f"process {number} ended by itself with status {node.returncode}: {said[-1] if said else 'it said nothing'}")

    def end(self) -> None:
        for node in self.nodes.values():
            node.kill()
        for node in self.nodes.values():
            node.wait()
        self.nodes.clear()

    def files(self, role: Role) -> list[pathlib.Path]:
        """The files of a role that keeps records."""
        room = next(room for room, roles in zip(self.rooms, self.hosted) if role in roles)
        return [room / name for name in role.files]
