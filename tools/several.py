"""Faults of a cluster of several processes under load: what `tools/kills --processes` does, one trial after another."""

import contextlib
import dataclasses
import json
import os
import pathlib
import random
import shutil
import tempfile
import time
from collections.abc import Callable, Iterator, Sequence
from typing import TypeVar

from clients import Lost
from faults import Fault, expanded
from headers import Header, spread
from linearity import Operation, judge
from loads import Load, Shared
from outcomes import Outcome, heading, line, summaries
from rates import bars_of, figures_of
from relay import Network
from running import Running, all_roles, slow_syncs, usual_header, with_ports
from supervised import supervised_trial
from watches import PATIENCE, WARM, Setting, Watch

Found = TypeVar("Found")
PROCESSES = 3
MOST_STEPS = 50_000             # of the search for an order of the commands of a key
LONGEST_PAUSE, LONGEST_DOWN = 0.6, 0.4      # seconds between random kills, and until a killed process is started again
ALL_AT_ONCE, TWO_AT_ONCE = 0.05, 0.15       # shares of random kills


@contextlib.contextmanager
def cluster_of(setting: Setting, room: pathlib.Path, is_relayed: bool) -> Iterator[tuple[Running, Load, Header, Network | None]]:
    """Starts processes, and a load that is ready for them; at the end all are gone."""
    header = usual_header(clients=setting.clients, batch=setting.batch)
    hosted = spread(header, PROCESSES)
    views = with_ports(header, len(hosted) + 1 if is_relayed else 1)
    network = Network(views, hosted, all_roles(header), setting.weather, setting.seed) if is_relayed else None
    slow = slow_syncs(room, setting.sync).environment if setting.sync else {}
    running = Running(room, views[: len(hosted)], hosted, setting.words, slow)
    (room / "clients").mkdir()
    load = Load(room / "clients", views[-1], setting.window, setting.gets, setting.seed, shared=setting.shared)
    try:
        running.start_all()
        load.start()
        yield running, load, header, network
    finally:
        load.kill()
        running.end()
        if network:
            network.process.kill()
            network.process.wait()


def check_shared(history: Sequence[Shared]) -> None:
    """Sees that the answers to commands of keys that all clients use are linearizable; says so where that can't be told soon."""
    verdict = judge((Operation(*command) for command in history), MOST_STEPS)
    if verdict.faults:
        raise Lost("; ".join(verdict.lines()))
    if verdict.undecided:
        print("; ".join(verdict.lines()))


def done(fault: Fault, watch: Watch, running: Running, network: Network | None) -> None:
    """Does a fault, and lets the load go on meanwhile."""
    whom = fault.processes(len(running.rooms))
    for number in whom:
        match fault.verb:
            case "kill":
                running.kill(number)
            case "stop":
                running.stop(number)
            case "cut" if network:
                network.tell(f"cut {number} {fault.way}")
    watch.go_on(fault.seconds)
    for number in whom:
        match fault.verb:
            case "kill":
                running.start(number)
            case "stop":
                running.go_on(number)
    if network:
        network.tell("heal")


def trial(setting: Setting, fault: Fault, room: pathlib.Path) -> Outcome:
    """One fault of a cluster of its own, and what came of it."""
    with cluster_of(setting, room, fault.is_relayed or not setting.weather.is_fair) as (running, load, header, network):
        watch = Watch(load, running, header.roles("replica"))
        watch.until_answers()
        watch.go_on(min(WARM, setting.before))
        began = time.monotonic()
        watch.go_on(setting.before)
        watch.most_lag = 0
        fell = time.monotonic()
        done(fault, watch, running, network)
        healed = time.monotonic()
        watch.go_on(setting.after)
        end = time.monotonic()
        end_lag = watch.end_lag()
        bars = bars_of(fault.verb, fault.seconds, setting.is_memory)
        figures = figures_of(load.times, began, (fell, healed), end, (watch.most_lag, end_lag), [bar.share for bar in bars])
        average = os.getloadavg()[0]
        load.finish(PATIENCE)
        running.check()
        if setting.shared:
            check_shared(load.history())
        return Outcome(fault, figures, bars, len(load.times), load.nodes, average, network.end() if network else {})


def kills(setting: Setting, count: int, room: pathlib.Path) -> str:
    """Kills processes at random moments, at last all of them, and sees that nothing is lost. Gives the figures in words."""
    chance = random.Random(setting.seed)
    began, killed, at_once = time.monotonic(), 0, 0
    with cluster_of(setting, room, not setting.weather.is_fair) as (running, load, header, _):
        watch = Watch(load, running, header.roles("replica"))
        watch.until_answers()
        while killed < count:
            watch.go_on(chance.uniform(0.02, LONGEST_PAUSE))
            some = next(some for share, some in ((ALL_AT_ONCE, PROCESSES), (TWO_AT_ONCE, 2), (1.0, 1)) if chance.random() < share)
            whom = chance.sample(range(PROCESSES), some)
            at_once += len(whom) == PROCESSES
            for number in whom:
                running.kill(number)
                killed += 1
            for number in whom:
                load.go_on(chance.uniform(0.01, LONGEST_DOWN))
                running.start(number)
        load.stop()
        for number in range(PROCESSES):
            running.kill(number)
        running.start_all()
        load.finish(PATIENCE)
        running.check()
        if setting.shared:
            check_shared(load.history())
        return (f"{killed} kills, {at_once} times all at once; {len(load.times):,} commands answered, and each of them has acted once, "
                f"in {time.monotonic() - began:.0f} s")


def tried(setting: Setting, what: Callable[[pathlib.Path], Found]) -> tuple[Found, pathlib.Path]:
    """Does something in a folder of its own, which is kept where something was lost."""
    room = pathlib.Path(tempfile.mkdtemp(prefix="compax-kills-", dir=setting.folder))
    try:
        return what(room), room
    except Lost as lost:
        raise Lost(f"{lost}; its files are kept in {room}") from None
    except BaseException:
        shutil.rmtree(room, ignore_errors=True)
        raise


def run_kills(setting: Setting, count: int) -> None:
    """Kills processes at random moments, and prints the figures."""
    words, room = tried(setting, lambda room: kills(setting, count, room))
    shutil.rmtree(room)
    print(words)


def run_faults(setting: Setting, faults: Sequence[Fault], repeat: int, has_bars: bool, file: pathlib.Path | None) -> None:
    """Tries each fault so many times, and prints a line of each trial. With bars one that is missed counts as a loss; then the files of
    the first such trial are kept."""
    header = usual_header(clients=setting.clients)
    trials = [fault for fault in expanded(faults, header, spread(header, PROCESSES)) for _ in range(repeat)]
    outcomes: list[Outcome] = []
    kept: pathlib.Path | None = None
    for fault in trials:
        found, room = tried(setting, lambda room: (supervised_trial if fault.is_supervised else trial)(setting, fault, room))
        if has_bars and found.missed() and not kept:
            kept = room
        else:
            shutil.rmtree(room)
        if not outcomes:
            print(heading(found))
        outcomes.append(found)
        print(line(found), flush=True)
        store(file, setting, found)
    for text in summaries(outcomes):
        print(text)
    if kept:
        missed = sum(bool(outcome.missed()) for outcome in outcomes)
        raise Lost(f"a bar was missed in {missed} of {len(outcomes)} trials; the files of the first are kept in {kept}")


def memory() -> pathlib.Path:
    """A folder in memory, where this machine has one."""
    shared = pathlib.Path("/dev/shm")
    return shared if os.access(shared, os.W_OK) else pathlib.Path(tempfile.gettempdir())


def in_memory(folder: pathlib.Path) -> bool:
    """Whether a folder's files are on no disk: by the innermost mount that has it."""
    whole = folder.resolve()
    mounts = [line.split()[1:3] for line in pathlib.Path("/proc/self/mounts").read_text().splitlines()]
    having = [(len(at), kind) for at, kind in mounts if whole.is_relative_to(at)]
    return max(having)[1] in ("tmpfs", "ramfs")


def store(file: pathlib.Path | None, setting: Setting, outcome: Outcome) -> None:
    """Adds a line of JSON with all figures."""
    if file:
        words = {**dataclasses.asdict(setting), "folder": str(setting.folder), **outcome.stored()}
        with open(file, "a") as out:
            out.write(json.dumps(words) + "\n")
