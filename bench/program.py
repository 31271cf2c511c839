#!/usr/bin/env python3
"""How the time and the memory of `compax gen` and `compax replay` grow with the length of what they read, beside a peer.

Use:  [PROGRAM=FILE] bench/program.py [PEER]

PEER is another program with the commands `gen SEED COUNT` and `replay`; it is run by turns with this one, and must print the
same, byte for byte. PROGRAM is this program, else it is found as the tools find it.

A load is a schedule of tools/workloads.py, which says what each of them is; `gen` is `gen 7 6553` and `gen 7 65535`. One line
for each load has, first of this program and then of the peer:

    6,000, 60,000   processor seconds, the least of three runs, at so many lines
    growth          the power of the length with which the time grows, without the time of a run that has nothing to do
    MB              what was resident at most at 60,000 lines, in megabytes of 1,000,000 bytes

then this program's time and memory at 60,000 lines as multiples of the peer's, and UNLIKE where they printed something else
or a run failed; the bench then ends with 1. Under the table stands the memory of `puts` as a multiple of its history as it is
spelled, which is the lines of the events, the datagrams and the records together. GNU time is needed.
"""
import filecmp
import math
import os
import pathlib
import subprocess
import sys
import tempfile

sys.path.insert(0, str(pathlib.Path(__file__).resolve().parent.parent / "tools"))
import headers
import workloads

RUNS = 3
SIZES = (6000, 60000)
LOADS = ("gen", "puts", "wide", "reads", "lagging", "repeats", "changes", "folds", "stale", "resend", "restarts", "revotes",
         "rounds", "keys", "crowd")


class Bench:
    """Runs programs in a folder, in which what each of them printed last is kept."""

    def __init__(self, room, program, peer):
        self.room = room
        self.programs = {"ours": program, "peer": peer} if peer else {"ours": program}

    def run(self, name, words, given):
        """The seconds, the bytes and the status of one run. GNU time starts it, for a child of this process has its memory at first."""
        memory = self.room / "memory"
        command = ["/usr/bin/time", "--quiet", "--format=%M", f"--output={memory}", self.programs[name], *words]
        with open(given) as source, open(self.room / name, "w") as out, open(self.room / f"{name}.err", "w") as errors:
            child = subprocess.Popen(command, stdin=source, stdout=out, stderr=errors)
            _, status, used = os.wait4(child.pid, 0)
        child.returncode = os.waitstatus_to_exitcode(status)
        return used.ru_utime + used.ru_stime, int(memory.read_text().split()[-1]) * 1024, child.returncode

    def measure(self, words, given):
        """The least seconds and the most bytes of each program, and whether no run failed and both printed the same."""
        runs = [{name: self.run(name, words, given) for name in self.programs} for _ in range(RUNS)]
        figures = {name: (min(run[name][0] for run in runs), max(run[name][1] for run in runs)) for name in self.programs}
        ended = all(status == 0 for run in runs for _, _, status in run.values())
        return figures, ended and all(filecmp.cmp(self.room / "ours", self.room / name, shallow=False) for name in self.programs)

    def load(self, name, size):
        """`measure` of a load of this size."""
        if name == "gen":
            return self.measure(["gen", "7", str(min(size * 65536 // 60000, 65535))], os.devnull)
        given = self.room / "given"
        given.write_bytes(workloads.written(name, size))
        return self.measure(["replay"], given)


def history(given, trace):
    """How many bytes the history of `puts` has as it is spelled, but for the two records of the round that is begun.

    A datagram has a header of 12 bytes before the body that is printed. The record of a vote is its tag and what the datagram
    says; that of a replica's log a tag, a count and the value, without the slot."""
    spelled, bodies = len(given), {}
    for line in trace.splitlines():
        words = line.split()
        if words[0].startswith("+"):
            bodies[words[0][1:]] = len(words[4]) // 2
            spelled += 12 + bodies[words[0][1:]]
        elif words[0].startswith("@") and words[-1] == "voted":
            spelled += 1 + bodies[words[2]]
        elif words[0].startswith("@") and words[-1] == "applied":
            spelled += 2 + bodies[words[2]] - 8
    return spelled


def columns(short, long, idle):
    """The figures of one program, from those of a short run, a long one, and one that has nothing to do."""
    least = 1e-4                    # as far as a clock tells
    growth = math.log10(max(long[0] - idle[0], least) / max(short[0] - idle[0], least))
    return f"{short[0]:8.3f} {long[0]:8.3f} {growth:6.2f} {long[1] / 1e6:6.1f}"


def main(words):
    if len(words) > 1 or any(word.startswith("-") for word in words):
        sys.exit(__doc__)
    try:
        program = os.environ.get("PROGRAM") or headers.program()
    except headers.Unusable as why:
        sys.exit(f"program.py: {why}")
    with tempfile.TemporaryDirectory(prefix="compax-bench-") as room:
        bench = Bench(pathlib.Path(room), program, *words or [None])
        idle, alike = bench.measure(["gen", "7", "0"], os.devnull)
        head = f" | {'6,000':>8} {'60,000':>8} {'growth':>6} {'MB':>6}"
        print(f"{'load':8}{head * len(bench.programs)}" + (" |   time memory" if words else ""))
        for name in LOADS:
            (short, same), (long, same_long) = (bench.load(name, size) for size in SIZES)
            line = f"{name:8} | " + " | ".join(columns(short[one], long[one], idle[one]) for one in bench.programs)
            if words:
                line += f" | {long['ours'][0] / long['peer'][0]:6.2f} {long['ours'][1] / long['peer'][1]:6.2f}"
            print(line + ("" if same and same_long else "  UNLIKE"), flush=True)
            alike = alike and same and same_long
            if name == "puts":
                spelled = history((bench.room / "given").read_bytes(), (bench.room / "ours").read_text())
                memory = long["ours"][1]
        print(f"puts has {memory / spelled:.2f} times its history of {spelled / 1e6:.2f} MB; "
              f"a run that has nothing to do takes {' and '.join(f'{seconds:.4f}' for seconds, _ in idle.values())} s")
    return 0 if alike else 1


if __name__ == "__main__":
    sys.exit(main(sys.argv[1:]))
