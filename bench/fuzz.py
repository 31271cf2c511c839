#!/usr/bin/env python3
"""Hands a built program strange schedules, headers, words, node inputs and stores, and says whether it ever crashes, hangs or
ends in another way than it may.

Use: bench/fuzz.py PROGRAM [--seconds N] [--runs N] [--seed N] [--only N] [--limit N] [--keep FOLDER] [--reference COMMAND]

PROGRAM is run with `replay`, `gen SEED COUNT` and `node`, with each of its options, on inputs that are made from the seed, which is printed:
schedules of crates/compax/data and made ones, cut, changed and joined. It runs for so many seconds (60), or for so many runs if that
is less. Each run of PROGRAM has a folder of its own, and a limit (20 seconds). Of each it says that it was not ended by a signal,
that it ended in time, that its status is one that docs/INPUT.md has and its error line that status's (of a node with --tend whose
link or store failed a line with the cause may follow), and that words and lines that are refused are refused with nothing else done.
Stores are of each kind of role that has one. The last lines count how runs ended.

With a reference, a command that takes the same words and reads the same input, a replay and a generated run print the same bytes with the
same status, and a node without --tend is refused for its words or its input exactly where the reference refuses it. Where something
differs the input is kept in a folder (fuzz-kept), and the status is 1; `--only N` makes the run with that number again, with the same seed.
"""

import argparse
import collections
import pathlib
import random
import re
import shlex
import subprocess
import sys
import tempfile
import time

TOP = pathlib.Path(__file__).resolve().parent.parent
sys.path.insert(0, str(TOP / "tools"))
import workloads  # noqa: E402
from headers import COUNTED_BY, KEEPING, KINDS, RANGES, Role  # noqa: E402
from statuses import lines_by_status  # noqa: E402

DATA = TOP / "crates/compax/data"
BAD_WORDS, BAD_INPUT, LINK_FAILED, STORE_FAILED, NO_MEMORY = 2, 3, 6, 7, 9
OPTIONAL = ("pool", "replacers", "one_entry_a_grid", "own_proxies", "keep_sets")        # keys that a header may lack
NODE_ROW = re.search(r"^\| `compax node .*", (TOP / "docs/INPUT.md").read_text(), re.MULTILINE)[0]
OPTIONS = dict(re.findall(r"\[(--\w+)( \w)?\]", NODE_ROW))         # whether each takes a number
VALUES = {"--turns": ("1", "10", "200"), "--tend": ("64", "65", "1024", "65536"), "--window": ("1", "2", "63", "64")}
BAD_VALUES = ("0", "63", "65", "65537", "1000000001", "x", "", "-1", "+1", "1 ")

NUMBERS = [0, 1, 2, 31, 32, 33, 63, 64, 255, 256, 65535, 65536, 2**32 - 1, 2**32, 2**40, 2**63, 2**64 - 1, 2**64, 10**40]
PIECES = [b"\r", b"\n", b"\r\n", b"\t", b" ", b"  ", b"\0", b"\xff", b"#", b"---", b"---\n", b"=", b"'", b'"', b"[a]\n", b"a.b = 1\n",
          b"-1", b"+1", b"0x10", b"1_000", b"1.5", b"torn", b"kept", b"noop", b":", b",", b"1x1", b"0x0", b"17x17", b"client:0",
          b"replica:0", b"match:0", b"acceptor:64", b"write", b"read", b"session", b"put", b"del", b"app", b"deliver", b"\xe2\x82\xac",
          b"x" * 1024 + b"\n", b"x" * 1025 + b"\n", b"# " + b"y" * 1023 + b"\n", b"z" * 17000]


def header(rng, port=None):
    """A header's values, of a small cluster for the most part."""
    wide = rng.random() < 0.1
    values = {}
    for key, (low, high) in RANGES.items():
        values[key] = rng.randint(low, high if wide else min(high, low + rng.choice([0, 0, 1, 2, 3])))
    values["replicas"] = max(values["replicas"], values["f"] + 1)
    if values["proxies"] % values["leaders"]:
        values["own_proxies"] = 0
    values["pool"] = max(values["pool"], 2 * values["f"] + rng.choice([1, 2, 4]))
    for key in OPTIONAL:
        if rng.random() < 0.5:
            del values[key]
    del values["base_port"]
    return values if port is None else values | {"base_port": port}


def header_text(values):
    return "".join(f"{key} = {value}\n" for key, value in values.items())


def indices(values, kind):
    """How many roles of a kind there are."""
    return values.get(COUNTED_BY[kind], {"match": 2 * values["f"] + 1}.get(kind, 0))


def role(rng, values, kinds):
    kind = rng.choice([kind for kind in kinds if indices(values, kind)])
    return f"{kind}:{rng.randrange(indices(values, kind))}"


def request(rng, values, number, told=""):
    """A line of a client; `told` is what stands behind its number."""
    client, told = role(rng, values, ["client"]), f"{number}{told}"
    key = "k" + str(rng.randrange(4))
    if rng.random() < 0.3:
        return f"read {client} {told} {role(rng, values, ['reader'])} {role(rng, values, ['replica'])} {key}"
    if rng.random() < 0.2:
        return f"session {client} {told} {role(rng, values, ['replica'])} {key}"
    rest = rng.choice([f"put {key} v{number % 10}", f"del {key}", f"app {key} v{number % 10}"])
    return f"write {client} {told} {role(rng, values, ['batcher'])} {rest}"


def grid(rng, values):
    members = list(range(values["acceptors"]))
    rng.shuffle(members)
    rows = rng.randint(1, min(4, len(members)))
    cols = rng.randint(1, min(4, len(members) // rows))
    return f"{rows}x{cols} " + ",".join(map(str, members[:rows * cols]))


def events(rng, values, count):
    """Lines of a schedule that gets somewhere: what is sent is delivered soon, for the most part."""
    others = [kind for kind in KINDS if kind != "client"]
    front = 0
    yield f"lead leader:0 {grid(rng, values)}"
    for number in range(1, count):
        what = rng.randrange(100)
        if what < 66:
            at = front if rng.random() < 0.8 else max(0, front - rng.randrange(1, 12))
            front += at == front
            yield f"deliver {at}" + rng.choice([""] * 30 + [" torn", " kept"])
        elif what < 82:
            yield request(rng, values, number, rng.choice([""] * 4 + [f"/{max(0, number - rng.randint(1, 66))}"]))
        elif what < 90:
            yield f"tick {role(rng, values, others)}"
        elif what < 94:
            yield f"{rng.choice(['lead', 'change'])} {role(rng, values, ['leader'])} {grid(rng, values)}"
        elif what < 95:
            yield f"collect {role(rng, values, ['leader'])}"
        elif what < 96 and indices(values, "replacer"):
            count, pool = 2 * values["f"] + 1, indices(values, "match")
            members = sorted(rng.sample(range(pool), count))
            yield f"replace {role(rng, values, ['replacer'])} {','.join(map(str, members))}" + rng.choice([""] * 8 + [" torn", " kept"])
        elif what < 97 and indices(values, "replica") > 1:
            replica, other = rng.sample(range(indices(values, "replica")), 2)
            yield f"offer replica:{replica} replica:{other} {rng.choice([0, rng.randrange(8), 2**40])}"
        elif what < 98:
            yield f"snap {role(rng, values, ['replica'])}" + rng.choice([""] * 8 + [" torn", " kept"])
        else:
            yield f"{rng.choice(['crash', 'restart', 'restart', 'restart'])} {role(rng, values, others)}"


def made_schedule(rng):
    values = header(rng)
    lines = events(rng, values, rng.choice([5, 40, 200]))
    return (header_text(values) + "---\n" + "".join(line + "\n" for line in lines)).encode()


def made_input(rng, values):
    number, lines = 0, []
    for _ in range(rng.choice([0, 1, 3, 10])):
        number += rng.randint(1, 3)
        lines.append(request(rng, values, number) + "\n")
    return (header_text(values) + "---\n" + "".join(lines)).encode()


def place(rng, data):
    return rng.randrange(len(data) + 1)


def flipped(rng, data):
    if not data:
        return data
    at = rng.randrange(len(data))
    return data[:at] + bytes([data[at] ^ (1 << rng.randrange(8))]) + data[at + 1:]


def cut(rng, data):
    first, second = sorted((place(rng, data), place(rng, data)))
    return rng.choice([data[:first], data[:first] + data[second:], data[:first] + data[first:second] * 2 + data[second:]])


def with_piece(rng, data):
    at = place(rng, data)
    return data[:at] + rng.choice(PIECES) + data[at:]


def with_number(rng, data):
    found = list(re.finditer(rb"[0-9]+", data))
    if not found:
        return data
    at = rng.choice(found)
    return data[:at.start()] + str(rng.choice(NUMBERS)).encode() + data[at.end():]


def with_lines_moved(rng, data):
    lines = data.splitlines(True)
    if not lines:
        return data
    line = lines.pop(rng.randrange(len(lines)))
    for _ in range(rng.choice([0, 1, 2])):
        lines.insert(rng.randint(0, len(lines)), line)
    return b"".join(lines)


def with_word_moved(rng, data):
    words = re.split(rb"(\s+)", data)
    one, other = rng.randrange(len(words)), rng.randrange(len(words))
    words[one], words[other] = words[other], words[one]
    return b"".join(words)


CHANGES = [flipped, cut, with_piece, with_number, with_number, with_lines_moved, with_lines_moved, with_word_moved]


def changed(rng, data):
    for _ in range(rng.choice([0, 0, 1, 1, 1, 2, 4])):
        data = rng.choice(CHANGES)(rng, data)
    return data


# What is run: the words, the input, and the files of stores that are there before.
Case = collections.namedtuple("Case", "words data files")


def replay_case(rng, shipped):
    data = rng.choice(shipped) if rng.random() < 0.4 else made_schedule(rng)
    if rng.random() < 0.1:
        data = changed(rng, data)[:rng.randrange(200)] + rng.choice(shipped)
    words = ["replay"] + ["x"] * (rng.random() < 0.02)
    return Case(words, changed(rng, data), {})


def gen_case(rng):
    seed = rng.choice([rng.randrange(100), rng.choice(NUMBERS), rng.getrandbits(64)])
    count = rng.choice([rng.randrange(400), rng.randrange(400), rng.choice([0, 1, 65536, 10**9])])
    words = ["gen", str(seed), str(count)]
    if rng.random() < 0.1:
        words[rng.randrange(3)] = rng.choice(["", "-1", "+1", "x", "--help", "--", "1 "])
    return Case(words, b"", {})


# A small store of each kind of role that has one: journals, and a replica's file with a list that was written anew.
WHOLE = {
    "leader": [workloads.written("leader", 1)],
    "acceptor": [workloads.written("acceptor", 2), workloads.written("informed", 1), bytes.fromhex("010000000b010000000100000000000000")],
    "match": [workloads.written("matchmaker", 1)],
    "replica": [workloads.written("replica", 2),
                bytes.fromhex("04010100000016080000000000000001000000000000000100000001010100000006090101610131"
                              "010000001d0a0000000000000000000001000000000000000100000000000000010000")],
    "reader": [bytes.fromhex("010000000910000000000000000100")],
    "replacer": [bytes.fromhex("010000000b0c0000000100000000000000"), bytes.fromhex("01000000041201000100")],
}


def store(rng, kind):
    """A store's bytes: those of a small one of its kind or of any, changed, or any bytes. None is a folder, where a file should be."""
    whole = rng.choice(WHOLE[kind] if rng.random() < 0.8 else [each for stored in WHOLE.values() for each in stored])
    if rng.random() < 0.05:
        return None
    return rng.choice([b"", b"\0", b"\1", b"\4", whole, whole, changed(rng, whole), changed(rng, whole * 2), rng.randbytes(rng.randrange(64))])


def stores(rng, values):
    """The files of some roles."""
    files = {}
    for _ in range(rng.choice([1, 1, 2, 4])):
        kind, _, index = role(rng, values, KEEPING).partition(":")
        files |= {name: store(rng, kind) for name in Role(kind, int(index)).files if rng.random() < 0.8}
    return files


def options(rng):
    """Each option with a value or without, sometimes with a bad one, or twice; --turns nearly always, since it ends the run."""
    words = []
    for option, takes in OPTIONS.items():
        if rng.random() < (0.97 if option == "--turns" else 0.3):
            is_bad = rng.random() < 0.03
            value = rng.choice(BAD_VALUES if is_bad else VALUES.get(option, BAD_VALUES))
            words.append([option] + [value] * bool(takes))
    if rng.random() < 0.02:
        words.append(rng.choice([["--more"], ["--turns"], ["--record"], ["-t", "1"], ["--"]]))
    rng.shuffle(words)
    return [word for each in words for word in each]


def node_words(rng, values):
    roles = [f"{kind}:{index}" for kind in KINDS for index in range(indices(values, kind))]
    rng.shuffle(roles)
    words = options(rng)
    if rng.random() < (0.1 if "--record" in words else 0.5):
        roles = roles[:rng.randint(1, len(roles))]
    if rng.random() < 0.1:
        roles[rng.randrange(len(roles))] = rng.choice(["", "client", "client:", "match:99", "client:65536", "acceptor:00", roles[0]])
    return ["node", *words, *roles]


def node_case(rng, shipped):
    values = header(rng, rng.randrange(20000, 59000))
    data = made_input(rng, values)
    if rng.random() < 0.2:
        data = rng.choice(shipped)
    files = stores(rng, values) if rng.random() < 0.5 else {}
    if rng.random() < (0.1 if files else 0.5):
        data = changed(rng, data)
    return Case(node_words(rng, values), data, files)


def make(seed, number, schedules, inputs):
    rng = random.Random(f"{seed}/{number}")
    what = rng.randrange(10)
    if what < 6:
        return replay_case(rng, schedules)
    return gen_case(rng) if what < 7 else node_case(rng, inputs)


def lay(folder, case):
    """Makes the stores that are there before."""
    for name, data in case.files.items():
        if data is None:
            (folder / name).mkdir()
        else:
            (folder / name).write_bytes(data)


def run(command, case, limit):
    """The status, or why there is none, and what was written."""
    with tempfile.TemporaryDirectory() as folder:
        lay(pathlib.Path(folder), case)
        try:
            done = subprocess.run(command + case.words, input=case.data, capture_output=True, cwd=folder, timeout=limit)
        except subprocess.TimeoutExpired:
            return "hangs", b"", b""
    return done.returncode, done.stdout, done.stderr


def wrong_end(case, status, out, err):
    """Why a program may not end so, or None."""
    if status == "hangs":
        return "it hangs"
    if status < 0:
        return f"it was ended by signal {-status}"
    if status not in lines_by_status():
        return f"there is no status {status}"
    line, *more = err.decode(errors="replace").removesuffix("\n").split("\n")
    causes = 1 if status in (LINK_FAILED, STORE_FAILED) and "--tend" in case.words else 0
    if not lines_by_status()[status].fullmatch(line) or err and not err.endswith(b"\n") or len(more) > causes:
        return f"another line than that of status {status}"
    if status == BAD_WORDS and out or case.words[0] == "node" and status == BAD_INPUT and out:
        return "it has written something, but its words or lines are refused"
    if case.words[0] != "node" and status not in (0, BAD_WORDS, BAD_INPUT, NO_MEMORY):
        return f"nothing gave cause for status {status}"
    return None


def differs(case, got, wanted):
    """How an end differs from the reference's, or None."""
    status, out, _ = got
    if status == NO_MEMORY:
        return None
    if case.words[0] != "node":
        return None if (status, out) == wanted[:2] else f"the reference has status {wanted[0]}"
    refused = (BAD_WORDS, BAD_INPUT)
    if (status in refused or wanted[0] in refused) and got != wanted:
        return f"the reference has status {wanted[0]}"
    return None


def keep(folder, case, got, wanted):
    folder.mkdir(parents=True, exist_ok=True)
    (folder / "words").write_text("\n".join(case.words) + "\n")
    (folder / "input").write_bytes(case.data)
    lay(folder, case)
    for name, end in (("got", got), ("wanted", wanted)):
        if end is not None:
            (folder / f"{name}.status").write_text(f"{end[0]}\n")
            (folder / f"{name}.stdout").write_bytes(end[1])
            (folder / f"{name}.stderr").write_bytes(end[2])


def tried(args, case):
    """Why this run is wrong, or None, and how the program and the reference ended."""
    got = run(args.program, case, args.limit)
    why = wrong_end(case, *got)
    if why is not None or args.reference is None or "--tend" in case.words:     # a reference tends nothing
        return why, got, None
    wanted = run(args.reference, case, 10 * args.limit)
    return differs(case, got, wanted), got, wanted


def said_of(err):
    """The first line on standard error, without its numbers."""
    return re.sub(r":?\b\d+", "", err.decode(errors="replace").partition("\n")[0])


def arguments():
    parser = argparse.ArgumentParser(description=__doc__.split("\n\n")[0])
    parser.add_argument("program", type=lambda text: [str(pathlib.Path(shlex.split(text)[0]).resolve())] + shlex.split(text)[1:])
    parser.add_argument("--seconds", type=float, default=60)
    parser.add_argument("--runs", type=int)
    parser.add_argument("--seed", type=int, default=random.SystemRandom().randrange(2**32))
    parser.add_argument("--only", type=int)
    parser.add_argument("--limit", type=float, default=20)
    parser.add_argument("--keep", type=pathlib.Path, default=pathlib.Path("fuzz-kept"))
    parser.add_argument("--reference", type=shlex.split)
    return parser.parse_args()


def main():
    args = arguments()
    schedules = [path.read_bytes() for path in sorted(DATA.glob("*.schedule"))]
    inputs = [path.read_bytes() for path in sorted(DATA.glob("*.input"))]
    print(f"seed {args.seed}", flush=True)
    ends = collections.Counter()
    number, until = args.only or 0, time.monotonic() + args.seconds
    while time.monotonic() < until and number != args.runs:
        case = make(args.seed, number, schedules, inputs)
        why, got, wanted = tried(args, case)
        if why is not None:
            folder = args.keep / f"{args.seed}-{number}"
            keep(folder, case, got, wanted)
            print(f"run {number}: {shlex.join(case.words)}: status {got[0]}: {why}; kept in {folder}")
            return 1
        ends[case.words[0] if case.words[0] in ("replay", "gen", "node") else "other words", got[0], said_of(got[2])] += 1
        number += 1
        if args.only is not None:
            break
    for (command, status, said), count in sorted(ends.items()):
        print(f"{command}: status {status}, {count} times{said and ': '}{said}")
    print(f"{sum(ends.values())} runs, none wrong")
    return 0


if __name__ == "__main__":
    sys.exit(main())
