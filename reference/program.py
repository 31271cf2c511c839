"""The words and the streams: `replay`, `gen SEED COUNT`, and `schedule SEED COUNT`, which prints generated events as a schedule.

From compax/specs (Words, Line) and cx_replay/specs (Replay, Input).
"""

import contextlib
import os
import re
import sys
from collections.abc import Iterable

from generator import CLUSTER, generated
from header import HEADER_MOST, BadHeader, cluster_of, split_header, stripped
from schedule import LINE_MOST, Parsed, line_of, lines_of, schedule_of
from terms import Cluster
from trace import short_summary, step, summary
from world import World

INPUT, OUTPUT, ERRORS = 3, 1, 2                 # the streams, as reference/compax hands them
CHUNK = 1 << 16                 # bytes that are read, and about so many that are written, at once


class Ends(Exception):
    """How a run ends that doesn't end well: the status, and the line on standard error."""


def read_all() -> tuple[bytes, bool]:
    """What the input gives, and whether that was all of it."""
    text = bytearray()
    try:
        while chunk := os.read(INPUT, CHUNK):
            text += chunk
    except OSError:
        return bytes(text), False
    return bytes(text), True


def write_all(pieces: Iterable[str]) -> None:
    """Writes text to standard output."""
    buffered = bytearray()
    for piece in pieces:
        buffered += piece.encode()
        if len(buffered) >= CHUNK:
            write(buffered)
            buffered.clear()
    write(buffered)


def write(text: bytes) -> None:
    """Writes bytes to standard output, all of them."""
    try:
        while text:
            text = text[os.write(OUTPUT, text) :]
    except OSError:
        raise Ends(5, "write failed") from None


def settled(most: int, text: bytes) -> bytes:
    """What counts of bytes after which others may come: their whole lines, and the last line too where it is too long already."""
    whole, feed, unended = text.rpartition(b"\n")
    return text if len(stripped(unended)) > most else whole + feed


def input_of(text: bytes, ended: bool) -> tuple[Cluster, Parsed] | None:
    """What an input says, of one that may go on its settled text; None of a header that may still end."""
    parts = split_header(text if ended else settled(LINE_MOST, text))
    if parts is None and not ended and sum(len(line) + 1 for line in lines_of(settled(HEADER_MOST, text))) <= HEADER_MOST:
        return None
    if parts is None:
        raise BadHeader("none")
    cluster = cluster_of(parts[0])
    return cluster, schedule_of(cluster, parts[1])


def replay() -> None:
    """Runs the schedule on standard input: its trace, up to the first bad line, and where no line is bad a summary."""
    text, ended = read_all()
    try:
        said = input_of(text, ended)
    except BadHeader:
        raise Ends(3, "bad input at line 0") from None
    if said is None:
        raise Ends(4, "read failed")
    cluster, parsed = said
    world = World(cluster)
    write_all(step(world, event) for event in parsed.events)
    if parsed.bad is not None:
        raise Ends(3, f"bad input at line {parsed.bad}")
    if not ended:
        raise Ends(4, "read failed")
    write_all([summary(world)])


def schedule(seed: int, count: int) -> str:
    """Generated events as a schedule."""
    keys = [f"{key} = {int(getattr(CLUSTER, key))}\n" for key in CLUSTER.__slots__]
    return "".join([*keys, "---\n", *(f"{line_of(event)}\n" for event in generated(seed, count)[1])])


def asked_number(word: str, most: int) -> int:
    """A number among the words: digits, and before them a plus if wanted."""
    found = re.fullmatch(r"\+?0*([0-9]{1,20})", word, re.ASCII)
    if not found or int(found[1]) > most:
        raise Ends(2, "bad words")
    return int(found[1])


def answer(words: list[str]) -> None:
    """Does what the words say. A `--` behind the first word says nothing, as clap has it."""
    if "--" in words[1:]:
        words.pop(words.index("--", 1))
    match words:
        case ["replay"]:
            replay()
        case ["gen" | "schedule" as asked, seed, count]:
            numbers = asked_number(seed, 2**64 - 1), asked_number(count, 65_535)
            write_all([short_summary(generated(*numbers)[0]) if asked == "gen" else schedule(*numbers)])
        case _:
            raise Ends(2, "bad words")


def main() -> int:
    try:
        answer(sys.argv[1:])
    except Ends as end:
        status, line = end.args
        with contextlib.suppress(OSError):
            os.write(ERRORS, f"{line}\n".encode())
        return status
    return 0


if __name__ == "__main__":
    sys.exit(main())
