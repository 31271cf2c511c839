"""Tests of tools/journal: the words of each record, where a file is no journal, and which of a replica's two files is live.

$COMPAX may name the program."""

import io
import pathlib
import re
import subprocess
import sys
import tempfile
import unittest

from headers import Role, program
from journals import GREATEST, Break, Journal
from supervised import rounds_held
from trials import LONGEST, SMALL, TOOLS, Trial, run

RUNS = TOOLS.parent / "crates/compax/runs"
# Of these stored runs the node refuses a record that can be read, but that the role could not have appended.
REFUSED_BY_ROLES = {"client-outside", "member-outside", "other-leader", "round-skipped", "second-record", "vote-twice"}

ROUND = bytes.fromhex("00000001" "0000" "00000000")
LATER = bytes.fromhex("00000002" "0003" "00000004")
GRID = bytes.fromhex("0202" "0000" "0001" "0002" "0003")
PUT = bytes.fromhex("0005" "0000000000000007" "01" "0161" "023132")
DELETE = bytes.fromhex("0000" "ffffffffffffffff" "02" "036b2d31")
APPEND = bytes.fromhex("003f" "0000000000000001" "03" "0161" "015f")


def number(value: int) -> bytes:
    return value.to_bytes(8, "big")


# A replica's two files from an old journal on: after a snap, a Log with a command, one with a no-op, a snap; a Log, and a snap. These bytes were
# worked out from the description of the format, and not by the program.
PUT_A = "01 00000013 07 01 01 01 0000 0000000000000001 01 0161 0131"
BASE, PAIRS = "01 00000016 08 0000000000000001 0000000000000001 00000001 01", "01 00000006 09 01 0161 0131"
NOTES = "01 0000001d 0a 0000 0000000000000000 01 0000000000000001 0000000000000001 00"
FIRST = f"04 01 {BASE} {PAIRS} {NOTES}"
APP_A, NOOP = "01 00000013 07 01 01 01 0000 0000000000000002 03 0161 0178", "01 00000003 07 01 00"
SECOND = "04 02 01 00000016 08 0000000000000003 0000000000000003 00000001 01 01 00000007 09 01 0161 023178" \
         " 01 0000001e 0a 0000 0000000000000001 01 0000000000000002 0000000000000002 0302"
DEL_A = "01 00000011 07 01 01 01 0000 0000000000000003 02 0161"
THIRD = "04 00 01 00000016 08 0000000000000004 0000000000000004 00000000 01" \
        " 01 00000020 0a 0000 0000000000000002 01 0000000000000003 0000000000000004 01 023178"
OF_FIRST = ["2 Base first 1 held 1 pairs 1 clients 1", "29 Pairs a=1", "40 Notes client:0 floor 0: 1 at 1 ok"]
OF_SECOND = ["2 Base first 3 held 3 pairs 1 clients 1", "29 Pairs a=1x", "41 Notes client:0 floor 1: 2 at 2 len 2"]
OF_THIRD = ["2 Base first 4 held 4 pairs 0 clients 1", "29 Notes client:0 floor 2: 3 at 4 was 1x"]
RENEWALS = [
    (f"{PUT_A} 00", "", 0, ["0 Log slot 0: client:0 1 put a 1", "24 closed"]),
    (f"{PUT_A} 00", f"{FIRST} 00", 1, [*OF_FIRST, "74 closed"]),
    (f"{PUT_A} 00", f"{FIRST} {APP_A} 00", 1, [*OF_FIRST, "74 Log slot 1: client:0 2 app a x", "98 closed"]),
    (f"{PUT_A} 00", f"{FIRST} {APP_A} {NOOP} 00", 1, [*OF_FIRST, "74 Log slot 1: client:0 2 app a x", "98 Log slot 2: noop", "106 closed"]),
    (f"{SECOND} 00", f"{FIRST} {APP_A} {NOOP} 00", 0, [*OF_SECOND, "76 closed"]),
    (f"{SECOND} {DEL_A} 00", f"{THIRD} 00", 1, [*OF_THIRD, "66 closed"]),
]
# The records of lists that no replica wrote, and the record that a node refuses, or the end.
REFUSED = [(f"{BASE}", 29), (f"{BASE} {PAIRS}", 40), (f"{BASE} {PAIRS} {NOOP}", 40), (f"{NOOP} {BASE} {PAIRS} {NOTES}", 10),
           (f"{BASE} {PAIRS} {NOTES} {BASE}", 74), (f"{BASE} {PAIRS} {PAIRS} {NOTES}", 40)]
# Two files, which one is live, how many records it has; or the byte at which they are none, and what is said of it.
OPENINGS = [
    ("", "", 0, 0), ("04", "0401", 0, 0), ("01", "", 0, 0), ("0405", "", 0, 0), ("00", "040000", 1, 0), ("040000", "", 0, 0),
    ("040000", "040100", 1, 0), ("040100", "040200", 1, 0), ("040000", "040200", 0, 0), ("040000000307010000", "", 0, 0),
    ("010000000307010000", "01", 0, 1), ("010000000307010000", "0103", 0, 1), ("010000000307010000", "040000", 1, 0),
]
BROKEN = [
    ("040300", "", 1, "generation 3"), ("", "040300", 1, "generation 3"), ("0401", "040500", 1, "generation 5"), ("040300", "040500", 1, "generation 3"),
    ("040200", "040200", 1, "generation 2"), ("040001", "", 3, "ends"), ("0400010000", "", 5, "ends"), ("0102", "", 2, "ends"),
]


def journal(*payloads: bytes) -> bytes:
    """The bytes of a journal with these records."""
    return b"".join(b"\1" + len(payload).to_bytes(4, "big") + payload for payload in payloads) + b"\0"


class JournalTest(unittest.TestCase):
    def setUp(self) -> None:
        self.room = pathlib.Path(self.enterContext(tempfile.TemporaryDirectory(prefix="compax-journal-")))

    def read(self, data: bytes, *words: str, name: str = "a") -> tuple[int, list[str], str]:
        """The status, the lines, and what is said on standard error."""
        file = self.room / name
        file.write_bytes(data)
        status, out, said = run("journal", file, *words)
        self.assertNotIn("Traceback", said)
        self.assertEqual(status == 0, said == "")
        return status, out.splitlines(), said

    def breaks(self, data: bytes, at: int, lines: list[str], **how: str) -> None:
        """A file is no journal from this byte on, after the records of these lines."""
        status, out, said = self.read(data, **how)
        self.assertEqual((status, out), (1, lines))
        self.assertIn(f"is not a journal from byte {at}: ", said)

    def test_an_acceptor(self) -> None:
        vote = b"\2" + LATER + number((1 << 40) - 1) + number(1 << 40) + b"\1\3" + PUT + DELETE + APPEND
        data = journal(b"\1" + ROUND, b"\2" + ROUND + number(3) + number(1) + b"\0", b"\3" + ROUND + number(4), vote)
        said = "client:5 7 put a 12, client:0 18446744073709551615 del k-1, client:63 1 app a _"
        self.assertEqual(self.read(data), (0, [
            "0 Promise round 1.0.0",
            "16 Vote round 1.0.0 slot 3 watermark 1: noop",
            "49 Water round 1.0.0 watermark 4",
            f"73 Vote round 2.3.4 slot 1099511627775 watermark 1099511627776: {said}",
            f"{len(data) - 1} closed",
        ], ""))
        self.assertEqual(self.read(data, "--count")[1], ["4 records: 1 Promise, 2 Vote, 1 Water"])

    def test_a_matchmaker_and_a_leader(self) -> None:
        self.assertEqual(self.read(journal(b"\4" + ROUND + GRID, b"\5" + ROUND + GRID))[1],
                         ["0 Match round 1.0.0 grid 2x2 0,1,2,3", "26 Garbage round 1.0.0 grid 2x2 0,1,2,3", "52 closed"])
        self.assertEqual(self.read(journal(b"\6" + LATER + GRID))[1], ["0 Round round 2.3.4 grid 2x2 0,1,2,3", "26 closed"])

    def test_rounds_that_a_matchmaker_holds(self) -> None:
        """A round for which it forgot leaves itself and those above."""
        first, second, third = (bytes([0, 0, 0, number, 0, 0, 0, 0, 0, 0]) + GRID for number in (1, 2, 3))
        for records, held in (([], 0), ([b"\4" + first], 1), ([b"\4" + first, b"\4" + second], 2),
                              ([b"\4" + first, b"\4" + second, b"\5" + second], 1), ([b"\4" + first, b"\4" + second, b"\5" + first, b"\4" + third], 3),
                              ([b"\4" + first, b"\4" + third, b"\5" + second], 1)):
            with self.subTest(held=held, records=len(records)):
                (self.room / "a").write_bytes(journal(*records))
                with open(self.room / "a", "rb") as file:
                    self.assertEqual(rounds_held(Journal(file, "match")), held)

    def test_a_reader(self) -> None:
        turns = journal(b"\x10" + number(1), b"\x10" + number(GREATEST))
        self.assertEqual(self.read(turns, name="compax-reader-1.journal"), (0, ["0 Turn 1", f"14 Turn {GREATEST}", "28 closed"], ""))
        self.breaks(journal(b"\x10" + number(0)), 6, [])
        self.breaks(turns, 5, [], name="compax-match-0.journal")

    def test_sets_of_matchmakers(self) -> None:
        sets = bytes.fromhex("03" "0003" "0004" "0009")
        stored = journal(b"\x0d" + ROUND, b"\x0e" + LATER + sets)
        self.assertEqual(self.read(stored, name="compax-match-0.journal"),
                         (0, ["0 Stop ballot 1.0.0", "16 Next ballot 2.3.4 set 3,4,9", "39 closed"], ""))
        nothing = b"\x0f" + sets + bytes(10) + b"\0"
        self.assertEqual(self.read(journal(nothing))[1], ["0 Boot set 3,4,9 watermark none", "24 closed"])
        joined = b"\x0f" + sets + ROUND + b"\2" + ROUND + GRID + LATER + GRID
        self.assertEqual(self.read(journal(joined))[1][0],
                         "0 Boot set 3,4,9 watermark 1.0.0 round 1.0.0 grid 2x2 0,1,2,3 round 2.3.4 grid 2x2 0,1,2,3")
        self.assertEqual(self.read(journal(b"\x0c" + ROUND), name="compax-replacer-0.journal"), (0, ["0 Ballot ballot 1.0.0", "16 closed"], ""))
        self.assertEqual(self.read(journal(b"\x0c" + ROUND, b"\x12" + sets), name="compax-replacer-0.journal"),
                         (0, ["0 Ballot ballot 1.0.0", "16 Known set 3,4,9", "29 closed"], ""))
        self.breaks(journal(b"\x12" + sets), 5, [], name="compax-match-0.journal")
        self.breaks(journal(b"\x0e" + LATER + bytes.fromhex("03" "0003" "0003" "0009")), 19, [])
        self.breaks(stored, 5, [], name="compax-replacer-0.journal")

    def test_a_replica_says_which_slots(self) -> None:
        data = journal(b"\7\2\0\1\1" + PUT, b"\7\1\0", b"\7\2\0\0")
        self.assertEqual(self.read(data)[1], ["0 Log slots 0 to 1: noop | client:5 7 put a 12", "26 Log slot 2: noop",
                                              "34 Log slots 3 to 4: noop | noop", "43 closed"])

    def test_floors(self) -> None:
        told = [PUT[:10] + b"\4" + number(5) + PUT[11:], PUT[:10] + b"\5" + number(0) + PUT[11:13], PUT[:10] + b"\6" + number(2) + PUT[11:]]
        self.assertEqual(self.read(journal(b"\7\1\1\3" + b"".join(told)))[1],
                         ["0 Log slot 0: client:5 7/5 put a 12, client:5 7/0 del a, client:5 7/2 app a 12", "78 closed"])

    def test_what_a_node_left(self) -> None:
        folder = RUNS / "node-put/left"
        lines = {file.name: run("journal", file)[1].splitlines() for file in folder.iterdir()}
        self.assertEqual(lines, {
            "compax-acceptor-0.journal": ["0 Vote round 1.0.0 slot 0 watermark 0: client:0 1 put a 1", "49 closed"],
            "compax-leader-0.journal": ["0 Round round 1.0.0 grid 1x1 0", "20 closed"],
            "compax-match-0.journal": ["0 Match round 1.0.0 grid 1x1 0", "20 closed"],
            "compax-reader-0.journal": ["0 closed"],
            "compax-replica-0.journal": ["0 Log slot 0: client:0 1 put a 1", "24 closed"],
            "compax-replica-0.other": ["0 closed"],
        })

    def test_breaks_are_those_of_the_node(self) -> None:
        by_roles = set()
        for folder in sorted(RUNS.glob("node-bad-store-*")):
            role, at = re.findall(r"bad store: (\S+) at (\d+)", (folder / "stderr").read_text())[0]
            status, out, said = run("journal", folder / "files" / f"compax-{role.replace(':', '-')}.journal")
            if status == 0:
                by_roles.add(folder.name.removeprefix("node-bad-store-"))
                self.assertTrue(any(line.startswith(f"{at} ") for line in out.splitlines()), folder.name)
            else:
                self.assertIn(f" is not a journal from byte {at}: ", said, folder.name)
        self.assertEqual(by_roles, REFUSED_BY_ROLES)

    def test_it_ends_badly_at_each_byte_at_which_it_is_cut(self) -> None:
        data = journal(b"\1" + ROUND, b"\2" + ROUND + number(3) + number(1) + b"\1\1" + PUT)
        for size in range(2, len(data)):
            (self.room / "cut").write_bytes(data[:size])
            with open(self.room / "cut", "rb") as file, self.assertRaises(Break) as broken:
                for frame in Journal(file, None).frames():
                    frame.words(None)
            self.assertEqual(broken.exception.at, size)
        self.breaks(data[:-1], len(data) - 1, ["0 Promise round 1.0.0",
                                               "16 Vote round 1.0.0 slot 3 watermark 1: client:5 7 put a 12"])

    def test_an_append_that_was_cut(self) -> None:
        data = journal(b"\1" + ROUND)
        self.assertEqual(self.read(data + bytes(9))[1], ["0 Promise round 1.0.0", "16 closed, and 9 bytes of a change that was cut off"])
        self.assertEqual(self.read(b"\0" + journal(b"\1" + ROUND)[1:])[1], ["0 closed, and 16 bytes of a change that was cut off"])
        self.assertEqual(self.read(data[:-1] + b"\7")[1], ["0 Promise round 1.0.0", "16 closed"])

    def test_a_journal_without_records(self) -> None:
        for data in (b"", b"\0", b"\1"):
            self.assertEqual(self.read(data)[:2], (0, ["0 closed"]))
            self.assertEqual(self.read(data, "--count")[1], ["0 records"])

    def test_what_is_no_journal(self) -> None:
        self.breaks(b"some text\n", 0, [])
        self.breaks(b"x", 0, [])
        self.breaks(bytes(1 + 4 + 32_768 + 2), 0, [])
        self.assertEqual(self.read(bytes(1 + 4 + 32_768 + 1))[0], 0)
        self.breaks(journal(b"\6" + ROUND + GRID), 5, [], name="compax-acceptor-0.journal")
        self.breaks(journal(b"\1" + ROUND, b"\6" + ROUND + GRID), 21, ["0 Promise round 1.0.0"])
        self.breaks(journal(b"\1" + ROUND)[:-1] + journal(b"\x2a"), 21, ["0 Promise round 1.0.0"])
        self.assertEqual(self.read(journal(b"\6" + ROUND + GRID), "--kind", "match")[0], 1)
        self.assertEqual(self.read(journal(b"\1" + ROUND, b"\6" + ROUND + GRID), "--count")[:2], (1, ["1 record: 1 Promise"]))

    def test_fields_out_of_range(self) -> None:
        slot = number(1 << 40)
        for payload, at in [(b"\1" + bytes(10), 6), (b"\2" + ROUND + slot, 16), (b"\3" + ROUND + slot[:-1] + b"\1", 16),
                            (b"\4" + ROUND + b"\0", 16), (b"\4" + ROUND + b"\5\4", 17), (b"\7\0", 6), (b"\7\x21", 6),
                            (b"\7\1\2", 7), (b"\7\1\1\x09", 8), (b"\7\1\1\1" + PUT[:2] + bytes(8), 11),
                            (b"\7\1\1\1" + PUT[:10] + b"\7", 19), (b"\7\1\1\1" + PUT[:11] + b"\x21", 20),
                            (b"\7\1\1\1" + PUT[:11] + b"\1 ", 21), (b"\7\1\1\1" + PUT[:10] + b"\4" + number(7), 20),
                            (b"\7\1\1\1" + PUT[:10] + b"\5" + number(6), 20), (b"\7\1\1\1" + DELETE[:10] + b"\6" + number(7), 20),
                            (b"\7\1\1\1" + PUT[:10] + b"\4" + number(5) + b"\x21", 28)]:
            with self.subTest(payload=payload.hex()):
                self.breaks(journal(payload + bytes(40)), at, [])

    def test_what_can_not_be_read(self) -> None:
        bad: list[list[object]] = [[self.room], [self.room / "none"], [], [self.room, "more", "most"], [self.room / "none", self.room],
                                   ["--kind", "proxy", self.room]]
        for words in bad:
            status, out, said = run("journal", *words)
            self.assertEqual((status, out), (2, ""), words)
            self.assertNotIn("Traceback", said)

    def test_a_reader_that_ends_early(self) -> None:
        """As `tools/journal FILE | head`."""
        file = self.room / "long"
        file.write_bytes(journal(*[b"\7\1\0"] * 50_000))
        with subprocess.Popen([sys.executable, TOOLS / "journal", file], stdout=subprocess.PIPE, stderr=subprocess.PIPE) as ran:
            assert isinstance(ran.stdout, io.BufferedReader) and ran.stderr
            ran.stdout.readline()
            ran.stdout.close()
            self.assertEqual((ran.stderr.read(), ran.wait()), (b"", 0))

    def both(self, first: str, second: str, *words: str) -> tuple[int, list[str], str]:
        """The status, the lines but for the folder, and what is said of a replica's two files, whose bytes are given in hexadecimal."""
        files = [self.room / f"compax-replica-0.{name}" for name in ("journal", "other")]
        for file, data in zip(files, (first, second)):
            file.write_bytes(bytes.fromhex(data))
        status, out, said = run("journal", *files, *words)
        return status, out.replace(f"{self.room}/compax-replica-0.", "").splitlines(), said

    def test_renewals(self) -> None:
        for first, second, live, lines in RENEWALS:
            with self.subTest(lines=lines):
                status, out, said = self.both(first, second)
                self.assertEqual((status, out[2:], said), (0, lines, ""))
                self.assertEqual([line.endswith(", live") for line in out[:2]], [live == 0, live == 1])
        self.assertEqual(self.both(*RENEWALS[1][:2])[1][:2], ["journal: plain", "other: generation 1, live"])
        self.assertEqual(self.both(*RENEWALS[5][:2])[1][:2], ["journal: generation 2", "other: generation 0, live"])
        self.assertEqual(self.both(*RENEWALS[3][:2], "--count")[1][2:], ["5 records: 1 Base, 1 Pairs, 1 Notes, 2 Log"])

    def test_openings(self) -> None:
        for first, second, live, records in OPENINGS:
            with self.subTest(first=first, second=second):
                status, out, said = self.both(first, second)
                self.assertEqual((status, len(out) - 3, said), (0, records, ""))
                self.assertEqual([line.endswith(", live") for line in out[:2]], [live == 0, live == 1])
        for first, second, at, why in BROKEN:
            with self.subTest(first=first, second=second):
                status, out, said = self.both(first, second)
                self.assertEqual((status, len(out)), (1, 2))
                self.assertRegex(said, rf"is not a journal from byte {at}: .*{why}")

    def test_one_file_of_a_replica(self) -> None:
        renewed = bytes.fromhex(f"{FIRST} 00")
        for name in ("compax-replica-0.other", "compax-replica-7.journal", "a"):
            self.assertEqual(self.read(renewed, name=name)[:2], (0, ["generation 1", *OF_FIRST, "74 closed"]))
        self.breaks(renewed, 0, [], name="compax-acceptor-0.journal")
        self.breaks(b"\4\3\0", 1, ["generation 3"], name="compax-replica-0.other")
        being_written = b"\0" + renewed[1:-1] + bytes(1 + 4 + 32_768)
        self.assertEqual(self.read(being_written, name="compax-replica-0.other")[1],
                         [f"0 closed, and {len(being_written) - 1} bytes of a change that was cut off"])
        self.breaks(being_written, 0, [], name="compax-leader-0.journal")
        for front in (b"\0\3\1", b"\0\1\2"):
            self.breaks(front + being_written[3:], 0, [], name="compax-replica-0.other")

    def test_a_long_list(self) -> None:
        """256 keys, and the values of the last 33 slots: more than one record of pairs has, and one of the tail."""
        values = [b"\1\1\0\0" + number(at + 1) + b"\1\4" + b"k%03d" % at + b"\1v" for at in range(256)]
        pairs = [b"\4" + b"k%03d" % at + b"\1v" for at in range(256)]
        notes = b"\x0a" + bytes(2) + number(255) + b"\1" + number(256) + number(256) + b"\0"
        records = [b"\x08" + number(223) + number(256) + b"\0\0\1\0\1", b"\x09\xff" + b"".join(pairs[:255]), b"\x09\1" + pairs[255], notes,
                   b"\x0b\x20" + b"".join(values[223:255]), b"\x0b\1" + values[255]]
        self.assertEqual([len(record) for record in records], [22, 1787, 9, 29, 642, 22])
        _, out, _ = self.read(b"\4\2" + journal(*records, b"\7\1\0"), name="compax-replica-0.other")
        self.assertEqual([" ".join(line.split()[1:5]) for line in out[1:-1]],
                         ["Base first 223 held", "Pairs k000=v k001=v k002=v", "Pairs k255=v", "Notes client:0 floor 255:",
                          "Tail slots 223 to", "Tail slot 255: client:0", "Log slot 256: noop"])
        self.assertTrue(out[5].endswith(" 254: " + " | ".join(f"client:0 {at + 1} put k{at:03} v" for at in range(223, 255))))

    def test_fields_of_a_list_out_of_range(self) -> None:
        note = b"\x0a\0\5" + number(0) + b"\1"
        for payload, at in [(b"\x08" + number((1 << 40) + 1) + number(0) + bytes(5), 8), (b"\x08" + number(1) + number((1 << 40) + 1) + bytes(5), 16),
                            (b"\x08" + number(1) + number(1) + bytes(3), 24), (b"\x08" + number(1) + number(1) + bytes(6), 29), (b"\x09\0", 8),
                            (b"\x09\1\1a\0", 11), (b"\x09\1\1a\x41", 11), (b"\x09\1\x21", 9), (b"\x09\1\1 \1a", 10), (note[:-1] + b"\0", 18),
                            (note[:-1] + b"\x41", 18), (note + number(0), 19), (note + number(1) + number(0), 27),
                            (note + number(1) + number((1 << 40) + 1), 27), (note + number(1) + number(1) + b"\5", 35),
                            (note + number(1) + number(1) + b"\3\0", 36), (note + number(1) + number(1) + b"\3\x41", 36),
                            (note + number(1) + number(1) + b"\1\x41", 36), (b"\x0b\0", 8), (b"\x0b\x21", 8), (b"\x0b\1\2", 9), (b"\x13", 7)]:
            with self.subTest(payload=payload.hex()):
                self.breaks(b"\4\1" + journal(payload), at, ["generation 1"])
        note += number(1) + number(1)
        _, out, _ = self.read(b"\4\1" + journal(note + b"\2", note + b"\4"))
        self.assertEqual(out[1:3], ["2 Notes client:5 floor 0: 1 at 1 none", "36 Notes client:5 floor 0: 1 at 1 full"])


class NodeTest(Trial):
    """What a node says of a replica's two files is what tools/journal says, and it writes the bytes that were worked out."""

    def setUp(self) -> None:
        super().setUp()
        self.header = self.new(SMALL)
        self.files = [self.room / name for name in Role("replica", 0).files]

    def node(self, turns: int) -> tuple[int, str]:
        """The status, and what is said."""
        words = [program(), "node", "--turns", str(turns), "replica:0"]
        ran = subprocess.run(words, cwd=self.room, input=self.header.input, capture_output=True, text=True, timeout=LONGEST)
        self.assertEqual(ran.stdout, "")
        return ran.returncode, ran.stderr

    def lay(self, *data: str) -> None:
        for file, each in zip(self.files, data):
            file.write_bytes(bytes.fromhex(each))

    def test_openings(self) -> None:
        for first, second, *_ in OPENINGS:
            self.lay(first, second)
            self.assertEqual(self.node(1), (0, ""), (first, second))
        for first, second, at, _ in BROKEN:
            self.lay(first, second)
            self.assertEqual(self.node(1), (10, f"bad store: replica:0 at {at}\n"))

    def test_lists_that_no_replica_wrote(self) -> None:
        for records, at in REFUSED:
            self.lay("", f"04 01 {records} 00")
            self.assertEqual(self.node(1), (10, f"bad store: replica:0 at {at}\n"))
            self.assertEqual(run("journal", *self.files)[0], 0)

    def test_a_snap(self) -> None:
        self.lay(PUT_A + "00")
        self.assertEqual(self.node(4096), (0, ""))
        self.assertEqual([file.read_bytes().hex() for file in self.files], [bytes.fromhex(each).hex() for each in RENEWALS[1][:2]])


if __name__ == "__main__":
    unittest.main()
