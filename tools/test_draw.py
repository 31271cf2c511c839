"""Tests of tools/draw: what it draws of stored runs, against counts of their lines; and what it says of what is no trace."""

import functools
import pathlib
import re
import subprocess
import sys
import unittest
from collections import Counter
from xml.etree import ElementTree

TOP = pathlib.Path(__file__).resolve().parent.parent
RUNS = TOP / "crates/compax/runs"
DRAW = TOP / "tools/draw"
COUNTED = ["torn-vote", "collection", "snapshot-kept", "random-small-too", "random-usual", "random-with-bad-line", "floor-lets-both-act",
           "session", "reader-turn-cut", "full-reader"]
SVG = "{http://www.w3.org/2000/svg}"


def draw(*words, text=""):
    return subprocess.run([sys.executable, DRAW, *words], input=text, capture_output=True, text=True)


def schedule_of(run):
    """The words of the events that were put into a run."""
    source = RUNS / run / "stdin"
    text = source.read_text() if source.exists() else (RUNS / run / (RUNS / run / "stdin.from").read_text().strip()).read_text()
    lines = [it.split() for it in text.partition("---\n")[2].splitlines()]
    return [it for it in lines if it and not it[0].startswith("#")]


class Told:
    """What a run's schedule and stored trace tell, by their lines alone."""

    def __init__(self, run):
        self.lines = (RUNS / run / "stdout").read_text().splitlines()
        self.events = [it for it in self.lines if it.startswith("@")]
        self.sent = {it.split()[0][1:]: it for it in self.lines if it.startswith("+")}
        asked = [it[1] for it, line in zip(schedule_of(run), self.events) if it[0] == "deliver" and not line.endswith(" absent")]
        self.delivered = [str(int(it)) for it in asked]
        undelivered = [line for at, line in self.sent.items() if at not in self.delivered]
        self.told = [line for line in undelivered if line.split()[3] in ("Answer", "ReadAnswer")]
        self.lost = [line for line in undelivered if line not in self.told]

    def ending(self, *words):
        return [it for it in self.events if it.split()[-1] in words]


class Drawn:
    """What a picture has, but for its legend."""

    def __init__(self, svg):
        self.root = ElementTree.fromstring(svg)
        self.root[:] = [it for it in self.root if it.get("class") != "legend"]

    def titles(self, *kinds):
        """The tooltips of the groups with all of these classes."""
        return [it.findtext(SVG + "title") for it in self.root.iter(SVG + "g") if {*kinds} <= {*it.get("class", "").split()}]

    def texts(self, kind):
        return [it for it in self.root.iter(SVG + "text") if it.get("class").split()[0] == kind]

    def count(self, kind):
        return len([it for it in self.root.iter(SVG + "path") if it.get("class") == kind])


@functools.cache
def told_and_drawn(run):
    return Told(run), Drawn(draw(RUNS / run / "stdout").stdout)


class Counts(unittest.TestCase):
    def each(self):
        return map(told_and_drawn, COUNTED)

    def test_an_arrow_for_each_delivery(self):
        for told, drawn in self.each():
            first, again = drawn.titles("datagram", "delivered"), drawn.titles("datagram", "again")
            self.assertEqual(Counter(first + again), Counter(told.sent[it] for it in told.delivered))
            self.assertEqual(Counter(first), Counter(told.sent[it] for it in {*told.delivered}))
            self.assertEqual(drawn.count("arrow"), len(told.delivered) + len(told.lost) + len(told.told))

    def test_a_cross_for_each_that_is_lost(self):
        for told, drawn in self.each():
            self.assertEqual(Counter(drawn.titles("datagram", "lost")), Counter(told.lost))
            self.assertEqual(drawn.count("cross"), len(told.lost))

    def test_no_cross_at_an_answer(self):
        """A client is told it, whether an event delivers it or not."""
        for told, drawn in self.each():
            self.assertEqual(Counter(drawn.titles("datagram", "told")), Counter(told.told))
        self.assertTrue(any(told.told for told, _ in self.each()))

    def test_a_gap_for_each_stop(self):
        for told, drawn in self.each():
            self.assertEqual(drawn.count("gap"), len(told.ending("crashed", "torn", "kept")))

    def test_a_mark_for_each_answer_and_chosen_slot(self):
        for told, drawn in self.each():
            answers = [it for it in told.lines if re.match(r"(answer|read) client:", it)]
            self.assertEqual(drawn.titles("answer-mark"), answers)
            chosen = [it for it in told.ending("chosen") if " proxy:" in it]
            slots = [int(line.split()[4][:16], 16) for line in self.first_chosen(told, chosen)]
            self.assertEqual(drawn.titles("chosen-mark"), [f"slot {it} chosen" for it in slots])

    def test_a_triangle_for_each_time_that_a_replica_forgets(self):
        for run in [*COUNTED, "snapshot-of-one", "snapshot-is-behind"]:
            told, drawn = told_and_drawn(run)
            self.assertEqual(drawn.count("snap"), len(told.ending("snapped")))
        self.assertEqual(len(Told("snapshot-is-behind").ending("snapped")), 2)

    def first_chosen(self, told, events):
        """The line after each of these."""
        return [told.lines[told.lines.index(it) + 1] for it in events]

    def test_a_point_and_a_word_for_each_event(self):
        for told, drawn in self.each():
            shown = [it for it in told.events if not it.endswith(" absent")]
            self.assertEqual(drawn.titles("event"), shown)
            self.assertEqual([it.text for it in drawn.texts("word")], [it.split()[-1] for it in shown])

    def test_they_have_what_is_counted(self):
        told = [Told(it) for it in COUNTED]
        for what in [[it.lost for it in told], [it.ending("absent") for it in told], [it.ending("torn", "kept") for it in told],
                     [it.ending("crashed") for it in told], [it.ending("opened") for it in told]]:
            self.assertTrue(any(what))
        self.assertTrue(any(len(it.delivered) > len({*it.delivered}) for it in told))


class Places(unittest.TestCase):
    def columns_and_rows(self, drawn):
        roles = {it.text: float(it.get("x")) for it in drawn.texts("role")}
        rows = {it.text.split()[0]: float(it.get("y")) - 4 for it in drawn.texts("row")}
        return roles, rows

    def test_arrows_go_from_the_sender_to_the_receiver(self):
        for run in COUNTED:
            told, drawn = told_and_drawn(run)
            roles, rows = self.columns_and_rows(drawn)
            starts, ends = set(), set()
            for group in drawn.root.iter(SVG + "g"):
                if {*group.get("class", "").split()} & {"delivered", "again"}:
                    _, sender, receiver, *_ = group.findtext(SVG + "title").split()
                    line = next(it for it in group if it.get("class") == "arrow")
                    x1, y1, x2, y2 = map(float, re.findall(r"[\d.]+", line.get("d")))
                    self.assertEqual(x1, roles[sender])
                    self.assertLess(y1, y2)
                    self.assertLessEqual(abs(x2 - roles[receiver]), 5.1)
                    starts.add(y1)
                    ends.add(min(rows.values(), key=lambda y: abs(y - y2)))
                    self.assertLessEqual(min(abs(y - y2) for y in rows.values()), 5.1)
            self.assertLessEqual(starts, {*rows.values()})
            self.assertEqual(ends, {rows[it.split()[0]] for it in told.events if it.split()[1] == "deliver" and not it.endswith(" absent")})

    def test_labels_of_small_runs_lie_apart(self):
        for run in ["one-put", "torn-vote", "collection", "later-round", "grid-of-four", "snapshot-is-behind"]:
            _, drawn = told_and_drawn(run)
            boxes = [self.box(it) for kind in ("role", "row", "word", "name", "mark") for it in drawn.texts(kind)]
            for at, one in enumerate(boxes):
                for other in boxes[:at]:
                    apart = one[1] <= other[0] or other[1] <= one[0] or abs(one[2] - other[2]) >= 10
                    self.assertTrue(apart, f"{run}: {one[3]} and {other[3]}")

    def box(self, label):
        """From where to where a label goes, at which height, if a letter is five pixels wide."""
        x, wide = float(label.get("x")), 5 * len(label.text)
        middle = label.get("class").split()[0] in ("role", "name")
        left = x - wide / 2 if middle else x - wide if label.get("text-anchor") == "end" else x
        return left, left + wide, float(label.get("y")), label.text


class Legend(unittest.TestCase):
    def entries(self, run):
        """The words of a legend, each with where its sign begins and its line."""
        root = ElementTree.fromstring(draw(RUNS / run / "stdout").stdout)
        for it in root:
            if it.get("class") == "legend":
                x, y = map(float, re.findall(r"[\d.]+", it.get("transform")))
                yield it.find(SVG + "text").text, x, y

    def test_words_lie_apart_from_the_next_sign(self):
        """Also with letters of 0.66 of their height, as some fonts have."""
        for run in ("torn-vote", "collection", "snapshot-kept", "replacement", "session"):
            entries = list(self.entries(run))
            for (said, x, y), (_, following, line) in zip(entries, entries[1:]):
                if y == line:
                    self.assertGreaterEqual(following, x + 32 + len(said) * 0.66 * 11 + 12, (run, said))

    def test_what_is_not_there_has_no_sign(self):
        """Answers alone aren't delivered here."""
        self.assertNotIn("never delivered", [said for said, *_ in self.entries("read-batches")])
        self.assertIn("never delivered", [said for said, *_ in self.entries("torn-vote")])

    def test_each_kind_of_datagram_has_its_colour(self):
        """By the words that docs/ARCHITECTURE.md has of them."""
        groups = {"Submit": "command", "Phase2A": "command", "Results": "command", "Leads": "round", "MatchA": "round", "Phase1B": "round",
                  "ReadReq": "read", "PreRead": "read", "StopA": "set", "StopB": "set", "NextA": "set", "NextB": "set", "BootA": "set", "BootB": "set",
                  "Sets": "set"}
        seen, colours = set(), set()
        for run in ("one-put", "torn-vote", "collection", "replacement", "session", "reader-turn-cut"):
            root = ElementTree.fromstring(draw(RUNS / run / "stdout").stdout)
            for it in root.iter(SVG + "g"):
                words = it.get("class", "").split()
                if "datagram" in words:
                    name = it.findtext(SVG + "title").split()[3]
                    if name in groups:
                        self.assertEqual(words[-1], groups[name], name)
                        seen.add(name)
            colours |= set(re.findall(r"\.(\w+) \.arrow \{ stroke: (#\w+) \}", root.find(SVG + "style").text))
        self.assertLessEqual({*groups} - {"PreRead"}, seen)
        self.assertEqual((len(colours), len({colour for _, colour in colours})), (4, 4))


class Parts(unittest.TestCase):
    def test_a_part_has_what_its_events_send_and_deliver(self):
        told = Told("random-small-too")
        ended = draw(RUNS / "random-small-too/stdout", "--from", "100", "--to", "180")
        drawn = Drawn(ended.stdout)
        begin = told.lines.index(told.events[99])
        lines = told.lines[begin:told.lines.index(told.events[180])]
        self.assertEqual(drawn.titles("event"), [it for it in lines if it.startswith("@")])
        here = [it.split()[2] for it in lines if it.startswith("@") and it.split()[1] == "deliver"]
        sent = [it for it in lines if it.startswith("+")]
        later = [it.split()[2] for it in told.events[180:] if it.split()[1] == "deliver"]
        wanted = Counter(told.sent[it] for it in here) + Counter(told.sent[it] for it in later if told.sent[it] in sent)
        self.assertEqual(Counter(drawn.titles("datagram", "delivered") + drawn.titles("datagram", "again")), wanted)
        self.assertEqual(Counter(drawn.titles("datagram", "lost")), Counter(it for it in sent if it in told.lost))

    def test_a_role_that_stopped_before_is_stopped(self):
        drawn = Drawn(draw(RUNS / "torn-vote/stdout", "--from", "10").stdout)
        self.assertEqual(drawn.count("gap"), 1)
        self.assertEqual(Drawn(draw(RUNS / "torn-vote/stdout", "--from", "11").stdout).count("gap"), 0)
        self.assertEqual(Drawn(draw(RUNS / "torn-vote/stdout", "--to", "8").stdout).count("gap"), 0)


class Refused(unittest.TestCase):
    def refuses(self, said, *words, text=""):
        ended = draw(*words, text=text)
        self.assertEqual((ended.returncode, ended.stdout, ended.stderr), (1, "", said + "\n"))

    def test_what_is_no_trace(self):
        self.refuses("draw: standard input: it has no event")
        self.refuses("draw: standard input: line 1: this is no line of a trace: 'deliver 0'", text="deliver 0\n")
        self.refuses("draw: standard input: line 2: this is event 3, but event 2 comes next",
                     text="@1 lead leader:0 started\n@3 tick leader:0 idle\n")
        self.refuses("draw: standard input: line 1: datagram 4 is delivered, but no line before it sends it",
                     text="@1 deliver 4 match:0 matched\n")

    def test_events_that_are_not_there(self):
        trace = RUNS / "one-put/stdout"
        self.refuses(f"draw: {trace}: it has no events 1 to 13, but events 1 to 12", trace, "--to", "13")
        self.refuses(f"draw: {trace}: it has no events 5 to 4, but events 1 to 12", trace, "--from", "5", "--to", "4")

    def test_a_file_that_is_not_there(self):
        self.refuses(f"draw: {RUNS / 'nothing'}: No such file or directory", RUNS / "nothing")


class Picture(unittest.TestCase):
    def test_the_picture_of_the_readme_is_of_the_stored_trace(self):
        self.assertEqual((TOP / "docs/torn-vote.svg").read_text(), draw(RUNS / "torn-vote/stdout").stdout)


if __name__ == "__main__":
    unittest.main()
