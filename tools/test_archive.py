"""Tests of tools/archive, and of what it packs: the table of commands beside the documents and the tools, manual pages, completions, the
installation, and a cluster that runs from an archive alone. $COMPAX may name the program."""

import argparse
import ast
import gzip
import os
import pathlib
import re
import shlex
import shutil
import subprocess
import tarfile
import tempfile
import unittest
from unittest import mock

from commands import COMMANDS, OF_A_NODE, PROGRAM, STATUSES, Command, Option, Status, Word
from headers import TOP, program
from manual import completion, page, roff
from trials import LONGEST, Trial, run, tool_of, until

INPUT, RUNNING = TOP / "docs/INPUT.md", TOP / "docs/RUNNING.md"
OF_A_CLONE = {"tools/archive", "tools/build", "tools/kills"}    # what docs/RUNNING.md names for those who build, or try the project itself
TOOLS = [command for command in COMMANDS if command is not PROGRAM]
ENDS_WELL = "#!/bin/sh\n[ \"$*\" = \"gen 7 1\" ] && echo events 1\n"
PLAIN = {"PATH": "/usr/bin:/bin", "LC_ALL": "C"}        # an environment that names no kit and no program


def section(file: pathlib.Path, title: str) -> str:
    return file.read_text().partition(f"\n## {title}\n")[2].partition("\n## ")[0]


def parser_of(command: Command) -> argparse.ArgumentParser:
    """The parser of a tool's words."""
    with mock.patch.object(argparse.ArgumentParser, "parse_args", lambda parser, words: parser):
        return tool_of(pathlib.Path(command.file).name).arguments([])


def options_in(parser: argparse.ArgumentParser) -> list[argparse.Action]:
    return [action for action in parser._actions if action.option_strings and "--help" not in action.option_strings]


def parsers_in(parser: argparse.ArgumentParser) -> dict[str, argparse.ArgumentParser]:
    """The parsers of its words."""
    return next((action.choices for action in parser._actions if isinstance(action, argparse._SubParsersAction)), {})


def value_of(action: argparse.Action) -> str:
    return "" if action.nargs == 0 else str(action.metavar or action.dest.upper())


def usage_of(parser: argparse.ArgumentParser) -> str:
    """How it is called, as the table has it."""
    shapes = {"?": "[{}]", "+": "{}.."}
    options = [f"[{action.option_strings[0]} {value_of(action)}".strip() + "]" for action in options_in(parser)]
    behind = [shapes.get(str(action.nargs), "{}").format(action.metavar) for action in parser._actions
              if not action.option_strings and not isinstance(action, argparse._SubParsersAction)]
    return " ".join([*options, *behind])


class ProgramTableTest(unittest.TestCase):
    """The table and docs/INPUT.md have the same words, options and statuses of the program."""

    def setUp(self) -> None:
        rows = re.findall(r"^\| `compax.*$", section(INPUT, "The words of the command"), re.MULTILINE)
        self.rows = dict(re.fullmatch(r"\| `(compax [^`]*)` \| (.*) \|", row).groups() for row in rows)
        self.assertEqual(len(rows), len(self.rows))

    def test_words(self) -> None:
        self.assertEqual(list(self.rows), PROGRAM.usages)
        self.assertGreater(len(PROGRAM.usages), 2)

    def test_what_a_word_does(self) -> None:
        for usage, word in zip(PROGRAM.usages, PROGRAM.words):
            if not word.options:
                self.assertEqual(self.rows[usage], word.says)

    def test_options(self) -> None:
        (row,) = re.findall(r"^\| \| (`--.*) \|$", section(INPUT, "The words of the command"), re.MULTILINE)
        self.assertEqual(sorted(re.findall("`(.*?)`", row)), sorted(option.name for option in OF_A_NODE))

    def test_ranges(self) -> None:
        """Each number has the range that the document gives it."""
        row = next(row for usage, row in self.rows.items() if usage.startswith("compax node"))
        ranges = {name.replace("N turns", "--turns").strip("`"): range for name, range in re.findall(r"(N turns|`--\w+`) \((\d.*?)\)", row)}
        said = {option.name: option.says for option in OF_A_NODE if option.value}
        self.assertEqual(sorted(ranges), sorted(said))
        for name, range in ranges.items():
            self.assertTrue(said[name].endswith(f", {range}"), (name, range))

    def test_statuses(self) -> None:
        rows = re.findall(r"^\| (\d+) \| (?:`([^`]+)` )?\| (.*) \|$", section(INPUT, "Exit statuses"), re.MULTILINE)
        self.assertEqual([Status(int(number), line, when) for number, line, when in rows], list(STATUSES))
        self.assertGreater(len(rows), 10)


class ToolsTableTest(unittest.TestCase):
    """The table has of each tool what the tool takes, and says of it what the tool says."""

    def test_how_they_are_called(self) -> None:
        for command in TOOLS:
            parser = parser_of(command)
            words = parsers_in(parser)
            inner = [f"{name} {usage_of(of_word)}" for name, of_word in words.items()] or [usage_of(parser)]
            outer = usage_of(parser) if words else ""
            self.assertEqual([" ".join(f"{command.name} {outer} {usage}".split()) for usage in inner], command.usages)

    def test_what_options_do(self) -> None:
        count = 0
        for command in TOOLS:
            parser = parser_of(command)
            words = parsers_in(parser)
            pairs = list(zip(options_in(parser), command.options, strict=True))
            for word in command.words:
                pairs += zip(options_in(words[word.name]), word.options, strict=True)
            for action, option in pairs:
                bare = re.sub(r" \(.*%\(default\).*\)$", "", str(action.help))     # the table says a default in its own words
                said = option.says.partition(";")[0] if bare != action.help else option.says
                self.assertEqual(said, bare, command.name)
                count += 1
        self.assertGreater(count, 8)

    def test_what_words_do(self) -> None:
        """As the heads of the tools say it."""
        for command in TOOLS:
            head = ast.get_docstring(ast.parse((TOP / command.file).read_text())) or ""
            self.assertTrue((head[0].lower() + head[1:]).startswith(command.says), command.name)
            said = re.findall(rf"^    {command.file} (?:--\w+ [A-Z]+ )?(\w+)\b.*? {{2,}}(.*)$", head, re.MULTILINE)
            for word in command.words:
                self.assertIn((word.name, word.says), said)

    def test_all_that_an_operator_runs(self) -> None:
        named = set(re.findall(r"\btools/[a-z]+", RUNNING.read_text()))
        self.assertEqual(named - {command.file for command in TOOLS}, OF_A_CLONE)


class ManualTest(unittest.TestCase):
    def test_nothing_is_an_order(self) -> None:
        self.assertEqual(roff(".a\n'b' -\\n `c d`^"), "\\&.a\n\\(aqb\\(aq \\-\\en \\fBc d\\fR\\(ha")

    def test_a_page(self) -> None:
        command = Command("compax-hash", "tools/none", "says", (Word("get", "gives", "KEY", (Option("--far", "goes far", "N"),)),),
                          statuses=(Status(3, "no key", "none was there"),))
        with tempfile.TemporaryDirectory() as name:
            file = pathlib.Path(name, "tools/none")
            file.parent.mkdir()
            file.write_text('"""Says.\n\n    tools/none get KEY    gives\n\nIt asks tools/kv,\nand\n\n'
                            '    a b    one\n           two\n\n    c\n      d\n"""\n')
            text = page(command, pathlib.Path(name), "1.0", "2026-01-02")
        self.assertEqual(text.splitlines()[:6], ['.TH COMPAX-HASH 1 2026-01-02 "compax 1.0"', ".SH NAME", "compax-hash \\- says", ".SH SYNOPSIS",
                                                 ".B compax\\-hash get [\\-\\-far N] KEY", ".SH COMMANDS"])
        for part in (".TP\n.B get KEY\ngives\n.RS\n.TP\n.B \\-\\-far N\ngoes far\n.RE\n", ".SH DESCRIPTION\n.PP\nIt asks compax\\-kv, and\n",
                     ".TP\n.B a b\none\ntwo\n", ".nf\nc\n  d\n.fi\n", ".SH EXIT STATUS\n.TP\n.B 3 no key\nnone was there\n", ".BR compax\\-kv (1)"):
            self.assertIn(part, text)
        self.assertNotIn("tools/", text)

    @unittest.skipUnless(shutil.which("groff"), "there is no groff")
    def test_all_pages_are_read(self) -> None:
        """As the system reads them, and nothing of them is warned of."""
        for command in COMMANDS:
            text = page(command, TOP, "1.0", "2026-01-02")
            ran = subprocess.run(["groff", "-man", "-ww", "-Tutf8", "-P-cbou"], input=text, capture_output=True, text=True)
            self.assertEqual((ran.returncode, ran.stderr), (0, ""), command.name)
            for usage in command.usages:
                self.assertIn(f" {usage} ", f" {' '.join(ran.stdout.split())} ")


class CompletionTest(unittest.TestCase):
    def completed(self, line: str) -> list[str]:
        """What bash offers where such a line ends."""
        words = line.split(" ")
        (command,) = [command for command in COMMANDS if command.name == words[0]]
        script = (f"{completion(command)}\nCOMP_WORDS=({' '.join(map(shlex.quote, words))}) COMP_CWORD={len(words) - 1}\n"
                  f"_{command.name.replace('-', '_')}\nprintf '%s\\n' \"${{COMPREPLY[@]}}\"\n")
        ran = subprocess.run(["bash", "-euc", script], capture_output=True, text=True)
        self.assertEqual((ran.returncode, ran.stderr), (0, ""), line)
        return ran.stdout.split()

    def test_what_is_offered(self) -> None:
        for line, offered in (
                ("compax ", "replay gen node check"), ("compax n", "node"), ("compax node --t", "--turns --tend"), ("compax replay -", ""),
                ("compax node --turns --t", ""), ("compax-cluster ", "new up status down kill"),
                ("compax-cluster up c.toml --", "--upgrade --foreground"), ("compax-cluster up ", ""), ("compax-cluster down -", ""),
                ("compax-kv --c", "--cluster --client"), ("compax-kv --cluster ", ""), ("compax-kv --cluster get ", "put app del get"),
                ("compax-kv --cluster get get -", "--session"), ("compax-kv --cluster c.toml g", "get"), ("compax-linear -", "--most"),
                ("compax-hash ", ""), ("compax-hash -", "")):
            with self.subTest(line):
                self.assertEqual(self.completed(line), offered.split())


class Packing(unittest.TestCase):
    """A tree of its own, with one commit, and a kit that says its version."""

    def setUp(self) -> None:
        self.room = pathlib.Path(self.enterContext(tempfile.TemporaryDirectory(prefix="compax-archive-")))
        self.top, self.out = self.room / "top", self.room / "a.tar.gz"
        shutil.copytree(TOP / "tools", self.top / "tools", ignore=shutil.ignore_patterns("__pycache__", "test_*"))
        for name in [*tool_of("archive").DOCUMENTS, "crates.txt", ".gitignore", "crates/compax/src/main.rt"]:
            (self.top / name).parent.mkdir(parents=True, exist_ok=True)
            shutil.copyfile(TOP / name, self.top / name)
        shutil.copytree(TOP / "crates/compax/data", self.top / "crates/compax/data")
        self.script("path/rt", "#!/bin/sh\n[ \"$1\" = version ] && echo kit-1 logic abc\n")
        self.script("other", ENDS_WELL)
        self.proved = self.top / "crates/compax/out/compax"
        environment = {"PATH": f"{self.room}/path:{os.environ['PATH']}", "GIT_CONFIG_GLOBAL": os.devnull, "GIT_CONFIG_SYSTEM": os.devnull,
                       "GIT_AUTHOR_DATE": "2026-01-02T03:04:05Z", "GIT_COMMITTER_DATE": "2026-01-02T03:04:05Z"}
        self.enterContext(mock.patch.dict(os.environ, environment))
        os.environ.pop("COMPAX", None)
        self.enterContext(mock.patch.multiple(tool_of("archive"), TOP=self.top, PROGRAMS=(self.proved, self.room / "none")))
        self.enterContext(mock.patch("headers.PROGRAMS", (self.proved, self.room / "none")))
        self.git("init", "-q")
        self.commit()

    def git(self, *words: str) -> str:
        who = ["-c", "user.name=a", "-c", "user.email=a@b"]
        return subprocess.run(["git", *who, *words], cwd=self.top, check=True, capture_output=True, text=True).stdout.strip()

    def commit(self) -> None:
        self.git("add", "-A")
        self.git("commit", "-qm", "all")

    def script(self, name: str, text: str) -> None:
        file = self.room / name
        file.parent.mkdir(parents=True, exist_ok=True)
        file.write_text(text)
        file.chmod(0o755)

    def pack(self, *words: object) -> str:
        status, out, said = run("archive", *words, self.out)
        self.assertEqual((status, said), (0, ""))
        return out

    def refuses(self, why: str, *words: object) -> None:
        status, _, said = run("archive", *words, self.out)
        self.assertEqual(status, 1, said)
        self.assertIn(why, said)
        self.assertFalse(self.out.exists())

    def files(self) -> dict[str, bytes]:
        """The files of the archive, without the folder that all are in."""
        with tarfile.open(self.out) as archive:
            return {it.name.partition("/")[2]: archive.extractfile(it).read() for it in archive}

    def unpacked(self, *words: object) -> pathlib.Path:
        """The archive's folder."""
        self.pack(*words)
        with tarfile.open(self.out) as archive:
            (name,) = {it.name.partition("/")[0] for it in archive}
            shutil.rmtree(self.room / name, ignore_errors=True)
            archive.extractall(self.room, filter="data")
        return self.room / name


class ArchiveTest(Packing):
    def test_what_is_proved(self) -> None:
        self.script("top/crates/compax/out/compax", ENDS_WELL)
        self.assertIn("PROVED: the program is the one that .ci/run left", self.pack())
        files = self.files()
        commit = self.git("log", "-1", "--abbrev=12", "--format=%h")
        self.assertEqual(files["out/compax"].decode(), ENDS_WELL)
        self.assertEqual(files["VERSION"].decode().splitlines()[:3], [f"compax {commit}, proved", f"commit {commit} of 2026-01-02", "kit kit-1 logic abc"])
        self.assertNotIn(b"NOT PROVED", files["VERSION"] + files["README"])

    def test_what_is_not_proved(self) -> None:
        """It is packed where that is asked for alone, and said to be none in all places."""
        self.refuses("there is no proved program yet")
        with mock.patch.dict(os.environ, COMPAX=str(self.room / "other")):
            self.refuses("there is no proved program yet")
            self.assertIn("NOT PROVED: nothing of the program was checked", self.pack("--unproved"))
        files = self.files()
        self.assertIn("\nNOT PROVED: ", files["README"].decode())
        self.assertRegex(files["VERSION"].decode(), "^compax [0-9a-f]{12}, NOT PROVED\n")

    def test_another_program_than_the_proved_one(self) -> None:
        self.script("top/crates/compax/out/compax", ENDS_WELL)
        with mock.patch.dict(os.environ, COMPAX=str(self.room / "other")):
            self.refuses("$COMPAX names another program")

    def test_a_program_of_another_text(self) -> None:
        self.script("top/crates/compax/out/compax", ENDS_WELL)
        source = self.top / "crates/compax/src/main.rt"
        now = self.proved.stat().st_mtime
        os.utime(source, (now + 10, now + 10))
        self.refuses(f"a source is newer than {self.proved}")
        os.utime(source, (now - 10, now - 10))
        source.write_text(source.read_text() + "\n")
        os.utime(source, (now - 10, now - 10))
        self.refuses("its text has changes that aren't committed")
        self.assertIn("NOT PROVED", self.pack("--unproved"))
        self.assertRegex(self.files()["VERSION"].decode(), "^compax [0-9a-f]{12}-changed, NOT PROVED\n")

    def test_no_kit_and_no_program(self) -> None:
        self.script("path/rt", "#!/bin/sh\necho no kit >&2\nexit 1\n")
        self.refuses("`rt version` failed: no kit")
        self.script("path/rt", "#!/bin/sh\necho kit\n")
        self.refuses("there is no program yet", "--unproved")

    def test_the_same_bytes(self) -> None:
        """Of the same text, from another folder at another time."""
        self.script("top/crates/compax/out/compax", ENDS_WELL)
        self.pack()
        first = self.out.read_bytes()
        for file in self.top.rglob("*"):
            if file.is_file() and file != self.proved:
                os.utime(file, (1, 1))
        shutil.copytree(self.top, self.room / "copy")
        copy = self.room / "copy/crates/compax/out/compax"
        with mock.patch.multiple(tool_of("archive"), TOP=self.room / "copy", PROGRAMS=(copy,)):
            os.utime(copy)
            self.pack()
        self.assertEqual(self.out.read_bytes(), first)
        self.assertEqual(gzip.decompress(first)[:4], b"comp")
        with tarfile.open(self.out) as archive:
            names = archive.getnames()
            self.assertEqual(names, sorted(names))
            self.assertEqual({(it.mtime, it.uid, it.gid, it.uname) for it in archive}, {(1767323045, 0, 0, "root")})

    def test_all_that_the_tools_import(self) -> None:
        """Each tool starts with what is packed alone, and nothing is packed that none needs."""
        self.script("top/crates/compax/out/compax", ENDS_WELL)
        folder = self.unpacked()
        for command in TOOLS:
            ran = subprocess.run([folder / command.file, "--help"], capture_output=True, text=True, env=PLAIN)
            self.assertEqual((ran.returncode, ran.stderr), (0, ""), command.file)
        texts = "".join(file.read_text() for file in (folder / "tools").iterdir() if file.is_file())
        for file in (folder / "tools").glob("*.py"):
            self.assertRegex(texts, rf"(?m)^(?:from|import) {file.stem}\b", file.name)
        self.assertFalse(list((folder / "tools").glob("test_*")))

    def test_the_files_that_documents_name(self) -> None:
        self.script("top/crates/compax/out/compax", ENDS_WELL)
        files = self.files() if self.pack() else {}
        for name in ("crates/compax/data/node.input", "crates/compax/data/one-put.schedule", "docs/RUNNING.md", "docs/INPUT.md"):
            self.assertEqual(files[name], (TOP / name).read_bytes())

    def test_the_oldest_library(self) -> None:
        binary = tool_of("archive").Binary
        self.assertEqual(binary(b"a\0GLIBC_2.2.5\0GLIBC_2.34\0GLIBC_2.9\0 GLIBC_3.0", True).libc, "2.34")
        self.assertEqual(binary(b"#!/bin/sh\n", True).libc, "")


class InstallTest(Packing):
    def setUp(self) -> None:
        super().setUp()
        self.script("top/crates/compax/out/compax", ENDS_WELL)
        self.folder = self.unpacked()
        self.prefix = self.room / "prefix"
        self.home = self.prefix / "lib/compax"

    def installs(self, *words: object, folder: pathlib.Path | None = None) -> subprocess.CompletedProcess[str]:
        return subprocess.run(list(map(str, [(folder or self.folder) / "install.sh", *words])), capture_output=True, text=True, env=PLAIN, cwd=self.room)

    def done(self, *words: object, folder: pathlib.Path | None = None) -> str:
        ran = self.installs(*words, folder=folder)
        self.assertEqual((ran.returncode, ran.stderr), (0, ""))
        return ran.stdout

    def refuses_to(self, why: str, *words: object, status: int = 1, folder: pathlib.Path | None = None) -> None:
        """It says why, and leaves all as it was."""
        before = self.there()
        ran = self.installs(*words, folder=folder)
        self.assertEqual(ran.returncode, status, ran)
        self.assertIn(why, ran.stderr)
        self.assertEqual(self.there(), before)

    def there(self) -> dict[str, bytes | str]:
        """What is in PREFIX."""
        return {str(file.relative_to(self.prefix)): os.readlink(file) if file.is_symlink() else file.read_bytes()
                for file in self.prefix.rglob("*") if file.is_symlink() or file.is_file()}

    def other_version(self) -> pathlib.Path:
        """An archive of another commit, in which a document has another name."""
        files = self.top / "tools/archive"
        files.write_text(files.read_text() + "\n")
        self.script("path/rt", "#!/bin/sh\necho kit-2\n")
        self.commit()
        os.utime(self.proved)
        folder = self.unpacked()
        (folder / "docs/FORMATS.md").rename(folder / "docs/OTHER.md")
        places = folder / "FILES"
        places.write_text(places.read_text().replace("FORMATS", "OTHER"))
        return folder

    def test_all_is_listed_and_removed(self) -> None:
        self.assertRegex(self.done(self.prefix), r"^installed: compax [0-9a-f]{12}, proved, in ")
        there = self.there()
        self.assertEqual(sorted(there), (self.home / "INSTALLED").read_text().splitlines())
        self.assertLessEqual({f"bin/{command.name}" for command in COMMANDS} | {f"share/man/man1/{command.name}.1" for command in COMMANDS}, set(there))
        kept = self.prefix / "share/man/man1/other.1"
        kept.write_text("another's")
        for command in TOOLS:
            ran = subprocess.run([self.prefix / "bin" / command.name, "--help"], capture_output=True, text=True, env=PLAIN)
            self.assertEqual((ran.returncode, ran.stderr), (0, ""), command.name)
        self.assertTrue((self.home / "tools/__pycache__").exists())
        ran = subprocess.run([self.home / "install.sh", "--uninstall", self.prefix], capture_output=True, text=True, env=PLAIN)
        self.assertEqual((ran.returncode, ran.stderr), (0, ""))
        self.assertEqual(list(self.there()), ["share/man/man1/other.1"])
        self.assertFalse(self.home.exists())
        self.refuses_to("nothing is installed in", "--uninstall", self.prefix)

    def test_the_unit(self) -> None:
        """It has the place of the command, and words that the tool takes."""
        self.done(self.prefix)
        unit = (self.prefix / "share/systemd/user/compax-cluster@.service").read_text()
        (words,) = re.findall("^ExecStart=(.*)$", unit, re.MULTILINE)
        command, *behind = words.split()
        self.assertEqual(pathlib.Path(command).resolve(), (self.home / "tools/cluster").resolve())
        asked = tool_of("cluster").arguments(behind)
        self.assertEqual((asked.verb, asked.foreground, asked.upgrade, str(asked.file)), ("up", True, False, "%h/.local/state/compax/%i.toml"))
        self.assertIn(f"\nAssertPathExists={asked.file}\n", unit)
        self.assertNotIn("@PREFIX@", unit)

    @unittest.skipUnless(shutil.which("systemd-analyze"), "there is no systemd")
    def test_the_unit_is_read(self) -> None:
        """As systemd reads it, and nothing of it is warned of."""
        self.done(self.prefix)
        unit = self.prefix / "share/systemd/user/compax-cluster@.service"
        one = shutil.copyfile(unit, self.room / "compax-cluster@one.service")
        ran = subprocess.run(["systemd-analyze", "verify", "--user", one], capture_output=True, text=True,
                             env=PLAIN | {"XDG_RUNTIME_DIR": str(self.room), "HOME": str(self.room)})
        self.assertEqual((ran.returncode, ran.stderr), (0, ""))

    def test_the_same_version_again(self) -> None:
        self.done(self.prefix)
        there = self.there()
        (self.home / "docs/INPUT.md").unlink()
        self.done(self.prefix)
        self.assertEqual(self.there(), there)

    def test_another_version(self) -> None:
        """It is replaced where that is asked for alone; what it doesn't have any more is removed."""
        self.done(self.prefix)
        other = self.other_version()
        self.assertNotEqual((other / "VERSION").read_text(), (self.home / "VERSION").read_text())
        self.refuses_to("has another version: compax ", self.prefix, folder=other)
        self.done("--replace", self.prefix, folder=other)
        self.assertEqual((self.home / "VERSION").read_text(), (other / "VERSION").read_text())
        there = self.there()
        self.assertEqual(sorted(there), (self.home / "INSTALLED").read_text().splitlines())
        self.assertIn("lib/compax/docs/OTHER.md", there)
        self.assertNotIn("lib/compax/docs/FORMATS.md", there)

    def test_what_others_installed(self) -> None:
        (self.prefix / "bin").mkdir(parents=True)
        (self.prefix / "bin/compax-kv").write_text("another's")
        self.refuses_to(f"{self.prefix}/bin/compax-kv is there, and wasn't installed by this", self.prefix)

    def test_while_it_runs(self) -> None:
        """Neither is another version put below a running node, nor is the program removed."""
        self.script("top/crates/compax/out/compax", f"{ENDS_WELL}[ \"$1\" = node ] && echo runs && read -r _\n")
        os.utime(self.proved)
        self.done(self.prefix, folder=self.unpacked())
        with subprocess.Popen([self.home / "out/compax", "node"], stdin=subprocess.PIPE, stdout=subprocess.PIPE) as node:
            assert node.stdin and node.stdout
            self.assertEqual(node.stdout.readline(), b"runs\n")
            why = f"a cluster runs from {self.home}, as /proc/{node.pid}: end it first"
            self.refuses_to(why, "--replace", self.prefix)
            self.refuses_to(why, "--uninstall", self.prefix)
        self.done("--uninstall", self.prefix)

    def test_what_can_not_run(self) -> None:
        (self.folder / "out/compax").write_text("#!/bin/sh\nexit 1\n")
        self.refuses_to("the program doesn't run here", self.prefix)

    def test_bad_words(self) -> None:
        for words in ([], ["--replace"], ["--other", self.prefix], [self.prefix, "more"], [""], ["--uninstall"]):
            self.refuses_to("use: install.sh", *words, status=2)
        for prefix in (f"{self.prefix} a", f"{self.prefix}%h", f"{self.prefix}/ä"):
            self.refuses_to(f"{prefix} has a letter that a unit can't name", prefix, status=2)
            self.assertFalse(pathlib.Path(prefix).exists())
        real = self.room / "a real%one"
        real.mkdir()
        self.prefix.symlink_to(real)
        self.refuses_to(f"{real} has a letter that a unit can't name", self.prefix, status=2)


class InstalledTest(Trial):
    """A cluster of three processes from an archive alone, without the tree."""

    def test_a_cluster(self) -> None:
        with mock.patch.dict(os.environ, COMPAX=str(program())):
            status, out, said = run("archive", "--unproved", self.room / "a.tar.gz")
        self.assertEqual((status, said), (0, ""), out)
        with tarfile.open(self.room / "a.tar.gz") as archive:
            archive.extractall(self.room, filter="data")
        (folder,) = self.room.glob("compax-*")
        self.says(folder / "install.sh", self.room / "prefix")
        shutil.rmtree(folder)
        self.cluster = self.room / "prefix/bin/compax-cluster"
        self.says(self.cluster, "new", self.file)
        self.addCleanup(run, "cluster", "down", self.file)
        self.assertIn("up: 3 processes of ", self.says(self.cluster, "up", self.file))
        self.tells("put a 1", "ok")
        self.says(self.cluster, "kill", self.file, 1)
        self.tells("app a 2", "len 2")
        self.tells("get a", "is 12")
        until(lambda: "a read was answered" in self.says(self.cluster, "status", self.file, may_fail=True), "all are well")
        self.refuses_removal()
        self.says(self.cluster, "down", self.file)
        self.says(self.room / "prefix/lib/compax/install.sh", "--uninstall", self.room / "prefix")
        self.assertEqual(list((self.room / "prefix").rglob("*")), [])

    def says(self, *words: object, may_fail: bool = False) -> str:
        """What a command says in an environment that names no kit."""
        ran = subprocess.run(list(map(str, words)), capture_output=True, text=True, env=PLAIN, cwd=self.room)
        self.assertTrue(may_fail or ran.returncode == 0, (words, ran))
        return ran.stdout

    def tells(self, words: str, answer: str) -> None:
        kv = self.room / "prefix/bin/compax-kv"
        self.assertEqual(self.says(kv, "--cluster", self.file, "--seconds", LONGEST, *words.split()), f"{answer}\n")

    def refuses_removal(self) -> None:
        """While it runs it is neither removed nor replaced."""
        ran = subprocess.run([self.room / "prefix/lib/compax/install.sh", "--uninstall", self.room / "prefix"], capture_output=True, text=True, env=PLAIN)
        self.assertEqual(ran.returncode, 1)
        self.assertIn(f"a cluster runs from {self.room}/prefix/lib/compax, as /proc/", ran.stderr)


if __name__ == "__main__":
    unittest.main()
