"""The commands of an installed compax: their words, options and exit statuses. Of this table tools/archive makes the manual pages and the
completions (tools/manual.py), and knows which tools to take. tools/test_archive.py compares it with docs/INPUT.md and with the tools."""

from dataclasses import dataclass


@dataclass(frozen=True)
class Option:
    """What may stand behind a command, or behind a word of it."""

    name: str
    says: str
    value: str = ""                 # what stands behind it; nothing where it stands alone

    @property
    def usage(self) -> str:
        return f"[{self.name} {self.value}]" if self.value else f"[{self.name}]"


@dataclass(frozen=True)
class Word:
    """A word that says what a command does."""

    name: str
    says: str
    behind: str = ""                # what stands behind it, besides options
    options: tuple[Option, ...] = ()

    @property
    def usage(self) -> str:
        return " ".join(filter(None, [self.name, *(option.usage for option in self.options), self.behind]))


@dataclass(frozen=True)
class Status:
    number: int
    line: str                       # on standard error
    when: str


@dataclass(frozen=True)
class Command:
    name: str
    file: str                       # what it runs, below the top
    says: str
    words: tuple[Word, ...] = ()
    behind: str = ""                # what stands behind a command that has no words
    options: tuple[Option, ...] = ()
    statuses: tuple[Status, ...] = ()       # of the program; a tool says its own

    @property
    def usages(self) -> list[str]:
        """How it is called, a line each."""
        options = " ".join(option.usage for option in self.options)
        return [" ".join(filter(None, [self.name, options, rest])) for rest in [word.usage for word in self.words] or [self.behind]]


OF_A_NODE = (
    Option("--record", "print the run as a schedule, in place of answers: all roles have to be hosted, and their stores to be empty"),
    Option("--turns", "how many turns are made, 1 to 1,000,000,000; 1,000,000 if left out", "N"),
    Option("--tend", "roles send again what they wait for after 64 turns in which nothing came, at the latest after N, 64 to 65,536", "N"),
    Option("--window", "how many requests a client may have outstanding, 1 to 64; 1 if left out", "W"),
)
STATUSES = (
    Status(0, "", "all was read and written; of a node: all hosted clients are answered, or it hosts none and all turns were made"),
    Status(2, "bad words", "the words are no command, and nothing was read; or a ROLE is not in the header's cluster; or a node is to record, and a "
                           "role of the cluster is missing"),
    Status(3, "bad input at line N", "N is the first bad line, counted from 1 after `---`; 0 is the header. The trace of the lines before it is "
                                     "printed (of a node: nothing)"),
    Status(4, "read failed", "standard input failed; the trace of the whole lines before is printed (of a node: nothing)"),
    Status(5, "write failed", "standard output failed; a prefix of the text is printed"),
    Status(6, "link failed", "a port could not be bound, or a socket failed"),
    Status(7, "store failed: ROLE", "a file of that role could not be opened, read or written, is locked by another process that has it open, or "
                                    "can't be a journal by its first bytes"),
    Status(8, "turns ended", "all turns were made, and a hosted client has a request that is not answered"),
    Status(9, "no memory", "out of memory; a prefix of the text is printed"),
    Status(10, "bad store: ROLE at N", "the file of that role is no journal of such a role: byte N shows it (of a replica's two files, in the live "
                                       "one; at byte 1 also: their generations don't fit)"),
    Status(11, "store not empty: ROLE", "a node is to record, and the file of that role has a record; nothing is printed"),
    Status(12, "record full", "the lines of the next step would be more than 65,535; all before it is printed, and this step isn't made"),
)
PROGRAM = Command(
    "compax", "out/compax", "replays schedules of a replicated key-value service, and hosts its roles",
    words=(
        Word("replay", "the schedule on standard input is replayed; its trace and a summary are printed"),
        Word("gen", "COUNT events (0 to 65,535) are made from SEED (0 to 2^64 - 1) and run on a fixed cluster of 18 roles and four clients; a "
                    "summary is printed", "SEED COUNT"),
        Word("node", "the roles are hosted until all hosted clients are answered, or all turns were made", "ROLE..", OF_A_NODE),
        Word("check", "nothing is run; standard error gets the first bad line of a schedule, or of a node's input, and the rule that it breaks",
             "FILE", (Option("--node", "FILE is a node's input, not a schedule"),)),
    ),
    statuses=STATUSES,
)
CLUSTER = Command(
    "compax-cluster", "tools/cluster", "runs a cluster on this machine",
    words=(
        Word("new", "writes a header for f = 1 and free ports", "FILE"),
        Word("up", "starts its processes, and waits until a write is answered", "FILE [PROCESSES]", (
            Option("--upgrade", "go on with another program than the last one"),
            Option("--foreground", "stay until the supervisor ends"))),
        Word("status", "what runs, what each role has kept, and whether a read is answered", "FILE", (Option("--json", "as one JSON object"),)),
        Word("down", "ends exactly the processes that were started", "FILE"),
        Word("kill", "kills process N, to see that nothing is lost: it is started again", "FILE N"),
    ),
)
CLIENT = Command(
    "compax-kv", "tools/kv", "a client of a running cluster",
    words=(
        Word("put", "ok", "KEY TEXT"),
        Word("app", "len N, the length of the text now; or full: it would be over 64", "KEY TEXT"),
        Word("del", "was TEXT, or none", "KEY"),
        Word("get", "is TEXT, or none", "KEY", (Option("--session", "ask one replica alone, which may be behind"),)),
    ),
    options=(
        Option("--cluster", "the cluster's header; else $COMPAX_CLUSTER, or cluster.toml", "FILE"),
        Option("--client", "the client to be; else any whose port is free", "N"),
        Option("--seconds", "how long to wait for the answer; else 10", "S"),
    ),
)
JOURNAL = Command(
    "compax-journal", "tools/journal", "prints the records of a role's journal in words", behind="FILE [OTHER]",
    options=(
        Option("--count", "print how many records of each kind there are, and not the records"),
        Option("--kind", "the role whose journal it is; else it is taken from the file's name, or from the first record", "KIND"),
    ),
)
HASH = Command("compax-hash", "tools/hash", "compares what the replicas of a cluster hold", behind="FILE")
LINEAR = Command("compax-linear", "tools/linear", "judges whether a history of commands and answers is linearizable", behind="FILE..",
                 options=(Option("--most", "how many steps the search for a key may take", "N"),))
COMMANDS = (PROGRAM, CLUSTER, CLIENT, JOURNAL, HASH, LINEAR)
