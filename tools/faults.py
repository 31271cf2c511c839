"""Faults of a cluster's processes: what a word as `kill:1:0.2` means."""

import re
from collections.abc import Iterator, Sequence
from dataclasses import dataclass

from headers import Header, Role, Unusable

USAGE = """\
kill:P:S        process P is killed (SIGKILL), and started again after S seconds
stop:P:S        it is stopped (SIGSTOP), and goes on after S seconds
cut:P:S[:WAY]   for S seconds each datagram to and from it is lost; WAY is in or out where only one of these is
gone:P          its folder is removed while it runs, and a second later it is killed
full:S          the disk is full for S seconds
none:S          nothing happens for S seconds

P is a number, `all`, or `each`: then it is a trial for each process without a leader."""
LONGEST = 3600.0                # seconds
BAD_WORDS = 2                   # a status
FORMS = [re.compile(form) for form in (
    r"(?P<verb>kill|stop):(?P<who>\d{1,2}|all|each):(?P<seconds>\d+(\.\d+)?)",
    r"(?P<verb>cut):(?P<who>\d{1,2}|all|each):(?P<seconds>\d+(\.\d+)?)(:(?P<way>in|out|both))?",
    r"(?P<verb>gone):(?P<who>\d{1,2}|each)",
    r"(?P<verb>full|none):(?P<seconds>\d+(\.\d+)?)",
)]


@dataclass(frozen=True)
class Fault:
    """What happens in one trial."""

    verb: str
    who: str = ""               # a number, `all` or `each`
    seconds: float = 0.0
    way: str = "both"           # of what is cut

    def __str__(self) -> str:
        words = [self.verb, *([self.who] if self.who else []), *([f"{self.seconds:g}"] if self.verb != "gone" else [])]
        return ":".join(words + ([self.way] if self.way != "both" else []))

    def processes(self, count: int) -> list[int]:
        """The processes that it is done to."""
        return list(range(count)) if self.who in ("all", "") else [int(self.who)]

    @property
    def is_supervised(self) -> bool:
        """Whether a supervisor has to start again what ends: how it does so is what is tried."""
        return self.verb in ("gone", "full")

    @property
    def is_relayed(self) -> bool:
        return self.verb == "cut"


def fault_of(word: str) -> Fault:
    """Reads a word."""
    found = next(filter(None, (form.fullmatch(word) for form in FORMS)), None)
    if not found:
        raise Unusable(f"{word} is no fault: --help lists them", BAD_WORDS)
    has = {name: text for name, text in found.groupdict().items() if text is not None}
    who, seconds = has.get("who", ""), float(has.get("seconds", 0.0))
    if seconds > LONGEST:
        raise Unusable(f"{word}: no fault takes more than {LONGEST:g} seconds", BAD_WORDS)
    return Fault(has["verb"], str(int(who)) if who.isdigit() else who, seconds, has.get("way", "both"))


def expanded(faults: Sequence[Fault], header: Header, hosted: Sequence[Sequence[Role]]) -> Iterator[Fault]:
    """The trials that faults mean, `each` being one for each process without a leader."""
    leading = {number for number, roles in enumerate(hosted) if any(role in roles for role in header.roles("leader"))}
    for fault in faults:
        if fault.who.isdigit() and int(fault.who) >= len(hosted):
            raise Unusable(f"{fault}: there is no process {fault.who}", BAD_WORDS)
        if fault.who != "each":
            yield fault
            continue
        for number in range(len(hosted)):
            if number not in leading:
                yield Fault(fault.verb, str(number), fault.seconds, fault.way)
