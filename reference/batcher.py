"""The batcher and the unbatcher. From cx_model/specs (Batcher, Unbatcher) (VLDB 2021)."""

from dataclasses import dataclass, field

import messages as msg
from rules import Outcome, Rules, refused
from terms import NO_ROUND, Answered, Command, Role, Round


@dataclass(slots=True)
class Volatile:
    """The commands that wait, and the greatest round that it knows to lead."""
    waiting: list[Command] = field(default_factory=list)
    round: Round = NO_ROUND


class Batcher(Rules):
    """It gathers commands, and sends them to the leader that it knows, which is leader 0 before any leads. It keeps no records."""
    volatile: Volatile

    def fresh(self) -> Volatile:
        return Volatile()

    def submit(self, sender: Role, command: Command) -> Outcome:
        """A client hands in a command."""
        v = self.volatile
        v.waiting.append(command)
        return self.send_batch() if len(v.waiting) >= self.cluster.batch else Outcome("held")

    def leads(self, sender: Role, i: Round) -> Outcome:
        """A leader reports that it leads."""
        if no := refused(old=i <= self.volatile.round):
            return no
        self.volatile.round = i
        return Outcome("leads")

    def tick(self) -> Outcome:
        return self.send_batch() if self.volatile.waiting else Outcome("idle")

    def send_batch(self) -> Outcome:
        """All that waits goes to the leader."""
        v = self.volatile
        batch = self.send(Role("leader", v.round.id), msg.Batch(tuple(v.waiting)))
        v.waiting = []
        return Outcome("batched", [batch])

    ROWS = {msg.Submit: submit, msg.Leads: leads}


class Unbatcher(Rules):
    """It sends each client its own answer, and knows nothing."""

    def results(self, sender: Role, slot: int, answers: tuple[Answered, ...]) -> Outcome:
        """A replica reports the answers to the commands of a slot."""
        return Outcome("unbatched", [self.send(Role("client", it.client), msg.Answer(it.seq, it.at, it.reply)) for it in answers])

    ROWS = {msg.Results: results}
