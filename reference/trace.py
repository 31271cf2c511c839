"""The lines of a trace: events, the datagrams that they send, and the summary. From cx_trace/specs and cx_replay/specs/Replay."""

from collections.abc import Iterator

from chosen import Votes, log_of
from events import Deliver, Event
from machine import Fold
from messages import Answer, Letter, ReadAnswer
from schedule import head_text, op_text, seq_text
from terms import Reply, Value
from wire import body
from world import World


def reply_text(reply: Reply) -> str:
    """What a command is answered."""
    return reply.word if reply.said is None else f"{reply.word} {reply.said}"


def told(letter: Letter) -> str:
    """What a datagram tells the client that gets it; only answers tell it something."""
    match letter.msg:
        case Answer(seq, at, reply):
            return f"answer {letter.to} {seq} at {at} {reply_text(reply)}\n"
        case ReadAnswer(seq, mark, text):
            return f"read {letter.to} {seq} at {mark} {'none' if text is None else f'is {text}'}\n"
        case _:
            return ""


def datagram_text(number: int, letter: Letter) -> str:
    """The line of a datagram, and after it what it tells a client."""
    return f"+{number} {letter.sender} {letter.to} {type(letter.msg).__name__} {body(letter.msg).hex()}\n{told(letter)}"


def step(world: World, event: Event) -> str:
    """Makes a step, and gives its lines."""
    first = len(world.sent)
    effect = world.step(event)
    reached = f" {effect.who}" if isinstance(event, Deliver) and effect.who else ""
    sent = [datagram_text(number, letter) for number, letter in enumerate(effect.sends, first)]
    return f"@{world.events} {head_text(event)}{reached} {effect.why}\n{''.join(sent)}"


def slots_text(chosen: list[Value]) -> Iterator[str]:
    """The lines of the chosen slots: each command after all before it."""
    fold = Fold()
    for slot, value in enumerate(chosen):
        if not value:
            yield f"{slot} noop\n"
        for command in value:
            acts = "acts" if fold.take(command) else "past"
            yield f"{slot} client:{command.client} {seq_text(command.seq, command.floor)} {op_text(command.op)} {acts}\n"


def replicas_text(world: World) -> Iterator[str]:
    """The line of each replica: how many slots' values it kept, and the map that they leave."""
    for replica in range(world.cluster.replicas):
        log, fold = log_of(replica, world.kept), Fold()
        for value in log:
            for command in value:
                fold.take(command)
        yield f"replica:{replica} held {len(log)}{''.join(f' {key}={text}' for key, text in sorted(fold.pairs.items()))}\n"


def summary(world: World) -> str:
    """How many values are chosen, each of them, and each replica."""
    chosen = list(Votes(world.kept).chosen_prefix())
    return "".join([f"chosen {len(chosen)}\n", *slots_text(chosen), *replicas_text(world)])


def short_summary(world: World) -> str:
    """What a generated run prints: how much happened, how many values are chosen, and each replica."""
    counts = {"events": world.events, "datagrams": len(world.sent), "answers": sum(isinstance(it.msg, Answer) for it in world.sent),
              "reads": sum(isinstance(it.msg, ReadAnswer) for it in world.sent), "kept": len(world.kept),
              "chosen": len(list(Votes(world.kept).chosen_prefix()))}
    return "".join([*(f"{name} {count}\n" for name, count in counts.items()), *replicas_text(world)])
