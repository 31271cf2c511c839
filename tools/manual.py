"""Manual pages and completions of the commands, made of tools/commands.py, and of what a tool says of itself in its head."""

import ast
import pathlib
import re
import textwrap
from collections.abc import Iterator, Sequence

from commands import COMMANDS, Command, Option, Word

ITEM = re.compile(r"    (\S.*?) {2,}(\S.*)")        # a line of a list: what is meant, and what is said of it


def roff(text: str) -> str:
    """A text as roff has it: nothing in it is an order, and what stands in backticks is bold."""
    plain = text.replace("\\", "\\e").replace("-", "\\-").replace("^", "\\(ha").replace("'", "\\(aq")
    bold = re.sub(r"`([^`]+)`", r"\\fB\1\\fR", plain)
    return re.sub(r"^\.", r"\\&.", bold, flags=re.MULTILINE)


def item(term: str, text: str) -> str:
    return f".TP\n.B {roff(term) or '(nothing)'}\n{roff(text)}"


def listed(options: Sequence[Option]) -> Iterator[str]:
    for option in options:
        yield item(f"{option.name} {option.value}".strip(), option.says)


def of_word(command: Command, word: Word) -> Iterator[str]:
    yield item(f"{word.name} {word.behind}".strip(), word.says)
    if word.options:
        yield from (".RS", *listed(word.options), ".RE")


def renamed(text: str) -> str:
    """What names tools by their files names them by their commands."""
    for command in COMMANDS:
        text = re.sub(rf"(?<![\w/]){command.file}\b", command.name, text)
    return text


def block(text: str) -> Iterator[str]:
    """A part of a tool's head: a paragraph, a list, or where neither, lines as they stand."""
    items = [ITEM.fullmatch(line) for line in text.splitlines()]
    if not text.startswith("    "):
        yield f".PP\n{roff(' '.join(text.splitlines()))}"
    elif any(items):
        for line, found in zip(text.splitlines(), items):
            yield item(found[1], found[2]) if found else roff(line.strip())
    else:
        yield f".PP\n.RS\n.nf\n{roff(textwrap.dedent(text))}\n.fi\n.RE"


def head_of(file: pathlib.Path) -> list[str]:
    """What a tool says of itself, without the first line and how it is called, which the table has."""
    parts = (ast.get_docstring(ast.parse(file.read_text())) or "").split("\n\n")
    return [part for part in parts[1:] if not part.lstrip().startswith("tools/")]


def page(command: Command, top: pathlib.Path, version: str, date: str) -> str:
    """The manual page of a command."""
    lines = [f'.TH {command.name.upper()} 1 {date} "compax {version}"', ".SH NAME", f"{command.name} \\- {roff(command.says)}", ".SH SYNOPSIS"]
    lines.append("\n.br\n".join(f".B {roff(usage)}" for usage in command.usages))
    for word in command.words:
        lines += [".SH COMMANDS"] * (word is command.words[0]) + list(of_word(command, word))
    if command.options:
        lines += [".SH OPTIONS", *listed(command.options)]
    if command.file.startswith("tools/"):
        lines += [".SH DESCRIPTION", *(line for part in head_of(top / command.file) for line in block(renamed(part)))]
    if command.statuses:
        lines += [".SH EXIT STATUS", *(item(f"{status.number} {status.line}".strip(), status.when) for status in command.statuses)]
    others = ",\n".join(f".BR {roff(other.name)} (1)" for other in COMMANDS if other is not command)
    lines += [".SH SEE ALSO", others, ".PP\ndocs/RUNNING.md and docs/INPUT.md, in lib/compax"]
    return "\n".join(lines) + "\n"


def names(options: Sequence[Option]) -> str:
    return " ".join(option.name for option in options)


def pattern(names: Sequence[str]) -> str:
    """A pattern of a shell's case that these meet alone."""
    return "|".join(names) or "''"


def completion(command: Command) -> str:
    """A function of bash that completes the words and options of a command. Files are completed where these give nothing."""
    function = f"_{command.name.replace('-', '_')}"
    options = [*command.options, *(option for word in command.words for option in word.options)]
    valued = pattern([option.name for option in options if option.value])
    arms = "".join(f'        {word.name}) options="{names(word.options)}" ;;\n' for word in command.words)
    return f"""\
# completes the words and options of {command.name}, in bash
{function}() {{
    local now=${{COMP_WORDS[COMP_CWORD]}} at word="" words="" options=""
    COMPREPLY=()
    case ${{COMP_WORDS[COMP_CWORD - 1]}} in {valued}) return ;; esac
    for ((at = 1; at < COMP_CWORD; at++)); do
        case ${{COMP_WORDS[at]}} in
            {valued}) ((at += 1)) ;;
            {pattern([word.name for word in command.words])}) word=${{COMP_WORDS[at]}}; break ;;
        esac
    done
    case $word in
        "") words="{' '.join(word.name for word in command.words)}" options="{names(command.options)}" ;;
{arms}    esac
    case $now in -*) words="$words $options" ;; esac
    mapfile -t COMPREPLY < <(compgen -W "$words" -- "$now")
}}
complete -o default -F {function} {command.name}
"""
