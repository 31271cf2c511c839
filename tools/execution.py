"""What a command does to the text of its key, and its answer, as replicas execute it."""

LONGEST_TEXT = 64               # letters of a text


def executed(before: str | None, verb: str, text: str = "") -> tuple[str | None, str]:
    """The text of the key after a command, and the answer: of `put`, `app`, `del` or `get`. None is no text: no key has an empty one."""
    match verb:
        case "put":
            return text, "ok"
        case "del":
            return None, "none" if before is None else f"was {before}"
        case "get":
            return before, "none" if before is None else f"is {before}"
        case "app":
            after = (before or "") + text
            return (before, "full") if len(after) > LONGEST_TEXT else (after, f"len {len(after)}")
    raise ValueError(f"no command is {verb}")
