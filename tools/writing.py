"""Writes small files as a whole: after a crash, or where a disk is full, a file has the text that it had or the new one."""

import contextlib
import os
import pathlib


def sync_folder(folder: pathlib.Path) -> None:
    handle = os.open(folder, os.O_RDONLY)
    try:
        os.fsync(handle)
    finally:
        os.close(handle)


def write_whole(path: pathlib.Path, text: str, is_synced: bool = True) -> None:
    """Writes a file as a whole; where it is synced, it is on the disk when this ends."""
    new = path.with_name(f"{path.name}.new")
    try:
        with open(new, "w") as file:
            file.write(text)
            file.flush()
            if is_synced:
                os.fsync(file.fileno())
        new.replace(path)
    except OSError:
        with contextlib.suppress(OSError):
            new.unlink()                # what there is of it takes room
        raise
    if is_synced:
        sync_folder(path.parent)


def says(path: pathlib.Path, text: str) -> bool:
    """Whether a file has this text."""
    try:
        return path.read_bytes() == text.encode()
    except OSError:
        return False


def keep(path: pathlib.Path, text: str, is_synced: bool = True) -> str:
    """Has a file say this. Gives why it can't, if so: that is said and tried again, and ends nothing."""
    try:
        if not says(path, text):
            write_whole(path, text, is_synced)
    except OSError as error:
        return f"{path.name} can't be written: {error.strerror}"
    return ""
