"""What the folder of a cluster is known to have had: which program ran over it, and which files of each process were seen there.

So a journal that is gone is told from one that a first start is yet to make: a role that forgot its journal must not be started. It is in
inventory.json beside the folders of the processes, since what it tells of them has to be there without them.
"""

import json
import pathlib
from collections.abc import Iterable
from dataclasses import asdict, dataclass, field

from headers import Role, Unusable

INVENTORY = "inventory.json"


def is_gone(path: pathlib.Path) -> bool:
    """Whether a file or a folder isn't there. One that can't be looked at isn't gone."""
    try:
        path.stat()
    except (FileNotFoundError, NotADirectoryError):
        return True
    except OSError:
        pass
    return False


def role_of(word: str) -> Role:
    kind, _, index = word.partition(":")
    return Role(kind, int(index))


def files_of(roles: Iterable[str]) -> list[str]:
    """The names of the files that these roles keep."""
    return [name for role in roles for name in role_of(role).files]


@dataclass
class Inventory:
    program: str = ""                   # the hash of the program that ran last; none before the first
    files: dict[str, list[str]] = field(default_factory=dict)       # of each process, by its number

    def text(self) -> str:
        return json.dumps(asdict(self), indent=1)

    def note(self, room: pathlib.Path, roles: Iterable[str]) -> None:
        """Notes the files of these roles that are there."""
        seen = self.files.setdefault(room.name, [])
        seen += [name for name in files_of(roles) if name not in seen and not is_gone(room / name)]

    def gone(self, room: pathlib.Path, roles: Iterable[str]) -> list[str]:
        """The files of these roles that were there, and are no more."""
        seen = self.files.get(room.name, [])
        return [name for name in files_of(roles) if name in seen and is_gone(room / name)]


def read_inventory(folder: pathlib.Path) -> Inventory | None:
    """What was noted of a folder; None where nothing was, as before its first start, or under older tools."""
    path = folder / INVENTORY
    try:
        stored = json.loads(path.read_bytes())
        found = Inventory(str(stored["program"]), {number: list(map(str, names)) for number, names in stored["files"].items()})
    except FileNotFoundError:
        return None
    except (ValueError, TypeError, KeyError, AttributeError):
        raise Unusable(f"{path} is damaged, so a journal that was lost can't be told from one that never was. Remove it where all journals "
                       "are there") from None
    return found
