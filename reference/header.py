"""The header of an input: the cluster, in TOML. From cx_cluster/specs and cx_script/specs (Header, Input, Unended)."""

import tomllib

from terms import Cluster

HEADER_MOST = 16_384            # bytes of a header, each line with its line feed
RULE = b"---"                   # the line that ends it


class BadHeader(Exception):
    """There is no header, or it says no cluster."""


def stripped(line: bytes) -> bytes:
    """A line without one carriage return at its end."""
    return line.removesuffix(b"\r")


def split_header(text: bytes) -> tuple[bytes, bytes] | None:
    """The header and the bytes behind its rule; none where there is no such line, or the header is too long."""
    header, parts = b"", text.split(b"\n")
    for at, part in enumerate(parts):
        if stripped(part) == RULE:
            return header, b"\n".join(parts[at + 1 :])
        header += stripped(part) + b"\n"
        if len(header) > HEADER_MOST:
            return None
    return None


def number(members: dict[str, object], key: str, low: int, high: int, default: int | None = None) -> int:
    """The number of a key, in its range. One that has a default may be left out."""
    it = members.pop(key, default)
    if type(it) is not int or not low <= it <= high:
        raise BadHeader(key)
    return it


def cluster_of(header: bytes) -> Cluster:
    """The cluster that a header says; it may begin with a byte order mark."""
    try:
        members = tomllib.loads(header.decode().removeprefix("\ufeff"))
    except (ValueError, RecursionError) as error:
        raise BadHeader("toml") from error
    f = number(members, "f", 0, 3)
    ranges = {"leaders": (1, 8), "proxies": (1, 16), "acceptors": (1, 64), "replicas": (f + 1, 8), "batchers": (1, 8), "unbatchers": (1, 8),
              "readers": (1, 8), "clients": (1, 64), "batch": (1, 8), "pool": (2 * f + 1, 64, 2 * f + 1), "replacers": (0, 4, 0)}
    counts = {key: number(members, key, *its) for key, its in ranges.items()}
    one_entry = number(members, "one_entry_a_grid", 0, 1, 0)
    own_most = 1 if counts["proxies"] % counts["leaders"] == 0 else 0
    own = number(members, "own_proxies", 0, own_most, 0)
    keep = number(members, "keep_sets", 0, 1, 0)
    cluster = Cluster(f=f, **counts, one_entry_a_grid=one_entry == 1, own_proxies=own == 1, keep_sets=keep == 1)
    number(members, "base_port", 1024, 60000, 1024)
    if members:
        raise BadHeader("unknown")
    return cluster
