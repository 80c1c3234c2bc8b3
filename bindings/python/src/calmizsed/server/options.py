"""How a server runs, unless it is asked to run otherwise. This module imports none of the packages that only a server needs."""

from __future__ import annotations

from dataclasses import dataclass

LINES, JSON = "lines", "json"


@dataclass(frozen=True)
class Options:
    """How a server runs."""

    host: str = "127.0.0.1"
    port: int = 8181
    threads: int = 8
    """How many queries are answered at once."""
    processes: int = 1
    """How many processes answer queries; one is the server's own."""
    connections: int = 12000
    """How many connections there may be."""
    most: int = 32 << 20
    """How many octets a query may have."""
    hold: float = 1.0
    """How many seconds after its query a reply is sent at the earliest: a publisher's next message is then signed in a later second."""
    key_uses: int = 1000
    """How many replies a key for one use may sign, where no other is ready."""
    key_seconds: float = 60.0
    """And for how long."""
    log: str = LINES
    """How logs are written."""
    worker: bool = True
    """Whether this process writes the files of RRDP and the tree for rsync."""
