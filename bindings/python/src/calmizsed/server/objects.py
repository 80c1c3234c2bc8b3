"""What the publishers' objects are, and how they are changed. Each change is noted in the log of changes, of which deltas are made."""

from __future__ import annotations

import hashlib
import itertools
from typing import Any, Iterable, Iterator, Optional

from sqlalchemy import and_, bindparam, delete, func, insert, select, update
from sqlalchemy.engine import Connection

from calmizsed.publication import ChangeQuery, Publish
from calmizsed.server.tables import CHANGES, OBJECTS

AT_ONCE = 500
# What each query asks the database is built once.
KNOWN = select(OBJECTS.c.uri, OBJECTS.c.digest).where(
    and_(OBJECTS.c.publisher == bindparam("number"), OBJECTS.c.uri.in_(bindparam("uris", expanding=True))))
REPLACE = update(OBJECTS).where(and_(OBJECTS.c.publisher == bindparam("number"), OBJECTS.c.uri == bindparam("of_uri")))
ADD, LOG = insert(OBJECTS), insert(CHANGES)
Known = dict[str, Optional[bytes]]


def _parts(items: Iterable[Any]) -> Iterator[list[Any]]:
    """The items, some at a time."""
    left = iter(items)
    while part := list(itertools.islice(left, AT_ONCE)):
        yield part


def uris_of(query: ChangeQuery) -> list[str]:
    """The URIs that a query names, each once, in its order."""
    return list(dict.fromkeys(change.uri for change in query.changes))


def known(connection: Connection, publisher: int, uris: Iterable[str]) -> Known:
    """For each of these URIs the SHA-256 of the publisher's object there, or None where there is none."""
    found: Known = {}
    for part in _parts(uris):
        found.update(dict.fromkeys(part))
        found.update((uri, bytes(digest)) for uri, digest in connection.execute(KNOWN, {"number": publisher, "uris": part}))
    return found


def all_of(connection: Connection, publisher: int) -> Iterator[tuple[str, bytes]]:
    """All objects of a publisher, as URI and SHA-256, in the order of the URIs' characters."""
    query = select(OBJECTS.c.uri, OBJECTS.c.digest).where(OBJECTS.c.publisher == publisher)
    rows = connection.execute(query.execution_options(stream_results=True, max_row_buffer=1000))
    yield from sorted((uri, bytes(digest)) for uri, digest in rows)


def are_more(connection: Connection, publisher: int, number: int) -> bool:
    """Whether a publisher has more objects than this."""
    query = select(OBJECTS.c.uri).where(OBJECTS.c.publisher == publisher).offset(number).limit(1)
    return connection.execute(query).first() is not None


def count(connection: Connection) -> int:
    """How many objects there are."""
    return int(connection.execute(select(func.count()).select_from(OBJECTS)).scalar_one())


def make(connection: Connection, publisher: int, query: ChangeQuery, before: Known) -> None:
    """Makes the changes of a query that the library allows, where what there was before is known."""
    digests, octets, log = dict(before), dict[str, Optional[bytes]](), list[dict[str, Any]]()
    for change in query.changes:
        content = change.content if isinstance(change, Publish) else None
        new = None if content is None else hashlib.sha256(content).digest()
        log.append({"publisher": publisher, "uri": change.uri, "old": digests[change.uri], "new": new})
        digests[change.uri], octets[change.uri] = new, content
    _write(connection, publisher, before, {
        uri: None if content is None else {"number": publisher, "of_uri": uri, "digest": digests[uri], "octets": content}
        for uri, content in octets.items()})
    _log(connection, log)


def _write(connection: Connection, publisher: int, before: Known, rows: dict[str, Optional[dict[str, Any]]]) -> None:
    """Has these rows be those of the URIs, or none where it is None."""
    gone = [uri for uri, row in rows.items() if row is None and before[uri] is not None]
    for part in _parts(gone):
        connection.execute(delete(OBJECTS).where(and_(OBJECTS.c.publisher == publisher, OBJECTS.c.uri.in_(part))))
    other = [row for uri, row in rows.items() if row is not None and before[uri] is not None]
    if other:
        connection.execute(REPLACE, other)
    new = [
        {"publisher": publisher, "uri": uri, "digest": row["digest"], "octets": row["octets"]}
        for uri, row in rows.items() if row is not None and before[uri] is None]
    if new:
        connection.execute(ADD, new)


def _log(connection: Connection, rows: list[dict[str, Any]]) -> None:
    """Notes changes, in their order: the numbers of those of a URI ascend."""
    for part in _parts(rows):
        connection.execute(LOG, part)


def withdraw_all(connection: Connection, publisher: int) -> int:
    """Withdraws all objects of a publisher; how many there were."""
    number = 0
    for part in _parts(list(all_of(connection, publisher))):
        _log(connection, [{"publisher": publisher, "uri": uri, "old": digest, "new": None} for uri, digest in part])
        number += len(part)
    connection.execute(delete(OBJECTS).where(OBJECTS.c.publisher == publisher))
    return number
