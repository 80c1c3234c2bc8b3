"""What is held, and what was changed, read as streams: few rows are in memory at a time."""

from __future__ import annotations

import itertools
from typing import Any, Iterable, Iterator

from sqlalchemy import and_, collate, select
from sqlalchemy.engine import Connection, Row

from calmizsed.errors import CalmizsedError
from calmizsed.server import tables
from calmizsed.server.rrdp import Change, Element, folded
from calmizsed.server.tree import Held

ROWS_WITH_OBJECTS, ROWS = 8, 1000
BATCH = 100


class Inconsistent(CalmizsedError):
    """The log of changes and the objects don't fit together: `Inconsistent`."""

    def __init__(self, uri: str) -> None:
        super().__init__("Inconsistent", 1, f"the log of changes has an object at {uri}, and there is none")


def _stream(connection: Connection, query: Any, rows: int) -> Iterator[Row]:
    """The rows of a query, so many of them at a time."""
    return iter(connection.execute(query.execution_options(stream_results=True, max_row_buffer=rows)))


def _by_octets(connection: Connection, column: Any) -> Any:
    """A text in the order of its octets, whatever the database's own order is."""
    return column if connection.dialect.name == "sqlite" else collate(column, "C")


def waiting(connection: Connection) -> Iterator[Row]:
    """The changes that no delta has, those of a URI one behind the other as they were made."""
    changes = tables.CHANGES.c
    order = changes.publisher, _by_octets(connection, changes.uri), changes.id
    return _stream(connection, select(tables.CHANGES).where(changes.serial.is_(None)).order_by(*order), ROWS)


def objects(connection: Connection) -> Iterator[tuple[str, bytes]]:
    """All objects with their URIs."""
    columns = tables.OBJECTS.c
    query = select(columns.uri, columns.octets).order_by(columns.publisher, columns.uri)
    return ((row.uri, row.octets) for row in _stream(connection, query, ROWS_WITH_OBJECTS))


def digests(connection: Connection) -> Iterator[Held]:
    """All objects without their octets. Those of a publisher, below whose base no other's objects lie, are in the order of their URIs."""
    columns = tables.OBJECTS.c
    query = select(columns.publisher, columns.uri, columns.digest).order_by(columns.publisher, _by_octets(connection, columns.uri))
    return (Held(row.publisher, row.uri, row.digest) for row in _stream(connection, query, ROWS))


def contents(connection: Connection, wanted: Iterable[Held]) -> Iterator[tuple[Held, bytes]]:
    """The octets of these objects, which are there, in any order."""
    columns = tables.OBJECTS.c
    for publisher, group in itertools.groupby(wanted, key=lambda one: one.publisher):
        missing = {one.uri: one for one in group}
        query = select(columns.uri, columns.octets).where(and_(columns.publisher == publisher, columns.uri.in_(list(missing))))
        for row in _stream(connection, query, ROWS_WITH_OBJECTS):
            yield missing.pop(row.uri), row.octets
        for uri in missing:
            raise Inconsistent(uri)


def elements(connection: Connection, changes: Iterable[Change]) -> Iterator[Element]:
    """What a delta says of changes that come in the order of `waiting`."""
    whole = folded(changes)
    while batch := list(itertools.islice(whole, BATCH)):
        yield from (Element(change.uri, change.old, None) for change in batch if change.new is None)
        old = {(change.publisher, change.uri): change.old for change in batch}
        wanted = [Held(change.publisher, change.uri, change.new) for change in batch if change.new is not None]
        for one, octets in contents(connection, wanted):
            yield Element(one.uri, old[one.publisher, one.uri], octets)
