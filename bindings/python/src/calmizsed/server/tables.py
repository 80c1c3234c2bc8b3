"""The tables, and the version of their schema."""

from __future__ import annotations

from typing import Optional

from sqlalchemy import BigInteger, Column, Float, ForeignKey, Index, Integer, LargeBinary, MetaData, Table, Text, insert, inspect, select
from sqlalchemy.engine import Connection

from calmizsed.errors import CalmizsedError

VERSION = 1

METADATA = MetaData()
# SQLite numbers rows by itself only where their key is an INTEGER, which has 64 bits there.
NUMBER = BigInteger().with_variant(Integer, "sqlite")

SCHEMA = Table(
    "schema", METADATA,
    Column("version", Integer, primary_key=True, autoincrement=False))
SETTINGS = Table(
    "settings", METADATA,
    Column("name", Text, primary_key=True),
    Column("value", Text, nullable=False))
PUBLISHERS = Table(
    "publishers", METADATA,
    Column("id", NUMBER, primary_key=True, autoincrement=True),
    Column("handle", Text, nullable=False, unique=True),
    Column("base", Text, nullable=False, unique=True),
    Column("word", Text, nullable=False, unique=True),
    Column("last_time", BigInteger),  # the signing time of the last message that was taken; a publisher that is removed keeps it
    Column("added", BigInteger, nullable=False),
    Column("removed", BigInteger))
PUBLISHER_KEYS = Table(
    "publisher_keys", METADATA,
    Column("publisher", NUMBER, ForeignKey("publishers.id"), primary_key=True),
    Column("place", Integer, primary_key=True, autoincrement=False),
    Column("key", LargeBinary, nullable=False),
    Column("added", BigInteger, nullable=False))
OBJECTS = Table(
    "objects", METADATA,
    Column("publisher", NUMBER, ForeignKey("publishers.id"), primary_key=True),
    Column("uri", Text, primary_key=True),
    Column("digest", LargeBinary, nullable=False),
    Column("octets", LargeBinary, nullable=False))
CHANGES = Table(
    "changes", METADATA,
    Column("id", NUMBER, primary_key=True, autoincrement=True),
    Column("publisher", NUMBER, nullable=False),
    Column("uri", Text, nullable=False),
    Column("old", LargeBinary),
    Column("new", LargeBinary),
    Column("serial", BigInteger))  # that of the delta that has it; none has it yet where it is null
Index("changes_serial", CHANGES.c.serial)
SESSION = Table(
    "session", METADATA,
    Column("id", Integer, primary_key=True),
    Column("session", Text, nullable=False),
    Column("serial", BigInteger, nullable=False),
    Column("owner", Text),
    Column("until", Float),
    Column("name", Text),
    Column("size", BigInteger),
    Column("digest", LargeBinary))
DELTAS = Table(
    "deltas", METADATA,
    Column("serial", BigInteger, primary_key=True, autoincrement=False),
    Column("name", Text, nullable=False),
    Column("size", BigInteger, nullable=False),
    Column("digest", LargeBinary, nullable=False))
# The last reply to each publisher. That to a list, which may be long and changes nothing, is kept by its digest alone.
REPLIES = Table(
    "replies", METADATA,
    Column("publisher", NUMBER, ForeignKey("publishers.id"), primary_key=True),
    Column("signing_time", BigInteger, nullable=False),
    Column("query", LargeBinary, nullable=False),
    Column("digest", LargeBinary, nullable=False),
    Column("octets", LargeBinary))


class SchemaError(CalmizsedError):
    """The database isn't one of this server: `NoTables`, `OtherTables`."""


def version_of(connection: Connection) -> Optional[int]:
    """The version of the schema of a database, or None where it has no tables of a server."""
    if not inspect(connection).has_table(SCHEMA.name):
        return None
    return connection.execute(select(SCHEMA.c.version)).scalar()  # type: ignore[no-any-return]


def create(connection: Connection) -> bool:
    """Makes the tables, or brings those of an older version to this one; whether there were none."""
    version = version_of(connection)
    if version is None:
        METADATA.create_all(connection)
        connection.execute(insert(SCHEMA).values(version=VERSION))
        return True
    migrate(connection, version)
    return False


def migrate(connection: Connection, version: int) -> None:
    """Brings the tables of an older version to this one, a step for each version. There is none yet."""
    if version != VERSION:
        raise SchemaError("OtherTables", 1, f"the tables have version {version}, and this server is for {VERSION}")


def check(connection: Connection) -> None:
    """Whether the tables are those of this version."""
    version = version_of(connection)
    if version is None:
        raise SchemaError("NoTables", 1, "the database has no tables of a server: calmizsed serve init makes them")
    if version != VERSION:
        raise SchemaError("OtherTables", 1, f"the tables have version {version}, and this server is for {VERSION}: calmizsed serve init")
