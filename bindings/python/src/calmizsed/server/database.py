"""The database: SQLite in a file, for one machine, or PostgreSQL at an address, for several.

What is committed is on the disk: SQLite has a log that is written ahead and is synced at each commit, and of PostgreSQL the same is asked
for. On SQLite those who write wait for each other; on PostgreSQL only those of one publisher do.
"""

from __future__ import annotations

import contextlib
import threading
from typing import Any, Iterator

from sqlalchemy import create_engine, event
from sqlalchemy.engine import Connection, Engine, make_url
from sqlalchemy.exc import ArgumentError, NoSuchModuleError
from sqlalchemy.pool import QueuePool

from calmizsed.errors import CalmizsedError

SECONDS_TO_WAIT = 30
CONNECTIONS = 16
MORE_CONNECTIONS = 16
WRITING = "calmizsed_writing"
PRAGMAS = "journal_mode=WAL", "synchronous=FULL", "foreign_keys=ON", f"busy_timeout={1000 * SECONDS_TO_WAIT}"
# A server that doesn't answer is given up after a while, and so is a lock that isn't given back.
PSYCOPG: dict[str, Any] = {
    "connect_timeout": 10, "keepalives_idle": 30, "keepalives_interval": 10, "keepalives_count": 3,
    "options": f"-c synchronous_commit=on -c lock_timeout={1000 * SECONDS_TO_WAIT}"}


class DatabaseError(CalmizsedError):
    """The address is none of a database that can be used: `NoDatabase`."""


class Database:
    """A database at an address of SQLAlchemy. It can be used by many threads at once."""

    def __init__(self, address: str) -> None:
        self.address = address
        try:
            name = make_url(address).get_backend_name()
            if name not in ("sqlite", "postgresql"):
                raise DatabaseError("NoDatabase", 2, f"{name} is neither sqlite nor postgresql")
            self.is_sqlite = name == "sqlite"
            self.engine = self._engine()
        except (ArgumentError, NoSuchModuleError, ModuleNotFoundError) as error:
            raise DatabaseError("NoDatabase", 2, f"the address of the database: {error}") from None
        # A state as of one moment, whatever is committed meanwhile. SQLite's transactions have that in any case.
        self._reader = self.engine if self.is_sqlite else self.engine.execution_options(isolation_level="REPEATABLE READ")
        self._writer = self.engine.execution_options(**{WRITING: True})
        self._turn = threading.Lock()

    def _engine(self) -> Engine:
        """The engine. What a query holds is in no error, and so in no log."""
        common: dict[str, Any] = {
            "poolclass": QueuePool, "pool_size": CONNECTIONS, "max_overflow": MORE_CONNECTIONS, "pool_timeout": SECONDS_TO_WAIT,
            "hide_parameters": True}
        if self.is_sqlite:
            waiting = {"check_same_thread": False, "timeout": SECONDS_TO_WAIT}
            engine = create_engine(self.address, connect_args=waiting, **common)
            event.listen(engine, "connect", _set_up_sqlite)
            event.listen(engine, "begin", _begin_sqlite)
            return engine
        if make_url(self.address).get_driver_name() == "psycopg2":
            common.update(connect_args=PSYCOPG, executemany_mode="values_plus_batch")
        return create_engine(self.address, pool_pre_ping=True, **common)

    @contextlib.contextmanager
    def writing(self) -> Iterator[Connection]:
        """A transaction that writes: all of it is done, or nothing. On SQLite it is the only one that does."""
        with self._in_turn(), self._writer.connect() as connection, connection.begin():
            yield connection

    @contextlib.contextmanager
    def _in_turn(self) -> Iterator[None]:
        """Has threads come one behind the other on SQLite, which has those who wait for each other ask again and again."""
        held = self.is_sqlite and self._turn.acquire(timeout=SECONDS_TO_WAIT)
        try:
            yield
        finally:
            if held:
                self._turn.release()

    @contextlib.contextmanager
    def reading(self) -> Iterator[Connection]:
        """A transaction that sees one state, and changes nothing."""
        with self._reader.connect() as connection:
            transaction = connection.begin()
            try:
                yield connection
            finally:
                transaction.rollback()

    def close(self) -> None:
        """Closes the connections that nobody uses."""
        self.engine.dispose()


def _set_up_sqlite(connection: Any, _: object) -> None:
    """Of a new connection: transactions begin where this module has them begin, and commits are synced."""
    connection.isolation_level = None
    for words in PRAGMAS:
        connection.execute(f"PRAGMA {words}")


def _begin_sqlite(connection: Connection) -> None:
    """Takes the lock of those who write at once: else two that have read could both wait to write."""
    connection.exec_driver_sql("BEGIN IMMEDIATE" if connection.get_execution_options().get(WRITING) else "BEGIN")
