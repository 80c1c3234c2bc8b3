"""RRDP's session in the database: its serial number, its files, the changes that no delta has, and whose worker it is."""

from __future__ import annotations

import os
import secrets
import socket
import time
import uuid
from array import array
from typing import Callable, Iterable, Iterator, Optional

from sqlalchemy import and_, bindparam, delete, insert, select, update
from sqlalchemy.engine import Connection, Row

from calmizsed.errors import CalmizsedError
from calmizsed.server import tables
from calmizsed.server.rrdp import Change, State, Written, offered

LEASE_SECONDS = 30.0
AT_ONCE = 1000


class LeaseLost(CalmizsedError):
    """Another worker writes the files now, or has written them: `LeaseLost`."""

    def __init__(self) -> None:
        super().__init__("LeaseLost", 1, "another worker has the session")


def _row(connection: Connection, lock: bool = False) -> Optional[Row]:
    """The session's row, if there is one. With `lock` no other transaction changes it until this one ends."""
    query = select(tables.SESSION)
    return connection.execute(query.with_for_update() if lock else query).first()


def _machine() -> str:
    """A word that all processes have that see the same process numbers as this one, or nothing where there is none."""
    try:
        with open("/proc/sys/kernel/random/boot_id", encoding="ascii") as file:
            return f"{socket.gethostname()}/{file.read().strip()}/{os.stat('/proc/self/ns/pid').st_ino}"
    except OSError:
        return ""


def new_owner() -> str:
    """The name of a worker of this process."""
    return f"{_machine()} {os.getpid()} {secrets.token_hex(8)}"


def is_gone(owner: str) -> bool:
    """Whether the worker of this name was in a process of this machine that is no longer there: then nobody waits for its lease to end."""
    machine, _, rest = owner.rpartition(" ")[0].rpartition(" ")
    if not machine or machine != _machine() or not rest.isdigit():
        return False
    try:
        os.kill(int(rest), 0)
    except ProcessLookupError:
        return True
    except OSError:
        return False
    return False


def take_lease(connection: Connection, owner: str, clock: Callable[[], float] = time.time) -> None:
    """Has the worker of this name have the session for a while: it had it, or no other has it."""
    row, now = _row(connection, lock=True), clock()
    if row is None:
        connection.execute(insert(tables.SESSION).values(id=1, session=str(uuid.uuid4()), serial=0))
    elif row.owner not in (None, owner) and row.until >= now and not is_gone(row.owner):
        raise LeaseLost
    connection.execute(update(tables.SESSION).values(owner=owner, until=now + LEASE_SECONDS))


def give_lease_back(connection: Connection, owner: str) -> None:
    """Lets another worker have the session at once."""
    connection.execute(update(tables.SESSION).where(tables.SESSION.c.owner == owner).values(owner=None, until=None))


def place_of(connection: Connection) -> tuple[str, int]:
    """The session and its serial number, which is 0 where nothing was written yet."""
    row = _row(connection)
    if row is None:
        raise LeaseLost
    return row.session, row.serial


def is_waiting(connection: Connection) -> bool:
    """Whether there is a change that no delta has."""
    return connection.execute(select(tables.CHANGES.c.id).where(tables.CHANGES.c.serial.is_(None)).limit(1)).first() is not None


def state_of(connection: Connection, lock: bool = False) -> Optional[State]:
    """What a notification says, by what is committed; None where nothing was written yet."""
    row = _row(connection, lock)
    if row is None or not row.serial:
        return None
    snapshot = Written(row.serial, row.name, row.size, row.digest)
    found = connection.execute(select(tables.DELTAS).order_by(tables.DELTAS.c.serial))
    return State(row.session, snapshot, offered([Written(one.serial, one.name, one.size, one.digest) for one in found], snapshot))


class Seen:
    """The changes that no delta has, as one transaction sees them. It keeps their numbers, to give just these a serial number."""

    def __init__(self) -> None:
        self._numbers = array("q")

    def note(self, rows: Iterable[Row]) -> Iterator[Row]:
        """The rows, whose numbers are kept."""
        for row in rows:
            self._numbers.append(row.id)
            yield row

    def __len__(self) -> int:
        return len(self._numbers)

    def runs(self) -> Iterator[tuple[int, int]]:
        """The numbers in runs without a gap. A number that was committed meanwhile lies in none."""
        numbers = sorted(self._numbers)
        begin = 0
        for place in range(1, len(numbers) + 1):
            if place == len(numbers) or numbers[place] != numbers[place - 1] + 1:
                yield numbers[begin], numbers[place - 1]
                begin = place

    def mark(self, connection: Connection, serial: int) -> None:
        """Gives the changes a serial number."""
        changes = tables.CHANGES.c
        marking = update(tables.CHANGES).where(
            and_(changes.id.between(bindparam("first"), bindparam("last")), changes.serial.is_(None))).values(serial=serial)
        runs = [{"first": first, "last": last} for first, last in self.runs()]
        for place in range(0, len(runs), AT_ONCE):
            connection.execute(marking, runs[place:place + AT_ONCE])


def commit(connection: Connection, owner: str, before: tuple[str, int], state: State, seen: Seen) -> None:
    """Makes a state that of the session, if the session is still as it was before, and this worker's."""
    row = _row(connection, lock=True)
    if row is None or row.owner != owner or (row.session, row.serial) != before:
        raise LeaseLost
    snapshot = state.snapshot
    seen.mark(connection, snapshot.serial)
    connection.execute(update(tables.SESSION).values(
        session=state.session, serial=snapshot.serial, name=snapshot.name, size=snapshot.size, digest=snapshot.digest))
    known = set(connection.execute(select(tables.DELTAS.c.serial)).scalars()) if state.session == before[0] else set()
    kept = {one.serial for one in state.deltas}
    if state.session != before[0] or known - kept:
        connection.execute(delete(tables.DELTAS).where(tables.DELTAS.c.serial.not_in(kept & known)))
    for one in state.deltas:
        if one.serial not in known:
            connection.execute(insert(tables.DELTAS).values(serial=one.serial, name=one.name, size=one.size, digest=one.digest))


def forget(connection: Connection, state: State) -> int:
    """Removes some changes that no delta has that is offered, and says how many."""
    least = state.deltas[0].serial if state.deltas else state.snapshot.serial
    numbers = list(connection.execute(select(tables.CHANGES.c.id).where(tables.CHANGES.c.serial < least).limit(AT_ONCE)).scalars())
    if numbers:
        connection.execute(delete(tables.CHANGES).where(tables.CHANGES.c.id.in_(numbers)))
    return len(numbers)


def change_of(row: Row) -> Change:
    """A change of its row."""
    return Change(row.id, row.publisher, row.uri, row.old, row.new)
