"""The publishers: who may publish, below which URI, and under which keys their messages are received."""

from __future__ import annotations

import hashlib
import re
from dataclasses import dataclass
from typing import Any, Optional

from sqlalchemy import and_, bindparam, delete, func, insert, select, update
from sqlalchemy.engine import Connection

from calmizsed import keys
from calmizsed.errors import CalmizsedError
from calmizsed.server import objects
from calmizsed.server.tables import OBJECTS, PUBLISHER_KEYS, PUBLISHERS, REPLIES

MOST_KEYS = 2  # while a publisher's key changes
PLAIN = re.compile(r"[A-Za-z0-9][A-Za-z0-9_-]{0,63}")
CHARACTERS_OF_HANDLE, CHARACTERS_OF_DIGEST = 40, 24
# What each query asks the database is built once: to build it takes as long as to run it.
KEYS_OF = select(PUBLISHER_KEYS.c.place, PUBLISHER_KEYS.c.key).where(
    PUBLISHER_KEYS.c.publisher == bindparam("number")).order_by(PUBLISHER_KEYS.c.place)
BY_WORD = select(PUBLISHERS).where(and_(PUBLISHERS.c.word == bindparam("of_word"), PUBLISHERS.c.removed.is_(None)))
LOCKED = select(PUBLISHERS).where(and_(PUBLISHERS.c.id == bindparam("number"), PUBLISHERS.c.removed.is_(None))).with_for_update()
TOOK = update(PUBLISHERS).where(PUBLISHERS.c.id == bindparam("number"))
REPLIED, FIRST_REPLIED = update(REPLIES).where(REPLIES.c.publisher == bindparam("number")), insert(REPLIES)


class PublisherError(CalmizsedError):
    """A publisher can't be added or changed: `HandleTaken`, `NoPublisher`, `KeyTaken`, `ManyKeys`, `LastKey`, `NoSuchKey`."""


@dataclass(frozen=True)
class Publisher:
    """A publisher as the database has it."""

    number: int
    handle: str
    base: str
    word: str
    last_time: Optional[int]
    added: int
    removed: Optional[int]
    keys: tuple[bytes, ...]
    """Public keys in DER, the oldest first."""
    places: tuple[int, ...]
    """The numbers by which the keys are called."""


def word_of(handle: str) -> str:
    """A word for paths and URIs that is this handle's alone: the handle, or where it isn't plain some of it and a digest.

    A dot stands before a digest and in no handle, so that a word of the one kind is none of the other.
    """
    if PLAIN.fullmatch(handle):
        return handle
    begin = re.sub(r"[^A-Za-z0-9]+", "-", handle).strip("-")[:CHARACTERS_OF_HANDLE] or "publisher"
    return f"{begin}.{hashlib.sha256(handle.encode('utf-8', 'surrogatepass')).hexdigest()[:CHARACTERS_OF_DIGEST]}"


def _with_keys(connection: Connection, row: Any) -> Publisher:
    """The publisher of a row."""
    found = connection.execute(KEYS_OF, {"number": row.id}).all()
    return Publisher(
        row.id, row.handle, row.base, row.word, row.last_time, row.added, row.removed,
        tuple(bytes(one.key) for one in found), tuple(one.place for one in found))


def _found(connection: Connection, condition: Any, lock: bool = False) -> Optional[Publisher]:
    """The publisher that there is, removed or not, if there is one. With `lock` no other transaction changes it until this one ends."""
    query = select(PUBLISHERS).where(condition)
    return _only(connection, query.with_for_update() if lock else query)


def _only(connection: Connection, query: Any, **values: Any) -> Optional[Publisher]:
    """The publisher that a query finds, if it finds one. The keys are read behind the row, so that they are no older than its lock."""
    row = connection.execute(query, values).first()
    return None if row is None else _with_keys(connection, row)


def by_word(connection: Connection, word: str) -> Optional[Publisher]:
    """The publisher at a path, if there is one."""
    return _only(connection, BY_WORD, of_word=word)


def locked(connection: Connection, number: int) -> Optional[Publisher]:
    """The publisher, whom no other transaction changes until this one ends, if it is still there."""
    return _only(connection, LOCKED, number=number)


def of_handle(connection: Connection, handle: str) -> Publisher:
    """The publisher with a handle, as `locked`."""
    found = _found(connection, and_(PUBLISHERS.c.handle == handle, PUBLISHERS.c.removed.is_(None)), lock=True)
    if found is None:
        raise PublisherError("NoPublisher", 2, f"no publisher has the handle {handle!r}")
    return found


def count(connection: Connection) -> int:
    """How many publishers there are."""
    return int(connection.execute(select(func.count()).select_from(PUBLISHERS).where(PUBLISHERS.c.removed.is_(None))).scalar_one())


def listed(connection: Connection) -> list[tuple[Publisher, int]]:
    """All publishers, and how many objects each has."""
    counts = dict(connection.execute(select(OBJECTS.c.publisher, func.count()).group_by(OBJECTS.c.publisher)).all())
    rows = connection.execute(select(PUBLISHERS).where(PUBLISHERS.c.removed.is_(None)).order_by(PUBLISHERS.c.handle)).all()
    return [(_with_keys(connection, row), counts.get(row.id, 0)) for row in rows]


def add(connection: Connection, rsync_base: str, handle: str, key: bytes, moment: int) -> Publisher:
    """Adds a publisher, or gives the one with this handle, if it has this key.

    One that was removed comes back with the signing time of its last message: none of its old messages is taken again.
    """
    keys.identifier(key)
    there = _found(connection, PUBLISHERS.c.handle == handle, lock=True)
    if there is not None and there.removed is None:
        if key in there.keys:
            return there
        raise PublisherError("HandleTaken", 2, f"another publisher has the handle {handle!r}; for a new key: calmizsed serve key")
    if there is None:
        word = word_of(handle)
        connection.execute(insert(PUBLISHERS).values(handle=handle, base=f"{rsync_base}{word}/", word=word, added=moment))
    else:
        # It is another row than before it was removed, also within a second: by that a query knows that it has other objects.
        added = max(moment, there.added + 1)
        connection.execute(update(PUBLISHERS).where(PUBLISHERS.c.id == there.number).values(added=added, removed=None))
    _add_key(connection, of_handle(connection, handle), key, moment)
    return of_handle(connection, handle)


def _add_key(connection: Connection, publisher: Publisher, key: bytes, moment: int) -> None:
    """Adds a key behind those that there are."""
    place = 1 + max(publisher.places, default=0)
    connection.execute(insert(PUBLISHER_KEYS).values(publisher=publisher.number, place=place, key=key, added=moment))


def add_key(connection: Connection, handle: str, key: bytes, moment: int) -> Publisher:
    """Has a publisher's messages be received under a second key too."""
    keys.identifier(key)
    publisher = of_handle(connection, handle)
    if key in publisher.keys:
        raise PublisherError("KeyTaken", 2, f"{handle} has this key")
    if len(publisher.keys) >= MOST_KEYS:
        raise PublisherError("ManyKeys", 2, f"{handle} has {len(publisher.keys)} keys: retire one first")
    _add_key(connection, publisher, key, moment)
    return of_handle(connection, handle)


def retire_key(connection: Connection, handle: str, place: int) -> Publisher:
    """Has a publisher's messages be received no more under a key."""
    publisher = of_handle(connection, handle)
    if place not in publisher.places:
        raise PublisherError("NoSuchKey", 2, f"{handle} has no key {place}: it has {', '.join(map(str, publisher.places))}")
    if len(publisher.places) == 1:
        raise PublisherError("LastKey", 2, f"{handle} has no other key: add one first, or remove the publisher")
    connection.execute(delete(PUBLISHER_KEYS).where(
        and_(PUBLISHER_KEYS.c.publisher == publisher.number, PUBLISHER_KEYS.c.place == place)))
    return of_handle(connection, handle)


def remove(connection: Connection, handle: str, moment: int) -> int:
    """Removes a publisher, and withdraws all that it published; how many objects that were."""
    publisher = of_handle(connection, handle)
    number = objects.withdraw_all(connection, publisher.number)
    for table in (PUBLISHER_KEYS, REPLIES):
        connection.execute(delete(table).where(table.c.publisher == publisher.number))
    connection.execute(update(PUBLISHERS).where(PUBLISHERS.c.id == publisher.number).values(removed=moment))
    return number


def took(connection: Connection, number: int, signing_time: int) -> None:
    """Notes when the last message of a publisher was signed."""
    connection.execute(TOOK, {"number": number, "last_time": signing_time})


def replied(connection: Connection, number: int, signing_time: int, query: bytes, reply: bytes, whole: bool) -> None:
    """Keeps the last reply to a publisher, or its digest alone."""
    values: dict[str, Any] = {
        "signing_time": signing_time, "query": hashlib.sha256(query).digest(), "digest": hashlib.sha256(reply).digest(),
        "octets": reply if whole else None}
    if not connection.execute(REPLIED, {"number": number, **values}).rowcount:
        connection.execute(FIRST_REPLIED, {"publisher": number, **values})
