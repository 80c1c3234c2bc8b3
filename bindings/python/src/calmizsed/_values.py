"""Values as Python has them, and as the library takes them: octets, texts, moments, kinds."""

from __future__ import annotations

import datetime
import enum
from typing import Union

Octets = Union[bytes, bytearray, memoryview]
Text = Union[str, bytes, bytearray, memoryview]

EPOCH = datetime.datetime(1970, 1, 1, tzinfo=datetime.timezone.utc)


class Kind(enum.IntEnum):
    """The protocol of a message: RFC 8181, RFC 6492."""

    PUBLICATION = 1
    PROVISIONING = 2


class SetupKind(enum.IntEnum):
    """A setup message: RFC 8183, 5.2.1 to 5.2.4."""

    CHILD_REQUEST = 1
    PARENT_RESPONSE = 2
    PUBLISHER_REQUEST = 3
    REPOSITORY_RESPONSE = 4


def octets_of(value: Octets) -> bytes:
    """The octets of an object that has some. A number, of which bytes() would make zeros, has none."""
    return value if isinstance(value, bytes) else memoryview(value).tobytes()


def text_of(value: Text) -> bytes:
    """The octets of a text. A surrogate, which no text has, becomes octets that the library refuses."""
    return value.encode("utf-8", "surrogatepass") if isinstance(value, str) else octets_of(value)


def seconds_of(moment: datetime.datetime) -> int:
    """The whole seconds since 1970 of an aware datetime; a part of a second is dropped."""
    if moment.tzinfo is None or moment.utcoffset() is None:
        raise ValueError(f"a moment without a time zone: {moment.isoformat()}")
    return (moment - EPOCH) // datetime.timedelta(seconds=1)


def moment_of(seconds: int) -> datetime.datetime:
    """The aware datetime, in UTC. The year 0, which the library knows, raises OverflowError: datetime begins with the year 1."""
    return EPOCH + datetime.timedelta(seconds=seconds)


def now() -> datetime.datetime:
    """The clock's time, in whole seconds."""
    return datetime.datetime.now(datetime.timezone.utc).replace(microsecond=0)
