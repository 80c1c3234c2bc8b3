"""The answer to the octets of a query: a signed reply, which is committed together with the changes before it is sent.

All of it is made before there is a lock: the query's signatures are looked at, what it names is read, the library decides, and the reply
is signed. Whatever changes a publisher's objects changes its row too, by the signing time of its last message at least. So the reply is
the answer if the row is as it was when there is a lock, and is made once more, under the lock, if it isn't: that is so where two messages
of one publisher come at once, or its keys change. What the library allows is made in the same transaction.
"""

from __future__ import annotations

import collections
import contextlib
import datetime
import hashlib
import threading
from dataclasses import dataclass
from typing import Callable, Iterable, Optional, Union

from sqlalchemy.engine import Connection

from calmizsed import keys, publication
from calmizsed._asking import Verifier
from calmizsed._messages import content, create, receive
from calmizsed._values import Kind, moment_of, now
from calmizsed.errors import CheckFailed, NotAMessage, Refusal, Replayed, WrongForm
from calmizsed.publication import ChangeQuery, ErrorReply, ListQuery, ReportError
from calmizsed.server import objects, publishers
from calmizsed.server.database import Database
from calmizsed.server.one_off import OneOffKeys
from calmizsed.server.publishers import Publisher

SIGNATURES = 64
LONG_LIST = 10_000  # objects: while such a list is written it takes many times its length, so they are written one behind the other
ACCEPTED, REFUSED, REPLAYED, REJECTED = "success", "error", "replay", "rejected"
# What a message is refused with that gets a reply of the protocol.
OF_MESSAGES = CheckFailed, NotAMessage, WrongForm


@dataclass(frozen=True)
class Answer:
    """A reply, and what came out, in words for logs."""

    octets: bytes
    publisher: str
    kind: str
    """list, change, or none where the message was no query."""
    outcome: str
    """success, error (the library allows no change), replay, or rejected (a check of the message fails)."""
    changes: int = 0
    cause: str = ""
    took: bool = False
    """Whether the message was taken: the publisher's next one has to be signed in a later second."""


class Remembering:
    """A signer that gives the same signature for the same octets without making it again: the CRL of a second is in many messages."""

    def __init__(self, signer: keys.SigningKey) -> None:
        self._signer = signer
        self._lock = threading.Lock()
        self._made: collections.OrderedDict[bytes, bytes] = collections.OrderedDict()
        self.public_key = signer.public_key

    def sign(self, octets: bytes) -> bytes:
        """The signature of the octets."""
        digest = hashlib.sha256(octets).digest()
        with self._lock:
            made = self._made.get(digest)
        if made is None:
            made = self._signer.sign(octets)
            with self._lock:
                self._made[digest] = made
                while len(self._made) > SIGNATURES:
                    self._made.popitem(last=False)
        return made


def check_base(base: str) -> None:
    """Raises `WrongUse` where the library takes a URI as no base of a publisher."""
    publication.decide(base, ListQuery().to_xml(), ())


@dataclass(frozen=True)
class _Reply:
    """A reply to a message, by what the publisher's row and objects were."""

    publisher: Publisher
    signing_time: int
    query: Union[ListQuery, ChangeQuery, None]
    """The query, or None where the message is none."""
    made: bool
    """Whether the query's changes are to be made."""
    before: objects.Known
    """What there was at the URIs that they name."""
    octets: bytes

    @property
    def kind(self) -> str:
        """What was asked for, in a word for logs."""
        return {ListQuery: "list", ChangeQuery: "change"}.get(type(self.query), "none")

    @property
    def outcome(self) -> str:
        """What came out, in a word for logs."""
        return REJECTED if self.query is None else ACCEPTED if self.made or isinstance(self.query, ListQuery) else REFUSED


class Answering:
    """Answers queries. `signer` holds the issuing key; `verifier` says which signatures hold; `clock` says what time it is."""

    def __init__(
            self, database: Database, signer: keys.SigningKey, one_off: OneOffKeys, *, verifier: Verifier = keys.RSA,
            clock: Callable[[], datetime.datetime] = now) -> None:
        self.database = database
        self.verifier = verifier
        self.clock = clock
        self._signer = Remembering(signer)
        self._one_off = one_off
        self._long_list = threading.Lock()

    def answer(self, word: str, octets: bytes) -> Optional[Answer]:
        """The answer to a message that came at a path, or None where no publisher has the path."""
        with self.database.reading() as connection:
            publisher = publishers.by_word(connection, word)
        if publisher is None:
            return None
        try:
            reply = self._reply(publisher, octets)
            with self.database.writing() as connection:
                return self._kept(connection, reply, octets)
        except Replayed as error:
            return self._replay(publisher, error)
        except OF_MESSAGES as error:
            return Answer(self._signed(publication.refusal_reply(error.status)), publisher.handle, "none", REJECTED, cause=error.name)

    def _reply(self, publisher: Publisher, octets: bytes, under_lock: Optional[Connection] = None) -> _Reply:
        """The reply to a message, if the library takes it by what is known of the publisher. Each has to say when it was signed."""
        last = moment_of(0 if publisher.last_time is None else publisher.last_time)
        receipt = receive(Kind.PUBLICATION, octets, publisher.keys, self.clock(), after=last, verifier=self.verifier)
        assert receipt.signing_seconds is not None  # the library takes none without, where `after` is given
        message = publication.written(receipt.text)
        query = message if isinstance(message, (ListQuery, ChangeQuery)) else None
        before: objects.Known = {}
        known: Iterable[tuple[str, Optional[bytes]]] = ()
        with contextlib.ExitStack() as alone:
            with self.database.reading() if under_lock is None else contextlib.nullcontext(under_lock) as connection:
                if isinstance(query, ChangeQuery):
                    before = objects.known(connection, publisher.number, objects.uris_of(query))
                    known = before.items()
                elif query is not None:
                    if objects.are_more(connection, publisher.number, LONG_LIST):
                        alone.enter_context(self._long_list)
                    known = objects.all_of(connection, publisher.number)
                # The message is handed on as its sender wrote it: the reply repeats a change as it stands there.
                decision = publication.decide(publisher.base, content(octets), known)
            reply = self._signed(decision.reply)
        return _Reply(publisher, receipt.signing_seconds, query, decision.made, before, reply)

    def _signed(self, text: str) -> bytes:
        """A signed reply."""
        return create(
            Kind.PUBLICATION, text, self._signer, self.clock(), one_off_key=self._one_off.take(), verifier=self.verifier)

    def _kept(self, connection: Connection, reply: _Reply, octets: bytes) -> Optional[Answer]:
        """The answer, whose octets and changes are committed where this ends without an error."""
        publisher = publishers.locked(connection, reply.publisher.number)
        if publisher is None:
            return None
        if publisher != reply.publisher:
            reply = self._reply(publisher, octets, connection)
        publishers.took(connection, publisher.number, reply.signing_time)
        changes = 0
        if reply.made and isinstance(reply.query, ChangeQuery):
            objects.make(connection, publisher.number, reply.query, reply.before)
            changes = len(reply.query.changes)
        is_list = isinstance(reply.query, ListQuery)
        publishers.replied(connection, publisher.number, reply.signing_time, octets, reply.octets, whole=not is_list)
        return Answer(reply.octets, publisher.handle, reply.kind, reply.outcome, changes, took=True)

    def _replay(self, publisher: Publisher, error: Refusal) -> Answer:
        """The answer to a message that is no later than the last one: RFC 8181 has no code of its own for that."""
        reply = ErrorReply((ReportError("other_error", f"{error.name}: {error.cause}"),))
        return Answer(self._signed(reply.to_xml()), publisher.handle, "none", REPLAYED, cause=error.name)
