"""Answers and what is committed with them, without HTTP."""

from __future__ import annotations

import hashlib
import pathlib
import threading
import time
from typing import Callable, Iterator, Optional, Union

import pytest
from served import RSYNC_BASE, codes
from sqlalchemy import select
from sqlalchemy.engine import Connection

import calmizsed
from calmizsed import Kind, keys, publication
from calmizsed._values import moment_of
from calmizsed.errors import SigningError
from calmizsed.publication import ChangeQuery, ListQuery, ListReply, Message, Publish, SuccessReply, Withdraw
from calmizsed.server import answering, objects, publishers, tables
from calmizsed.server.answering import Answer, Answering
from calmizsed.server.database import Database
from calmizsed.server.one_off import OneOffKeys

NOW = 1_800_000_000
KEYS = [keys.PrivateKey.generate() for _ in range(4)]
SERVER, CAROL, DAVE, ONE_OFF = KEYS
URI = RSYNC_BASE + "carol/a.cer"


def digest(octets: bytes) -> bytes:
    """A SHA-256."""
    return hashlib.sha256(octets).digest()


class Talk:
    """A server with two publishers, carol and dave."""

    def __init__(self, address: str) -> None:
        self.database = Database(address)
        with self.database.writing() as connection:
            assert tables.create(connection)
            for handle, key in (("carol", CAROL), ("dave", DAVE)):
                publishers.add(connection, RSYNC_BASE, handle, key.public_key, NOW)
        self.moment = NOW
        self.answering = Answering(
            self.database, SERVER, OneOffKeys(uses=1000, seconds=1e6, draw=lambda: ONE_OFF), clock=lambda: moment_of(self.moment))

    def signed(self, query: Message, key: keys.SigningKey = CAROL, one_off: Optional[keys.SigningKey] = None) -> bytes:
        """A query, signed at the moment."""
        return calmizsed.create(Kind.PUBLICATION, query.to_xml(), key, moment_of(self.moment), one_off_key=one_off or DAVE_ONE_OFF)

    def send(self, octets: bytes, word: str = "carol") -> tuple[Message, Answer]:
        """The reply and the answer."""
        answer = self.answering.answer(word, octets)
        assert answer is not None
        receipt = calmizsed.receive(Kind.PUBLICATION, answer.octets, [SERVER.public_key], moment_of(self.moment))
        return Message.from_xml(receipt.text), answer

    def ask(self, query: Message, key: keys.SigningKey = CAROL, word: str = "carol") -> Message:
        """The reply to a query that is signed a second later than the one before."""
        self.moment += 1
        return self.send(self.signed(query, key), word)[0]

    def change(self, *changes: Union[Publish, Withdraw]) -> Message:
        """The reply to changes of carol's."""
        return self.ask(ChangeQuery(changes))

    def log(self) -> list[tuple[str, Optional[bytes], Optional[bytes]]]:
        """The log of changes."""
        with self.database.reading() as connection:
            found = connection.execute(select(tables.CHANGES).order_by(tables.CHANGES.c.id))
            return [(row.uri, row.old, row.new) for row in found]


DAVE_ONE_OFF = keys.PrivateKey.generate()


@pytest.fixture
def talk(tmp_path: pathlib.Path) -> Iterator[Talk]:
    """A server with a database in a file."""
    found = Talk(f"sqlite:///{tmp_path / 'database'}")
    yield found
    found.database.close()


def test_changes_and_lists(talk: Talk) -> None:
    """What is published is listed with its digest; what is replaced and withdrawn is noted with both digests."""
    assert talk.ask(ListQuery()) == ListReply(())
    assert talk.change(Publish(URI, b"one")) == SuccessReply()
    assert talk.change(Publish(URI, b"two", digest(b"one")), Publish(RSYNC_BASE + "carol/b", b"")) == SuccessReply()
    listed = talk.ask(ListQuery())
    assert isinstance(listed, ListReply)
    assert {one.uri: one.hash for one in listed.objects} == {URI: digest(b"two"), RSYNC_BASE + "carol/b": digest(b"")}
    assert talk.change(Withdraw(URI, digest(b"two"))) == SuccessReply()
    assert talk.log() == [
        (URI, None, digest(b"one")), (URI, digest(b"one"), digest(b"two")), (RSYNC_BASE + "carol/b", None, digest(b"")),
        (URI, digest(b"two"), None)]


def test_all_or_none(talk: Talk) -> None:
    """Where one change isn't allowed none is made."""
    reply = talk.change(Publish(URI, b"one"), Withdraw(RSYNC_BASE + "carol/nothing", digest(b"")))
    assert "no_object_present" in codes(reply)
    assert talk.ask(ListQuery()) == ListReply(())
    assert talk.log() == []


def test_others_objects(talk: Talk) -> None:
    """Nobody publishes below another's base, nor sees what is there."""
    assert codes(talk.change(Publish(RSYNC_BASE + "dave/a.cer", b"one"))) == ["permission_failure"]
    assert talk.change(Publish(URI, b"one")) == SuccessReply()
    assert talk.ask(ListQuery(), DAVE, "dave") == ListReply(())


def test_many_objects(talk: Talk) -> None:
    """More changes than one statement of the database names."""
    uris = [f"{RSYNC_BASE}carol/{number}" for number in range(3 * objects.AT_ONCE // 2)]
    assert talk.change(*(Publish(uri, uri.encode()) for uri in uris)) == SuccessReply()
    assert talk.change(*(Publish(uri, b"other", digest(uri.encode())) for uri in uris[:-1])) == SuccessReply()
    assert talk.change(*(Withdraw(uri, digest(b"other")) for uri in uris[:-1])) == SuccessReply()
    listed = talk.ask(ListQuery())
    assert isinstance(listed, ListReply) and [one.uri for one in listed.objects] == uris[-1:]
    assert len(talk.log()) == 3 * len(uris) - 2


def test_replays(talk: Talk) -> None:
    """A message that comes again is answered as a replay, and so is another of the same second; the last reply is kept."""
    query = talk.signed(ChangeQuery((Publish(URI, b"one"),)))
    reply, answer = talk.send(query)
    assert reply == SuccessReply() and answer.outcome == "success"
    for octets in (query, talk.signed(ListQuery())):
        reply, answer = talk.send(octets)
        assert codes(reply) == ["other_error"] and answer.outcome == "replay"
    assert isinstance(reply, publication.ErrorReply) and "Replayed" in str(reply.errors[0].error_text)
    assert len(talk.log()) == 1
    with talk.database.reading() as connection:
        row = connection.execute(select(tables.REPLIES)).one()
    assert row.query == digest(query) and digest(row.octets) == row.digest and row.signing_time == NOW


def test_refused_messages(talk: Talk) -> None:
    """What is no message, or isn't the publisher's, gets a signed error, and the next message of the same second is taken."""
    assert codes(talk.send(b"")[0]) == ["bad_cms_signature"]
    assert codes(talk.send(b"\x30\x03abc")[0]) == ["bad_cms_signature"]
    assert codes(talk.send(talk.signed(ListQuery(), DAVE))[0]) == ["bad_cms_signature"]
    reply, answer = talk.send(talk.signed(ListQuery()))
    assert reply == ListReply(()) and answer.kind == "list"


def test_a_reply_as_a_query(talk: Talk) -> None:
    """A signed message of the protocol that is no query is refused, and its second is taken."""
    octets = talk.signed(SuccessReply())
    reply, answer = talk.send(octets)
    assert codes(reply) == ["xml_error"] and (answer.kind, answer.outcome) == ("none", "rejected")
    assert codes(talk.send(octets)[0]) == ["other_error"]


def test_nobody(talk: Talk) -> None:
    """There is no answer at a path that is no publisher's."""
    assert talk.answering.answer("nobody", talk.signed(ListQuery())) is None
    assert talk.answering.answer("Carol", talk.signed(ListQuery())) is None


def test_keys_change(talk: Talk) -> None:
    """Two keys are taken for a while; one that was retired isn't."""
    new = ONE_OFF.public_key
    with talk.database.writing() as connection:
        publishers.add_key(connection, "carol", new, NOW)
        with pytest.raises(publishers.PublisherError, match="ManyKeys"):
            publishers.add_key(connection, "carol", SERVER.public_key, NOW)
    assert talk.ask(ListQuery(), ONE_OFF) == ListReply(()) == talk.ask(ListQuery(), CAROL)
    with talk.database.writing() as connection:
        publishers.retire_key(connection, "carol", 1)
        with pytest.raises(publishers.PublisherError, match="LastKey"):
            publishers.retire_key(connection, "carol", 2)
    assert codes(talk.ask(ListQuery(), CAROL)) == ["bad_cms_signature"]
    assert talk.ask(ListQuery(), ONE_OFF) == ListReply(())


def test_removal(talk: Talk) -> None:
    """What a removed publisher has is withdrawn; when it comes back none of its old messages is taken."""
    query = talk.signed(ChangeQuery((Publish(URI, b"one"),)))
    assert talk.send(query)[0] == SuccessReply()
    with talk.database.writing() as connection:
        assert publishers.remove(connection, "carol", NOW) == 1
    assert talk.answering.answer("carol", talk.signed(ListQuery())) is None
    with talk.database.writing() as connection:
        publishers.add(connection, RSYNC_BASE, "carol", CAROL.public_key, NOW)
    assert codes(talk.send(query)[0]) == ["other_error"]
    assert talk.ask(ListQuery()) == ListReply(())
    assert talk.log()[1] == (URI, digest(b"one"), None)


def test_no_signature_no_change(talk: Talk, monkeypatch: pytest.MonkeyPatch) -> None:
    """Where the reply can't be signed nothing is changed, and the query may come again."""
    query = talk.signed(ChangeQuery((Publish(URI, b"one"),)))

    def fails(octets: bytes) -> bytes:
        raise SigningError("SignCommand", 1, "the device is gone")

    with monkeypatch.context() as patched:
        patched.setattr(talk.answering._signer, "sign", fails)
        with pytest.raises(SigningError):
            talk.answering.answer("carol", query)
    assert talk.log() == []
    assert talk.send(query)[0] == SuccessReply()


def test_a_failure_before_the_commit(talk: Talk, monkeypatch: pytest.MonkeyPatch) -> None:
    """Where the transaction fails at its end, neither the changes nor the signing time are kept."""
    query = talk.signed(ChangeQuery((Publish(URI, b"one"),)))
    with monkeypatch.context() as patched:
        patched.setattr(publishers, "replied", lambda *_, **__: 1 // 0)
        with pytest.raises(ZeroDivisionError):
            talk.answering.answer("carol", query)
    assert talk.log() == []
    assert talk.send(query)[0] == SuccessReply()


def between(talk: Talk, monkeypatch: pytest.MonkeyPatch, act: Callable[[], object]) -> None:
    """Has something happen once, when the next reply is made and there is no lock yet."""
    reply = talk.answering._reply

    def made(publisher: publishers.Publisher, octets: bytes, *under_lock: Connection) -> object:
        found = reply(publisher, octets, *under_lock)
        monkeypatch.setattr(talk.answering, "_reply", reply)
        act()
        return found

    monkeypatch.setattr(talk.answering, "_reply", made)


def test_two_at_once(talk: Talk, monkeypatch: pytest.MonkeyPatch) -> None:
    """Of one message that is read twice before either is answered, one is taken: under the lock the library judges once more."""
    query = talk.signed(ChangeQuery((Publish(URI, b"one"),)))
    between(talk, monkeypatch, lambda: talk.send(query))
    assert codes(talk.send(query)[0]) == ["other_error"]
    assert len(talk.log()) == 1


def test_another_query_between(talk: Talk, monkeypatch: pytest.MonkeyPatch) -> None:
    """A reply that was made before another query of the publisher was answered isn't the answer: it is made by what is there then."""
    before = talk.signed(ChangeQuery((Publish(URI, b"one"),)))
    talk.moment += 1
    between(talk, monkeypatch, lambda: talk.send(before))
    assert codes(talk.send(talk.signed(ChangeQuery((Publish(URI, b"two"),))))[0]) == ["object_already_present"]
    talk.moment += 1
    before = talk.signed(ChangeQuery((Withdraw(URI, digest(b"one")),)))
    talk.moment += 1
    between(talk, monkeypatch, lambda: talk.send(before))
    assert talk.send(talk.signed(ListQuery()))[0] == ListReply(())
    assert len(talk.log()) == 2


def test_removed_and_added_between(talk: Talk, monkeypatch: pytest.MonkeyPatch) -> None:
    """A publisher that was removed and added again, within a second too, has no objects: no reply is of those before."""
    assert talk.ask(ChangeQuery((Publish(URI, b"one"),))) == SuccessReply()

    def act() -> None:
        with talk.database.writing() as connection:
            publishers.remove(connection, "carol", NOW)
            publishers.add(connection, RSYNC_BASE, "carol", CAROL.public_key, NOW)

    talk.moment += 1
    between(talk, monkeypatch, act)
    reply = talk.send(talk.signed(ChangeQuery((Publish(URI, b"two", digest(b"one")),))))[0]
    assert codes(reply) == ["no_object_present"]
    assert len(talk.log()) == 2


def test_long_lists(talk: Talk, monkeypatch: pytest.MonkeyPatch) -> None:
    """A long list is whole, and is written while no other long one is."""
    monkeypatch.setattr(answering, "LONG_LIST", 2)
    changes = [Publish(f"{RSYNC_BASE}carol/{number}", b"octets") for number in range(3)]
    objects_of = [publication.ListedObject(change.uri, digest(change.content)) for change in changes]
    assert talk.change(*changes[:2]) == SuccessReply()
    with talk.answering._long_list:
        assert talk.ask(ListQuery()) == ListReply(tuple(objects_of[:2]))
    assert talk.change(*changes[2:]) == SuccessReply()
    assert talk.ask(ListQuery()) == ListReply(tuple(objects_of))
    talk.answering._long_list.acquire()
    thread = threading.Thread(target=talk.ask, args=(ListQuery(),))
    thread.start()
    thread.join(0.3)
    assert thread.is_alive()
    talk.answering._long_list.release()
    thread.join(60.0)
    assert not thread.is_alive()


def test_words_of_handles() -> None:
    """Each handle has a word of its own, which is one segment of a path and none of dots."""
    handles = ["carol", "a/b", "a-b", "a//b", "/", "", "-", "..", "a.b", "x" * 255, "x" * 254, "é", "A", "a"]
    words = [publishers.word_of(handle) for handle in handles]
    assert len(set(words)) == len(handles)
    assert words[0] == "carol"
    for word in words:
        assert set(word) <= set("abcdefghijklmnopqrstuvwxyzABCDEFGHIJKLMNOPQRSTUVWXYZ0123456789._-") and word[0].isalnum()


def test_one_off_keys() -> None:
    """A key that is ready is taken; the last one serves again so often and so long, and then one is drawn."""
    moment = [0.0]
    drawn: list[keys.SigningKey] = [*KEYS, *map(keys.PrivateKey, (key.key for key in KEYS))]
    names = {id(key): number for number, key in enumerate(drawn)}
    left = iter(drawn)
    ready = OneOffKeys(1, uses=3, seconds=60.0, draw=lambda: next(left), clock=lambda: moment[0])

    def taken(count: int, of: OneOffKeys = ready) -> list[int]:
        return [names[id(of.take())] for _ in range(count)]

    assert taken(4) == [0, 0, 0, 1]
    moment[0] = 61.0
    assert taken(1) == [2]
    ready._ready.put(drawn[7])
    assert taken(2) == [7, 7]
    assert taken(3, OneOffKeys(1, uses=1, draw=lambda: next(left))) == [3, 4, 5]


def test_keys_are_drawn_ahead() -> None:
    """The thread fills what there is room for, and ends when it is told to."""
    ahead = OneOffKeys(3, draw=lambda: ONE_OFF)
    ahead.start()
    end = time.monotonic() + 30.0
    while ahead.ready < 3:
        assert time.monotonic() < end
        time.sleep(0.01)
    assert ahead.take() is ONE_OFF
    ahead.stop()
