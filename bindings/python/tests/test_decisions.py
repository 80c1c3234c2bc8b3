"""What a publication server replies: the stored cases, and what the package makes of what it is handed."""

from __future__ import annotations

import hashlib
from typing import Optional, Union

import pytest
from support import EXAMPLES, SIGNED_AT, Case, cases

import calmizsed
from calmizsed import Kind, publication
from calmizsed._values import moment_of
from calmizsed.errors import Refusal, UnknownObject, WrongForm, WrongUse
from calmizsed.publication import ChangeQuery, ErrorReply, ListQuery, ListReply, Publish, SuccessReply, Withdraw

BASE = "rsync://localhost/ca/"
Change = Union[Publish, Withdraw]
Known = list[tuple[str, Optional[bytes]]]


def digest_of(octets: bytes) -> bytes:
    """The SHA-256."""
    return hashlib.sha256(octets).digest()


def decided(*changes: Change, known: Known) -> tuple[publication.Message, bool]:
    """What is replied to these changes, or, without any, to one that asks for the list; and whether they are made."""
    query = ChangeQuery(changes) if changes else ListQuery()
    decision = publication.decide(BASE, query.to_xml(), known)
    return publication.Message.from_xml(decision.reply), decision.made


def code_of(*changes: Change, known: Known) -> str:
    """The error's code, where no changes are made; and it is of the last change."""
    reply, made = decided(*changes, known=known)
    assert isinstance(reply, ErrorReply) and not made
    error, = reply.errors
    assert error.failed == changes[-1] and error.tag == changes[-1].tag
    return error.error_code


def known_by(word: str) -> tuple[str, Optional[bytes]]:
    """What is known by a word of a case: a URI, an equals sign, and a digest or a hyphen."""
    uri, _, digest = word.rpartition("=")
    return uri, None if digest == "-" else bytes.fromhex(digest)


def stored() -> list[Case]:
    """The queries of crates/test_lines."""
    return [case for case in cases("test_lines", None) if case.name.startswith("decide-")]


@pytest.mark.parametrize("case", stored(), ids=lambda case: str(case.name))
def test_stored(case: Case) -> None:
    """As they are stored: a line says whether changes are made, and behind it stands the reply; 1 is of a URI of which nothing is known."""
    try:
        decision = publication.decide(case.words[0], case.given, map(known_by, case.words[1:]))
    except UnknownObject as refused:
        assert (case.status, refused.name, refused.status) == (1, "UnknownObject", 17)
    else:
        assert (case.status, case.written) == (0, f"{'made' if decision.made else 'kept'}\n{decision.reply}".encode())


def test_there_are_cases() -> None:
    """Some are decided, and some are not."""
    assert len([case for case in stored() if case.status == 0]) > 10 and len([case for case in stored() if case.status == 1]) > 2


def test_an_object_comes_is_replaced_and_goes() -> None:
    """By what is known at each time."""
    uri = BASE + "a.cer"
    first, other = Publish(uri, b"a", None, "1"), Publish(uri, b"b", digest_of(b"a"), "2")
    gone = Withdraw(uri, digest_of(b"b"), "3")
    done = SuccessReply(), True
    assert decided(first, known=[(uri, None)]) == decided(other, known=[(uri, digest_of(b"a"))]) == done
    assert decided(gone, known=[(uri, digest_of(b"b"))]) == decided(first, other, gone, first, known=[(uri, None)]) == done
    assert code_of(first, known=[(uri, digest_of(b"a"))]) == code_of(first, first, known=[(uri, None)]) == "object_already_present"
    assert code_of(other, known=[(uri, None)]) == code_of(gone, known=[(uri, None)]) == "no_object_present"
    assert code_of(other, known=[(uri, digest_of(b"b"))]) == code_of(gone, known=[(uri, digest_of(b"a"))]) == "no_object_matching_hash"


def test_a_uri_outside_of_the_base() -> None:
    """The sender may not publish there."""
    uri = "rsync://localhost/cax/a.cer"
    assert code_of(Publish(uri, b"a"), known=[(uri, None)]) == "permission_failure"


def test_lists() -> None:
    """They have the objects in the order in which they are known."""
    known: Known = [(BASE + "b", digest_of(b"b")), (BASE + "c", None), (BASE + "a", digest_of(b"a"))]
    listed = ListReply(tuple(publication.ListedObject(uri, digest) for uri, digest in known if digest))
    assert decided(known=known) == (listed, False) and decided(known=[]) == (ListReply(()), False)


def test_the_first_that_is_known_counts() -> None:
    """What comes of a URI later isn't looked at."""
    uri = BASE + "a.cer"
    assert decided(Publish(uri, b"a"), known=[(uri, None), (uri, digest_of(b"a"))])[1]
    assert code_of(Publish(uri, b"a"), known=[(uri, digest_of(b"a")), (uri, None)]) == "object_already_present"


def test_a_reply_is_no_query() -> None:
    """It is answered by an error of no change."""
    decision = publication.decide(BASE, SuccessReply().to_xml(), [])
    reply = ErrorReply.from_xml(decision.reply)
    assert (decision.made, [(error.error_code, error.failed) for error in reply.errors]) == (False, [("xml_error", None)])


def test_what_is_refused() -> None:
    """By a class of its own."""
    uri, query = BASE + "a.cer", ChangeQuery((Publish(BASE + "a.cer", b"a"),)).to_xml()
    none: Known = []
    other: Known = [(uri + "x", None)]
    for known in none, other:
        with pytest.raises(UnknownObject) as unknown:
            publication.decide(BASE, query, known)
        assert str(unknown.value) == "UnknownObject: the query names a URI of which nothing is known"
    for base in "", "https://localhost/ca/", "rsync://local host/ca/", "rsync://localhost/\udc80":
        with pytest.raises(WrongUse):
            publication.decide(base, query, [(uri, None)])
    wrong: Known = [("", None), ("a.cer", digest_of(b"a")), (uri, b""), (uri, bytes(31)), (uri, bytes(33)), (bytes(32).decode() + uri, b"")]
    for one in wrong:
        with pytest.raises(WrongUse):
            publication.decide(BASE, query, [(uri, None), one])
    with pytest.raises(WrongForm):
        publication.decide(BASE, "<a/>", [(uri, None)])


def refused_by(kind: Kind, message: bytes, at: int) -> Refusal:
    """How the query of OpenSSL is refused."""
    key = bytes.fromhex((EXAMPLES / "rsa-key.hex").read_text())
    with pytest.raises(Refusal) as refused:
        calmizsed.receive(kind, message, [key], moment_of(at))
    return refused.value


@pytest.mark.parametrize("status, code", [(4, "bad_cms_signature"), (5, "xml_error"), (6, "bad_cms_signature")])
def test_replies_to_refused_messages(status: int, code: str) -> None:
    """Of each refusal to which there is a reply."""
    message = (EXAMPLES / "rsa-query.der").read_bytes()
    refused = {
        4: refused_by(Kind.PUBLICATION, message[:-1], SIGNED_AT), 5: refused_by(Kind.PROVISIONING, message, SIGNED_AT),
        6: refused_by(Kind.PUBLICATION, message, 0)}
    assert refused[status].status == status
    error, = ErrorReply.from_xml(publication.refusal_reply(status)).errors
    assert (error.error_code, error.tag, error.failed) == (code, None, None)


@pytest.mark.parametrize("status", [-1, 0, 1, 2, 3, 7, 8, 9, 12, 14, 15, 16, 17, 18, (1 << 32) + 4, -(1 << 32) + 4])
def test_no_replies_to_others(status: int) -> None:
    """What isn't the sender's fault has no reply of this kind."""
    with pytest.raises(WrongUse):
        publication.refusal_reply(status)
