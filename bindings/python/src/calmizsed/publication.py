"""Messages of the publication protocol (RFC 8181, 2), as values; and what a publication server replies.

`Message.from_xml` gives the message that a text is, and `to_xml` its text. Both go through the library, which decides what a message is;
so a value that stands for none raises `WrongForm` by `to_xml`.

`decide` says what is replied to a query, by what is known of the objects that it names, which can be kept in any database.
"""

from __future__ import annotations

from dataclasses import dataclass
from typing import Iterable, Optional, TypeVar, Union

from calmizsed import _library, _xml
from calmizsed._asking import NO_OBJECT, OBJECT, REPLY_AND_CHANGES, record, records
from calmizsed._values import Kind, Text, text_of
from calmizsed.errors import WrongUse

DIGEST_OCTETS = 32
NAMESPACE = "http://www.hactrn.net/uris/rpki/publication-spec/"
QUERY, REPLY = "query", "reply"
M = TypeVar("M", bound="Message")


@dataclass(frozen=True)
class Publish:
    """An object is published, or, with the hash of the one that is there, put in its place (2.2)."""

    uri: str
    content: bytes
    hash: Optional[bytes] = None
    tag: str = ""

    def element(self) -> _xml.Element:
        """In XML."""
        hash_word = None if self.hash is None else self.hash.hex()
        return _xml.made("publish", {"tag": self.tag, "uri": self.uri, "hash": hash_word}, self.content)


@dataclass(frozen=True)
class Withdraw:
    """An object is withdrawn (2.2)."""

    uri: str
    hash: bytes
    tag: str = ""

    def element(self) -> _xml.Element:
        """In XML."""
        return _xml.made("withdraw", {"tag": self.tag, "uri": self.uri, "hash": self.hash.hex()})


@dataclass(frozen=True)
class ListedObject:
    """An object that is published (2.3)."""

    uri: str
    hash: bytes

    def element(self) -> _xml.Element:
        """In XML."""
        return _xml.made("list", {"uri": self.uri, "hash": self.hash.hex()})


@dataclass(frozen=True)
class ReportError:
    """Why an element was refused (2.5)."""

    error_code: str
    error_text: Optional[str] = None
    tag: Optional[str] = None
    failed: Union[Publish, Withdraw, ListQuery, None] = None

    def element(self) -> _xml.Element:
        """In XML."""
        inner = [] if self.error_text is None else [_xml.made("error_text", {}, self.error_text)]
        if isinstance(self.failed, ListQuery):
            inner.append(_xml.made("failed_pdu", {}, None, _xml.made("list", {})))
        elif self.failed is not None:
            inner.append(_xml.made("failed_pdu", {}, None, self.failed.element()))
        return _xml.made("report_error", {"error_code": self.error_code, "tag": self.tag}, None, *inner)


@dataclass(frozen=True)
class Message:
    """A query or a reply."""

    @classmethod
    def from_xml(cls: type[M], text: Text) -> M:
        """The message that a text is."""
        return _xml.of_class(cls, _message(_xml.parsed("text_read", Kind.PUBLICATION, text)))

    def to_xml(self) -> str:
        """The message in XML, as the library writes it."""
        kind, elements = self._parts()
        root = _xml.made("msg", {"xmlns": NAMESPACE, "version": "4", "type": kind}, None, *elements)
        return _xml.written_anew("text_read", Kind.PUBLICATION, _xml.text_in(root))

    def _parts(self) -> tuple[str, list[_xml.Element]]:
        """Its type and its elements."""
        raise NotImplementedError


@dataclass(frozen=True)
class ListQuery(Message):
    """Asks what is published."""

    def _parts(self) -> tuple[str, list[_xml.Element]]:
        return QUERY, [_xml.made("list", {})]


@dataclass(frozen=True)
class ChangeQuery(Message):
    """Asks for changes, of which all are made or none is."""

    changes: tuple[Union[Publish, Withdraw], ...]

    def _parts(self) -> tuple[str, list[_xml.Element]]:
        return QUERY, [change.element() for change in self.changes]


@dataclass(frozen=True)
class ListReply(Message):
    """Says what is published."""

    objects: tuple[ListedObject, ...]

    def _parts(self) -> tuple[str, list[_xml.Element]]:
        return REPLY, [one.element() for one in self.objects]


@dataclass(frozen=True)
class SuccessReply(Message):
    """Says that the changes were made."""

    def _parts(self) -> tuple[str, list[_xml.Element]]:
        return REPLY, [_xml.made("success", {})]


@dataclass(frozen=True)
class ErrorReply(Message):
    """Says why the changes were not made."""

    errors: tuple[ReportError, ...]

    def _parts(self) -> tuple[str, list[_xml.Element]]:
        return REPLY, [error.element() for error in self.errors]


def written(text: str) -> Message:
    """The message of a text that the library wrote, as a receipt has it. It isn't handed to the library again."""
    return _message(_xml.root_of(text))


def _change(element: _xml.Element) -> Union[Publish, Withdraw]:
    """A change."""
    uri, tag, hash_word = _xml.required(element, "uri"), element.get("tag", ""), element.get("hash")
    if _xml.local(element) == "withdraw":
        return Withdraw(uri, bytes.fromhex(_xml.required(element, "hash")), tag)
    return Publish(uri, _xml.octets_in(element), None if hash_word is None else bytes.fromhex(hash_word), tag)


def _error(element: _xml.Element) -> ReportError:
    """An error."""
    text, failed = _xml.child(element, "error_text"), _xml.child(element, "failed_pdu")
    refused: Union[Publish, Withdraw, ListQuery, None] = None
    if failed is not None:
        refused = ListQuery() if _xml.local(failed[0]) == "list" else _change(failed[0])
    return ReportError(_xml.required(element, "error_code"), None if text is None else text.text or "", element.get("tag"), refused)


def _listed(element: _xml.Element) -> ListedObject:
    """An object that is published."""
    return ListedObject(_xml.required(element, "uri"), bytes.fromhex(_xml.required(element, "hash")))


def _message(root: _xml.Element) -> Message:
    """The message that an element is, which the library wrote."""
    first = _xml.local(root[0]) if len(root) else None
    if root.get("type") == QUERY:
        return ListQuery() if first == "list" else ChangeQuery(tuple(map(_change, root)))
    if first == "success":
        return SuccessReply()
    if first == "report_error":
        return ErrorReply(tuple(map(_error, root)))
    return ListReply(tuple(map(_listed, root)))


@dataclass(frozen=True)
class Decision:
    """What a publication server replies to a message, in XML, and whether the changes that it asks for are to be made: all, or none."""

    reply: str
    made: bool


def decide(base: str, query: Text, known: Iterable[tuple[str, Optional[bytes]]]) -> Decision:
    """What a publication server replies to a message, and whether it makes the changes that are asked for.

    `base` is the rsync URI of the directory in which the sender may publish. A URI is in it where it begins with it, so the base should end
    with a slash. `query` is the message, in XML, as `receive` gave it: whom it is from isn't looked at here. `known` has what is known of
    the objects that its changes name, or, where it asks for the list, of all objects of the sender: pairs of a URI and the SHA-256 of the
    object that is there, or None where none is. Of a URI the first counts; a list has the objects in this order.

    With `made` the reply is the success. Else it is the list, or the error of the first change that can't be made behind those before it;
    to a message that is no query the error `xml_error`. All this is so as long as what is known is so: look the objects up, make the
    changes and keep them in one transaction.

    Raises `WrongUse` where the base or a known URI is no rsync URI, `WrongForm` where the text is no message of the protocol, and
    `UnknownObject` where a change names a URI of which nothing is known.
    """
    what_is_known = b"".join(_known(uri, digest) for uri, digest in known)
    (tag, reply), = records(_library.library().call("publication_decide", text_of(base), text_of(query), what_is_known).octets)
    return Decision(reply.decode("utf-8"), tag == REPLY_AND_CHANGES)


def refusal_reply(status: int) -> str:
    """What a publication server replies to a message that `receive` refused with this status, in XML.

    It is the error `bad_cms_signature` to 4 (`NotAMessage`) and 6 (`CheckFailed`), and `xml_error` to 5 (`WrongForm`). To another status
    there is none: that raises `WrongUse`.
    """
    of_call = status if 0 <= status < 1 << 16 else -1  # ctypes would cut what has more than 32 bits
    return _library.library().call("publication_refuse", of_call).octets.decode("utf-8")


def _known(uri: str, digest: Optional[bytes]) -> bytes:
    """What is known of a URI, as the library takes it."""
    if digest is None:
        return record(NO_OBJECT, text_of(uri))
    if len(digest) != DIGEST_OCTETS:
        raise WrongUse("Usage", 2, f"a SHA-256 has {DIGEST_OCTETS} octets, and not {len(digest)}")
    return record(OBJECT, digest + text_of(uri))
