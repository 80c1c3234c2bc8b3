"""Setup messages (RFC 8183, 5): they are received with the checks of their trust anchor, read, and made."""

from __future__ import annotations

import datetime
from dataclasses import dataclass
from typing import ClassVar, Optional, TypeVar

from calmizsed import _library, _xml, anchor, keys
from calmizsed._asking import ANCHOR, Verifier, questions_of
from calmizsed._messages import answers_of, with_cause
from calmizsed._values import SetupKind, Text, seconds_of, text_of
from calmizsed.errors import WrongForm

NAMESPACE = "http://www.hactrn.net/uris/rpki/rpki-setup/"
M = TypeVar("M", bound="Message")


@dataclass(frozen=True)
class Message:
    """A setup message. `trust_anchor` is its certificate, in DER, which these values don't check: `receive` does."""

    KIND: ClassVar[SetupKind]
    CERTIFICATE: ClassVar[str]

    trust_anchor: bytes

    @classmethod
    def from_xml(cls: type[M], text: Text) -> M:
        """The message that a text is. ITS CERTIFICATE ISN'T CHECKED."""
        return _xml.of_class(cls, _message(_xml.parsed("setup_read", kind_of(text), text)))

    def to_xml(self) -> str:
        """The message in XML, as the library writes it."""
        attributes: dict[str, Optional[str]] = {"xmlns": NAMESPACE, "version": "1", **self._attributes()}
        root = _xml.made(self.KIND.name.lower(), attributes, None, _xml.made(self.CERTIFICATE, {}, self.trust_anchor))
        return _xml.written_anew("setup_read", self.KIND, _xml.text_in(root))

    @property
    def public_key(self) -> bytes:
        """The key under which the sender's messages are received, in DER. THE CERTIFICATE ISN'T CHECKED."""
        return anchor.public_key(self.trust_anchor)

    def _attributes(self) -> dict[str, Optional[str]]:
        """As they stand in XML."""
        raise NotImplementedError


@dataclass(frozen=True)
class ChildRequest(Message):
    """Of a child to its parent (5.2.1)."""

    KIND = SetupKind.CHILD_REQUEST
    CERTIFICATE = "child_bpki_ta"

    child_handle: str
    tag: Optional[str] = None

    def _attributes(self) -> dict[str, Optional[str]]:
        return {"child_handle": self.child_handle, "tag": self.tag}


@dataclass(frozen=True)
class ParentResponse(Message):
    """Of a parent to its child (5.2.2)."""

    KIND = SetupKind.PARENT_RESPONSE
    CERTIFICATE = "parent_bpki_ta"

    parent_handle: str
    child_handle: str
    service_uri: str
    tag: Optional[str] = None

    def _attributes(self) -> dict[str, Optional[str]]:
        return {
            "parent_handle": self.parent_handle, "child_handle": self.child_handle, "service_uri": self.service_uri, "tag": self.tag}


@dataclass(frozen=True)
class PublisherRequest(Message):
    """Of a publisher to a repository (5.2.3)."""

    KIND = SetupKind.PUBLISHER_REQUEST
    CERTIFICATE = "publisher_bpki_ta"

    publisher_handle: str
    tag: Optional[str] = None

    def _attributes(self) -> dict[str, Optional[str]]:
        return {"publisher_handle": self.publisher_handle, "tag": self.tag}


@dataclass(frozen=True)
class RepositoryResponse(Message):
    """Of a repository to a publisher (5.2.4)."""

    KIND = SetupKind.REPOSITORY_RESPONSE
    CERTIFICATE = "repository_bpki_ta"

    publisher_handle: str
    service_uri: str
    sia_base: str
    rrdp_notification_uri: Optional[str] = None
    tag: Optional[str] = None

    def _attributes(self) -> dict[str, Optional[str]]:
        return {
            "publisher_handle": self.publisher_handle, "service_uri": self.service_uri, "sia_base": self.sia_base,
            "rrdp_notification_uri": self.rrdp_notification_uri, "tag": self.tag}


_KINDS: tuple[type[Message], ...] = (ChildRequest, ParentResponse, PublisherRequest, RepositoryResponse)
_CLASSES = {kind.KIND.name.lower(): kind for kind in _KINDS}


def _message(root: _xml.Element) -> Message:
    """The message that an element is, which the library wrote. Its attributes are the fields."""
    attributes = {name: value for name, value in root.attrib.items() if name != "version"}
    return _CLASSES[_xml.local(root)](_xml.octets_in(root[0]), **attributes)


def kind_of(text: Text) -> SetupKind:
    """Which setup message a text is: the library reads it as one kind after the other."""
    refused: Optional[WrongForm] = None
    for kind in SetupKind:
        try:
            read(kind, text)
        except WrongForm as error:
            refused = error
        else:
            return kind
    assert refused is not None
    raise refused


def read(kind: SetupKind, text: Text) -> str:
    """The setup message of this kind that a text is, in XML, written anew. ITS CERTIFICATE ISN'T CHECKED."""
    return _xml.written_anew("setup_read", SetupKind(kind), text)


@dataclass(frozen=True)
class SetupReceipt:
    """A setup message that was received: the checks of its trust anchor hold."""

    kind: SetupKind
    text: str
    """The message in XML, written anew by the library."""
    signature_looked_at: bool
    """False where the certificate doesn't name its own key as its issuer's: then the library doesn't ask for its signature."""

    def message(self) -> Message:
        """The message as a value."""
        return Message.from_xml(self.text)


def receive(
        kind: SetupKind, text: Text, when: datetime.datetime, *, verifier: Verifier = keys.RSA) -> SetupReceipt:
    """The setup message of this kind that a text is, if the five checks of its trust anchor's certificate hold at the moment.

    That says only that the certificate came whole: whom it is from has to be known some other way (RFC 8183, 8).
    """
    octets, call = text_of(text), _library.library().call
    questions = questions_of(call("setup_questions", SetupKind(kind), octets).octets)
    answers, causes = answers_of(questions, verifier)
    try:
        result = call("setup_receive", SetupKind(kind), octets, seconds_of(when), questions.digest, answers)
    except WrongForm as refused:
        raise with_cause(refused, causes.get(ANCHOR, "")) from None
    return SetupReceipt(SetupKind(kind), result.octets.decode("utf-8"), bool(answers))
