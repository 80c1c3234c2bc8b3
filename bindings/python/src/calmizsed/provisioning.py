"""Messages of the provisioning protocol (RFC 6492, 3), as values.

`Message.from_xml` gives the message that a text is, and `to_xml` its text. Both go through the library, which decides what a message is;
so a value that stands for none raises `WrongForm` by `to_xml`. Resources are texts, as the library writes them.
"""

from __future__ import annotations

import base64
import datetime
from dataclasses import dataclass
from typing import Callable, Optional, TypeVar

from calmizsed import _xml
from calmizsed._values import Kind, Text

NAMESPACE = "http://www.apnic.net/specs/rescerts/up-down/"
M = TypeVar("M", bound="Message")


@dataclass(frozen=True)
class Limit:
    """The resources that a request is limited to, of each kind; None where it isn't (3.4.1)."""

    autonomous_systems: Optional[str] = None
    ipv4: Optional[str] = None
    ipv6: Optional[str] = None

    def attributes(self) -> dict[str, Optional[str]]:
        """As they stand in an element."""
        return {"req_resource_set_as": self.autonomous_systems, "req_resource_set_ipv4": self.ipv4, "req_resource_set_ipv6": self.ipv6}


@dataclass(frozen=True)
class IssuedCertificate:
    """A certificate that was issued (3.3.2)."""

    uri: str
    """One rsync URI, or several with commas between them."""
    certificate: bytes
    limit: Limit = Limit()

    def element(self) -> _xml.Element:
        """In XML."""
        return _xml.made("certificate", {"cert_url": self.uri, **self.limit.attributes()}, self.certificate)


@dataclass(frozen=True)
class ResourceClass:
    """A class of resources: what the child is entitled to, which certificates were issued, and the issuer's own (3.3.2)."""

    class_name: str
    uri: str
    """Where the issuer's certificate is published: one rsync URI, or several with commas between them."""
    autonomous_systems: str
    ipv4: str
    ipv6: str
    not_after: datetime.datetime
    certificates: tuple[IssuedCertificate, ...]
    issuer: bytes

    def element(self) -> _xml.Element:
        """In XML."""
        attributes: dict[str, Optional[str]] = {
            "class_name": self.class_name, "cert_url": self.uri, "resource_set_as": self.autonomous_systems, "resource_set_ipv4": self.ipv4,
            "resource_set_ipv6": self.ipv6, "resource_set_notafter": _xml.moment_word(self.not_after)}
        issued = [one.element() for one in self.certificates]
        return _xml.made("class", attributes, None, *issued, _xml.made("issuer", {}, self.issuer))


@dataclass(frozen=True)
class Message:
    """A message from one party to the other."""

    sender: str
    recipient: str

    @classmethod
    def from_xml(cls: type[M], text: Text) -> M:
        """The message that a text is."""
        return _xml.of_class(cls, _message(_xml.parsed("text_read", Kind.PROVISIONING, text)))

    def to_xml(self) -> str:
        """The message in XML, as the library writes it."""
        kind, elements = self._parts()
        attributes = {"xmlns": NAMESPACE, "version": "1", "sender": self.sender, "recipient": self.recipient, "type": kind}
        return _xml.written_anew("text_read", Kind.PROVISIONING, _xml.text_in(_xml.made("message", attributes, None, *elements)))

    def _parts(self) -> tuple[str, list[_xml.Element]]:
        """Its type and its elements."""
        raise NotImplementedError


@dataclass(frozen=True)
class ResourceClassListQuery(Message):
    """Asks for the classes (3.3.1)."""

    def _parts(self) -> tuple[str, list[_xml.Element]]:
        return "list", []


@dataclass(frozen=True)
class ResourceClassListResponse(Message):
    """Says the classes (3.3.2)."""

    classes: tuple[ResourceClass, ...]

    def _parts(self) -> tuple[str, list[_xml.Element]]:
        return "list_response", [one.element() for one in self.classes]


@dataclass(frozen=True)
class CertificateIssuanceRequest(Message):
    """Asks for a certificate (3.4.1)."""

    class_name: str
    certificate_request: bytes
    limit: Limit = Limit()

    def _parts(self) -> tuple[str, list[_xml.Element]]:
        return "issue", [_xml.made("request", {"class_name": self.class_name, **self.limit.attributes()}, self.certificate_request)]


@dataclass(frozen=True)
class CertificateIssuanceResponse(Message):
    """Brings the certificate, in a class that has it alone (3.4.2)."""

    resource_class: ResourceClass

    def _parts(self) -> tuple[str, list[_xml.Element]]:
        return "issue_response", [self.resource_class.element()]


@dataclass(frozen=True)
class KeyMessage(Message):
    """A message on a key of the child: its identifier has 20 octets."""

    class_name: str
    subject_key_identifier: bytes

    def _key(self) -> _xml.Element:
        """The key's element."""
        identifier = base64.urlsafe_b64encode(self.subject_key_identifier).decode("ascii").rstrip("=")
        return _xml.made("key", {"class_name": self.class_name, "ski": identifier})


@dataclass(frozen=True)
class CertificateRevocationRequest(KeyMessage):
    """Asks that all certificates of a key be revoked (3.5.1)."""

    def _parts(self) -> tuple[str, list[_xml.Element]]:
        return "revoke", [self._key()]


@dataclass(frozen=True)
class CertificateRevocationResponse(KeyMessage):
    """Says that they are revoked (3.5.2)."""

    def _parts(self) -> tuple[str, list[_xml.Element]]:
        return "revoke_response", [self._key()]


@dataclass(frozen=True)
class RequestNotPerformedResponse(Message):
    """Says why the request was not performed (3.6)."""

    status: int
    description: Optional[str] = None

    def _parts(self) -> tuple[str, list[_xml.Element]]:
        described = [] if self.description is None else [_xml.made("description", {}, self.description)]
        return "error_response", [_xml.made("status", {}, str(self.status)), *described]


def _limit(element: _xml.Element) -> Limit:
    """The limit that stands in attributes."""
    return Limit(*(element.get(f"req_resource_set_{name}") for name in ("as", "ipv4", "ipv6")))


def _issued(element: _xml.Element) -> IssuedCertificate:
    """A certificate that was issued."""
    return IssuedCertificate(_xml.required(element, "cert_url"), _xml.octets_in(element), _limit(element))


def _class(element: _xml.Element) -> ResourceClass:
    """A class, whose last element is the issuer's."""
    class_name, uri, autonomous_systems, ipv4, ipv6, not_after = (
        _xml.required(element, name) for name in (
            "class_name", "cert_url", "resource_set_as", "resource_set_ipv4", "resource_set_ipv6", "resource_set_notafter"))
    *issued, issuer = element
    return ResourceClass(
        class_name, uri, autonomous_systems, ipv4, ipv6, _xml.moment_in(not_after), tuple(map(_issued, issued)), _xml.octets_in(issuer))


def _request(sender: str, recipient: str, root: _xml.Element) -> Message:
    """A request for a certificate."""
    asked = root[0]
    return CertificateIssuanceRequest(sender, recipient, _xml.required(asked, "class_name"), _xml.octets_in(asked), _limit(asked))


def _key_of(root: _xml.Element) -> tuple[str, bytes]:
    """The class and the key's identifier."""
    word = _xml.required(root[0], "ski")
    return _xml.required(root[0], "class_name"), base64.urlsafe_b64decode(word + "=" * (-len(word) % 4))


def _not_performed(sender: str, recipient: str, root: _xml.Element) -> Message:
    """Why a request was not performed."""
    described = _xml.child(root, "description")
    return RequestNotPerformedResponse(sender, recipient, int(root[0].text or ""), None if described is None else described.text or "")


_READERS: dict[str, Callable[[str, str, _xml.Element], Message]] = {
    "list": lambda sender, recipient, root: ResourceClassListQuery(sender, recipient),
    "list_response": lambda sender, recipient, root: ResourceClassListResponse(sender, recipient, tuple(map(_class, root))),
    "issue": _request,
    "issue_response": lambda sender, recipient, root: CertificateIssuanceResponse(sender, recipient, _class(root[0])),
    "revoke": lambda sender, recipient, root: CertificateRevocationRequest(sender, recipient, *_key_of(root)),
    "revoke_response": lambda sender, recipient, root: CertificateRevocationResponse(sender, recipient, *_key_of(root)),
    "error_response": _not_performed,
}


def _message(root: _xml.Element) -> Message:
    """The message that an element is, which the library wrote."""
    return _READERS[_xml.required(root, "type")](_xml.required(root, "sender"), _xml.required(root, "recipient"), root)
