"""Messages as values: the stored texts of the three protocols are what their values spell, and values have what the texts say."""

from __future__ import annotations

import datetime
from typing import Callable, Protocol, Union
import pytest
from support import EXAMPLES, TREE, octets_of, openssl

import calmizsed
from calmizsed import provisioning, publication, setup
from calmizsed.errors import OtherMessage, WrongForm

DIGEST = bytes(range(32))
LONG = 1 << 20
TEXTS = {"text", *(kind.name.lower() for kind in calmizsed.SetupKind)}


class Spelled(Protocol):
    """A value of any of the protocols."""

    def to_xml(self) -> str:
        """Its text."""


READERS: dict[str, Callable[[bytes], Spelled]] = {
    "publication": publication.Message.from_xml, "provisioning": provisioning.Message.from_xml, "setup": setup.Message.from_xml}


def messages(protocol: str) -> list[tuple[str, bytes]]:
    """The name and the normal form of each message in the stored cases of a protocol, but for a few that are very long."""
    found = []
    for line in (TREE / "crates" / f"test_{protocol}" / "data" / "cases.txt").read_text(encoding="utf-8").splitlines():
        name, *fields = line.split(" ")
        for label, _, terms in (field.partition("=") for field in fields if len(field) < LONG):
            text = octets_of(terms.partition(";")[0]) if label in TEXTS and terms.startswith("3c") else b""
            found += [(name, text)] if 0 < len(text) < LONG else []
    return found


@pytest.mark.parametrize("protocol", sorted(READERS))
def test_stored_texts_are_spelled_again(protocol: str) -> None:
    """From the text to the value and back."""
    found = messages(protocol)
    assert len(found) > 20
    for name, text in found:
        value = READERS[protocol](text)
        spelled = value.to_xml().encode()
        is_same = spelled == text and READERS[protocol](spelled) == value  # no text of a megabyte is shown
        assert is_same, name


def test_each_class_comes_in_the_stored_texts() -> None:
    """So the test above is one of each."""
    classes = {type(READERS[protocol](text)).__name__ for protocol in READERS for _, text in messages(protocol)}
    assert classes == {
        "ListQuery", "ChangeQuery", "ListReply", "SuccessReply", "ErrorReply", "ResourceClassListQuery", "ResourceClassListResponse",
        "CertificateIssuanceRequest", "CertificateIssuanceResponse", "CertificateRevocationRequest", "CertificateRevocationResponse",
        "RequestNotPerformedResponse", "ChildRequest", "ParentResponse", "PublisherRequest", "RepositoryResponse"}


def test_a_query_of_publication() -> None:
    """The fields are what RFC 8181 has in the elements."""
    text = (
        f'<msg xmlns="{publication.NAMESPACE}" version="4" type="query"><publish tag="a&lt;" uri="rsync://localhost/ca/f1">YWJj</publish>'
        f'<publish uri="rsync://localhost/ca/f2" hash="{DIGEST.hex()}">YQ==</publish>'
        f'<withdraw tag="c" uri="rsync://localhost/ca/f3" hash="{DIGEST.hex().upper()}"/></msg>')
    assert publication.Message.from_xml(text) == publication.ChangeQuery((
        publication.Publish("rsync://localhost/ca/f1", b"abc", None, "a<"),
        publication.Publish("rsync://localhost/ca/f2", b"a", DIGEST, ""),
        publication.Withdraw("rsync://localhost/ca/f3", DIGEST, "c")))


def test_an_error_of_publication() -> None:
    """With what was refused."""
    change = publication.Publish("rsync://localhost/ca/f1", b"abc", DIGEST, "a")
    withdrawal = publication.Withdraw("rsync://localhost/ca/f3", DIGEST, "c")
    refused: list[Union[publication.Publish, publication.Withdraw, publication.ListQuery, None]] = [
        change, withdrawal, publication.ListQuery(), None]
    for failed in refused:
        reply = publication.ErrorReply((publication.ReportError("no_object_present", "none > there\nat all", "a", failed),))
        text = reply.to_xml()
        assert 'error_code="no_object_present"' in text and "none &gt; there\nat all" in text
        assert publication.ErrorReply.from_xml(text) == reply


def test_the_issue_request_of_openssl() -> None:
    """The request is the octets that OpenSSL made."""
    request = bytes.fromhex((EXAMPLES / "rsa-request.hex").read_text())
    value = provisioning.Message.from_xml((EXAMPLES / "rsa-issue.xml").read_bytes())
    assert value == provisioning.CertificateIssuanceRequest("child", "parent", "all", request)


def test_times_are_moments() -> None:
    """A class's not-after is an aware moment, from any zone."""
    zone = datetime.timezone(datetime.timedelta(hours=2))
    certificate = setup.Message.from_xml((EXAMPLES / "rsa-child-request.xml").read_bytes()).trust_anchor
    until = datetime.datetime(2027, 1, 2, 1, 30, tzinfo=zone)
    value = provisioning.ResourceClassListResponse("parent", "child", (provisioning.ResourceClass(
        "all", "rsync://localhost/ca/a.cer", "64496-64511", "10.0.0.0/8", "", until,
        (provisioning.IssuedCertificate("rsync://localhost/ca/b.cer", certificate, provisioning.Limit(ipv4="10.0.0.0/9")),), certificate),))
    text = value.to_xml()
    assert 'resource_set_notafter="2027-01-01T23:30:00Z"' in text and 'req_resource_set_ipv4="10.0.0.0/9"' in text
    assert provisioning.Message.from_xml(text) == value
    with pytest.raises(ValueError):
        provisioning.ResourceClass("all", "rsync://localhost/ca/a.cer", "", "", "", datetime.datetime(2027, 1, 1), (), b"").element()


def test_the_setup_message_of_openssl() -> None:
    """The key is the one that OpenSSL finds in the certificate."""
    value = setup.ChildRequest.from_xml((EXAMPLES / "rsa-child-request.xml").read_bytes())
    assert value.child_handle == "Carol" and value.tag is None
    pem = openssl("x509", "-inform", "DER", "-noout", "-pubkey", data=value.trust_anchor)
    assert value.public_key == openssl("pkey", "-pubin", "-outform", "DER", data=pem)


def test_what_is_no_message_is_refused() -> None:
    """The library says what a message is, for texts and for values."""
    with pytest.raises(WrongForm) as raised:
        publication.ChangeQuery((publication.Publish("https://localhost/f1", b""),)).to_xml()
    assert (raised.value.name, raised.value.status, raised.value.check) == ("XmlError", 5, None)
    with pytest.raises(WrongForm):
        setup.ChildRequest(b"", "a b").to_xml()
    with pytest.raises(WrongForm):
        publication.Message.from_xml("<a/>")
    with pytest.raises(WrongForm):
        setup.Message.from_xml("")
    with pytest.raises(WrongForm):
        publication.ListReply((publication.ListedObject("rsync://localhost/\u00e9", DIGEST),)).to_xml()


def test_another_class_is_refused() -> None:
    """from_xml of a class takes its messages alone."""
    text = publication.ListQuery().to_xml()
    with pytest.raises(OtherMessage):
        publication.SuccessReply.from_xml(text)
    assert calmizsed.read(calmizsed.Kind.PUBLICATION, text) == text
