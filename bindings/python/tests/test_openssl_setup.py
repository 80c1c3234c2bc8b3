"""Trust anchors, setup messages and certificate requests beside OpenSSL."""

from __future__ import annotations

import base64
import datetime
import importlib
import pathlib
import time
from typing import Any

import pytest
from octets import Message, flipped, in_pem, parsed, shown_moment
from support import EXAMPLES, Keys, openssl, request_shown, with_digest

import calmizsed
from calmizsed import Kind, SetupKind, _library, anchor, request, setup
from calmizsed._asking import records
from calmizsed._values import moment_of
from calmizsed.errors import CheckFailed, Refusal, SigningError, WrongForm, WrongUse
from calmizsed.keys import CommandKey, PrivateKey, load_private_key

rsa_messages: Any = importlib.import_module("rsa_messages")

SECONDS = 1800000000
NOW, DAY = moment_of(SECONDS), datetime.timedelta(days=1)
REPOSITORY, MANIFEST, NOTIFY = "rsync://localhost/repo/carol/", "rsync://localhost/repo/carol/ca.mft", "https://localhost/n.xml"
ANCHOR, REQUEST, SIGNATURE, OWN_KEY = 4, 5, 16, 17


def private(keys: Keys, name: str) -> PrivateKey:
    """A private key."""
    return load_private_key(keys.private(name).read_bytes())


def device(keys: Keys, name: str, other: str = "") -> CommandKey:
    """A key that the openssl command holds; with another name it signs by that one's."""
    return CommandKey.of(keys.der(name), f"openssl dgst -sha256 -sign '{keys.private(other or name)}'")


def text_with(certificate: bytes) -> str:
    """A setup message with this trust anchor."""
    return (
        '<child_request xmlns="http://www.hactrn.net/uris/rpki/rpki-setup/" version="1" child_handle="Carol">'
        f"<child_bpki_ta>{base64.b64encode(certificate).decode()}</child_bpki_ta></child_request>")


def received(certificate: bytes, seconds: int = SECONDS) -> setup.SetupReceipt:
    """What comes of a setup message with this trust anchor."""
    return setup.receive(SetupKind.CHILD_REQUEST, text_with(certificate), moment_of(seconds))


def refused(certificate: bytes, seconds: int = SECONDS) -> str:
    """The name of its refusal."""
    with pytest.raises(WrongForm) as raised:
        received(certificate, seconds)
    assert raised.value.status == 5
    return raised.value.name


def self_signed(keys: Keys, name: str) -> bytes:
    """As `openssl req -x509` makes it by default: it names its own key as its issuer's."""
    return openssl("req", "-x509", "-key", keys.private(name), "-subj", "/CN=anchor", "-days", 30, "-outform", "DER")


# ---- trust anchors


@pytest.mark.parametrize("name", ["2048", "4096"])
def test_openssl_reads_an_anchor(keys: Keys, tmp_path: pathlib.Path, name: str) -> None:
    """It is an authority's, of the key, with its times, and signed under itself."""
    made = in_pem(tmp_path / "anchor.crt", anchor.create(private(keys, name), NOW, NOW + 7 * DAY))
    words = "x509", "-noout", "-in", made
    assert f"Public-Key: ({name} bit)" in openssl(*words, "-text").decode()
    assert "CA:TRUE" in openssl(*words, "-ext", "basicConstraints").decode()
    assert openssl(*words, "-pubkey") == keys.public(name).read_bytes()
    assert [shown_moment(openssl(*words, flag)) for flag in ("-startdate", "-enddate")] == [SECONDS, SECONDS + 7 * 86400]
    openssl("verify", "-check_ss_sig", "-attime", SECONDS, "-CAfile", made, made)


@pytest.mark.parametrize("name", ["2048", "4096"])
def test_an_anchor_of_openssl(keys: Keys, name: str) -> None:
    """It is received; with a bit of its signature or its serial number changed, or outside of its time, it isn't."""
    der, now = self_signed(keys, name), int(time.time())
    found = parsed(der)
    receipt = received(der, now)
    assert receipt.text == text_with(der) and receipt.signature_looked_at
    for place in (found[2].end - 1, found[0][1].end - 1):
        assert refused(flipped(der, place), now) == "InvalidTaCert"
    for seconds in (now - 86400, now + 31 * 86400):
        assert refused(der, seconds) == "InvalidTaCert"


def test_an_anchor_of_ours(keys: Keys) -> None:
    """It doesn't name its own key as its issuer's: all but its signature is looked at."""
    der = anchor.create(private(keys, "2048"), NOW, NOW + 365 * DAY)
    found = parsed(der)
    for octets in (der, flipped(der, found[2].end - 1)):
        receipt = received(octets)
        assert receipt.text == text_with(octets) and not receipt.signature_looked_at
    assert received(der, SECONDS + 365 * 86400).text == text_with(der)
    for seconds in (SECONDS - 1, SECONDS + 365 * 86400 + 1):
        assert refused(der, seconds) == "InvalidTaCert"
    assert refused(flipped(der, found[0][6][1].begin + 40)) == "InvalidTaCert"


def test_what_is_no_anchor(keys: Keys) -> None:
    """The certificate of a message, a part of one; and a message of another kind."""
    entity = Message(calmizsed.create(Kind.PUBLICATION, rsa_messages.DELTA, private(keys, "2048"), NOW)).certificate.octets
    assert refused(entity) == "InvalidTaCert" and refused(entity[:-1]) == "InvalidTaCertEncoding"
    with pytest.raises(WrongForm) as raised:
        setup.receive(SetupKind.PARENT_RESPONSE, text_with(entity), NOW)
    assert raised.value.name == "XmlError"


def test_a_command_signs_what_a_file_signs(keys: Keys) -> None:
    """These signatures draw nothing; one under another key isn't used."""
    key, command = private(keys, "2048"), device(keys, "2048")
    assert anchor.create(command, NOW, NOW + DAY) == anchor.create(key, NOW, NOW + DAY)
    assert request.create(command, REPOSITORY, MANIFEST) == request.create(key, REPOSITORY, MANIFEST)
    with pytest.raises(SigningError) as raised:
        anchor.create(device(keys, "2048", "other"), NOW, NOW + DAY)
    assert (raised.value.name, raised.value.status) == ("WrongSignature", 1)


def said(call: str, *arguments: Any) -> tuple[str, int]:
    """The name and the status of a call."""
    try:
        _library.library().call(call, *arguments)
    except Refusal as refusal:
        return refusal.name, refusal.status
    return "Ok", 0


def expected(part: int, key: bytes, der: bytes) -> list[tuple[int, bytes]]:
    """The records of the question of an anchor or a request."""
    found = parsed(der)
    octets, signature = found[0].octets, found[2].contents[1:]
    return with_digest([(OWN_KEY, key), (part, octets), (SIGNATURE, signature)])


def test_the_question_of_an_anchor(keys: Keys) -> None:
    """Under its own key, where it names that as its issuer's; and what comes of answers."""
    der, now = self_signed(keys, "2048"), int(time.time())
    text, kind = text_with(der).encode(), SetupKind.CHILD_REQUEST
    found = list(records(_library.library().call("setup_questions", kind, text).octets))
    assert found == expected(ANCHOR, keys.der("2048"), der)
    digest = found[-1][1]
    for of, answers, name in (
            (digest, b"\1", "Ok"), (digest, b"\0", "InvalidTaCert"), (digest, b"", "Usage"), (digest, b"\1\1", "Usage"),
            (bytes(32), b"\1", "OtherQuestions")):
        assert said("setup_receive", kind, text, now, of, answers)[0] == name


def test_an_anchor_of_ours_has_no_question(keys: Keys) -> None:
    """And takes no answer."""
    text, kind = text_with(anchor.create(private(keys, "2048"), NOW, NOW + DAY)).encode(), SetupKind.CHILD_REQUEST
    (_, digest), = found = with_digest([])
    assert list(records(_library.library().call("setup_questions", kind, text).octets)) == found
    assert said("setup_receive", kind, text, SECONDS, digest, b"") == ("Ok", 0)
    assert said("setup_receive", kind, text, SECONDS, digest, b"\1") == ("Usage", 2)


# ---- certificate requests


@pytest.mark.parametrize("name", ["2048", "4096"])
def test_openssl_verifies_a_request(keys: Keys, name: str) -> None:
    """With its places and its key."""
    der = request.create(private(keys, name), REPOSITORY, MANIFEST, NOTIFY)
    text = request_shown(der)
    assert all(f"URI:{uri}\n" in text for uri in (REPOSITORY, MANIFEST, NOTIFY))
    assert openssl("req", "-inform", "DER", "-noout", "-pubkey", data=der) == keys.public(name).read_bytes()
    assert request.verify(der) == keys.der(name)


def test_places_of_a_request(keys: Keys) -> None:
    """A slash is added to the first; the third may be none; others are refused."""
    key = private(keys, "2048")
    der = request.create(key, REPOSITORY.removesuffix("/"), MANIFEST)
    text = openssl("req", "-inform", "DER", "-noout", "-text", data=der).decode()
    assert f"URI:{REPOSITORY}\n" in text and "Notify" not in text
    for repository, manifest, notify in ((NOTIFY, MANIFEST, None), (REPOSITORY, "ca.mft", None), (REPOSITORY, MANIFEST, MANIFEST)):
        with pytest.raises(WrongUse):
            request.create(key, repository, manifest, notify)


def test_a_changed_request(keys: Keys) -> None:
    """A bit of its signature, of a place, of its key: it isn't signed under it, by itself and in an issue request."""
    der = request.create(private(keys, "2048"), REPOSITORY, MANIFEST, NOTIFY)
    found = parsed(der)
    for place in (found[2].end - 1, der.index(b"/carol/") + 1, found[0][2][1].begin + 40):
        changed = flipped(der, place)
        text = rsa_messages.ISSUE.format(base64.b64encode(changed).decode())
        for verify, given in ((request.verify, changed), (request.verify_issue, text.encode())):
            with pytest.raises(CheckFailed) as raised:
                verify(given)
            assert (raised.value.name, raised.value.check) == ("Signature", None)
    other = rsa_messages.CLASSES.encode()
    for call, octets, name in ((request.verify, der[:-1], "InvalidCsrSyntax"), (request.verify_issue, other, "XmlError")):
        with pytest.raises(WrongForm) as form:
            call(octets)
        assert form.value.name == name


def test_the_question_of_a_request(keys: Keys) -> None:
    """Under its own key, by itself and in an issue request; and what comes of answers."""
    der = request.create(private(keys, "2048"), REPOSITORY, MANIFEST, NOTIFY)
    issue = rsa_messages.ISSUE.format(base64.b64encode(der).decode()).encode()
    for name, given in (("request", der), ("issue", issue)):
        found = list(records(_library.library().call(f"{name}_questions", given).octets))
        assert found == expected(REQUEST, keys.der("2048"), der)
        digest = found[-1][1]
        for of, answers, wanted in (
                (digest, b"\1", "Ok"), (digest, b"\0", "Signature"), (digest, b"", "Usage"), (digest, b"\1\1", "Usage"),
                (bytes(32), b"\1", "OtherQuestions")):
            assert said(f"{name}_verify", given, of, answers)[0] == wanted


@pytest.mark.parametrize("name", ["2048", "4096"])
def test_new_requests_of_openssl(keys: Keys, tmp_path: pathlib.Path, name: str) -> None:
    """By itself and in an issue request, the key is the one that signed; with a bit of the signature changed there is none."""
    (tmp_path / "child.cnf").write_text(rsa_messages.OF_CHILD)
    words = "-config", tmp_path / "child.cnf", "-key", keys.private(name), "-subj", "/CN=Carol", "-outform", "DER"
    der = openssl("req", "-new", *words)
    issue = rsa_messages.ISSUE.format(base64.encodebytes(der).decode()).encode()
    assert request.verify(der) == request.verify_issue(issue) == keys.der(name)
    with pytest.raises(CheckFailed) as raised:
        request.verify(flipped(der, len(der) - 1))
    assert raised.value.name == "Signature"


def test_requests_of_openssl() -> None:
    """By itself and in an issue request, the key is the one that OpenSSL finds."""
    der = bytes.fromhex((EXAMPLES / "rsa-request.hex").read_text())
    pem = openssl("req", "-inform", "DER", "-noout", "-pubkey", data=der)
    key = openssl("pkey", "-pubin", "-outform", "DER", data=pem)
    assert request.verify(der) == request.verify_issue((EXAMPLES / "rsa-issue.xml").read_bytes()) == key
