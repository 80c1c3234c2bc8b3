"""Signed messages beside OpenSSL: what is made, what is changed, what is shown, and what is asked."""

from __future__ import annotations

import datetime
import hashlib
import importlib
import pathlib
import re
import subprocess
import time
from typing import Any, Optional

import pytest
from octets import SIGNING_TIME, Message, flipped, in_pem, of_utc_time, parsed, shown_moment
from support import EXAMPLES, Keys, openssl, with_digest

import calmizsed
from calmizsed import Kind, _library
from calmizsed._asking import records
from calmizsed._values import moment_of
from calmizsed.errors import CheckFailed, NoWindow, Refusal, Replayed, UnsuitableKey, WrongForm
from calmizsed.keys import PrivateKey, load_private_key

rsa_messages: Any = importlib.import_module("rsa_messages")
signed_messages: Any = importlib.import_module("signed_messages")

SECONDS = 1800000000
NOW, DAY = moment_of(SECONDS), datetime.timedelta(days=1)
WINDOW = 300
CHECKS = range(1, 15)
TEXTS = {Kind.PUBLICATION: rsa_messages.DELTA, Kind.PROVISIONING: rsa_messages.CLASSES}
ATTRIBUTES, CERTIFICATE, CRL, SIGNATURE, OWN_KEY, KEY = 1, 2, 3, 16, 17, 18


def private(keys: Keys, name: str) -> PrivateKey:
    """A private key."""
    return load_private_key(keys.private(name).read_bytes())


def made(keys: Keys, kind: Kind = Kind.PUBLICATION, issuer: str = "2048") -> bytes:
    """A message that the package makes."""
    return calmizsed.create(kind, TEXTS[kind], private(keys, issuer), NOW)


@pytest.fixture(scope="module")
def message(keys: Keys) -> bytes:
    """One of the publication protocol, under a key of 2048 bits."""
    return made(keys)


def failing(message: bytes, key: bytes, seconds: int = SECONDS) -> set[int]:
    """The checks that fail."""
    return {check.number for check in calmizsed.explain(message, key, moment_of(seconds)) if not check.holds}


# ---- what is made


@pytest.mark.parametrize("kind", list(Kind))
@pytest.mark.parametrize("issuer", ["2048", "4096"])
def test_openssl_verifies_what_is_made(keys: Keys, tmp_path: pathlib.Path, issuer: str, kind: Kind) -> None:
    """The message with its content, its certificate under the anchor, and its CRL."""
    der = made(keys, kind, issuer)
    assert openssl("cms", "-verify", "-noverify", "-inform", "DER", data=der).decode() == TEXTS[kind]
    parts = Message(der)
    anchor = in_pem(tmp_path / "anchor.crt", calmizsed.anchor.create(private(keys, issuer), NOW, NOW + DAY))
    entity = in_pem(tmp_path / "entity.crt", parts.certificate.octets)
    assert openssl("verify", "-attime", SECONDS, "-CAfile", anchor, entity).endswith(b"entity.crt: OK\n")
    words = "openssl", "crl", "-noout", "-CAfile", anchor, "-in", in_pem(tmp_path / "list.crl", parts.crl.octets)
    ended = subprocess.run(words, stderr=subprocess.PIPE, check=True)
    assert ended.stderr == b"verify OK\n"


def test_times_of_what_is_made(message: bytes, tmp_path: pathlib.Path) -> None:
    """The moment of signing, and 300 seconds before and after it for certificate and CRL."""
    parts = Message(message)
    assert of_utc_time(parts.moment_of_signing().contents) == SECONDS
    entity, crl = in_pem(tmp_path / "entity.crt", parts.certificate.octets), in_pem(tmp_path / "list.crl", parts.crl.octets)
    for before, after, words in (("-startdate", "-enddate", ("x509", entity)), ("-lastupdate", "-nextupdate", ("crl", crl))):
        found = [shown_moment(openssl(words[0], "-noout", flag, "-in", words[1])) for flag in (before, after)]
        assert found == [SECONDS - WINDOW, SECONDS + WINDOW]


def test_serial_number_and_key_are_drawn(keys: Keys, message: bytes, tmp_path: pathlib.Path) -> None:
    """Two messages of one text have others."""
    files = [in_pem(tmp_path / f"{place}.crt", Message(der).certificate.octets) for place, der in enumerate((message, made(keys)))]
    for flag in ("-serial", "-pubkey"):
        one, other = (openssl("x509", "-noout", flag, "-in", file) for file in files)
        assert one != other


def test_what_can_not_be_made(keys: Keys) -> None:
    """The issuing key for one use too; a moment without a window; a text that is no message."""
    key = private(keys, "2048")
    with pytest.raises(UnsuitableKey) as reused:
        calmizsed.create(Kind.PUBLICATION, TEXTS[Kind.PUBLICATION], key, NOW, one_off_key=key)
    assert (reused.value.name, reused.value.status) == ("KeyReused", 7)
    with pytest.raises(NoWindow):
        calmizsed.create(Kind.PUBLICATION, TEXTS[Kind.PUBLICATION], key, moment_of(WINDOW - 1))
    with pytest.raises(WrongForm):
        calmizsed.create(Kind.PUBLICATION, TEXTS[Kind.PROVISIONING], key, NOW)


# ---- what is received


@pytest.mark.parametrize("kind", list(Kind))
@pytest.mark.parametrize("issuer", ["2048", "4096"])
def test_it_is_received(keys: Keys, issuer: str, kind: Kind) -> None:
    """As the text that was handed in, and not as a message of the other protocol."""
    der = made(keys, kind, issuer)
    receipt = calmizsed.receive(kind, der, [keys.der(issuer)], NOW)
    assert (receipt.text, receipt.signing_seconds) == (TEXTS[kind], SECONDS)
    with pytest.raises(WrongForm):
        calmizsed.receive(Kind.PUBLICATION if kind is Kind.PROVISIONING else Kind.PROVISIONING, der, [keys.der(issuer)], NOW)


@pytest.mark.parametrize(("names", "place"), [
    (["2048", "other"], 0), (["other", "2048"], 1), (["4096", "other", "2048", "2048"], 2), (["other"] * 7 + ["2048"], 7)])
def test_one_of_several_keys(keys: Keys, message: bytes, names: list[str], place: int) -> None:
    """It is said which."""
    assert calmizsed.receive(Kind.PUBLICATION, message, [keys.der(name) for name in names], NOW).place == place


@pytest.mark.parametrize("names", [["other"], ["other", "4096"]])
def test_none_of_the_keys(keys: Keys, message: bytes, names: list[str]) -> None:
    """The certificate names none of them."""
    with pytest.raises(CheckFailed) as raised:
        calmizsed.receive(Kind.PUBLICATION, message, [keys.der(name) for name in names], NOW)
    assert raised.value.check == 6


PARTS = {
    "content": 2, "time of signing": 3, "signature of the attributes": 3, "serial number of the certificate": 8,
    "signature of the certificate": 8, "number of the CRL": 10, "signature of the CRL": 10}


def place_of(message: bytes, part: str) -> int:
    """An octet of a part."""
    found = Message(message)
    return {
        "content": found.content.inner + found.content.contents.index(b"first"),
        "time of signing": found.moment_of_signing().end - 2,
        "signature of the attributes": found.signature.end - 1,
        "serial number of the certificate": found.certificate[0][1].end - 1,
        "signature of the certificate": found.certificate[2].end - 1,
        "number of the CRL": found.crl[0].end - 1,
        "signature of the CRL": found.crl[2].end - 1,
    }[part]


@pytest.mark.parametrize("part", PARTS)
def test_one_bit_is_changed(keys: Keys, message: bytes, part: str) -> None:
    """The check fails that says so, and no other; of what it covers, OpenSSL refuses it too."""
    changed = flipped(message, place_of(message, part))
    with pytest.raises(CheckFailed) as raised:
        calmizsed.receive(Kind.PUBLICATION, changed, [keys.der("2048")], NOW)
    assert raised.value.check == PARTS[part] and failing(changed, keys.der("2048")) == {PARTS[part]}
    if PARTS[part] in (2, 3):
        openssl("cms", "-verify", "-noverify", "-inform", "DER", data=changed, status=4)


@pytest.mark.parametrize(("name", "seconds", "checks"), [
    ("2048", SECONDS, set()), ("other", SECONDS, {6, 8, 10, 13}), ("2048", SECONDS - WINDOW - 1, {5, 11}),
    ("2048", SECONDS + WINDOW + 1, {5, 12}), ("2048", SECONDS - WINDOW, set()), ("2048", SECONDS + WINDOW, set())])
def test_which_checks_fail(keys: Keys, message: bytes, name: str, seconds: int, checks: set[int]) -> None:
    """Under another key, and outside of the window."""
    assert failing(message, keys.der(name), seconds) == checks


def test_two_crls_of_openssl(tmp_path: pathlib.Path) -> None:
    """The second revokes another certificate."""
    _, _, moment, key, other, der, text = rsa_messages.made(tmp_path, "one", "publication", rsa_messages.DELTA, second=True)
    assert calmizsed.receive(Kind.PUBLICATION, der, [other, key], moment_of(moment)).text == text
    assert [crl["entries"] for crl in calmizsed.inspect(der)["crls"]] == [0, 1]
    with pytest.raises(CheckFailed) as raised:
        calmizsed.receive(Kind.PUBLICATION, der, [other], moment_of(moment))
    assert raised.value.check == 6


def without_time(folder: pathlib.Path, der: bytes) -> bytes:
    """A message without CRLs, signed anew by OpenSSL without the attribute signingTime."""
    value = signed_messages.value
    signer = parsed(der)[1][0][4][0]
    kept = [part.octets for part in signer[3].parts if part[0].octets != SIGNING_TIME]
    signature = openssl("dgst", "-sha256", "-sign", folder / "entity.pem", data=value(0x31, b"".join(kept)))
    parts = [part.octets for part in signer.parts]
    parts[3], parts[5] = value(0xA0, b"".join(kept)), value(0x04, signature)
    fields = [part.octets for part in parsed(der)[1][0].parts]
    fields[4] = value(0x31, value(0x30, b"".join(parts)))
    return bytes(value(0x30, parsed(der)[0].octets + value(0xA0, value(0x30, b"".join(fields)))))


def test_a_message_that_does_not_say_when_it_was_signed(tmp_path: pathlib.Path) -> None:
    """It is received, and can't be later than the last one."""
    moment = int(time.time())
    key = rsa_messages.authority(tmp_path, moment)
    der = without_time(tmp_path, rsa_messages.signed(tmp_path, rsa_messages.DELTA))
    der = rsa_messages.with_lists(der, [rsa_messages.list_of(tmp_path, moment)], signed_messages.RSA)
    receipt = calmizsed.receive(Kind.PUBLICATION, der, [key], moment_of(moment))
    assert (receipt.text, receipt.signing_seconds, receipt.signing_time) == (rsa_messages.DELTA, None, None)
    with pytest.raises(Replayed) as raised:
        calmizsed.receive(Kind.PUBLICATION, der, [key], moment_of(moment), after=moment_of(0))
    assert (raised.value.name, raised.value.status, raised.value.last_time) == ("NoTime", 15, None)


# ---- what is shown


@pytest.mark.parametrize("whose", ["ours", "OpenSSL's"])
def test_what_is_shown_is_what_openssl_shows(message: bytes, tmp_path: pathlib.Path, whose: str) -> None:
    """Of a message of either."""
    der = message if whose == "ours" else (EXAMPLES / "rsa-query.der").read_bytes()
    parts, shows = Message(der), calmizsed.inspect(der)
    octets, content, certificate = parts.certificate.octets, parts.content.contents, shows["certificate"]
    entity, crl = in_pem(tmp_path / "entity.crt", octets), in_pem(tmp_path / "list.crl", parts.crl.octets)
    text = openssl("x509", "-noout", "-text", "-ext", "subjectKeyIdentifier", "-in", entity).decode()
    identifier = re.search(r"(?:[0-9A-F]{2}:){19}[0-9A-F]{2}", text[text.index("Subject Key Identifier"):])
    assert identifier is not None and "Public-Key: (2048 bit)" in text
    assert certificate["subject_key_identifier"] == shows["signer_identifier"] == identifier[0].replace(":", "").lower()
    assert (certificate["length"], certificate["sha256"]) == (len(octets), hashlib.sha256(octets).hexdigest())
    assert (certificate["key_algorithm"], certificate["modulus_length"]) == ("RSA", 256)
    serial = openssl("x509", "-noout", "-serial", "-in", entity).decode().strip().partition("=")[2]
    assert certificate["serial_number"] == serial.lower()
    times = [shown_moment(openssl("x509", "-noout", flag, "-in", entity)) for flag in ("-startdate", "-enddate")]
    assert [certificate["not_before"], certificate["not_after"]] == times
    times = [shown_moment(openssl("crl", "-noout", flag, "-in", crl)) for flag in ("-lastupdate", "-nextupdate")]
    assert [shows["crls"][0]["this_update"], shows["crls"][0]["next_update"]] == times
    assert shows["content_sha256"] == shows["message_digest"] == hashlib.sha256(content).hexdigest()
    assert (shows["content_length"], shows["signature_length"]) == (len(content), len(parts.signature.contents))
    assert shows["signing_time"] == of_utc_time(parts.moment_of_signing().contents)
    assert shows["signature_algorithm"]["algorithm"] == "rsaEncryption" and sorted(shows) == list(shows)


# ---- what is asked


def asked(message: bytes, *keys: bytes) -> list[tuple[int, bytes]]:
    """The records of a message's questions."""
    return list(records(_library.library().call("message_questions", message, b"".join(keys)).octets))


def digest(message: bytes, *keys: bytes) -> bytes:
    """The digest of a message's questions."""
    return asked(message, *keys)[-1][1]


def answered(message: bytes, of: bytes, answers: str, *keys: bytes, last: Optional[int] = None) -> tuple[str, int]:
    """What the library says to answers: a name, and a place."""
    try:
        result = _library.library().call(
            "message_receive", Kind.PUBLICATION, message, b"".join(keys), SECONDS, int(last is not None), last or 0, of,
            bytes(map(int, answers)))
    except Refusal as refused:
        return refused.name, refused.status
    assert result.octets.decode() == TEXTS[Kind.PUBLICATION]
    return "Ok", result.place


def test_questions_are_about_the_octets_that_openssl_finds(keys: Keys, message: bytes, tmp_path: pathlib.Path) -> None:
    """Record by record; the digest is that of the records before it."""
    found, public = Message(message), [keys.der("2048"), keys.der("other")]
    entity = in_pem(tmp_path / "entity.crt", found.certificate.octets)
    own = openssl("pkey", "-pubin", "-outform", "DER", data=openssl("x509", "-noout", "-pubkey", "-in", entity))
    attributes = bytes([0x31]) + found.attributes.octets[1:]
    certificate, crl = ((part[0].octets, part[2].contents[1:]) for part in (found.certificate, found.crl))
    assert asked(message, *public) == with_digest([
        (OWN_KEY, own), (ATTRIBUTES, attributes), (SIGNATURE, found.signature.contents), (CERTIFICATE, certificate[0]),
        (SIGNATURE, certificate[1]), (CRL, crl[0]), (SIGNATURE, crl[1]), (KEY, public[0]), (KEY, public[1])])


@pytest.mark.parametrize(("answers", "name"), [
    ("11100", "Ok"), ("11111", "Ok"), ("01111", "Validation 3"), ("10111", "Validation 8"), ("11011", "Validation 10")])
def test_answers_come_key_by_key(keys: Keys, message: bytes, answers: str, name: str) -> None:
    """First that of the attributes; then certificate and CRL under each key."""
    public = keys.der("2048"), keys.der("other")
    assert answered(message, digest(message, *public), answers, *public)[0] == name


def test_answers_to_other_questions(keys: Keys, message: bytes) -> None:
    """Of another key, of more, of another order, of another message, of none; and too few or too many."""
    key, other = keys.der("2048"), keys.der("other")
    for of in (digest(message, other), digest(message, key, other), digest(made(keys), key), bytes(32)):
        assert answered(message, of, "111", key) == ("OtherQuestions", 14)
    assert answered(message, digest(message, key, other), "11100", other, key) == ("OtherQuestions", 14)
    assert answered(message, digest(message, other, key), "10011", other, key) == ("Ok", 1)
    for answers in ("", "11", "1111", "112"):
        assert answered(message, digest(message, key), answers, key) == ("Usage", 2)


@pytest.mark.parametrize(("answers", "checks"), [("111", set()), ("000", {3, 8, 10}), ("011", {3}), ("101", {8}), ("110", {10})])
def test_answers_are_about_three_checks(keys: Keys, message: bytes, answers: str, checks: set[int]) -> None:
    """The others don't ask for signatures."""
    key = keys.der("2048")
    found = _library.library().call("message_explain", message, key, SECONDS, digest(message, key), bytes(map(int, answers))).octets
    assert {number for number, holds in zip(CHECKS, found) if not holds} == checks and len(found) == 14
