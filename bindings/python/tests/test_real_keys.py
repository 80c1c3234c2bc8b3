"""Real RSA keys: OpenSSL reads what is made, and what OpenSSL made is received."""

from __future__ import annotations

import concurrent.futures
import datetime
import pathlib

import pytest
from cryptography import x509
from support import EXAMPLES, SIGNED_AT, Keys, Made, made_by_openssl, make_by_openssl, openssl, request_shown

import calmizsed
from calmizsed import Kind, SetupKind, anchor, publication, request, setup
from calmizsed._values import moment_of
from calmizsed.errors import CheckFailed, KeyFileError, NotAMessage, Replayed, SigningError, UnsuitableKey, WrongForm, WrongUse
from calmizsed.keys import RSA, RSA_SHORT_KEYS, CommandKey, PrivateKey, load_private_key

QUERY = publication.ListQuery().to_xml()
NOW = calmizsed.now()
FIVE_MINUTES = datetime.timedelta(seconds=300)
SECOND = datetime.timedelta(seconds=1)
PLACES = "rsync://localhost/ca/", "rsync://localhost/ca/ca.mft", "https://localhost/notify.xml"


def private(keys: Keys, name: str) -> PrivateKey:
    """A private key."""
    return load_private_key(keys.private(name).read_bytes())


def failed_check(message: bytes, key: bytes, when: datetime.datetime = NOW) -> int:
    """The number of the check that fails."""
    with pytest.raises(CheckFailed) as raised:
        calmizsed.receive(Kind.PUBLICATION, message, [key], when)
    assert raised.value.status == 6 and raised.value.name == f"Validation {raised.value.check}"
    assert raised.value.check is not None
    return raised.value.check


@pytest.mark.parametrize("bits", ["2048", "4096"])
def test_openssl_reads_what_is_made(keys: Keys, bits: str, tmp_path: pathlib.Path) -> None:
    """The message, its certificate under the anchor, and the anchor."""
    key = private(keys, bits)
    message = calmizsed.create(Kind.PUBLICATION, QUERY, key, NOW)
    shown = openssl("cms", "-verify", "-noverify", "-inform", "DER", "-certsout", tmp_path / "entity.pem", data=message)
    assert shown.decode() == QUERY
    certificate = anchor.create(key, NOW - FIVE_MINUTES, NOW + 5 * FIVE_MINUTES)
    (tmp_path / "anchor.der").write_bytes(certificate)
    openssl("x509", "-inform", "DER", "-in", tmp_path / "anchor.der", "-out", tmp_path / "anchor.pem")
    verified = openssl("verify", "-check_ss_sig", "-CAfile", tmp_path / "anchor.pem", tmp_path / "entity.pem")
    assert verified.decode().endswith("entity.pem: OK\n")
    assert anchor.public_key(certificate) == keys.der(bits)


@pytest.mark.parametrize("bits", ["2048", "4096"])
def test_what_is_made_is_received(keys: Keys, bits: str) -> None:
    """At each second of its window, under the key, and under no other."""
    message = calmizsed.create(Kind.PUBLICATION, QUERY, private(keys, bits), NOW)
    receipt = calmizsed.receive(Kind.PUBLICATION, message, [keys.der("other"), keys.der(bits)], NOW)
    assert (receipt.text, receipt.place, receipt.signing_time, receipt.kind) == (QUERY, 1, NOW, Kind.PUBLICATION)
    for when in (NOW - FIVE_MINUTES, NOW + FIVE_MINUTES):
        assert calmizsed.receive(Kind.PUBLICATION, message, [keys.der(bits)], when).place == 0
    assert failed_check(message, keys.der("other")) == 6
    assert failed_check(message, keys.der(bits), NOW + FIVE_MINUTES + SECOND) == 5
    assert failed_check(message, keys.der(bits), NOW - FIVE_MINUTES - SECOND) == 5


@pytest.mark.parametrize("made", made_by_openssl())
def test_what_openssl_made_is_received(made: Made) -> None:
    """The stored messages, at their moment, with the text that OpenSSL signed."""
    kind = Kind[made.kind.upper()]
    receipt = calmizsed.receive(kind, made.message, [made.key], moment_of(made.moment))
    assert receipt.text == calmizsed.read(kind, made.text)
    assert calmizsed.content(made.message).decode() == made.text
    with pytest.raises(CheckFailed):
        calmizsed.receive(kind, made.message, [made.other], moment_of(made.moment))


@pytest.mark.parametrize("bits", [2048, 4096])
def test_what_openssl_makes_anew_is_received(bits: int, tmp_path: pathlib.Path) -> None:
    """With certificates and CRLs of `openssl ca`, of long keys too."""
    made = make_by_openssl(tmp_path, QUERY, bits)
    receipt = calmizsed.receive(Kind.PUBLICATION, made.message, [made.key], moment_of(made.moment))
    assert receipt.text == QUERY
    assert all(check.holds and check.reached for check in calmizsed.explain(made.message, made.key, moment_of(made.moment)))


def test_changed_messages_fail_a_check(keys: Keys) -> None:
    """A bit of the content, and one of the signature of the attributes."""
    query = publication.ChangeQuery((publication.Withdraw("rsync://localhost/ca/f1", bytes(32), "a tag"),)).to_xml()
    message = calmizsed.create(Kind.PUBLICATION, query, private(keys, "2048"), NOW)
    place = message.index(b"a tag")
    changed = message[:place] + bytes([message[place] ^ 1]) + message[place + 1:]
    assert failed_check(changed, keys.der("2048")) == 2
    with pytest.raises(CheckFailed) as raised:
        calmizsed.content(changed)
    assert raised.value.check == 2
    assert failed_check(message[:-1] + bytes([message[-1] ^ 1]), keys.der("2048")) == 3
    with pytest.raises(NotAMessage):
        calmizsed.inspect(message[:-1])


def test_no_message_passes_twice(keys: Keys) -> None:
    """Who keeps the signing time, and hands it in."""
    message = calmizsed.create(Kind.PUBLICATION, QUERY, private(keys, "2048"), NOW)
    assert calmizsed.receive(Kind.PUBLICATION, message, [keys.der("2048")], NOW, after=NOW - SECOND).signing_time == NOW
    with pytest.raises(Replayed) as raised:
        calmizsed.receive(Kind.PUBLICATION, message, [keys.der("2048")], NOW, after=NOW)
    seconds = int(NOW.timestamp())
    assert (raised.value.name, raised.value.status) == (f"Replayed {seconds} {seconds}", 15)
    assert (raised.value.last_time, raised.value.signing_time) == (seconds, seconds)


def test_explain_says_what_was_compared(keys: Keys) -> None:
    """An old message under another key: which checks fail, and which are not reached."""
    message, key = (EXAMPLES / "rsa-query.der").read_bytes(), keys.der("other")
    found = calmizsed.explain(message, key, moment_of(SIGNED_AT + 10**6))
    assert [check.number for check in found if not check.holds] == [5, 6, 8, 10, 12, 13]
    assert [check.number for check in found if check.reached] == [1, 2, 3, 4, 5]
    assert "2026-11-29T04:47:21Z" in found[4].compared and calmizsed.keys.identifier(key).hex() in found[5].compared


def test_short_keys_do_not_count(keys: Keys) -> None:
    """A message under a key of 1024 bits is refused, with the cause, unless such keys are allowed; who signs is refused too."""
    key = private(keys, "1024")
    with pytest.raises(UnsuitableKey) as refused:
        calmizsed.create(Kind.PUBLICATION, QUERY, key, NOW)
    assert (refused.value.name, refused.value.status) == ("ShortKey", 7)
    message = calmizsed.create(Kind.PUBLICATION, QUERY, key, NOW, verifier=RSA_SHORT_KEYS)
    with pytest.raises(CheckFailed) as raised:
        calmizsed.receive(Kind.PUBLICATION, message, [keys.der("1024")], NOW)
    assert raised.value.check == 8 and "2048 bits" in raised.value.cause
    explained = calmizsed.explain(message, keys.der("1024"), NOW)
    assert [check.number for check in explained if not check.holds] == [8, 10]
    assert [check.number for check in explained if "fewer than 2048 bits" in check.compared] == [8, 10]
    other = calmizsed.explain(message, keys.der("other"), NOW)
    assert not any("fewer than 2048 bits" in check.compared for check in other)
    assert calmizsed.receive(Kind.PUBLICATION, message, [keys.der("1024")], NOW, verifier=RSA_SHORT_KEYS).text == QUERY
    text = setup.ChildRequest(openssl(
        "req", "-x509", "-key", keys.private("1024"), "-subj", "/CN=Carol", "-days", "2", "-outform", "DER"), "Carol").to_xml()
    with pytest.raises(WrongForm) as short:
        setup.receive(SetupKind.CHILD_REQUEST, text, calmizsed.now())
    assert short.value.name == "InvalidTaCert" and "2048 bits" in short.value.cause
    assert setup.receive(SetupKind.CHILD_REQUEST, text, calmizsed.now(), verifier=RSA_SHORT_KEYS).signature_looked_at


def test_other_signatures_do_not_hold(keys: Keys) -> None:
    """Only those of RSA in PKCS #1 v1.5 with SHA-256, whatever a key's file says."""
    octets, name = b"signed", keys.private("2048")
    key = keys.der("2048")
    assert RSA(key, octets, openssl("dgst", "-sha256", "-sign", name, data=octets))
    assert not RSA(key, octets, openssl("dgst", "-sha512", "-sign", name, data=octets))
    assert not RSA(key, octets, openssl("dgst", "-sha1", "-sign", name, data=octets))
    assert not RSA(key, octets, openssl("dgst", "-sha256", "-sigopt", "rsa_padding_mode:pss", "-sign", name, data=octets))
    assert not RSA(keys.der("pss"), octets, openssl("dgst", "-sha256", "-sign", keys.private("pss"), data=octets))
    alone = load_private_key(keys.private("pss").read_bytes())
    signature = alone.sign(octets)
    assert RSA(alone.public_key, octets, signature) and not RSA(keys.der("pss"), octets, signature)
    assert not RSA(keys.der("curve"), octets, openssl("dgst", "-sha256", "-sign", keys.private("curve"), data=octets))
    assert not RSA(b"", octets, b"") and not RSA(b"\x30\x03\x02\x01\x05", octets, bytes(256)) and not RSA(key, octets, b"")


def test_a_command_signs(keys: Keys) -> None:
    """OpenSSL holds the key, and gets octets alone."""
    key = CommandKey.of(keys.der("2048"), f"openssl dgst -sha256 -sign '{keys.private('2048')}'")
    message = calmizsed.create(Kind.PUBLICATION, QUERY, key, NOW)
    assert calmizsed.receive(Kind.PUBLICATION, message, [keys.der("2048")], NOW).text == QUERY


@pytest.mark.parametrize(("command", "name", "said"), [
    ("openssl dgst -sha512 -sign {}", "WrongSignature", "none of RSA with SHA-256"),
    ("cat", "WrongSignature", "none of RSA with SHA-256"),
    ("false", "SignCommand", "status 1"),
    ("/nowhere/to/be/found", "SignCommand", "No such file"),
    ("", "SignCommand", "no words"),
    ("'", "SignCommand", "quotation"),
])
def test_a_command_that_does_not_sign(keys: Keys, command: str, name: str, said: str) -> None:
    """What it gives is no signature, or nothing."""
    with pytest.raises(SigningError) as raised:
        key = CommandKey.of(keys.der("2048"), command.format(keys.private("2048")))
        calmizsed.create(Kind.PUBLICATION, QUERY, key, NOW)
    assert raised.value.name == name and said in str(raised.value)


def test_a_command_that_never_ends(keys: Keys) -> None:
    """It is waited for only so long."""
    with pytest.raises(SigningError, match="longer than 0.1 seconds"):
        CommandKey(keys.der("2048"), ("sleep", "30"), seconds=0.1).sign(b"")


def test_private_keys_are_read(keys: Keys) -> None:
    """In PEM and DER, encrypted or not; what is none is refused, without a word of it."""
    der = openssl("pkey", "-in", keys.private("2048"), "-outform", "DER")
    encrypted = keys.private("encrypted").read_bytes()
    assert load_private_key(der).public_key == load_private_key(encrypted, b"open sesame").public_key == keys.der("2048")
    for octets, passphrase, name in (
            (encrypted, None, "EncryptedKey"), (encrypted, b"close sesame", "NoKey"), (der, b"open sesame", "EncryptedKey"),
            (b"", None, "NoKey"), (keys.public("2048").read_bytes(), None, "NoKey"), (der[:-1], None, "NoKey")):
        with pytest.raises(KeyFileError) as raised:
            load_private_key(octets, passphrase)
        assert (raised.value.name, raised.value.status) == (name, 2)
        assert "sesame" not in str(raised.value) and raised.value.__suppress_context__
    with pytest.raises(UnsuitableKey) as curve:
        load_private_key(keys.private("curve").read_bytes())
    assert curve.value.name == "IncompatibleKey"
    assert "RSAPrivateKey" not in repr(load_private_key(der))


def test_requests(keys: Keys) -> None:
    """OpenSSL verifies what is made, what OpenSSL made is verified, and a changed one isn't."""
    key = private(keys, "2048")
    made = request.create(key, *PLACES)
    shown = request_shown(made)
    assert all(place in shown for place in PLACES)
    assert request.verify(made) == keys.der("2048")
    stored = bytes.fromhex((EXAMPLES / "rsa-request.hex").read_text())
    pem = openssl("req", "-inform", "DER", "-noout", "-pubkey", data=stored)
    wanted = openssl("pkey", "-pubin", "-outform", "DER", data=pem)
    assert request.verify(stored) == request.verify_issue((EXAMPLES / "rsa-issue.xml").read_bytes()) == wanted
    with pytest.raises(CheckFailed) as raised:
        request.verify(stored[:-1] + bytes([stored[-1] ^ 1]))
    assert (raised.value.name, raised.value.status, raised.value.check) == ("Signature", 6, None)
    with pytest.raises(WrongUse):
        request.create(key, "https://localhost/", PLACES[1])


def test_setup_messages(keys: Keys) -> None:
    """With an anchor of OpenSSL, whose signature is looked at, and with an own one."""
    text = (EXAMPLES / "rsa-child-request.xml").read_bytes()
    begin = datetime.datetime(2026, 12, 1, 7, 46, 5, tzinfo=datetime.timezone.utc)  # notBefore, as OpenSSL shows it
    receipt = setup.receive(setup.kind_of(text), text, begin)
    assert receipt.kind is SetupKind.CHILD_REQUEST and receipt.signature_looked_at
    with pytest.raises(WrongForm) as raised:
        setup.receive(SetupKind.CHILD_REQUEST, text, begin - SECOND)
    assert (raised.value.name, raised.value.status) == ("InvalidTaCert", 5)
    own = setup.PublisherRequest(anchor.create(private(keys, "2048"), NOW, NOW + FIVE_MINUTES), "Bob", "a tag")
    received = setup.receive(SetupKind.PUBLISHER_REQUEST, own.to_xml(), NOW)
    assert received.message() == own and not received.signature_looked_at and own.public_key == keys.der("2048")


def test_keys_of_cryptography(keys: Keys) -> None:
    """Public keys and certificates as objects."""
    key = private(keys, "2048")
    message = calmizsed.create(Kind.PUBLICATION, QUERY, key, NOW)
    certificate = x509.load_der_x509_certificate(anchor.create(key, NOW, NOW + FIVE_MINUTES))
    objects: list[calmizsed.keys.PublicKey] = [
        key.key.public_key(), certificate, bytearray(keys.der("2048")), memoryview(keys.der("2048"))]
    for public in objects:
        assert calmizsed.receive(Kind.PUBLICATION, memoryview(message), [public], NOW).text == QUERY


def test_threads(keys: Keys) -> None:
    """Calls from many at once."""
    made = made_by_openssl()[0]

    def accepted(_: int) -> str:
        return calmizsed.receive(Kind.PUBLICATION, made.message, [made.key], moment_of(made.moment)).text

    with concurrent.futures.ThreadPoolExecutor(8) as pool:
        assert set(pool.map(accepted, range(400))) == {calmizsed.read(Kind.PUBLICATION, made.text)}


def test_wrong_arguments(keys: Keys) -> None:
    """Moments without a zone, numbers for octets, no key and nine keys."""
    message = (EXAMPLES / "rsa-query.der").read_bytes()
    with pytest.raises(ValueError, match="time zone"):
        calmizsed.receive(Kind.PUBLICATION, message, [keys.der("2048")], datetime.datetime(2026, 12, 1))
    with pytest.raises(TypeError):
        calmizsed.inspect(5)  # type: ignore[arg-type]
    for count in (0, 9):
        with pytest.raises(WrongUse):
            calmizsed.receive(Kind.PUBLICATION, message, [keys.der("2048")] * count, NOW)
