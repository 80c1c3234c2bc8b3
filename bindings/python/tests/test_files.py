"""What files hold, told apart by the first octets."""

from __future__ import annotations

import pytest
from support import EXAMPLES, Keys, openssl

from calmizsed import setup
from calmizsed.errors import KeyFileError, WrongForm
from calmizsed.files import FileError, decoded, is_text, load_public_key, pem

DER = (EXAMPLES / "rsa-query.der").read_bytes()
SETUP = (EXAMPLES / "rsa-child-request.xml").read_bytes()


def test_what_begins_as_none_is_as_it_is() -> None:
    """DER, BER, texts, and octets of no form."""
    for octets in (DER, b"\x30\x80\x00\x00", SETUP, b"  <a/>", b"\x30\x03\x02\x01\x05", b"\x00\x01", b"abc"):
        assert decoded(octets) == octets
    assert decoded(b"\xef\xbb\xbf<a/>") == b"<a/>" and is_text(b"\xef\xbb\xbf <a/>") and not is_text(DER)


@pytest.mark.parametrize(("octets", "name"), [
    (b"", "EmptyFile"), (b" \n", "EmptyFile"),
    (b"308", "WrongHexadecimal"), (b"30 8g", "WrongHexadecimal"), (b"30\xff", "WrongHexadecimal"),
    (b"MII", "WrongBase64"), (b"MII=\xff", "WrongBase64"), (b"-----BEGIN CMS-----\nMII", "WrongPem"),
    (b"-----BEGIN CMS-----\nMII\n-----END CMS-----", "WrongPem"), (b"-----BEGIN CMS-----\nMIIB\n-----END X-----", "WrongPem")])
def test_what_begins_as_a_form_and_is_none(octets: bytes, name: str) -> None:
    """Is refused by its name."""
    with pytest.raises(FileError) as raised:
        decoded(octets)
    assert (raised.value.name, raised.value.status) == (name, 2)


def test_the_first_block_of_several(keys: Keys) -> None:
    """Blocks in PEM come one behind the other."""
    octets = keys.public("2048").read_bytes() + keys.public("4096").read_bytes()
    assert pem(octets) == ("PUBLIC KEY", keys.der("2048"))
    assert load_public_key(octets) == keys.der("2048")


def test_keys_that_are_none(keys: Keys) -> None:
    """A private key in each form, a message, a request, an empty block; a text that is no setup message."""
    private = keys.private("2048").read_bytes()
    der = openssl("pkey", "-in", keys.private("2048"), "-outform", "DER")
    request = bytes.fromhex((EXAMPLES / "rsa-request.hex").read_text())
    for octets in (private, keys.private("encrypted").read_bytes(), der, der.hex().encode(), DER, request, b"abc",
                   b"-----BEGIN PUBLIC KEY-----\n-----END PUBLIC KEY-----",
                   b"-----BEGIN RSA PUBLIC KEY-----\nMAA=\n-----END RSA PUBLIC KEY-----"):
        with pytest.raises(KeyFileError) as raised:
            load_public_key(octets)
        assert raised.value.name == "NoKey"
    for octets in (private, keys.private("encrypted").read_bytes()):
        with pytest.raises(KeyFileError, match="a private key, where a public one is wanted"):
            load_public_key(octets)
    with pytest.raises(WrongForm):
        load_public_key(b"<a/>")


def test_a_setup_message_as_a_key() -> None:
    """Its anchor's key, as OpenSSL finds it."""
    certificate = setup.Message.from_xml(SETUP).trust_anchor
    pem_key = openssl("x509", "-inform", "DER", "-noout", "-pubkey", data=certificate)
    assert load_public_key(SETUP) == load_public_key(pem_key) == load_public_key(certificate)
