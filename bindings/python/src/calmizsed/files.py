"""What files hold: octets in DER, BER, PEM, base64 or hexadecimal, told apart by the first of them, and public keys in several forms."""

from __future__ import annotations

import base64
import binascii
import re
from typing import Optional

from cryptography.hazmat.primitives import serialization

from calmizsed import anchor, keys, setup
from calmizsed.errors import CalmizsedError, KeyFileError, WrongForm, WrongUse

SEQUENCE = b"\x30"
HEXADECIMAL = b"30", b"3c"  # of the first octet of a SEQUENCE, and of a text of XML
BASE64 = b"M", b"P"  # of the same octets
BYTE_ORDER_MARK = b"\xef\xbb\xbf"
PEM = re.compile(rb"-----BEGIN ([A-Z0-9 ]+)-----(.*?)-----END \1-----", re.DOTALL)


class FileError(CalmizsedError):
    """A file can't be used: `NoFile`, `EmptyFile`, `WrongPem`, `WrongBase64`, `WrongHexadecimal`."""


def is_text(octets: bytes) -> bool:
    """Whether octets begin as a document of XML."""
    return octets.removeprefix(BYTE_ORDER_MARK).lstrip()[:1] == b"<"


def pem(octets: bytes) -> Optional[tuple[str, bytes]]:
    """The label and the octets of the first block in PEM, or None where octets don't begin as one."""
    if not octets.lstrip().startswith(b"-----BEGIN "):
        return None
    block = PEM.search(octets)
    if block is None:
        raise FileError("WrongPem", 2, "a block in PEM has no end")
    return block[1].decode("ascii"), _base64(block[2], "WrongPem")


def _base64(octets: bytes, name: str) -> bytes:
    """The octets that base64 spells."""
    try:
        return base64.b64decode(b"".join(octets.split()), validate=True)
    except binascii.Error as error:
        raise FileError(name, 2, f"no base64: {error}") from None


def _hexadecimal(octets: bytes) -> bytes:
    """The octets that hexadecimal digits spell, with white space or colons between them."""
    try:
        return bytes.fromhex(octets.decode("ascii").replace(":", " "))
    except ValueError:
        raise FileError("WrongHexadecimal", 2, "no hexadecimal: a digit is none, or there is an odd number") from None


def decoded(octets: bytes) -> bytes:
    """The octets that a file spells. What begins as none of the forms is as it is: the library says that it is nothing."""
    if not octets.strip():
        raise FileError("EmptyFile", 2, "there is nothing in it")
    if octets[:1] == SEQUENCE and octets[1:2] >= b"\x80":
        return octets
    if is_text(octets):
        return octets.removeprefix(BYTE_ORDER_MARK)
    block = pem(octets)
    if block is not None:
        return block[1]
    begin = octets.lstrip()
    if begin[:2].lower() in HEXADECIMAL:
        return _hexadecimal(begin)
    return _base64(begin, "WrongBase64") if begin[:1] in BASE64 else octets


def load_public_key(octets: bytes) -> bytes:
    """The public key in DER, of a file with a key or a certificate, in PEM, DER, base64 or hexadecimal, or with a setup message."""
    block = pem(octets)
    if block is not None and "PRIVATE" in block[0]:
        raise KeyFileError("NoKey", 2, "a private key, where a public one is wanted: openssl pkey -pubout writes it")
    if block is not None and block[0] == "RSA PUBLIC KEY":
        return _pkcs1_key(octets)
    held = decoded(octets)
    if is_text(held):
        return setup.Message.from_xml(held).public_key
    try:
        keys.identifier(held)
    except WrongUse:
        pass
    else:
        return held
    try:
        return anchor.public_key(held)
    except WrongForm:
        raise KeyFileError("NoKey", 2, "neither a public key nor an identity certificate nor a setup message") from None


def _pkcs1_key(octets: bytes) -> bytes:
    """The key in DER of a block in PKCS #1."""
    try:
        key = serialization.load_pem_public_key(octets)
    except keys.NO_KEY:
        raise KeyFileError("NoKey", 2, "no public key in PKCS #1") from None
    der: bytes = key.public_bytes(serialization.Encoding.DER, serialization.PublicFormat.SubjectPublicKeyInfo)
    return der


def load_private_key(octets: bytes, passphrase: Optional[bytes] = None) -> keys.PrivateKey:
    """The private key of a file, in PEM, DER, base64 or hexadecimal."""
    return keys.load_private_key(octets if octets.lstrip().startswith(b"-----BEGIN") else decoded(octets), passphrase)
