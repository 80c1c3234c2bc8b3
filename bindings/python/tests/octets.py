"""Octets as `openssl asn1parse` finds them: the parts of signed messages, and what one changed bit makes of them."""

from __future__ import annotations

import calendar
import pathlib
import re
import time
from dataclasses import dataclass, field

from support import openssl

ROW = re.compile(r"^ *(\d+):d=(\d+) +hl=(\d+) +l= *(\d+) ", re.MULTILINE)
SIGNING_TIME = bytes.fromhex("06092a864886f70d010905")


@dataclass
class Value:
    """A value in DER: where it begins, and where its contents begin and end; and the values in it."""

    der: bytes
    begin: int
    inner: int
    end: int
    parts: list[Value] = field(default_factory=list)

    @property
    def octets(self) -> bytes:
        """All of it."""
        return self.der[self.begin:self.end]

    @property
    def contents(self) -> bytes:
        """What is behind its head."""
        return self.der[self.inner:self.end]

    def __getitem__(self, place: int) -> Value:
        """The value in it with this number."""
        return self.parts[place]


def parsed(der: bytes) -> Value:
    """The values of DER, as OpenSSL finds them."""
    above: list[Value] = []
    first = None
    for row in ROW.findall(openssl("asn1parse", "-inform", "DER", data=der).decode("utf-8", "replace")):
        begin, depth, head, length = map(int, row)
        value = Value(der, begin, begin + head, begin + head + length)
        first = first or value
        del above[depth:]
        if above:
            above[-1].parts.append(value)
        above.append(value)
    assert first is not None
    return first


class Message:
    """A signed message with one CRL, by its parts (RFC 5652, 5.1)."""

    def __init__(self, der: bytes) -> None:
        fields = parsed(der)[1][0]
        self.der, self.content = der, fields[2][1][0]
        self.certificate, self.crl, signer = fields[3][0], fields[4][0], fields[5][0]
        self.attributes, self.signature = signer[3], signer[5]

    def moment_of_signing(self) -> Value:
        """The time in the attribute signingTime."""
        return next(attribute[1][0] for attribute in self.attributes.parts if attribute[0].octets == SIGNING_TIME)


def flipped(der: bytes, place: int) -> bytes:
    """With the lowest bit of an octet changed."""
    return der[:place] + bytes([der[place] ^ 1]) + der[place + 1:]


def of_utc_time(text: bytes) -> int:
    """The seconds since 1970 of a UTCTime."""
    return calendar.timegm(time.strptime(text.decode("ascii"), "%y%m%d%H%M%SZ"))


def shown_moment(said: bytes) -> int:
    """The seconds since 1970 of a time as openssl prints it behind an equals sign."""
    return calendar.timegm(time.strptime(said.decode("ascii").strip().partition("=")[2], "%b %d %H:%M:%S %Y GMT"))


def in_pem(path: pathlib.Path, octets: bytes) -> pathlib.Path:
    """A certificate or a CRL in a file, as the openssl command takes it; the file's ending says which."""
    words = {".crt": "x509", ".crl": "crl"}[path.suffix]
    path.write_bytes(openssl(words, "-inform", "DER", data=octets))
    return path
