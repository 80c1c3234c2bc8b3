"""Trust anchors: a key's own certificate, as a setup message holds it (RFC 8183, 5)."""

from __future__ import annotations

import datetime

from calmizsed import _library, keys
from calmizsed._asking import ANCHOR, Verifier, records
from calmizsed._values import Octets, octets_of, seconds_of


def create(
        key: keys.SigningKey, not_before: datetime.datetime, not_after: datetime.datetime, *, verifier: Verifier = keys.RSA) -> bytes:
    """The key's own certificate, in DER, valid from one moment to the other."""
    plan = seconds_of(not_before), seconds_of(not_after), octets_of(key.public_key)
    prepared = dict(records(_library.library().call("anchor_prepare", *plan).octets))
    signature = keys.signature_of(key, prepared[ANCHOR], verifier)
    return _library.library().call("anchor_finish", *plan, signature).octets


def public_key(certificate: Octets) -> bytes:
    """The key of an identity certificate, in DER. THE CERTIFICATE ISN'T CHECKED."""
    return _library.library().call("anchor_key", octets_of(certificate)).octets
