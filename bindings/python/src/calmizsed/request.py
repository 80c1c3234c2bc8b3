"""Certificate requests (RFC 6487, 6)."""

from __future__ import annotations

from typing import Optional

from calmizsed import _library, keys
from calmizsed._asking import REQUEST, Verifier, questions_of, records
from calmizsed._messages import answers_of, with_cause
from calmizsed._values import Octets, Text, octets_of, text_of
from calmizsed.errors import CheckFailed


def create(
        key: keys.SigningKey, repository: str, manifest: str, notify: Optional[str] = None, *, verifier: Verifier = keys.RSA) -> bytes:
    """A certificate request for the key, in DER. `repository` and `manifest` are rsync URIs, `notify` is an https URI."""
    plan = octets_of(key.public_key), text_of(repository), text_of(manifest), text_of(notify or "")
    prepared = dict(records(_library.library().call("request_prepare", *plan).octets))
    signature = keys.signature_of(key, prepared[REQUEST], verifier)
    return _library.library().call("request_finish", *plan, signature).octets


def verify(request: Octets, *, verifier: Verifier = keys.RSA) -> bytes:
    """The key of a certificate request, in DER, if the request is signed under it."""
    return _verified("request", octets_of(request), verifier)


def verify_issue(text: Text, *, verifier: Verifier = keys.RSA) -> bytes:
    """As `verify`, of the certificate request in the issue request (RFC 6492, 3.4.1) that a text is."""
    return _verified("issue", text_of(text), verifier)


def _verified(name: str, octets: bytes, verifier: Verifier) -> bytes:
    """The key, by the calls of this name."""
    questions = questions_of(_library.library().call(f"{name}_questions", octets).octets)
    answers, causes = answers_of(questions, verifier)
    try:
        return _library.library().call(f"{name}_verify", octets, questions.digest, answers).octets
    except CheckFailed as refused:
        raise with_cause(refused, causes.get(REQUEST, "")) from None
