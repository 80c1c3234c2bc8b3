"""Messages and their views, by each call that reads them, for tools/cases/message_cases.py.

A line is `NAME DER OCTETS STEP..`, with the steps of tools/cases/stored_cases.py; DER is `der`, `ber` or `both`. What the calls answer:

    message whole decoded
        of a copy the contents octets of the content's object identifier, the content, its digest, the signer's key identifier, the time of
        signing or `-`, the octets that are covered, their signature, and the message as it is written
    view
        the octets of the content, the certificate, the CRL, a second CRL or `-`, the attributes and the signature
    rest
        the octets that are left
"""

from types import SimpleNamespace

from signed_messages import (
    GOOD, NOW, NULL, OTHER, RSA_SHA256, SIGNING_TIME, attribute, attributes_of, behind_last, broken_ber_cases,
    certificate, crl, digest_of, indefinite, malformed_cases, message, octet_string, oid, overlong, own_crl, printable,
    segmented, seq, signature_of, subject_key, value, without,
)
from stored_cases import MALFORMED, SIZES, step, terms

# 1.2.840.113549.1.9.16.1.28, of XML (RFC 6492, section 3.1.1.3)
XML_TYPE = bytes.fromhex("2a864886f70d010910011c")


def walked_line(label, mode, octets, *steps):
    """A line of a message, with its steps."""
    return " ".join((f"walk-{label}", mode, terms(octets), *steps))


def walked(label, mode="both", signed_at=NOW, second=b"-", written=(), **options):
    """A message that is read whole, with a NULL behind it, and as a view; `written` are the options of what is written, where these
    differ."""
    octets, o = message(**options), SimpleNamespace(**{**GOOD, **options})
    attributes, signature = attributes_of(o), signature_of(o)
    shown = (
        XML_TYPE, o.content, digest_of(o), o.signer_id or subject_key(o), signed_at, value(0x31, attributes), signature,
        message(**{**options, **dict(written)}))
    view = o.content_string(o.content), certificate(o), crl(o), second, attributes, octet_string(signature)
    yield walked_line(label, mode, octets, step("whole", *shown))
    yield walked_line(f"{label}-behind", mode, octets + NULL, step("whole", MALFORMED), step("decoded", *shown), step("message", *shown),
        step("rest", NULL))
    yield walked_line(f"{label}-view", mode, octets + NULL, step("view", *view), step("rest", NULL))
    if mode == "ber":
        yield from unread(f"{label}-in-der", "der", octets)


def unread(label, mode, octets):
    """Octets that are no message by any call."""
    yield walked_line(label, mode, octets, *[step(call, MALFORMED) for call in ("whole", "decoded", "message")])
    yield walked_line(f"{label}-view", mode, octets, step("view", MALFORMED))


def lines():
    """All lines of this script."""
    unknown = lambda octets: attribute(oid("1.3.6.1.4.1.99999.1"), octet_string(octets))
    yield from walked("good")
    yield from walked("without-signing-time", signed_at="-", attributes=without(SIGNING_TIME))
    yield from walked("of-another-digest", digested=b"another content")
    yield from walked("of-another-signer", signer_id=OTHER, signer_algorithm=seq(RSA_SHA256))
    yield from walked("attributes-in-another-order", attributes=lambda xs: xs[::-1])
    yield from walked("without-entries-list", entries=None, constraints=False)
    yield from walked("digests-with-null", digest_parameters=(NULL,), written=dict(digest_parameters=()))
    other = own_crl(entries=(2, 3))
    yield from walked("two-crls", second=other, lists=own_crl() + other)
    yield from walked("indefinite-envelope", "ber", outer=indefinite, written=dict(outer=value))
    yield from walked("content-in-segments", "ber", content_string=segmented, written=dict(content_string=octet_string))
    yield from walked("indefinite-attributes", "ber", attributes_tag=indefinite, written=dict(attributes_tag=value))
    yield from walked("overlong-certificate", "ber", tbs_length=overlong)
    for n in (0, *SIZES):
        yield from walked(f"content-of-{n}", content=b"c" * n)
    for n in SIZES:
        yield from walked(f"attribute-of-{n}", attributes=behind_last(unknown(b"a" * n)))
        yield from walked(f"signature-of-{n}", signature=lambda octets: b"s" * n)
        yield from walked(f"name-of-{n}", subject_text=lambda octets: printable(b"n" * n))
        yield from walked(f"entry-of-{n}", entries=(2,), entry_extensions=seq(octet_string(b"e" * n)))
        yield from walked(f"of-{n}-entries", entries=(2,) * n)
    for label, octets in (*malformed_cases(), *broken_ber_cases()):
        yield from unread(label, "both", octets)
