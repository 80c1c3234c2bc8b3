"""What refusals and checks mean, in words; docs/PROGRAMS.md has the same tables."""

from __future__ import annotations

from typing import NamedTuple


class Check(NamedTuple):
    """A check of a signed message: what has to hold, what it means that it fails, and what to look at then."""

    meaning: str
    failure: str
    look_at: str


CHECKS = {
    1: Check(
        "the signer's key identifier is the certificate's subject key identifier",
        "the signer's key identifier is not the certificate's subject key identifier",
        "the message: it brings another certificate than its signer's"),
    2: Check(
        "the SHA-256 of the content is the signed digest",
        "the SHA-256 of the content is not the signed digest",
        "the message: its content was changed after it was signed"),
    3: Check(
        "the signature of the attributes holds under the certificate's key",
        "the signature of the attributes does not hold under the certificate's key",
        "the message, or the scheme: it has to be RSA with SHA-256, PKCS #1 v1.5"),
    4: Check(
        "the certificate's subject key identifier is the SHA-1 of its key",
        "the certificate's subject key identifier is not the SHA-1 of its key",
        "the certificate"),
    5: Check(
        "the moment is in the certificate's validity",
        "the moment is outside of the certificate's validity",
        "your clock, or the sender's; an old message that came again"),
    6: Check(
        "the certificate's authority key identifier, if there is one, is that of the key",
        "the certificate's authority key identifier names none of the keys",
        "the key: the message is another party's, or its key was replaced"),
    7: Check(
        "the certificate is no authority's",
        "the certificate is an authority's",
        "the certificate"),
    8: Check(
        "the certificate's signature holds under the key",
        "the certificate's signature does not hold under the key",
        "the key: the message is another party's, or its key was replaced; the certificate"),
    9: Check(
        "both algorithm identifiers of each CRL are the same",
        "the algorithm identifiers of a CRL differ",
        "the CRLs: how they were encoded"),
    10: Check(
        "each CRL's signature holds under the key",
        "a CRL's signature does not hold under the key",
        "the key: the message is another party's, or its key was replaced; the CRLs"),
    11: Check(
        "each CRL is of no later time than the moment",
        "a CRL is of a later time than the moment",
        "your clock, or the sender's"),
    12: Check(
        "each CRL is not out of date",
        "a CRL is out of date",
        "your clock; the CRLs: their issuer has to make new ones"),
    13: Check(
        "each CRL's authority key identifier, if there is one, is that of the key",
        "a CRL's authority key identifier is not that of the key",
        "the key; the CRLs: one is another issuer's"),
    14: Check(
        "no CRL revokes the certificate",
        "a CRL revokes the certificate",
        "the CRLs: the certificate is revoked"),
}

REFUSALS = {
    "Usage": "an argument is none of those that are allowed: a key is no public key, there are more than eight, or a URI is none",
    "CmsDecode": "the octets begin with no signed message",
    "XmlError": "the text, or the content of the signed message, has not the form of the message that is asked for",
    "CertSyntax": "the text has a certificate that is none",
    "InvalidCsrSyntax": "there is a certificate request that is none",
    "InvalidTaCertEncoding": "the octets in the place of the trust anchor's certificate begin with no identity certificate",
    "InvalidTaCert": "a check of the trust anchor's certificate fails: of its validity, its key identifiers, its cA, or its own signature",
    "Signature": "the certificate request isn't signed under its own key",
    "IncompatibleKey": "a key that is to sign is no RSA key",
    "KeyReused": "the key for one use is the issuing key",
    "Moment": "the 300 seconds before or after the moment leave the years 1970 to 9999",
    "TooLong": "the text, a key or a signature is too long",
    "OutOfMemory": "memory ran out",
    "OtherQuestions": "the answers are to other questions",
    "NoTime": "the message doesn't say when it was signed, so it can't be later than the last one",
    "Replayed": "the message was signed at the second of these times, which is not later than the first, that of the last one",
    "UnknownObject": "the query names a URI of which nothing is known",
}

SHORT_KEY = "a signature holds under an RSA key of fewer than 2048 bits alone, which isn't taken (RFC 7935, 3)"
