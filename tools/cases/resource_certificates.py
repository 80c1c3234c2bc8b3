"""Resource certificates, for tools/cases/request_cases.py: put together from RFC 5280, 4.1, with what is read of them."""

import base64
import hashlib
from types import SimpleNamespace

from certificate_cases import FALSE, TRUE, constraints, extension, key_of, spelled_key
from signed_messages import (
    ALGORITHM, BASIC_CONSTRAINTS, FIRST, LAST, NULL, RSA, RSA_SHA256, SUBJECT_KEY, bits, indefinite, integer, key_bits,
    name, octet_string, oid, overlong, seq, time, value,
)
from stored_cases import MALFORMED, SIZES, line, step
from value_cases import ROUTER, attribute, relative

UNKNOWN = oid("1.3.6.1.4.1.99999.1")
USAGE = extension(oid("2.5.29.15"), bytes.fromhex("03020106"), TRUE)


def key_fields(key):
    """What is read of a key."""
    form, octets = key_of(key)
    return form, octets, hashlib.sha1(octets).digest()


def answered(call, shown):
    """The step of a call, and what it answers; malformed where it is nothing."""
    return step(call, *(shown if shown else [MALFORMED]))


def loose(*parts):
    """A SEQUENCE of an indefinite length."""
    return indefinite(0x30, b"".join(parts))


def longer(*parts):
    """A SEQUENCE whose length is spelled with more octets than it needs."""
    return value(0x30, b"".join(parts), overlong)


# What a certificate is made of.
CERTIFICATE = dict(
    version=value(0xA0, integer(2)), serial=integer(1), inner=ALGORITHM, issuer=name(1, 0),
    validity=seq(time(FIRST), time(LAST)),
    subject=name(1, 1), key=1, spelled_key=None, extensions=(), tagged=lambda xs: value(0xA3, seq(*xs)), outer=ALGORITHM,
    spelled_bits=bits(b"\0"),
    behind=b"", tbs=seq, whole=seq)


def certificate_of(**options):
    """The octets of a resource certificate that is good but for these options."""
    o = SimpleNamespace(**{**CERTIFICATE, **options})
    tbs = o.tbs(o.version, o.serial, o.inner, o.issuer, o.validity, o.subject, o.spelled_key or spelled_key(o.key),
        o.tagged(o.extensions), o.behind)
    return o.whole(tbs, o.outer, o.spelled_bits)


def certificate_fields(octets, key):
    """What is read of a resource certificate."""
    return *key_fields(key), octets, base64.b64encode(octets)


def certified(label, mode="der", reads=True, key=1, **options):
    """The lines of a resource certificate, or of octets that are none."""
    octets = certificate_of(key=key, **options)
    shown = certificate_fields(octets, key) if reads else None
    strict = shown if mode == "der" else None
    yield line(f"certificate-{label}", mode, octets + NULL, answered("certificate", strict), step("authority", MALFORMED),
        step("router", MALFORMED))


def certificate_cases():
    """Resource certificates that are read, and octets that are none."""
    yield from certified("good")
    unread = [extension(UNKNOWN, b"\0\xff", TRUE), extension(UNKNOWN, b"", FALSE), USAGE, USAGE,
        extension(BASIC_CONSTRAINTS, b"x"),
        extension(SUBJECT_KEY, b""), extension(oid("2.5.29.15"), indefinite(0x30, b""))]
    yield from certified("with-extensions", extensions=[constraints(TRUE), USAGE])
    yield from certified("with-unread-extensions", extensions=unread)
    for label, options in {
            "on-a-curve": dict(key=("ec", bytes(range(65)))), "of-no-bits": dict(key=("rsa", b"")),
            "key-without-null": dict(spelled_key=seq(seq(RSA), bits(key_bits(1, 1)))),
            "key-with-unused-bits": dict(spelled_key=seq(seq(RSA, NULL), value(3, b"\7" + key_bits(1, 1)))),
            "inner-without-null": dict(inner=seq(RSA_SHA256)), "outer-without-null": dict(outer=seq(RSA_SHA256)),
            "unused-bits": dict(spelled_bits=value(3, b"\7\xff")), "empty-signature": dict(spelled_bits=bits(b"")),
            "empty-names": dict(issuer=seq(), subject=seq()), "serial-0": dict(serial=integer(0)),
            "serial-of-20": dict(serial=integer((1 << 160) - 1)),
            "validity-backwards": dict(validity=seq(time(LAST), time(FIRST)))}.items():
        yield from certified(label, **options)
    yield from no_certificate_cases()
    yield from certificate_ber_cases()
    yield from equality_cases()
    yield from certificate_size_cases()


def no_certificate_cases():
    """Octets that are no resource certificates."""
    for label, options in {
            "without-extensions": dict(tagged=lambda xs: b""), "extensions-empty": dict(tagged=lambda xs: value(0xA3, b"")),
            "extensions-twice": dict(tagged=lambda xs: value(0xA3, seq() * 2)),
            "extensions-under-2": dict(tagged=lambda xs: value(0xA2, seq())),
            "extensions-tagged-twice": dict(tagged=lambda xs: value(0xA3, seq()) * 2),
            "extensions-set": dict(tagged=lambda xs: value(0xA3, value(0x31, b""))),
            "v1": dict(version=b"", tagged=lambda xs: b""),
            "v1-with-extensions": dict(version=b""), "v1-spelled": dict(version=value(0xA0, integer(0))),
            "v2": dict(version=value(0xA0, integer(1))),
            "v4": dict(version=value(0xA0, integer(3))), "version-behind": dict(version=value(0xA0, integer(2) + NULL)),
            "version-untagged": dict(version=integer(2)),
            "unique-issuer": dict(tagged=lambda xs: value(0x81, b"\0") + value(0xA3, seq())),
            "unique-subject": dict(tagged=lambda xs: value(0x82, b"\0") + value(0xA3, seq())),
            "serial-negative": dict(serial=b"\2\1\xff"),
            "serial-of-21": dict(serial=integer(1 << 160)), "serial-padded": dict(serial=b"\2\2\0\1"),
            "inner-rsa": dict(inner=seq(RSA, NULL)),
            "inner-router": dict(inner=ROUTER), "outer-rsa": dict(outer=seq(RSA, NULL)), "outer-router": dict(outer=ROUTER),
            "issuer-set": dict(issuer=value(0x31, b"")), "subject-null": dict(subject=NULL),
            "validity-of-one": dict(validity=seq(time(FIRST))),
            "key-of-another-kind": dict(spelled_key=seq(seq(oid("1.2.840.10040.4.1"), NULL), bits(b""))),
            "behind": dict(behind=NULL),
            "behind-the-bits": dict(whole=lambda *parts: seq(*parts, NULL)), "bits-missing": dict(spelled_bits=b""),
            "bits-of-octets": dict(spelled_bits=octet_string(b"\0")), "bits-8-unused": dict(spelled_bits=value(3, b"\x08\0")),
            "extension-null": dict(extensions=[NULL]), "extension-without-value": dict(extensions=[seq(UNKNOWN)]),
            "extension-of-null": dict(extensions=[seq(UNKNOWN, NULL)]),
            "extension-behind": dict(extensions=[seq(UNKNOWN, octet_string(b""), NULL)]),
            "extension-flagged-01": dict(extensions=[seq(UNKNOWN, b"\1\1\1", octet_string(b""))]),
            "extension-in-segments": dict(extensions=[seq(UNKNOWN, value(0x24, octet_string(b"a")))]),
            "extension-set": dict(extensions=[value(0x31, UNKNOWN + octet_string(b""))]),
            "whole-set": dict(whole=lambda *parts: value(0x31, b"".join(parts))),
            "tbs-set": dict(tbs=lambda *parts: value(0x31, b"".join(parts)))}.items():
        yield from certified(label, reads=False, **options)
    yield line("certificate-cut", "both", certificate_of()[:-1], step("certificate", MALFORMED))


def certificate_ber_cases():
    """A certificate keeps its exact octets."""
    for label, options in {
            "indefinite": dict(whole=loose), "overlong": dict(whole=longer), "indefinite-tbs": dict(tbs=loose),
            "overlong-tbs": dict(tbs=longer),
            "indefinite-extensions": dict(tagged=lambda xs: indefinite(0xA3, loose(*xs))),
            "indefinite-algorithm": dict(outer=loose(RSA_SHA256, NULL)),
            "indefinite-subject": dict(subject=loose()), "overlong-bits": dict(spelled_bits=value(3, b"\0", overlong)),
            "extension-segments": dict(extensions=[seq(UNKNOWN, value(0x24, octet_string(b"a")))]),
            "extension-loosely-flagged": dict(extensions=[seq(UNKNOWN, b"\1\1\1", octet_string(b""))])}.items():
        yield from certified(f"{label}-in-ber", "ber", **options)
        yield from certified(f"{label}-in-der", reads=False, **options)


def equality_cases():
    """Certificates are equal where their octets are, whatever stands behind them."""
    good = certificate_of()
    for label, other, equal in (
            ("itself", good, True), ("itself-and-more", good + b"xyz", True),
            ("another-signature", certificate_of(spelled_bits=bits(b"\1")), False),
            ("another-key", certificate_of(key=2), False), ("another-serial", certificate_of(serial=integer(2)), False),
            ("another-null", certificate_of(outer=seq(RSA_SHA256)), False),
            ("another-extension", certificate_of(extensions=[extension(UNKNOWN, b"")]), False),
            ("the-same-key-without-null", certificate_of(spelled_key=seq(seq(RSA), bits(key_bits(1, 1)))), False)):
        yield line(f"certificate-and-{label}", "der", good + NULL, step("equal", equal, argument=other))


def certificate_size_cases():
    """Resource certificates with parts of the sizes."""
    for n in SIZES:
        part = b"a" * n
        yield from certified(f"subject-of-{n}", subject=seq(relative(attribute(oid("2.5.4.3"), value(12, part)))))
        yield from certified(f"key-of-{n}", key=("rsa", part))
        yield from certified(f"signature-of-{n}", spelled_bits=bits(part))
        yield from certified(f"extension-of-{n}", extensions=[extension(UNKNOWN, part)])
        yield from certified(f"{n}-extensions", extensions=[extension(UNKNOWN, b"")] * n)
