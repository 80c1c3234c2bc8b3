#!/usr/bin/env python3
"""Writes certificate requests and resource certificates, and what their calls have to answer: crates/test_requests/data/cases.txt,
and the stdout beside it.

The requests are put together here from RFC 2986, 4, RFC 6487, 6 and RFC 8209, 3.2, the certificates from RFC 5280, 4.1, and signed by
the rules of the toy scheme in tools/cases/signed_messages.py; each expected answer is what they were put together from. Some were made by
OpenSSL, and their fields are what that prints.

A line is `NAME MODE OCTETS STEP..`, with the steps of tools/cases/stored_cases.py; MODE is `der`, `ber` or `both`. What the calls answer:

    authority
        the subject; the key's format, bits and identifier; what authority_attributes answers; the signed octets, the signature, and
        the request as it is written
    router
        the same of a router's, with what router_attributes answers
    authority_attributes router_attributes
        whether the subject is an authority, `ca` or `ee` for the key's usage, the contents of the purposes with an octet 00 behind
        each, repository, manifest, notification; the purposes alone
    next_authority_attributes next_router_attributes
        the same of the attributes that stand next, behind which the call goes
    invalid_attribute
        what is printed of an attribute that no request can have, by its object identifier
    authority_holds router_holds
        whether the request is signed with its own key by the toy scheme
    certificate
        the key's format, bits and identifier; the certificate's octets, and these in base64
    equal,OCTETS
        whether the certificates at the beginning of both are equal
    made,'FORMAT KEY FAILING REPOSITORY MANIFEST NOTIFY
        the request that is made with the toy signer of seed 1, whose call 0 makes a key of this format, under the key with this
        identifier, where the signer's call FAILING fails; or why none is made, and the text of that; and how many calls of the signer
        failed
    made_long,'COUNT REPOSITORY
        the same under a signer of which each signature is COUNT zeros; and how many of its signatures were too long
    to_be_signed,'..
        the key of toy_key(1, 0) as above, and the octets that are to be signed of the request for it with the places of an argument as
        in made; or which rule the repository breaks with its slash
    with_signature,'..
        the request with the octets as its signature
    self_signed,'..
        the request with that key's own signature, which is the one that the toy signer makes
    capture
        the octets of the value that stands next
"""

import base64
import hashlib
from types import SimpleNamespace

import openssl_requests as openssl
from certificate_cases import FALSE, TRUE, constraints, extension, spelled_key
from resource_certificates import UNKNOWN, answered, certificate_cases, key_fields, line, longer, loose
from signed_messages import (
    ALGORITHM, BASIC_CONSTRAINTS, NULL, RSA, RSA_SHA256, SUBJECT_KEY, bits, indefinite, integer, key_bits, name,
    octet_string, oid, overlong, seq, sign, value,
)
from stored_cases import MALFORMED, SIZES, step, write
from value_cases import EC, ROUTER, attribute, relative

KEY_USAGE, EXTENDED_KEY_USAGE, SUBJECT_INFO_ACCESS = oid("2.5.29.15"), oid("2.5.29.37"), oid("1.3.6.1.5.5.7.1.11")
EXTENSION_REQUEST, CHALLENGE_PASSWORD = oid("1.2.840.113549.1.9.14"), oid("1.2.840.113549.1.9.7")
REPOSITORY, MANIFEST, NOTIFY, SIGNED_OBJECT = (oid(f"1.3.6.1.5.5.7.48.{n}") for n in (5, 10, 13, 11))
BGPSEC_ROUTER, SERVER = oid("1.3.6.1.5.5.7.3.30"), oid("1.3.6.1.5.5.7.3.1")
CA, EE = bytes.fromhex("03020106"), bytes.fromhex("03020780")
HERE = b"rsync://localhost/repo/ca/", b"rsync://localhost/repo/ca/ca.mft", b"https://localhost/notify.xml"


def usage(contents=CA):
    """The extension of the key's usage."""
    return extension(KEY_USAGE, contents, TRUE)


def purposes(*oids):
    """The extension of extended usages."""
    return extension(EXTENDED_KEY_USAGE, seq(*oids))


def description(method, location, tag=0x86):
    """Where something is found: the method and the location."""
    return seq(method, value(tag, location))


def access(*descriptions):
    """The extension that says where things are found."""
    return extension(SUBJECT_INFO_ACCESS, seq(*descriptions))


DESCRIBED = [description(method, location) for method, location in zip((REPOSITORY, MANIFEST, NOTIFY), HERE)]
ASKED = [constraints(TRUE), usage(), access(*DESCRIBED)]

# What a request is made of, and what its attributes say. A None has a part follow from the others.
GOOD = dict(
    version=integer(0), subject=name(1, 0), key=None, spelled_key=None, extensions=ASKED, attribute=None, tagged=None,
    algorithm=ALGORITHM, written=None, signature=None, spelled_bits=None, spoilt=False, info=seq, whole=seq,
    basic=True, usage="ca", purposes=None, found=HERE)


def options_of(router=False, **options):
    """What a request is made of: the good one, of an authority or a router, but for these options."""
    o = SimpleNamespace(**{**GOOD, **(dict(algorithm=ROUTER) if router else {}), **options})
    o.key = (("ec", key_bits(1, 0)) if router else 0) if o.key is None else o.key
    return o


def attributes(o):
    """The attributes of a request."""
    asked = o.attribute if o.attribute is not None else seq(EXTENSION_REQUEST, value(0x31, seq(*o.extensions)))
    return value(0xA0, asked) if o.tagged is None else o.tagged(asked)


def info(o):
    """The part of a request that is signed."""
    return o.info(o.version, o.subject, o.spelled_key or spelled_key(o.key), attributes(o))


def signature_of(o):
    """The signature of a request: that of the options, or the toy key's."""
    return o.signature if o.signature is not None else sign(1, 0, info(o), o.spoilt)


def request(o):
    """The octets of a request."""
    return o.whole(info(o), o.algorithm, o.spelled_bits or bits(signature_of(o)))


def contents(identifier):
    """The contents of a value whose length is one octet."""
    return identifier[2:]


def joined(*oids):
    """Identifiers in a row, each with a zero behind it."""
    return b"".join(contents(identifier) + b"\0" for identifier in oids)


def purpose_fields(o):
    """What is read of the extended usages."""
    return (joined(*(o.purposes or ())),)


def authority_attributes(o):
    """What is read of what an authority asks for."""
    return o.basic, o.usage, *purpose_fields(o), *(location or b"" for location in o.found)


def signed_fields(o):
    """What is written has the held octets, the algorithm in DER, and the bits without a count of unused ones."""
    return info(o), signature_of(o), seq(info(o), o.written or o.algorithm, bits(signature_of(o)))


def fields(o, router=False):
    """What is read of a request."""
    asked = purpose_fields(o) if router else authority_attributes(o)
    return o.subject, *key_fields(o.key), *asked, *signed_fields(o)


KINDS = "authority", "router"


def read(label, mode="der", router=False, reads=True, holds=True, strictly=None, **options):
    """A request of one kind, which is read as one, or isn't; it is never read as one of the other kind, nor as a certificate."""
    o = options_of(router, **options)
    own, other = KINDS[router], KINDS[not router]
    octets, shown = request(o) + NULL, fields(o, router) if reads else None
    strict = shown if mode == "der" or strictly else None
    steps = [answered(own, strict), step(other, MALFORMED), step("certificate", MALFORMED)]
    steps.append(step(f"{own}_holds", *([holds] if strict else [MALFORMED])))
    yield line(label, mode, octets, *steps)


def attributes_line(label, authority, router, **options):
    """The attributes by themselves, as those of both kinds."""
    o = options_of(**options)
    yield line(f"{label}-attributes", "der", attributes(o), answered("authority_attributes",
        authority and authority_attributes(o)),
        answered("router_attributes", router and purpose_fields(o)))


def both(label, authority=True, router=True, **options):
    """The same said in a request of each kind, and by itself."""
    yield from read(label, reads=authority, **options)
    yield from read(f"{label}-router", router=True, reads=router, **options)
    yield from attributes_line(label, authority, router, **options)


def alone(label, authority=True, router=True, **options):
    """The same said in a request of an authority, and by itself."""
    yield from read(label, reads=authority, **options)
    yield from attributes_line(label, authority, router, **options)


def neither(label, **options):
    """A request that neither an authority nor a router makes."""
    return both(label, authority=False, router=False, **options)


# ---- what stands round the extensions


def good_cases():
    """Requests that are read."""
    yield from both("good")
    yield from read("gone-on-from")
    yield from read("gone-on-from-router", router=True)
    octets = attributes(options_of())
    yield line("attributes-behind", "both", octets + NULL, step("authority_attributes", MALFORMED),
        step("router_attributes", MALFORMED))
    yield from read("without-null", algorithm=seq(RSA_SHA256))
    yield from read("key-without-null", spelled_key=seq(seq(RSA), bits(key_bits(1, 0))))
    yield from read("key-with-unused-bits", spelled_key=seq(seq(RSA, NULL), value(3, b"\7" + key_bits(1, 0))))
    yield from read("key-of-no-bits", key=("rsa", b""), holds=False)
    yield from read("key-on-a-curve", key=("ec", key_bits(1, 0)), holds=False)
    yield from read("router-with-an-rsa-key", router=True, key=0, holds=False)
    yield from read("another-subject", subject=seq(relative(attribute(oid("2.5.4.3"), value(12, b"Carol")))))
    yield from read("empty-subject", subject=seq())
    yield from read("subject-of-an-empty-set", subject=seq(value(0x31, b"")))
    yield from read("spoilt", spoilt=True, holds=False)
    yield from read("spoilt-router", router=True, spoilt=True, holds=False)
    yield from read("under-another-key", key=1, signature=sign(1, 0, info(options_of(key=1))), holds=False)
    yield from read("under-key-1", key=1, signature=sign(1, 1, info(options_of(key=1))))
    for count in range(1, 8):
        o = options_of()
        yield from read(f"{count}-unused-bits", spelled_bits=value(3, bytes([count]) + signature_of(o)))
    o = options_of(router=True)
    yield from read("unused-bits-router", router=True, spelled_bits=value(3, b"\5" + signature_of(o)))
    yield from read("empty-signature", signature=b"", holds=False)


def algorithm_cases():
    """Requests with other algorithms."""
    for label, algorithm in (
            ("rsa", seq(RSA, NULL)), ("sha1", seq(oid("1.2.840.113549.1.1.5"), NULL)),
            ("sha384", seq(oid("1.2.840.113549.1.1.12"), NULL)),
            ("parameters", seq(RSA_SHA256, seq())), ("long-null", seq(RSA_SHA256, value(5, b"\0"))),
            ("two-nulls", seq(RSA_SHA256, NULL, NULL)), ("of-nothing", seq()), ("set", value(0x31, RSA_SHA256 + NULL)),
            ("identifier-alone", RSA_SHA256), ("router-with-null", seq(ROUTER[2:], NULL)),
            ("ecdsa-sha384", seq(oid("1.2.840.10045.4.3.3"))),
            ("missing", b"")):
        yield from read(f"algorithm-{label}", reads=False, algorithm=algorithm)
        yield from read(f"algorithm-{label}-router", router=True, reads=False, algorithm=algorithm)


def frame_cases():
    """Requests whose frame has other parts, or parts too many or too few."""
    pairs = {
        "version-1": dict(version=integer(1)), "version-2": dict(version=integer(2)),
        "version-padded": dict(version=b"\2\2\0\0"),
        "version-minus-1": dict(version=b"\2\1\xff"), "version-empty": dict(version=b"\2\0"),
        "version-missing": dict(version=b""),
        "version-tagged": dict(version=value(0xA0, integer(0))), "version-boolean": dict(version=FALSE),
        "subject-missing": dict(subject=b""), "subject-set": dict(subject=value(0x31, b"")),
        "subject-of-one": dict(subject=seq(relative(seq(oid("2.5.4.3"))))),
        "subject-of-three": dict(subject=seq(relative(seq(oid("2.5.4.3"), NULL, NULL)))),
        "subject-without-set": dict(subject=seq(attribute(oid("2.5.4.3"), NULL))),
        "key-missing": dict(spelled_key=seq()),
        "key-of-another-kind": dict(spelled_key=seq(seq(oid("1.2.840.10040.4.1"), NULL), bits(b""))),
        "key-on-no-curve": dict(spelled_key=seq(seq(EC), bits(b""))),
        "key-on-another-curve": dict(spelled_key=seq(seq(EC, oid("1.3.132.0.34")), bits(b""))),
        "key-of-octets": dict(spelled_key=seq(seq(RSA, NULL), octet_string(b""))),
        "key-behind": dict(spelled_key=seq(seq(RSA, NULL), bits(b""), NULL)),
        "key-with-8-unused-bits": dict(spelled_key=seq(seq(RSA, NULL), value(3, b"\x08\0"))),
        "key-with-unused-bits-of-none": dict(spelled_key=seq(seq(RSA, NULL), value(3, b"\1"))),
        "behind-the-info": dict(info=lambda *parts: seq(*parts, NULL)),
        "info-set": dict(info=lambda *parts: value(0x31, b"".join(parts))),
        "behind-the-bits": dict(whole=lambda *parts: seq(*parts, NULL)),
        "whole-set": dict(whole=lambda *parts: value(0x31, b"".join(parts))),
        "bits-missing": dict(whole=lambda *parts: seq(*parts[:2])), "bits-of-octets": dict(spelled_bits=octet_string(b"\0\0")),
        "bits-of-nothing": dict(spelled_bits=value(3, b"")), "bits-8-unused": dict(spelled_bits=value(3, b"\x08\0")),
        "bits-1-unused-of-none": dict(spelled_bits=value(3, b"\1")),
        "bits-in-segments": dict(spelled_bits=value(0x23, bits(b"a"))),
    }
    for label, options in pairs.items():
        yield from read(label, reads=False, **options)
        yield from read(f"{label}-router", router=True, reads=False, **options)
    for label, octets in (("nothing", b""), ("cut", request(options_of())[:-1]),
        ("cut-router", request(options_of(router=True))[:-1]),
            ("null", NULL)):
        yield line(label, "both", octets, *[step(call, MALFORMED) for call in (
            "authority", "router", "certificate", "authority_attributes", "router_attributes")])


def attribute_cases():
    """Requests with other attributes, or more or fewer."""
    asked = seq(EXTENSION_REQUEST, value(0x31, seq(*ASKED)))
    password = seq(CHALLENGE_PASSWORD, value(0x31, value(12, b"a")))
    for label, octets in {
            "no-attribute": b"", "two-attributes": asked + asked, "another-attribute": password,
            "another-attribute-behind": asked + password,
            "another-attribute-before": password + asked,
            "extensions-under-another-name": seq(CHALLENGE_PASSWORD, value(0x31, seq(*ASKED))),
            "extensions-under-the-signing-time": seq(oid("1.2.840.113549.1.9.5"), value(0x31, seq(*ASKED))),
            "attribute-of-nothing": seq(), "attribute-without-values": seq(EXTENSION_REQUEST),
            "attribute-of-no-value": seq(EXTENSION_REQUEST, value(0x31, b"")),
            "attribute-of-two-values": seq(EXTENSION_REQUEST, value(0x31, seq(*ASKED) * 2)),
            "attribute-of-two-values-the-second-empty": seq(EXTENSION_REQUEST, value(0x31, seq(*ASKED) + seq())),
            "attribute-behind": seq(EXTENSION_REQUEST, value(0x31, seq(*ASKED)), NULL),
            "attribute-without-set": seq(EXTENSION_REQUEST, seq(*ASKED)),
            "attribute-of-a-sequence": seq(EXTENSION_REQUEST, seq(seq(*ASKED))),
            "attribute-set": value(0x31, EXTENSION_REQUEST + value(0x31, seq(*ASKED))),
            "extensions-without-sequence": seq(EXTENSION_REQUEST, value(0x31, b"".join(ASKED))),
            "extensions-set": seq(EXTENSION_REQUEST, value(0x31, value(0x31, b"".join(ASKED)))),
            "attribute-null": NULL}.items():
        yield from neither(label, attribute=octets)
    for label, tagged in {
            "attributes-missing": lambda asked: b"", "attributes-under-1": lambda asked: value(0xA1, asked),
            "attributes-under-3": lambda asked: value(0xA3, asked), "attributes-in-a-set": lambda asked: value(0x31, asked),
            "attributes-untagged": lambda asked: asked,
            "attributes-wrapped-twice": lambda asked: value(0xA0, value(0xA0, asked)),
            "attributes-primitive": lambda asked: value(0x80, asked),
            "attributes-twice": lambda asked: value(0xA0, asked) * 2}.items():
        yield from neither(label, tagged=tagged)


def next_attributes(label, authority=True, router=True, mode="der", **options):
    """The attributes of both kinds, which the calls that go on take in the cursor's mode."""
    o = options_of(**options)
    octets, behind = attributes(o) + NULL, step("capture", NULL)
    for kind, shown in (("authority", authority and authority_attributes(o)), ("router", router and purpose_fields(o))):
        yield line(f"next-{label}-{kind}", mode, octets, answered(f"next_{kind}_attributes", shown), *([behind] if shown else []))


def next_attribute_cases():
    """The attributes of requests by themselves."""
    ca, used, where = ASKED
    yield from next_attributes("good", mode="both")
    yield from next_attributes("no-extension", authority=False, extensions=[])
    yield from next_attributes("access-missing", authority=False, extensions=[ca, used])
    yield from next_attributes("purposes", extensions=[*ASKED, purposes(BGPSEC_ROUTER)], purposes=[BGPSEC_ROUTER])
    yield from next_attributes("another-purpose", router=False, extensions=[*ASKED, purposes(SERVER)], purposes=[SERVER])
    yield from next_attributes("of-an-entity", usage="ee", basic=False, extensions=[constraints(), usage(EE), where])
    yield from next_attributes("unknown", False, False, extensions=[*ASKED, extension(UNKNOWN, b"")])
    yield from next_attributes("usage-twice", False, False, extensions=[*ASKED, used])
    yield from next_attributes("null", False, False, attribute=NULL)
    yield from next_attributes("under-1", False, False, tagged=lambda asked: value(0xA1, asked))
    loose_parts = dict(attribute=loose(EXTENSION_REQUEST, indefinite(0x31, loose(*ASKED))),
        tagged=lambda asked: indefinite(0xA0, asked))
    yield from next_attributes("loose", mode="ber", **loose_parts)
    yield from next_attributes("loose-in-der", False, False, **loose_parts)
    for n in SIZES:
        many = [SERVER] * (n - 1) + [BGPSEC_ROUTER]
        yield from next_attributes(f"{n}-purposes", extensions=[*ASKED, purposes(*many)], purposes=many)
        yield from next_attributes(f"{n}-descriptions",
            extensions=[ca, used, access(*[seq(REPOSITORY, NULL)] * n, *DESCRIBED)])
        rsync = long_uri(b"rsync://localhost/repo/", n)
        yield from next_attributes(f"location-of-{n}", extensions=[ca, used, access(description(MANIFEST, rsync), *DESCRIBED)],
            found=(HERE[0], rsync if n <= 65535 else HERE[1], HERE[2]))


def invalid_attribute_cases():
    """What is printed of attributes that no request may have."""
    for arcs in ("1.2.840.113549.1.9.7", "1.2.840.113549.1.9.14", "2.999", "0.0", "1.2" + ".1" * 126, *["1.2" + ".1" * n for n in SIZES]):
        yield line(f"invalid-attribute-{arcs if len(arcs) < 30 else f'of-{len(arcs)}'}", "der", oid(arcs),
            step("invalid_attribute", f"invalid attribute {arcs}"))
    yield line("invalid-attribute-null", "der", NULL, step("invalid_attribute", MALFORMED))


# ---- extensions


def extension_cases():
    """Requests whose extensions are missing, twice, unknown or of other values."""
    ca, used, where = ASKED
    yield from both("no-extension", authority=False, extensions=[])
    for label, extensions in (("constraints", [used, where]), ("usage", [ca, where]), ("access", [ca, used])):
        yield from both(f"{label}-missing", authority=False, extensions=extensions)
    yield from both("extensions-turned", extensions=ASKED[::-1])
    with_router = dict(extensions=[*ASKED, purposes(BGPSEC_ROUTER)], purposes=[BGPSEC_ROUTER])
    yield from both("with-purposes", **with_router)
    yield from both("purposes-alone", authority=False, **{**with_router, "extensions": [purposes(BGPSEC_ROUTER)]})
    yield from both("another-purpose", router=False, extensions=[purposes(SERVER), *ASKED], purposes=[SERVER])
    yield from both("two-other-purposes", router=False, extensions=[purposes(SERVER, SERVER), *ASKED],
        purposes=[SERVER, SERVER])
    yield from both("router-last", extensions=[purposes(SERVER, BGPSEC_ROUTER), *ASKED], purposes=[SERVER, BGPSEC_ROUTER])
    yield from both("router-first", extensions=[purposes(BGPSEC_ROUTER, SERVER), *ASKED], purposes=[BGPSEC_ROUTER, SERVER])
    for label, near in (("shorter", "1.3.6.1.5.5.7.3"), ("longer", "1.3.6.1.5.5.7.3.30.1"), ("another", "1.3.6.1.5.5.7.3.31")):
        yield from both(f"near-router-{label}", router=False, extensions=[purposes(oid(near)), *ASKED], purposes=[oid(near)])
    for label, twice in (("constraints", ca), ("usage", used), ("access", where), ("purposes", purposes(BGPSEC_ROUTER))):
        yield from neither(f"{label}-twice", extensions=[*ASKED, twice, twice])
        yield from neither(f"{label}-twice-alone", extensions=[twice, twice])
    yield from neither("constraints-of-each-kind", extensions=[*ASKED, constraints()])
    yield from neither("usage-of-each-kind", extensions=[*ASKED, usage(EE)])
    yield from neither("empty-access-twice", extensions=[ca, used, access(), access()])
    yield from neither("empty-purposes", extensions=[*ASKED, purposes()])
    yield from flag_cases()
    yield from unknown_cases()


def flag_cases():
    """The flag may be there or not, and counts for nothing."""
    known = [(BASIC_CONSTRAINTS, seq(TRUE)), (KEY_USAGE, CA), (SUBJECT_INFO_ACCESS, seq(*DESCRIBED)),
        (EXTENDED_KEY_USAGE, seq(BGPSEC_ROUTER))]
    for label, flag in (("unflagged", b""), ("flagged-false", FALSE), ("flagged-true", TRUE)):
        yield from both(label, extensions=[extension(kind, held, flag) for kind, held in known], purposes=[BGPSEC_ROUTER])
    flags = ("flagged-01", b"\1\1\1"), ("flagged-twice", TRUE * 2), ("flagged-null", NULL), ("flagged-long", b"\1\2\xff\xff")
    for label, flag in flags:
        yield from neither(label, extensions=[extension(kind, held, flag) for kind, held in known])


def unknown_cases():
    """Requests with extensions that are unknown."""
    for label, kind in (
            ("unknown", UNKNOWN), ("subject-key", SUBJECT_KEY), ("subject-name", oid("2.5.29.17")),
            ("policies", oid("2.5.29.32")),
            ("longer-usage", oid("2.5.29.15.1")), ("shorter-usage", oid("2.5.29")),
            ("of-the-authority", oid("1.3.6.1.5.5.7.1.1"))):
        held = octet_string(bytes(20)) if kind == SUBJECT_KEY else seq()
        yield from neither(f"{label}-extension", extensions=[*ASKED, extension(kind, held)])
        yield from neither(f"{label}-extension-first", extensions=[extension(kind, held, FALSE), *ASKED])
        yield from neither(f"{label}-critical-extension", extensions=[*ASKED, extension(kind, held, TRUE)])
    yield from neither("unknown-extension-alone", extensions=[extension(UNKNOWN, b"")])
    yield from neither("unknown-extension-twice", extensions=[*ASKED, extension(UNKNOWN, b""), extension(UNKNOWN, b"")])
    for label, spelled in {
            "without-value": seq(BASIC_CONSTRAINTS, TRUE), "of-bits": seq(BASIC_CONSTRAINTS, bits(seq(TRUE))),
            "behind": seq(BASIC_CONSTRAINTS, octet_string(seq(TRUE)), NULL),
            "turned": seq(BASIC_CONSTRAINTS, octet_string(seq(TRUE)), TRUE),
            "set": value(0x31, BASIC_CONSTRAINTS + octet_string(seq(TRUE))), "null": NULL, "empty": seq(),
            "in-segments": seq(BASIC_CONSTRAINTS, value(0x24, octet_string(seq(TRUE)))),
            "bare": seq(BASIC_CONSTRAINTS, seq(TRUE))}.items():
        yield from neither(f"extension-{label}", extensions=[spelled, *ASKED[1:]])


def value_cases():
    """What basicConstraints, keyUsage and extKeyUsage hold."""
    _, used, where = ASKED
    held = lambda octets: dict(extensions=[extension(BASIC_CONSTRAINTS, octets, TRUE), used, where])
    yield from alone("constraints-of-nothing", basic=False, **held(seq()))
    yield from alone("constraints-of-false", basic=False, **held(seq(FALSE)))
    for label, octets in (("a-null", NULL), ("octets", b"xyz"), ("another-value", seq(FALSE)), ("half-a-value", b"\x30\x05")):
        yield from alone(f"constraints-with-{label}-behind", **held(seq(TRUE) + octets))
    for label, octets in {
            "a-length": seq(TRUE, integer(0)), "length-1": seq(TRUE, integer(1)), "a-length-alone": seq(integer(0)),
            "a-null": seq(NULL),
            "two-flags": seq(TRUE, TRUE), "flag-01": seq(b"\1\1\1"), "a-long-flag": seq(b"\1\2\xff\xff"),
            "an-empty-flag": seq(b"\1\0"),
            "a-set": value(0x31, TRUE), "a-flag-alone": TRUE, "no-octets": b"", "an-indefinite-length": indefinite(0x30, TRUE),
            "an-overlong-length": value(0x30, TRUE, overlong), "too-few-octets": b"\x30\3\1\1", "an-end-mark": b"\0\0",
            "something-before": NULL + seq(TRUE)}.items():
        yield from alone(f"constraints-of-{label}", False, False, **held(octets))
    yield from usage_cases()
    yield from purpose_cases()


def usage_cases():
    """Requests with other usages of the key."""
    ca, _, where = ASKED
    held = lambda octets: dict(extensions=[ca, extension(KEY_USAGE, octets, TRUE), where])
    yield from alone("usage-of-an-entity", usage="ee", **held(EE))
    yield from alone("usage-with-a-null-behind", **held(CA + NULL))
    yield from alone("usage-with-octets-behind", usage="ee", **held(EE + b"\xff\xff"))
    for digits in (
            "03020006", "03020206", "03020086", "03020186", "03020100", "03020102", "03020104", "03020107", "0303010600",
            "0303010006", "030100",
            "0300", "03020080", "03020700", "03020640", "030207a0", "03020680", "0303078000", "030205a0", "0304010600",
            "02020106",
            "04020106", "0381020106", "230403020106", "2380030201060000", "", "03", "0302", "030201", "300403020106"):
        yield from alone(f"usage-{digits or 'of-nothing'}", False, False, **held(bytes.fromhex(digits)))


def purpose_cases():
    """Requests with extended usages."""
    held = lambda octets: dict(extensions=[*ASKED, extension(EXTENDED_KEY_USAGE, octets)])
    yield from alone("purposes-with-octets-behind", purposes=[BGPSEC_ROUTER], **held(seq(BGPSEC_ROUTER) + b"\xff"))
    yield from alone("router-behind-the-purposes", router=False, purposes=[SERVER], **held(seq(SERVER) + BGPSEC_ROUTER))
    for label, octets in {
            "a-null": seq(NULL), "a-null-behind": seq(BGPSEC_ROUTER, NULL), "a-null-before": seq(NULL, BGPSEC_ROUTER),
            "an-empty-identifier": seq(value(6, b"")), "an-open-identifier": seq(BGPSEC_ROUTER, value(6, b"\x2b\x86")),
            "a-constructed-identifier": seq(value(0x26, BGPSEC_ROUTER)), "a-set": value(0x31, BGPSEC_ROUTER),
            "one-alone": BGPSEC_ROUTER,
            "no-octets": b"", "an-indefinite-length": indefinite(0x30, BGPSEC_ROUTER), "a-sequence": seq(seq(BGPSEC_ROUTER)),
            "an-overlong-identifier": seq(value(6, BGPSEC_ROUTER[2:], overlong))}.items():
        yield from alone(f"purposes-of-{label}", False, False, **held(octets))


# ---- locations

AWAY = b"rsync://example.net/module/other/", b"rsync://example.net/module/other.mft", b"https://example.net/other.xml"
BAD_RSYNC = {
    "another-scheme": b"https://localhost/repo/ca/", "no-scheme": b"localhost/repo/ca/", "one-slash": b"rsync:/localhost/repo/",
    "no-module": b"rsync://localhost/", "module-without-slash": b"rsync://localhost/repo", "no-host": b"rsync:///repo/",
    "empty-module": b"rsync://localhost//", "dots": b"rsync://localhost/repo/../x", "dot": b"rsync://localhost/repo/.",
    "dot-module": b"rsync://localhost/./x", "space": b"rsync://localhost/repo/a b", "quote": b'rsync://localhost/repo/"',
    "caret": b"rsync://localhost/repo/^", "zero": b"rsync://localhost/repo/\0",
    "utf-8": "rsync://localhost/repo/\u00e9".encode(), "latin-1": b"rsync://localhost/repo/\xe9",
    "delete": b"rsync://localhost/repo/\x7f", "empty": b"", "scheme-alone": b"rsync://",
    "space-before": b" rsync://localhost/repo/"}
BAD_HTTPS = {
    "another-scheme": b"rsync://localhost/repo/ca/", "http": b"http://localhost/notify.xml", "no-host": b"https:///notify.xml",
    "scheme-alone": b"https://", "dots": b"https://localhost/../x", "dot": b"https://localhost/a/./x",
    "space": b"https://localhost/a b", "utf-8": "https://localhost/\u00e9".encode(), "empty": b""}
OTHER_KINDS = {
    "mail": 0x81, "dns": 0x82, "scheme-85": 0x85, "address": 0x87, "registered": 0x88,
    "context-6-of-two-octets": None, "ia5": 0x16, "utf-8": 0x0C, "application": 0x46, "private": 0xC6}


def located(label, descriptions, found):
    """A request of an authority with these descriptions, and what is found in them."""
    yield from alone(label, extensions=[*ASKED[:2], access(*descriptions)], found=found)


def deep(levels):
    """A name in that many values round it."""
    return value(0xA0, deep(levels - 1)) if levels else seq()


def location_cases():
    """Requests with locations of several kinds and schemes."""
    names = ("repository", REPOSITORY), ("manifest", MANIFEST), ("notify", NOTIFY)
    yield from located("no-location", [], (None,) * 3)
    yield from located("locations-turned", DESCRIBED[::-1], HERE)
    for at, (label, method) in enumerate(names):
        without = tuple(None if at == n else location for n, location in enumerate(HERE))
        own, others = description(method, HERE[at]), [d for n, d in enumerate(DESCRIBED) if n != at]
        away = tuple(AWAY[n] if at == n else location for n, location in enumerate(HERE))
        yield from located(f"{label}-missing", others, without)
        yield from located(f"{label}-alone", [own], tuple(location if at == n else None for n, location in enumerate(HERE)))
        yield from located(f"{label}-twice", [*DESCRIBED, description(method, AWAY[at])], HERE)
        yield from located(f"{label}-twice-turned", [description(method, AWAY[at]), *DESCRIBED], away)
        bad = BAD_HTTPS if method == NOTIFY else BAD_RSYNC
        for kind, location in bad.items():
            yield from located(f"{label}-{kind}-first", [description(method, location), *DESCRIBED], HERE)
            yield from located(f"{label}-{kind}-last", [*others, own, description(method, location)], HERE)
            yield from located(f"{label}-{kind}-alone", [*others, description(method, location)], without)
        for kind, tag in OTHER_KINDS.items():
            other = description(method, AWAY[at], tag) if tag else seq(method, b"\x9f\x06" + value(0, AWAY[at])[1:])
            yield from located(f"{label}-of-{kind}-first", [other, *DESCRIBED], HERE)
            yield from located(f"{label}-of-{kind}-alone", [*others, other], without)
        yield from located(f"{label}-in-segments", [seq(method, value(0xA6, value(0x16, AWAY[at]))), *DESCRIBED], HERE)
        yield from located(f"{label}-in-empty-segments", [seq(method, value(0xA6, b"")), *others], without)
        yield from located(f"{label}-of-a-name", [seq(method, value(0xA4, name(1, 0))), *DESCRIBED], HERE)
        yield from located(f"{label}-of-a-deep-name", [seq(method, deep(300)), *DESCRIBED], HERE)
        yield from located(f"{label}-of-null", [seq(method, NULL), *DESCRIBED], HERE)
    yield from constructed_uri_cases()
    yield from method_cases()
    yield from spelled_uri_cases()
    yield from no_description_cases()


def constructed_uri_cases():
    """A URI that is also values: `RS` is an identifier and a length of 83. Constructed, it is no string of DER (X.690, 10.2)."""
    uri = b"RSYNC://localhost/repo/".ljust(85, b"a")
    yield from located("uri-of-values", [description(REPOSITORY, uri), *DESCRIBED[1:]], (uri, *HERE[1:]))
    yield from located("constructed-uri-of-values", [description(REPOSITORY, uri, 0xA6), *DESCRIBED[1:]], (None, *HERE[1:]))


def method_cases():
    """Locations of another method are passed over, whatever they are, and one location may stand under all."""
    for label, method in (
            ("signed-object", SIGNED_OBJECT), ("longer", oid("1.3.6.1.5.5.7.48.5.1")), ("shorter", oid("1.3.6.1.5.5.7.48")),
            ("issuers", oid("1.3.6.1.5.5.7.48.2"))):
        yield from located(f"method-{label}", [description(method, location) for location in AWAY] + DESCRIBED, HERE)
        yield from located(f"method-{label}-alone", [description(method, location) for location in AWAY], (None,) * 3)
        yield from located(f"method-{label}-of-null", [seq(method, NULL), *DESCRIBED], HERE)
    one = HERE[0]
    yield from located("one-location", [description(method, one) for method in (REPOSITORY, MANIFEST, NOTIFY)],
        (one, one, None))
    yield from located("exchanged", [description(NOTIFY, HERE[0]), description(REPOSITORY, HERE[2]),
        description(MANIFEST, HERE[1])],
        (None, HERE[1], None))


def spelled_uri_cases():
    """URIs are kept as they are written."""
    for label, uri in (
            ("module", b"rsync://localhost/repo/"), ("upper-case", b"RSYNC://LocalHost/Repo/X"),
            ("mixed-case", b"rSyNc://h/m/"),
            ("port", b"rsync://localhost:8873/repo/x"), ("marks", b"rsync://h/m/!#$%&'()*+,-;=?@[]_~"),
            ("slashes", b"rsync://h/m//a//"),
            ("near-dots", b"rsync://h/m/.../..a/a../.a")):
        yield from located(f"uri-{label}", [description(REPOSITORY, uri), description(MANIFEST, uri)], (uri, uri, None))
    for label, uri in (
            ("host", b"https://localhost"), ("host-and-slash", b"https://localhost/"), ("upper-case", b"HTTPS://LocalHost/X"),
            ("port", b"https://localhost:443/a"), ("query", b"https://h/a?b=c#d"), ("slashes", b"https://h//a//"),
            ("near-dots", b"https://h/.../a..")):
        yield from located(f"https-{label}", [description(NOTIFY, uri)], (None, None, uri))


def no_description_cases():
    """Requests whose locations are malformed."""
    held = lambda octets: dict(extensions=[*ASKED[:2], extension(SUBJECT_INFO_ACCESS, octets)])
    yield from alone("access-with-octets-behind", **held(seq(*DESCRIBED) + b"\xff"))
    yield from alone("access-with-another-behind", **held(seq(*DESCRIBED[:2]) + seq(DESCRIBED[2])), found=(*HERE[:2], None))
    for label, octets in {
            "no-octets": b"", "a-null": seq(NULL), "a-null-behind": seq(*DESCRIBED, NULL),
            "a-set": value(0x31, b"".join(DESCRIBED)),
            "one-description": DESCRIBED[0][2:], "a-set-described": seq(value(0x31, DESCRIBED[0][2:])),
            "a-method-alone": seq(*DESCRIBED, seq(REPOSITORY)),
            "two-locations": seq(seq(REPOSITORY, value(0x86, HERE[0]), value(0x86, HERE[0]))),
            "an-empty-description": seq(*DESCRIBED, seq()),
            "no-method": seq(seq(value(0x86, HERE[0]))), "turned": seq(seq(value(0x86, HERE[0]), REPOSITORY)),
            "an-indefinite-length": indefinite(0x30, b"".join(DESCRIBED)),
            "an-indefinite-description": seq(indefinite(0x30, REPOSITORY + value(0x86, HERE[0]))),
            "an-overlong-location": seq(seq(REPOSITORY, value(0x86, HERE[0], overlong))),
            "an-indefinite-name": seq(seq(REPOSITORY, indefinite(0xA4, b""))),
            "an-overlong-name": seq(seq(REPOSITORY, value(0xA4, value(0x30, b"", overlong)))),
            "a-name-of-no-value": seq(seq(REPOSITORY, value(0xA4, b"\x30"))), "an-end-mark": seq(seq(REPOSITORY, b"\0\0")),
            "too-few-octets": seq(*DESCRIBED)[:-1], "segments-of-no-value": seq(seq(REPOSITORY, value(0xA6, HERE[0])))}.items():
        yield from alone(f"access-of-{label}", False, False, **held(octets))


# ---- BER


def ber_cases():
    """Requests are in DER; the calls that go on from a cursor follow its mode, but for what extensions hold."""
    segments = lambda octets: indefinite(0x24, octet_string(octets[:3]) + octet_string(octets[3:]))
    spelled = lambda spell: [extension(BASIC_CONSTRAINTS, seq(TRUE), string=spell), *ASKED[1:]]
    for label, options in {
            "indefinite": dict(whole=loose), "overlong": dict(whole=longer), "indefinite-info": dict(info=loose),
            "overlong-info": dict(info=longer),
            "indefinite-subject": dict(subject=loose()), "overlong-subject": dict(subject=value(0x30, b"", overlong)),
            "overlong-version": dict(version=value(2, b"\0", overlong)),
            "indefinite-attributes": dict(tagged=lambda asked: indefinite(0xA0, asked)),
            "indefinite-attribute": dict(attribute=loose(EXTENSION_REQUEST, indefinite(0x31, loose(*ASKED)))),
            "segments": dict(extensions=spelled(segments)),
            "overlong-value": dict(extensions=spelled(lambda x: value(4, x, overlong))),
            "loosely-flagged": dict(extensions=[extension(BASIC_CONSTRAINTS, seq(TRUE), b"\1\1\1"), *ASKED[1:]]),
            "overlong-bits": dict(spelled_bits=None)}.items():
        for router in (False, True):
            own = dict(options)
            if label == "overlong-bits":
                own["spelled_bits"] = value(3, b"\0" + signature_of(options_of(router)), overlong)
            tail = "-router" if router else ""
            yield from read(f"{label}{tail}-in-ber", "ber", router, **own)
            yield from read(f"{label}{tail}-in-der", "der", router, reads=False, **own)
    yield from read("indefinite-algorithm-in-ber", "ber", algorithm=loose(RSA_SHA256, NULL), written=ALGORITHM)
    yield from read("indefinite-algorithm-without-null-in-ber", "ber", algorithm=loose(RSA_SHA256), written=seq(RSA_SHA256))
    yield from read("indefinite-algorithm-router-in-ber", "ber", router=True, algorithm=loose(ROUTER[2:]), written=ROUTER)
    yield from read("indefinite-algorithm-in-der", reads=False, algorithm=loose(RSA_SHA256, NULL))
    yield from read("overlong-key-in-ber", "ber", spelled_key=longer(seq(RSA, NULL), bits(key_bits(1, 0))))
    yield from read("overlong-key-in-der", reads=False, spelled_key=longer(seq(RSA, NULL), bits(key_bits(1, 0))))
    for label, held in (("constraints", [extension(BASIC_CONSTRAINTS, loose(TRUE)), *ASKED[1:]]),
            ("access", [*ASKED[:2], extension(SUBJECT_INFO_ACCESS, loose(*DESCRIBED))]),
            ("flag", [extension(BASIC_CONSTRAINTS, seq(b"\1\1\1")), *ASKED[1:]])):
        for router in (False, True):
            yield from read(f"loose-{label}-in-ber{'-router' * router}", "ber", router, reads=False, extensions=held)
    yield from read("good-in-ber", "ber", strictly=True)


# ---- sizes


def long_uri(scheme, size):
    """A URI of this size."""
    return scheme.ljust(size, b"a")


def size_cases():
    """Requests with parts of the sizes."""
    for n in SIZES:
        part = b"a" * n
        yield from read(f"subject-of-{n}", subject=seq(relative(attribute(oid("2.5.4.3"), value(12, part)))))
        yield from read(f"subject-of-{n}-names", subject=seq(*[relative(attribute(oid("2.5.4.3"), NULL))] * n))
        yield from read(f"key-of-{n}", key=("rsa",
            part), signature=hashlib.sha256(part + info(options_of(key=("rsa", part)))).digest())
        yield from read(f"signature-of-{n}", signature=part, holds=False)
        yield from read(f"signature-of-{n}-router", router=True, signature=part, holds=False)
        yield from read(f"extension-of-{n}", extensions=[*ASKED[:1], extension(KEY_USAGE, CA.ljust(n, b"\xff"), TRUE),
            ASKED[2]])
        many = [SERVER] * (n - 1) + [BGPSEC_ROUTER]
        yield from read(f"{n}-purposes", router=True, extensions=[purposes(*many)], purposes=many)
        yield from read(f"{n}-descriptions", extensions=[*ASKED[:2], access(*[seq(REPOSITORY, NULL)] * n, *DESCRIBED)])
        yield from long_uri_cases(n)
    yield from read("unknown-extensions", reads=False, extensions=[*ASKED, *[extension(UNKNOWN, b"")] * 65536])


def long_uri_cases(n):
    """Requests with URIs of this size."""
    rsync, https = long_uri(b"rsync://localhost/repo/", n), long_uri(b"https://localhost/", n)
    found = (rsync, rsync, https) if n <= 65535 else HERE
    longs = [description(REPOSITORY, rsync), description(MANIFEST, rsync), description(NOTIFY, https)]
    yield from read(f"locations-of-{n}", extensions=[*ASKED[:2], access(*longs, *DESCRIBED)], found=found)


# ---- of other software


def named(*parts):
    """A name: the attributes with their string's tag, each in a set of its own."""
    return seq(*[relative(attribute(oid(f"2.5.4.{kind}"), value(tag, text))) for kind, tag, text in parts])


CAROL, ROUTER_NAME = named((3, 12, b"Carol")), named((3, 12, b"ROUTER-0000fbf0"))
CAROLS = b"rsync://localhost/repo/carol/", b"rsync://localhost/repo/carol/ca.mft", b"https://localhost/notify.xml"


def of_openssl(label, subject, asked, router=False, rsa=False):
    """A request, with what `openssl req -text` and `openssl asn1parse` print of it; where nothing is asked, it is malformed."""
    octets, (first, last), key, signature = openssl.PLACES[label]
    shown = asked and (
        subject, "rsa" if rsa else "ec", octets[slice(*key)], openssl.RSA_IDENTIFIER if rsa else openssl.POINT_IDENTIFIER,
        *asked,
        octets[first:last], octets[signature:], octets)
    own, other = KINDS[router], KINDS[not router]
    yield line(f"openssl-{label}", "der", octets, answered(own, shown), step(other, MALFORMED), step("certificate", MALFORMED),
        step(f"{own}_holds", *([False] if shown else [MALFORMED])))


def openssl_cases():
    """The requests that OpenSSL made."""
    yield from of_openssl("authority", CAROL, (True, "ca", b"", *CAROLS), rsa=True)
    yield from of_openssl(
        "entity", named((6, 0x13, b"NL"), (10, 12, b"Example"), (3, 12, b"Carol")),
        (False, "ee", joined(SERVER, BGPSEC_ROUTER), b"", b"rsync://localhost/repo/x.mft", b""), rsa=True)
    yield from of_openssl("on-a-curve", CAROL, (b"",), router=True)
    yield from of_openssl("router", ROUTER_NAME, (joined(BGPSEC_ROUTER),), router=True)
    yield from of_openssl("without-purpose", ROUTER_NAME, (b"",), router=True)
    yield from of_openssl("another-purpose", ROUTER_NAME, None, router=True)
    yield from of_openssl("with-access", ROUTER_NAME, (b"",), router=True)
    yield from of_openssl("without-attributes", ROUTER_NAME, None, router=True)
    octets, _, key, _ = openssl.PLACES["certificate"]
    shown = "rsa", octets[slice(*key)], openssl.RSA_IDENTIFIER, octets, base64.b64encode(octets)
    yield line("openssl-certificate", "both", octets, answered("certificate", shown), step("authority", MALFORMED),
        step("router", MALFORMED))


# ---- making


def asked_for(repository, manifest=None, notify=None, form="rsa", key=0, failing=None):
    """The argument of a request that is to be made."""
    call = "-" if failing is None else str(failing)
    return " ".join([form, str(key), call, repository, manifest or "rsync://localhost/repo/ca.mft", notify or "-"]).encode()


def made(label, repository, slashed, manifest="rsync://localhost/repo/ca.mft", notify=None, failing=None):
    """The request that is made of these, read again."""
    places = [(REPOSITORY, slashed), (MANIFEST, manifest), *([(NOTIFY, notify)] if notify else [])]
    places = [description(method, location.encode()) for method, location in places]
    o = options_of(extensions=[constraints(TRUE), usage(), extension(SUBJECT_INFO_ACCESS, seq(*places), FALSE)],
        found=(slashed.encode(), manifest.encode(), notify.encode() if notify else None))
    asked = asked_for(repository, manifest, notify)
    yield line(f"made-{label}", "der", request(o), step("made", request(o), 0,
        argument=asked_for(repository, manifest, notify, failing=failing)),
        step("to_be_signed", *key_fields(0), info(o), argument=asked), step("self_signed", request(o), argument=asked),
        answered("authority", fields(o)), step("router", MALFORMED), step("authority_holds", True))


# Why no request is made, and what that prints.
REFUSALS = {
    "key not found": "key not found", "incompatible key": "key not compatible with algorithm", "signer": "toy fault",
    "uri too long": "the URI with its slash is unlawful"}


def unmade(label, why, faults=0, repository="rsync://localhost/repo/x", **options):
    """A request that isn't made, and why."""
    yield line(f"unmade-{label}", "der", b"", step("made", why, REFUSALS[why], faults, argument=asked_for(repository, **options)))


def long_text(scheme, size, tail=""):
    """A URI of this size, with this end."""
    return scheme + "a" * (size - len(scheme) - len(tail)) + tail


def making_cases():
    """Requests that are made with the toy signer, of which each call fails in turn."""
    notify = "https://localhost/repo/notify.xml"
    yield from made("all", "rsync://localhost/repo/x", "rsync://localhost/repo/x/", notify=notify)
    yield from made("without-notify", "rsync://localhost/repo/x", "rsync://localhost/repo/x/")
    yield from made("call-0-failing-later", "rsync://localhost/repo/x", "rsync://localhost/repo/x/", notify=notify, failing=3)
    for label, text in (("directory", "x/"), ("module", ""), ("slashes", "x//"), ("deep", "a/b/c/")):
        text = f"rsync://localhost/repo/{text}"
        yield from made(label, text, text, notify=notify)
    yield from made("upper-case", "RSYNC://LocalHost/Repo/X", "RSYNC://LocalHost/Repo/X/", notify="HTTPS://LocalHost")
    yield from made("near-dots", "rsync://localhost/repo/...", "rsync://localhost/repo/.../")
    yield from made("one-location", "rsync://localhost/repo/x", "rsync://localhost/repo/x/",
        manifest="rsync://localhost/repo/x/")
    for size in (127, 128, 255, 256, 65534):
        text = long_text("rsync://localhost/repo/", size)
        yield from made(f"repository-of-{size}", text, text + "/", notify=notify)
    for size in (127, 128, 256, 65535):
        text = long_text("rsync://localhost/repo/", size, "/")
        yield from made(f"directory-of-{size}", text, text)
        yield from made(f"manifest-and-notify-of-{size}", "rsync://localhost/repo/x", "rsync://localhost/repo/x/",
            manifest=long_text("rsync://localhost/repo/", size), notify=long_text("https://localhost/", size))
    yield from long_cases()
    yield from unmade_cases()


def long_cases():
    """A signature of zeros may have 2^16 octets; the URI is tested before it."""
    here, long = "rsync://localhost/repo/x", long_text("rsync://localhost/repo/", 65535)
    places = [description(REPOSITORY, f"{here}/".encode()), description(MANIFEST, b"rsync://localhost/repo/ca.mft")]
    asked = [constraints(TRUE), usage(), extension(SUBJECT_INFO_ACCESS, seq(*places), FALSE)]
    for count in (0, 127, 128, 255, 256, 65535, 65536):
        octets = request(options_of(extensions=asked, signature=bytes(count)))
        yield line(f"made-with-a-signature-of-{count}", "der", bytes(count),
            step("made_long", octets, 0, argument=f"{count} {here}".encode()),
            step("with_signature", octets, argument=asked_for(here)))
    yield line("unmade-signature-too-long", "der", b"", step("made_long", "too long", "key or signature too long", 1,
        argument=f"65537 {here}".encode()))
    for count in (0, 65537):
        yield line(f"unmade-uri-before-a-signature-of-{count}", "der", b"", step("made_long", "uri too long", REFUSALS["uri too long"], 0,
            argument=f"{count} {long}".encode()))
    for call in "to_be_signed", "with_signature", "self_signed":
        yield line(f"uri-too-long-{call}", "der", b"", step(call, "uri too long", argument=asked_for(long)))


def unmade_cases():
    """The signer's call 1 gives the key, then the URI is tested, then the signer's call 2 signs: the first refusal decides."""
    long = long_text("rsync://localhost/repo/", 65535)
    yield from unmade("key-missing", "key not found", key=5)
    yield from unmade("on-a-curve", "incompatible key", form="ec")
    for call in 1, 2:
        yield from unmade(f"call-{call}-failing", "signer", 1, failing=call)
        yield from unmade(f"call-{call}-failing-on-a-curve", "signer", 1, form="ec", failing=call)
        yield from unmade(f"call-{call}-failing-with-notify", "signer", 1, failing=call,
            notify="https://localhost/repo/notify.xml")
    yield from unmade("key-missing-at-a-failing-call", "signer", 1, key=5, failing=1)
    yield from unmade("key-missing-before-a-failing-call", "key not found", key=5, failing=2)
    yield from unmade("too-long", "uri too long", repository=long)
    yield from unmade("too-long-on-a-curve", "uri too long", repository=long, form="ec")
    yield from unmade("too-long-with-key-missing", "key not found", repository=long, key=5)
    yield from unmade("too-long-at-call-1", "signer", 1, repository=long, failing=1)
    yield from unmade("too-long-before-call-2", "uri too long", repository=long, failing=2)


def lines():
    """All lines."""
    for cases in (
            good_cases, algorithm_cases, frame_cases, attribute_cases, next_attribute_cases, invalid_attribute_cases, extension_cases,
            value_cases, location_cases, ber_cases,
            size_cases, certificate_cases, openssl_cases, making_cases):
        yield from cases()


if __name__ == "__main__":
    write("test_requests", lines())
