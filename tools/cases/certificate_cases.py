#!/usr/bin/env python3
"""Writes identity certificates and CRLs, and what their calls have to answer: crates/test_certificates/data/cases.txt, and the
stdout beside it.

The certificates are put together here from RFC 5280, 4.1, and signed by the rules of the toy scheme in tools/cases/signed_messages.py; each
expected answer is what they were put together from. Four were made by other software, and their fields are what that prints.

A line is `NAME MODE OCTETS STEP..`, with the steps of tools/cases/stored_cases.py; MODE is `der`, `ber` or `both`. What the calls answer:

    certificate whole decoded decoded_in_mode
        the fields of tbs; the signed octets, the signature, and the certificate as it is written
    tbs
        serial number, issuer, first and last second, subject; the key's format, bits and identifier; basicConstraints;
        the subject's and the authority's key identifier; what is written
    version
        ok, where the version is 3
    end_entity,'SEED/NUMBER/MOMENT anchor,.. within,..
        ok, or kind, number and text of the failing check; within: its number where the first of an end entity's checks has number 4
    each,.. signed,..
        whether each of an end entity's checks holds; whether the signature does
    validity,.. named,..
        whether the moment is in the validity; ok where the key is named as the issuer's, else 7
    crl whole_crl
        the fields of tbs_crl; the signed octets, the signature, and the CRL as it is written
    tbs_crl whole_tbs_crl
        issuer, first and last second, the octets of the list's entries, the authority's key identifier, the number; what is written
    list whole_list
        of a copy the octets of the entries, what is written, and the number and second of each
    entry whole_entry
        the number and second of one entry, and what is written, without extensions
    lists,'NUMBER last_entry,ENTRY
        whether the list has the number, and whether an empty one has it; whether this is the last entry
    crl_check,FORMAT MOMENT
        ok, or the number of the failing check, where every signature holds under a key of its format, which is 0 or 1
    made_anchor,'0/FIRST/LAST made_entity,'NUMBER/FIRST/LAST
        what is written of the certificate that the toy signer of seed 1 makes with its key number 0, of itself or of the key with this
        number, whatever the octets are
    unsigned,'NUMBER/FIRST/LAST to_be_signed,.. with_signature,..
        the fields of tbs of what is to be signed with serial number 7 under key number 0; these octets; the certificate whose signature
        the octets are
    write_extension,IDENTIFIER write_critical,IDENTIFIER write_authority,KEY
        the extension that holds the octets; the octets, and behind them authorityKeyIdentifier where a key is named
    data_signed,'SEED/NUMBER/MOMENT
        as signed, of the signed data
    toy_signer,'FAILING/CALL/CALL.. long_signer,'COUNT/CALL/CALL..
        what the calls of a signer of seed 1 answer: numbers, keys as they are written, signatures and octets, or the text of the refusal;
        and at the end how many calls failed, or how many signatures were too long
    toy_signature,NUMBER toy_holds,KIND FORMAT NUMBER SIGNATURE
        the bits of the key with this number and its signature of the octets; whether a signature holds under a key of this format
"""

import hashlib
import itertools
from types import SimpleNamespace

from signed_messages import (
    ALGORITHM, AUTHORITY_KEY, BASIC_CONSTRAINTS, FIRST, LAST, NOW, NULL, RSA, RSA_SHA256, SUBJECT_KEY, bits,
    drawn_serial, indefinite, integer, key_bits, key_identifier, name, octet_string, oid, overlong, seq, sign, time,
    value,
)
from stored_cases import DONE, MALFORMED, SIZES, line, step, write
from value_cases import EC, P256, attribute, relative

OTHER = bytes(range(20))
TRUE, FALSE = b"\1\1\xff", b"\1\1\0"


def extension(kind, contents, critical=b"", string=octet_string):
    """An extension: its identifier, its flag if any, and what it holds."""
    return seq(kind, critical, string(contents))


def constraints(*parts):
    """Critical basic constraints of these parts."""
    return extension(BASIC_CONSTRAINTS, seq(*parts), TRUE)


def subject_key(identifier):
    """The extension of the subject's key identifier."""
    return extension(SUBJECT_KEY, octet_string(identifier))


def authority_key(*parts):
    """The extension of the authority's key identifier, of these parts."""
    return extension(AUTHORITY_KEY, seq(*parts))


def key_of(key):
    """The key: its format and its bits, or a number of the toy scheme's seed 1."""
    return ("rsa", key_bits(1, key)) if isinstance(key, int) else key


def spelled_key(key):
    """A key as a certificate spells it."""
    form, octets = key_of(key)
    return seq(seq(RSA, NULL) if form == "rsa" else seq(EC, P256), bits(octets))


# What a certificate is made of. A None leaves a part out or has it follow from the others; a function turns what it is given.
GOOD = dict(
    version=value(0xA0, integer(2)), serial=1, inner=ALGORITHM, issuer=name(1, 0), validity=(FIRST, LAST), subject=name(1, 1),
    key=1,
    spelled_validity=None, spelled_key=None, constraints=None, subject_key=None, authority=None, extensions=lambda xs: xs,
    tagged=lambda xs: value(0xA3, seq(*xs)), outer=ALGORITHM, signer=0, signature=None, spoilt=False, behind=b"", tbs=seq,
    whole=seq)


def options_of(**options):
    """What a certificate is made of: the good one, but for these options."""
    o = SimpleNamespace(**{**GOOD, **options})
    o.own = o.subject_key or hashlib.sha1(key_of(o.key)[1]).digest()
    return o


def listed(o, written=False):
    """The extensions, in the order in which they are written."""
    made = [] if o.constraints is None else [constraints(TRUE) if o.constraints else constraints()]
    made += [subject_key(o.own)] + ([authority_key(value(0x80, o.authority))] if o.authority else [])
    return made if written else o.extensions(made)


def signed_part(o):
    """The part of a certificate that is signed."""
    return o.tbs(
        o.version, integer(o.serial), o.inner, o.issuer, o.spelled_validity or seq(*map(time, o.validity)), o.subject,
        o.spelled_key or spelled_key(o.key), o.tagged(listed(o)), o.behind)


def written_part(o):
    """What is written of what is signed: the fields, with the algorithm with NULL."""
    return seq(
        value(0xA0, integer(2)), integer(o.serial), ALGORITHM, o.issuer, seq(*map(time, o.validity)), o.subject,
        spelled_key(o.key),
        value(0xA3, seq(*listed(o, written=True))))


def signature_of(o):
    """The signature of a certificate: that of the options, or the toy key's."""
    return o.signature if o.signature is not None else sign(1, o.signer, signed_part(o), o.spoilt)


def certificate(o):
    """The octets of a certificate."""
    return o.whole(signed_part(o), o.outer, bits(signature_of(o)))


def tbs_fields(o):
    """What is read of the signed part of a certificate."""
    form, octets = key_of(o.key)
    basic = b"" if o.constraints is None else o.constraints
    return (
        o.serial.to_bytes(20, "big"), o.issuer, *o.validity, o.subject, form, octets, hashlib.sha1(octets).digest(), basic, o.own,
        o.authority or b"", written_part(o))


def fields(o, outer=None):
    """What is read of a certificate."""
    return *tbs_fields(o), signed_part(o), signature_of(o), seq(signed_part(o), outer or o.outer, bits(signature_of(o)))


def read(label, mode="both", written_outer=None, **options):
    """The certificate is read by each call, as its fields."""
    o = options_of(**options)
    octets, shown = certificate(o), fields(o, written_outer)
    yield line(label, mode, octets, step("whole", *shown))
    decoded = [step("decoded_in_mode", *shown), step("decoded", MALFORMED)] if mode == "ber" else [step("decoded", *shown)]
    yield line(f"{label}-behind", mode, octets + NULL, step("whole", MALFORMED), *decoded, step("certificate", *shown),
        step("capture", NULL))
    yield line(f"{label}-signed", mode, signed_part(o), step("tbs", *tbs_fields(o)), step("capture", MALFORMED))
    if mode == "ber":
        yield from refused(f"{label}-in-der", "der", octets)


def refused(label, mode, octets):
    """Octets that are no certificate by any call."""
    yield line(label, mode, octets, step("whole", MALFORMED), step("decoded", MALFORMED), step("decoded_in_mode", MALFORMED),
        step("certificate", MALFORMED))


def malformed(label, mode="both", **options):
    """Certificates that are none for what the options change."""
    return refused(label, mode, certificate(options_of(**options)))


# ---- reading


def good_cases():
    """Certificates that are read."""
    yield from read("good")
    good = options_of()
    yield line("decoded-in-both-modes", "both", certificate(good) + NULL, step("decoded_in_mode", *fields(good)))
    yield from read("with-authority", authority=key_identifier(1, 0))
    yield from read("with-constraints", constraints=True)
    yield from read("with-empty-constraints", constraints=False, authority=OTHER)
    yield from read("anchor", constraints=True, authority=key_identifier(1, 1), issuer=name(1, 1))
    yield from read("inner-without-null", inner=seq(RSA_SHA256))
    yield from read("outer-without-null", outer=seq(RSA_SHA256))
    yield from read("neither-with-null", inner=seq(RSA_SHA256), outer=seq(RSA_SHA256))
    yield from read("another-identifier", subject_key=OTHER)
    yield from read("empty-names", issuer=seq(), subject=seq())
    yield from read("serial-0", serial=0)
    yield from read("long-serial", serial=(1 << 160) - 1)
    yield from read("serial-of-a-high-bit", serial=1 << 159)
    yield from read("empty-signature", signature=b"")
    yield from read("key-of-ec", key=("ec", bytes(range(65))))
    yield from read("key-of-no-bits", key=("rsa", b""))
    yield from read("key-without-null", spelled_key=seq(seq(RSA), bits(key_bits(1, 1))))
    yield from read("times-of-1950-and-2049", validity=(-631152000, 2524607999))
    yield from read("times-of-1949-and-2050", validity=(-631152001, 2524608000))
    yield from read("times-in-the-other-form",
        spelled_validity=seq(value(0x18, b"20231114220820Z"), value(0x18, b"20231114221820Z")))
    yield from read("from-year-0-to-9999", validity=(-62167219200, 253402300799))
    yield from read("validity-backwards", validity=(LAST, FIRST))


def extension_cases():
    """Certificates whose extensions stand otherwise, are unknown, or hold more."""
    unknown = extension(oid("1.3.6.1.4.1.99999.1"), b"\0\xff", TRUE)
    last = lambda *new: lambda xs: [*xs, *new]
    yield from read("unknown-extensions", extensions=lambda xs: [unknown, *xs, unknown, unknown])
    yield from read("extensions-in-another-order", constraints=True, authority=OTHER, extensions=lambda xs: xs[::-1])
    yield from read("constraints-of-false", constraints=False, extensions=lambda xs: [constraints(FALSE), xs[1]])
    yield from read("constraints-with-a-length", constraints=True, extensions=lambda xs: [constraints(TRUE, integer(0)), xs[1]])
    yield from read("constraints-with-the-longest-length", constraints=True,
        extensions=lambda xs: [constraints(TRUE, integer((1 << 64) - 1)), xs[1]])
    yield from read("constraints-of-a-length-alone", constraints=False, extensions=lambda xs: [constraints(integer(3)), xs[1]])
    yield from read("constraints-not-critical", constraints=True,
        extensions=lambda xs: [extension(BASIC_CONSTRAINTS, seq(TRUE)), xs[1]])
    yield from read("constraints-with-octets-behind", constraints=True,
        extensions=lambda xs: [extension(BASIC_CONSTRAINTS, seq(TRUE) + b"\0"), xs[1]])
    yield from read("subject-with-octets-behind",
        extensions=lambda xs: [extension(SUBJECT_KEY, octet_string(key_identifier(1, 1)) + b"xyz")])
    yield from read("empty-authority", extensions=last(authority_key()))
    yield from read("authority-without-key", extensions=last(authority_key(value(0xA1, seq()), value(0x82, b"\1"))))
    yield from read("authority-and-more", authority=OTHER,
        extensions=lambda xs: [xs[0], authority_key(value(0x80, OTHER), value(0xA1, seq()), value(0x82, b"\1"))])
    yield from read("two-authorities", authority=OTHER, extensions=lambda xs: [authority_key(value(0x80, bytes(20))), *xs])
    yield from read("last-authority-empty", extensions=last(authority_key(value(0x80, OTHER)), authority_key()))
    yield from read("critical-false", extensions=lambda xs: [extension(SUBJECT_KEY, octet_string(key_identifier(1, 1)), FALSE)])
    for label, new in {
            "constraints-twice": [constraints(TRUE), constraints(TRUE)],
            "empty-constraints-twice": [constraints(), constraints()],
            "subject-twice": [subject_key(OTHER)], "constraints-negative": [constraints(TRUE, value(2, b"\xff"))],
            "constraints-of-a-long-length": [constraints(TRUE, integer(1 << 64))],
            "constraints-behind": [constraints(TRUE, integer(1), NULL)],
            "constraints-of-two-lengths": [constraints(integer(1), integer(1))],
            "constraints-turned": [constraints(integer(1), TRUE)],
            "constraints-of-null": [constraints(NULL)], "constraints-set": [extension(BASIC_CONSTRAINTS, value(0x31, b""))],
            "constraints-of-01": [constraints(b"\1\1\1")], "constraints-overlong": [extension(BASIC_CONSTRAINTS, b"\x30\x81\0")],
            "constraints-indefinite": [extension(BASIC_CONSTRAINTS, indefinite(0x30, b""))],
            "constraints-of-nothing": [extension(BASIC_CONSTRAINTS, b"")],
            "authority-of-19": [authority_key(value(0x80, OTHER[:19]))],
            "authority-of-21": [authority_key(value(0x80, OTHER + b"x"))],
            "authority-in-segments": [authority_key(value(0xA0, octet_string(OTHER)))],
            "authority-of-no-sequence": [extension(AUTHORITY_KEY, octet_string(OTHER))],
            "authority-of-no-value": [authority_key(b"\0\0")], "extension-without-value": [seq(oid("1.2"))],
            "extension-of-null": [seq(oid("1.2"), NULL)],
            "extension-behind": [seq(oid("1.2"), octet_string(b""), NULL)], "extension-no-sequence": [NULL]}.items():
        yield from malformed(label, extensions=last(*new))
    yield from malformed("without-subject", extensions=lambda xs: [])
    for label, identifier in (("of-19", OTHER[:19]), ("of-21", OTHER + b"x"), ("of-none", b"")):
        yield from malformed(f"subject-{label}", extensions=lambda xs: [subject_key(identifier)])
    yield from malformed("without-extensions", tagged=lambda xs: b"")
    yield from malformed("extensions-twice", tagged=lambda xs: value(0xA3, seq(*xs) + seq()))
    yield from malformed("extensions-under-another-tag", tagged=lambda xs: value(0xA2, seq(*xs)))
    yield from malformed("extensions-without-sequence", tagged=lambda xs: value(0xA3, b"".join(xs)))
    yield from malformed("extensions-empty", tagged=lambda xs: value(0xA3, b""))


def malformed_cases():
    """Certificates of which a part is malformed, missing, twice or too many."""
    yield from malformed("version-1", version=value(0xA0, integer(1)))
    yield from malformed("without-version", version=b"")
    yield from malformed("version-under-another-tag", version=value(0xA1, integer(2)))
    yield from malformed("version-without-tag", version=integer(2))
    yield from malformed("version-behind", version=value(0xA0, integer(2) + NULL))
    yield from malformed("inner-of-signers", inner=seq(RSA, NULL))
    yield from malformed("outer-of-signers", outer=seq(RSA, NULL))
    yield from malformed("issuer-set", issuer=value(0x31, b""))
    yield from malformed("subject-null", subject=NULL)
    yield from malformed("validity-of-three", spelled_validity=seq(time(FIRST), time(LAST), time(LAST)))
    yield from malformed("validity-of-one", spelled_validity=seq(time(FIRST)))
    yield from malformed("key-on-no-curve", spelled_key=seq(seq(EC, NULL), bits(b"")))
    yield from malformed("behind-what-is-signed", behind=NULL)
    yield from malformed("behind-the-signature", whole=lambda *parts: seq(*parts, NULL))
    yield from malformed("without-signature", whole=lambda *parts: seq(*parts[:2]))
    yield from malformed("signature-of-octets", whole=lambda a, b, c: seq(a, b, octet_string(c[3:])))
    yield from malformed("whole-set", whole=lambda *parts: value(0x31, b"".join(parts)))
    yield from malformed("signed-set", tbs=lambda *parts: value(0x31, b"".join(parts)))
    yield from refused("cut", "both", certificate(options_of())[:-1])
    yield from refused("nothing", "both", b"")
    octets = certificate(options_of(serial=1))
    at = octets.index(integer(1) + ALGORITHM)
    for label, wrong in (("negative", b"\2\1\x80"), ("null", b"\5\1\1"), ("padded", b"\2\1\xff")):
        yield from refused(f"serial-{label}", "both", octets[:at] + wrong + octets[at + 3:])


def ber_cases():
    """Certificates in BER, which are read loosely alone."""
    loose = lambda *parts: indefinite(0x30, b"".join(parts))
    longer = lambda *parts: value(0x30, b"".join(parts), overlong)
    yield from read("indefinite", "ber", whole=loose)
    yield from read("of-an-indefinite-value", "ber", tbs=loose)
    yield from read("overlong", "ber", whole=longer)
    yield from read("of-an-overlong-value", "ber", tbs=longer)
    yield from read("overlong-inner-algorithm", "ber", inner=longer(RSA_SHA256, NULL))
    yield from read("indefinite-outer-algorithm", "ber", ALGORITHM, outer=loose(RSA_SHA256, NULL))
    yield from read("indefinite-issuer", "ber", issuer=loose())
    yield from read("indefinite-validity", "ber", spelled_validity=loose(time(FIRST), time(LAST)))
    yield from read("overlong-key", "ber", spelled_key=longer(seq(RSA, NULL), bits(key_bits(1, 1))))
    yield from read("indefinite-version", "ber", version=indefinite(0xA0, integer(2)))
    yield from read("indefinite-extensions", "ber", tagged=lambda xs: indefinite(0xA3, loose(*xs)))
    own = octet_string(key_identifier(1, 1))
    yield from read("extension-in-segments", "ber", extensions=lambda xs: [
        extension(SUBJECT_KEY, own, string=lambda octets: indefinite(0x24, octet_string(octets[:5]) + octet_string(octets[5:])))])
    yield from read("loosely-critical", "ber", extensions=lambda xs: [extension(SUBJECT_KEY, own, b"\1\1\1")])
    yield from malformed("subject-in-segments", extensions=lambda xs: [extension(SUBJECT_KEY, value(0x24, own))])
    yield from malformed("subject-overlong", extensions=lambda xs: [extension(SUBJECT_KEY, value(4, own[2:], overlong))])


def size_cases():
    """Certificates with parts of the sizes."""
    for n in SIZES:
        part = b"a" * n
        yield from read(f"issuer-of-{n}", issuer=seq(relative(attribute(oid("2.5.4.3"), value(12, part)))))
        yield from read(f"subject-of-{n}-names", subject=seq(*[relative(attribute(oid("2.5.4.3"), NULL))] * n))
        yield from read(f"key-of-{n}", key=("rsa", part))
        yield from read(f"signature-of-{n}", signature=part)
        yield from read(f"extension-of-{n}", extensions=lambda xs: [*xs, extension(oid("1.2"), part)])
        yield from read(f"{n}-extensions", extensions=lambda xs: [*xs, *[extension(oid("1.2"), b"")] * n])
        yield from read(f"{n}-authorities", authority=OTHER, extensions=lambda xs: [xs[0], *[authority_key()] * (n - 1), xs[1]])
        yield from read(f"authority-and-{n}", authority=OTHER,
            extensions=lambda xs: [xs[0], authority_key(value(0x80, OTHER), NULL * n)])
        own = octet_string(octet_string(key_identifier(1, 1)))
        yield from read(f"subject-in-{n}-segments", "ber",
            extensions=lambda xs: [seq(SUBJECT_KEY, indefinite(0x24, octet_string(b"") * n + own))])


# ---- checks


def asked(moment=NOW, number=0):
    """The argument of a check: seed, number of the issuer's key, and moment."""
    return f"1/{number}/{moment}"


def failing(kind, number):
    """What is answered where this check fails."""
    return kind, number, f"check {number} failed"


def checked(label, call, answer, moment=NOW, number=0, **options):
    """A line of a certificate and what a list of checks answers of it."""
    steps = [step(call, *answer, argument=asked(moment, number))]
    if call == "end_entity":
        steps.append(step("within", *([DONE] if answer == [DONE] else [answer[1] + 3]), argument=asked(moment, number)))
    return line(f"{call}-{label}", "both", certificate(options_of(**options)), *steps)


# What breaks each check of an end entity alone, and of a trust anchor.
END_ENTITY = {
    1: dict(subject_key=OTHER), 2: dict(validity=(FIRST, NOW - 1)), 3: dict(authority=OTHER), 4: dict(constraints=True),
    5: dict(spoilt=True)}
ANCHOR = dict(constraints=True, authority=key_identifier(1, 1), issuer=name(1, 1), signer=1)
BELOW = {
    1: dict(subject_key=OTHER, authority=OTHER), 2: dict(constraints=None), 3: dict(constraints=False),
    4: dict(validity=(NOW + 1, LAST)),
    5: dict(spoilt=True)}


def first_failing(breaks, kinds, call, good):
    """Certificates of which each set of checks is broken: the first of them is answered."""
    for count in range(1, 6):
        for numbers in itertools.combinations(breaks, count):
            if call == "anchor" and {2, 3} <= set(numbers):
                continue
            options = dict(good)
            for number in numbers:
                options.update(breaks[number])
            answer = failing("inspection" if numbers[0] <= kinds else "verification", numbers[0])
            yield checked("-".join(map(str, numbers)), call, answer, **options)


def each_line(label, broken, moment=NOW, number=0, **options):
    """A line of a certificate, with each check by itself."""
    holds = [check not in broken for check in END_ENTITY]
    argument = asked(moment, number)
    return line(f"each-{label}", "both", certificate(options_of(**options)), step("each", *holds, argument=argument),
        step("signed", holds[4], argument=argument), step("data_signed", holds[4], argument=argument))


def each_cases():
    """Certificates of which each set of checks of an end entity is broken, with each check by itself."""
    good = dict(authority=key_identifier(1, 0))
    for count in range(6):
        for numbers in itertools.combinations(END_ENTITY, count):
            options = dict(good)
            for number in numbers:
                options.update(END_ENTITY[number])
            yield each_line("-".join(map(str, numbers)) or "good", numbers, **options)
    for moment, broken in ((FIRST - 1, (2,)), (FIRST, ()), (LAST, ()), (LAST + 1, (2,))):
        yield each_line(f"at-{moment}", broken, moment, **good)
    yield each_line("under-another-key", (3, 5), number=9, **good)
    yield each_line("under-another-key-unnamed", (5,), number=9)
    yield each_line("under-its-own-key", (3, 5), number=1, **good)
    cut = certificate(options_of())[:-1]
    yield line("each-of-none", "both", cut, *[step(call, MALFORMED, argument=asked()) for call in ("each", "signed",
        "data_signed")])


def check_cases():
    """Certificates at moments, under keys, and with checks broken."""
    yield from first_failing(END_ENTITY, 1, "end_entity", dict(authority=key_identifier(1, 0)))
    yield from first_failing(BELOW, 3, "anchor", ANCHOR)
    moments = ((FIRST - 1, False), (FIRST, True), (LAST, True), (LAST + 1, False))
    for moment, holds in moments:
        yield checked(f"at-{moment}", "end_entity", [DONE] if holds else failing("verification", 2), moment)
        yield checked(f"at-{moment}", "anchor", [DONE] if holds else failing("verification", 4), moment, **ANCHOR)
        yield line(f"validity-at-{moment}", "both", certificate(options_of()), step("validity", holds, argument=asked(moment)))
    yield checked("without-authority", "end_entity", [DONE], constraints=False)
    yield checked("under-another-key", "end_entity", failing("verification", 3), number=9, authority=key_identifier(1, 0))
    yield checked("under-another-key-unnamed", "end_entity", failing("verification", 5), number=9)
    yield checked("of-another-signer", "end_entity", failing("verification", 5), signer=2, authority=key_identifier(1, 0))
    yield checked("of-another-signer", "anchor", failing("verification", 5), **{**ANCHOR, "signer": 2})
    yield checked("without-authority", "anchor", [DONE], constraints=True, spoilt=True)
    yield checked("below-another", "anchor", [DONE], constraints=True, authority=key_identifier(1, 9), signer=9)
    yield checked("on-a-curve", "anchor", failing("verification", 5), **{**ANCHOR, "key": ("ec", key_bits(1, 1))})
    for label, authority, named in (("absent", None, True), ("issuer", key_identifier(1, 0), True), ("another", OTHER, False)):
        yield line(f"named-{label}", "both", certificate(options_of(authority=authority)),
            step("named", *([DONE] if named else [7]), argument=asked()))
    cut = certificate(options_of())[:-1]
    yield line("check-of-none", "both", cut, *[step(call, MALFORMED, argument=asked()) for call in ("end_entity", "anchor",
        "validity", "within", "named")])
    loose = certificate(options_of(tbs=lambda *parts: indefinite(0x30, b"".join(parts))))
    yield line("end_entity-of-an-indefinite-value", "ber", loose, step("end_entity", DONE, argument=asked()))


# ---- certificates of other software


# Of the message that was put together by hand; the signature is zero.
OF_A_MESSAGE = bytes.fromhex(
    "308198308182a003020102020101300d06092a864886f70d01010b05003000301e170d3233313131343232303832305a170d3233313131343232313832305a"
    "30003022300d06092a864886f70d010101050003110000000000000000010000000000000000a321301f301d0603551d0e0416041400000000000000000000"
    "00000000000000000000300d06092a864886f70d01010b050003020000")

# openssl req -x509 -sha256 -newkey rsa:1024 -nodes -keyout key.pem -subj /CN=A -days 3650 -set_serial 0x0123456789abcdef -outform DER
OPENSSL = bytes.fromhex(
    "308201e830820151a00302010202080123456789abcdef300d06092a864886f70d01010b0500300c310a300806035504030c0141301e170d32363131323730"
    "38303535365a170d3336313132343038303535365a300c310a300806035504030c014130819f300d06092a864886f70d010101050003818d00308189028181"
    "00ddc23f99ef0dafbb31ac29f784feb8631538c2a4daa5883b8f68f22f405f0445ba456bcf9f04094e2ccd20b11fc79e4037a05372f9e5ca991010eae502c6"
    "3e4e5f60b897feaa4fbe7160619b5c8cd5f60fb87ab575134a370c3c7334856f72f2f7f73e14b9441bcd2ab45be3c8b0a855b7e72669c2194f0e2eb0abef10"
    "99782f0203010001a3533051301d0603551d0e04160414ea7f8191d3b9099e0d8df9b33c1ebf8203f68edd301f0603551d23041830168014ea7f8191d3b909"
    "9e0d8df9b33c1ebf8203f68edd300f0603551d130101ff040530030101ff300d06092a864886f70d01010b0500038181007d47be4ec61ab02be8c81c54aef8"
    "ee64b5e49369e6205c9840b0be67a3170f5d7efbb25d7327bf24ce69a52513599a6dc63693b2ccd1293c350f1d46d957ceeea5051614d98e1958e18e3fa6ce"
    "0a19779a9586f137eab66e308aa2f884b6448322e636b23afdd9f46da4ec2ca2b2f59064d2af551464b54cc0cad3eae9e5ddb9")
OPENSSL_KEY = bytes.fromhex("ea7f8191d3b9099e0d8df9b33c1ebf8203f68edd")

# Two of the library `cryptography` 48, a CA with a path length of 3 and an end entity below it, whose key is on a curve.
ROUTER = bytes.fromhex(
    "308201cf30820138a00302010202147123456789abcdef0123456789abcdef01234567300d06092a864886f70d01010b0500301a310b300906035504061302"
    "4e4c310b300906035504030c0263613020170d3439313233313233353935395a180f32303530303130313030303030305a3011310f300d06035504030c0672"
    "6f757465723059301306072a8648ce3d020106082a8648ce3d03010703420004c639ff6d4f8e5a289bd3f08c33ca752dcd5a92c6cb1fb6a91dd21256bd0b41"
    "1b8cabb63b51f112eb6608579515aff563299d014f1c704543fdfb7dfefc86153ca360305e300c0603551d130101ff04023000300e0603551d0f0101ff0404"
    "03020780301d0603551d0e041604148f0bbaabe44e0e66c1643cb9a8fd4b92da10085c301f0603551d230418301680140a42cb96f94f099764433ead968a5d"
    "610c9fc001300d06092a864886f70d01010b0500038181006fd726adcc70518ad60ab9e6574a2d0ea461818cb403d813491d95c668647a622f8ec057c6895f"
    "527088aa9d417481ef4addefdb892490c5ff655e1259b37519a5d1cba643a66f73ff05ff4f19569bfc1205a511fcdd3b945a5add89345c8c23d6e68256f08f"
    "08b2f1e4de221d48fae2829f2e62fb686291767c159d9b6e6717")
AUTHORITY = bytes.fromhex(
    "3082020030820169a003020102020101300d06092a864886f70d01010b0500301a310b3009060355040613024e4c310b300906035504030c026361301e170d"
    "3230303130313030303030305a170d3330303130313030303030305a301a310b3009060355040613024e4c310b300906035504030c02636130819f300d0609"
    "2a864886f70d010101050003818d0030818902818100d7faef00503e76f1e4be547c27c80281c2f45395858fe999243e6e6bcab5e5a8e65e62a0b50ccf9ee7"
    "bbb6889b2ab5cd7bc3de8a79749147fb33ae21943dea5c4e08b55b21acebf9afbea480a626b054fef647b2586ecb6f395332859d87a66b4a03eea9b2026f02"
    "166e94e84c5d6621d499cc9f479a216105ef0cc226f4f8650203010001a356305430120603551d130101ff040830060101ff020103301d0603551d0e041604"
    "140a42cb96f94f099764433ead968a5d610c9fc001301f0603551d230418301680140a42cb96f94f099764433ead968a5d610c9fc001300d06092a864886f7"
    "0d01010b050003818100b01da934ccc5982c166500babde1ec0ddca77bbaf56f3430a25e5a104eb034542b657253b8929e6002a90887c41554dd05ac7913b0"
    "1b4a699411436e69da743323581699a60219f9aa8b7b9ab6a91e46251d884a93435f3ace6bf81b46b5dbe8a89c522f4ec31dbbb805e1906982109429677d09"
    "2b7972377401db0002ca9bcb")


def stored(label, octets, signed, signature, *more, **options):
    """A certificate whose fields are stated: the places of its signed octets, and how many octets its signature has; more steps."""
    shown = *tbs_fields(options_of(**options)), octets[slice(*signed)], octets[-signature:], octets
    return line(
        label, "both", octets, step("whole", *shown), step("decoded", *shown), *more, step("certificate", *shown),
        step("capture", MALFORMED))


def elsewhere_cases():
    """Certificates that were made elsewhere."""
    yield stored(
        "of-a-message", OF_A_MESSAGE, (3, 6 + 0x82), 1,
        *[step(call, *failing("inspection", 1), argument=asked()) for call in ("anchor", "end_entity")], issuer=seq(),
        validity=(1699999700, 1700000300), subject=seq(), key=("rsa", key_bits(1, 0)), subject_key=bytes(20))
    plain = seq(relative(attribute(oid("2.5.4.3"), value(12, b"A"))))
    key_at = OPENSSL.index(seq(RSA, NULL)) + len(seq(RSA, NULL)) + 4
    yield stored(
        "of-openssl", OPENSSL, (4, 8 + 0x151), 128, serial=0x0123456789ABCDEF, issuer=plain, validity=(1795766756, 2111126756),
        subject=plain, key=("rsa", OPENSSL[key_at:key_at + 140]), subject_key=OPENSSL_KEY, constraints=True,
        authority=OPENSSL_KEY)
    yield from of_cryptography()


def of_cryptography():
    """The fields as the library `cryptography` reads them."""
    from cryptography import x509
    from cryptography.hazmat.primitives.serialization import Encoding, PublicFormat
    for label, octets in (("of-cryptography", ROUTER), ("ca-of-cryptography", AUTHORITY)):
        cert = x509.load_der_x509_certificate(octets)
        held = {e.oid.dotted_string: e.value for e in cert.extensions}
        spki = cert.public_key().public_bytes(Encoding.DER, PublicFormat.SubjectPublicKeyInfo)
        is_rsa = RSA in spki
        key = spki[22:] if is_rsa else spki[26:]
        o = options_of(
            serial=cert.serial_number, issuer=cert.issuer.public_bytes(),
            validity=tuple(int(t.timestamp()) for t in (cert.not_valid_before_utc, cert.not_valid_after_utc)),
            subject=cert.subject.public_bytes(), key=("rsa" if is_rsa else "ec", key), subject_key=held["2.5.29.14"].digest,
            constraints=held["2.5.29.19"].ca, authority=held["2.5.29.35"].key_identifier)
        shown = (*tbs_fields(o), cert.tbs_certificate_bytes, cert.signature, octets)
        yield line(label, "both", octets, step("whole", *shown), step("decoded", *shown), step("certificate", *shown),
            step("capture", MALFORMED))


# ---- CRLs


def crl_of(issuer=seq(), extensions=(), outer=ALGORITHM, inner=ALGORITHM, entries=b"", signature=b"\0"):
    """A CRL, with a list where there are entries, whose signature is an octet of zero bits unless another is given."""
    listed = seq(entries) if entries else b""
    tbs = seq(integer(1), inner, issuer, time(FIRST), time(LAST), listed, value(0xA0, seq(*extensions)))
    return seq(tbs, outer, bits(signature))


OWN_AUTHORITY = authority_key(value(0x80, key_identifier(1, 0)))
NUMBER = extension(oid("2.5.29.20"), integer(7))
UNKNOWN_CRL = crl_of(extensions=[extension(oid("2.5.29.28"), NULL, TRUE), OWN_AUTHORITY])
OVERLONG_CRL = crl_of(issuer=value(0x30, b"", lambda n: b"\x81\0"))

# openssl ca -gencrl (3.0) with authorityKeyIdentifier = keyid, number 7, and two revoked certificates, the first with a reason
OPENSSL_CRL = bytes.fromhex(
    "3082013f3081a9020101300d06092a864886f70d01010b0500300c310a300806035504030c0141170d3233313131343232303832305a170d32333131313432"
    "32313832305a30383020020101170d3233313131343232313030305a300c300a0603551d1504030a010130140203010203170d323331313134323231313030"
    "5aa02f302d301f0603551d230418301680144820274d74f3d34eff7a40c3f9f495b701200b63300a0603551d140403020107300d06092a864886f70d01010b"
    "0500038181003c1dcffd34e0911c6b83cc245b6e8320e0c6d5ad33dcce54ebef90aeaa20c28d9f8e2e33047bca67689599b1ea9ac9e0f20ddefd13c8045328"
    "f19d6f3f76b31407c17207150efad4d5681dac90539375e15a08a791063228d350c7d954a05068c1894ca8f9c182576a32f667cf94c3cb86023a46bb2535b4"
    "8f89c9c34f68fc91")
OPENSSL_LIST = OPENSSL_CRL[OPENSSL_CRL.index(b"\x30\x38\x30\x20"):][:58]
OPENSSL_AUTHORITY = bytes.fromhex("4820274d74f3d34eff7a40c3f9f495b701200b63")
FIRST_ENTRY, LAST_ENTRY = (1, 1699999800), (0x10203, 1699999860)


def written_crl_part(issuer, listed, authority, number, inner):
    """What is written of what is signed: the fields, with a list in any case."""
    extensions = [authority_key(value(0x80, authority))] if authority else []
    if number is not None:
        extensions.append(extension(oid("2.5.29.20"), integer(number)))
    return seq(integer(1), inner, issuer, time(FIRST), time(LAST), seq(listed), value(0xA0, seq(*extensions)))


def crl_fields(octets, issuer=seq(), listed=b"", authority=b"", number=None, inner=ALGORITHM, outer=ALGORITHM, signature=None):
    """The fields of the CRL that the octets are, whose signed part and signature stand where their lengths say. The signature has one
    octet or 128, unless it is given."""
    written = written_crl_part(issuer, listed, authority, number, inner)
    at = 2 + (octets[1] & 127 if octets[1] > 127 else 0)
    size = int.from_bytes(octets[at + 2:at + 2 + (octets[at + 1] & 127)], "big") + (octets[at + 1] & 127) if octets[
        at + 1] > 127 else octets[at + 1]
    signed = octets[at:at + 2 + size]
    if signature is None:
        signature = octets[-1:] if octets[-4:-2] == b"\3\2" else octets[-128:]
    number = b"" if number is None else number.to_bytes(20, "big")
    return issuer, FIRST, LAST, listed, authority, number, written, signed, signature, seq(signed, outer, bits(signature))


def crl_lines(label, octets, **fields):
    """The lines of a CRL: what is read of it, and of its signed part."""
    shown = crl_fields(octets, **fields)
    yield line(label, "both", octets, step("whole_crl", *shown), step("crl", *shown), step("capture", MALFORMED))
    yield line(f"{label}-signed", "both", shown[7] + NULL, step("whole_tbs_crl", MALFORMED), step("tbs_crl", *shown[:7]),
        step("capture", NULL))


def entry(number, *behind, second=FIRST):
    """An entry of a CRL."""
    return seq(integer(number), time(second), *behind)


def list_lines(label, *entries, behind=(), second=FIRST):
    """A list of these numbers, each of this second, with this behind each date, and its first entry."""
    spelled = [entry(number, *behind, second=second) for number in entries]
    shown = b"".join(spelled), seq(*spelled), *(part for number in entries for part in (number.to_bytes(20, "big"), second))
    yield line(label, "both", seq(*spelled) + NULL, step("whole_list", MALFORMED), step("list", *shown), step("capture", NULL))
    first = entries[0].to_bytes(20, "big"), second, entry(entries[0], second=second)
    yield line(f"{label}-entry", "both", spelled[0] + NULL, step("whole_entry", MALFORMED), step("entry", *first), step("capture", NULL))


def listed_lines(n):
    """So many entries, of which the last alone has another number, whole; and a list of so many that are the same or short."""
    entries = entry(2) * (n - 1), entry(3)
    yield line(f"list-of-{n}-whole", "both", seq(*entries), *[step("lists", number in (2, 3), False, argument=str(number))
        for number in range(1, 5)], *[step("last_entry", number == 3, argument=entry(number)) for number in (2, 3)])
    # each entry is told, so that the longest lists are of 0 at second 0
    yield from list_lines(f"list-of-{n}", *range(1, n + 1)) if n < 1000 else list_lines(f"list-of-{n}", *[0] * n, second=0)


def crl_size_cases():
    """Parts of the sizes where a length or a count takes one octet more."""
    for n in SIZES:
        part = b"a" * n
        issuer = seq(relative(attribute(oid("2.5.4.3"), value(12, part))))
        yield from crl_lines(f"crl-issuer-of-{n}", crl_of(issuer=issuer), issuer=issuer)
        listed = entry(2, seq(octet_string(part)))
        yield from crl_lines(f"crl-entry-of-{n}", crl_of(entries=listed), listed=listed)
        yield from crl_lines(f"crl-signature-of-{n}", crl_of(signature=part), signature=part)
        yield from list_lines(f"list-with-extensions-of-{n}", 2, behind=[seq(octet_string(part))])
        yield from crl_lines(f"crl-of-{n}-entries", crl_of(entries=entry(2) * n), listed=entry(2) * n)
        yield from listed_lines(n)
    yield from list_lines("list-of-a-long-number", (1 << 160) - 1, 0, 1 << 159)


def crl_cases():
    """CRLs, and octets that are none."""
    yield from crl_lines("crl", crl_of())
    yield from crl_lines("crl-of-openssl", OPENSSL_CRL, issuer=seq(relative(attribute(oid("2.5.4.3"), value(12, b"A")))),
        listed=OPENSSL_LIST[2:], authority=OPENSSL_AUTHORITY, number=7)
    yield from crl_lines("crl-with-an-unknown-extension", UNKNOWN_CRL, authority=key_identifier(1, 0))
    for label, octets in (
            ("crl-with-two-authorities", crl_of(extensions=[OWN_AUTHORITY] * 2)),
            ("crl-with-two-numbers", crl_of(extensions=[NUMBER] * 2)), ("crl-with-an-overlong-issuer", OVERLONG_CRL)):
        yield line(label, "both", octets, step("whole_crl", MALFORMED), step("crl", MALFORMED))
    bare = seq(RSA_SHA256)
    yield from crl_lines("crl-without-null", crl_of(inner=bare, outer=bare), inner=bare, outer=bare)
    yield from crl_lines("crl-with-a-number", crl_of(extensions=[NUMBER]), number=7)
    overlong_fields = crl_fields(OVERLONG_CRL, issuer=b"\x30\x81\0")
    yield line("crl-signed-with-an-overlong-issuer", "ber", overlong_fields[7], step("whole_tbs_crl", *overlong_fields[:7]))
    number = lambda entry: (entry[0].to_bytes(20, "big"), entry[1])
    shown = OPENSSL_LIST[2:], OPENSSL_LIST, *number(FIRST_ENTRY), *number(LAST_ENTRY)
    yield line("list-of-openssl", "both", OPENSSL_LIST, step("whole_list", *shown),
        *[step("lists", listed, False, argument=n) for n, listed in ((0, False), (1, True), (2, False), (0x10203, True))],
        step("last_entry", True, argument=OPENSSL_LIST[36:]), step("last_entry", False, argument=OPENSSL_LIST[2:36]),
        step("list", *shown), step("capture", MALFORMED))
    bare_entry = lambda entry: seq(integer(entry[0]), time(entry[1]))
    last, first = (*number(LAST_ENTRY), OPENSSL_LIST[36:]), (*number(FIRST_ENTRY), bare_entry(FIRST_ENTRY))
    yield line("entry-of-openssl", "both", OPENSSL_LIST[36:], step("whole_entry", *last), step("entry", *last), step("capture", MALFORMED))
    yield line("entry-with-a-reason", "both", OPENSSL_LIST[2:36], step("whole_entry", *first))
    yield line("entry-behind", "both", OPENSSL_LIST[2:], step("whole_entry", MALFORMED), step("entry", *first), step("entry", *last))
    yield line("no-entry", "both", OPENSSL_LIST[3:], step("whole_entry", MALFORMED), step("entry", MALFORMED))
    another = crl_of(outer=seq(RSA_SHA256))
    for label, octets, form, moment, check in (
            ("crl", crl_of(), 0, FIRST, DONE), ("unknown", UNKNOWN_CRL, 0, LAST, DONE),
            ("another-algorithm", another, 1, FIRST - 1, 9), ("another-format", crl_of(), 1, FIRST - 1, 10),
            ("early", OPENSSL_CRL, 0, FIRST - 1, 11), ("late", OPENSSL_CRL, 0, LAST + 1, 12), ("named", OPENSSL_CRL, 0, NOW, 13)):
        yield line(f"crl-check-{label}", "both", octets, step("crl_check", check, argument=bytes([form]) + str(moment).encode()))


def toy_cases():
    """Signatures of the toy scheme, and whether they hold."""
    held = sign(1, 0, b"abc")
    for number in 0, 1:
        yield line(f"toy-signature-{number}", "both", b"abc",
            step("toy_signature", key_bits(1, number), sign(1, number, b"abc"), argument=bytes([number])))
    for label, octets, form, kind, number, signature, holds in (
            ("rightly", b"abc", 0, 0, 0, held, True), ("of-another-kind", b"abc", 0, 1, 0, held, False),
            ("of-another-text", b"abd", 0, 0, 0, held, False), ("cut", b"abc", 0, 0, 0, held[:31], False),
            ("under-another-key", b"abc", 0, 0, 1, held, False), ("of-another-format", b"abc", 1, 0, 0, held, False),
            ("on-a-curve", b"abc", 1, 1, 0, held, True)):
        yield line(f"toy-signed-{label}", "both", octets,
            step("toy_holds", holds, argument=bytes([kind, form, number]) + signature))


class Signer:
    """A signer of seed 1: its keys and what it draws follow from numbers that it draws in turn."""

    def __init__(self, failing=(), size=None):
        self.failing, self.size = failing, size
        self.calls = self.next = self.faults = self.overlong = 0
        self.keys = {}

    def is_refused(self):
        """Counts a call; whether it is one of those that fail."""
        fails = self.calls in self.failing
        self.calls += 1
        self.faults += fails
        return fails

    def drawn(self):
        """The number that is drawn next."""
        self.next += 1
        return self.next - 1

    def signed(self, number, message):
        """A signature, or so many zeros as was told."""
        if self.size is None:
            return sign(1, number, message)
        self.overlong += self.size > 1 << 16
        return bytes(self.size)

    def key(self, number, form):
        """The public key with this number."""
        return spelled_key((form, key_bits(1, number)))

    def answer(self, call, number, message):
        """The fields that a call answers."""
        draws = call.startswith(("create", "once", "rand", "serial"))
        if self.is_refused():
            return ["toy fault"]
        if draws:
            return self.of_drawing(call, self.drawn(), number, message)
        if number not in self.keys:
            return ["key not found"]
        if call in ("info", "key_within"):
            return [self.key(number, self.keys[number])]
        if call == "destroy":
            del self.keys[number]
            return [b""]
        if self.keys[number] != ("ec" if call == "sign_ec" else "rsa"):
            return ["key not compatible with algorithm"]
        signature = self.signed(number, message)
        return ["key or signature too long"] if call == "sign_within" and len(signature) > 1 << 16 else [signature]

    def of_drawing(self, call, drawn, count, message):
        """What a call answers that draws."""
        form = "ec" if call.endswith("_ec") else "rsa"
        if call.startswith("create"):
            self.keys[drawn] = form
            return [drawn]
        if call == "serial":
            return [drawn_serial(1, drawn).to_bytes(20, "big")]
        if call == "rand":
            blocks = (hashlib.sha256(key_bits(1, drawn) + block.to_bytes(8, "big")).digest() for block in range(count // 32 + 1))
            return [b"".join(blocks)[:count]]
        signature = self.signed(drawn, message)
        if call == "once_within" and len(signature) > 1 << 16:
            return ["key or signature too long"]
        return [signature, self.key(drawn, form)]


def signer_line(label, calls, message=b"abc", failing=(), size=None):
    """What a signer answers to calls in turn, each with a number behind a `:` where it takes one."""
    signer = Signer(failing, size)
    answers = []
    for word in calls.split("/"):
        call, _, number = word.partition(":")
        answers += signer.answer(call, int(number or 0), message)
    first = size if size is not None else ",".join(map(str, failing)) or "none"
    name = "toy_signer" if size is None else "long_signer"
    answers.append(signer.faults if size is None else signer.overlong)
    return line(f"{name.replace('_', '-')}-{label}", "der", message, step(name, *answers, argument=f"{first}/{calls}"))


# Every call of a signer, with a key of each format.
CALLS = {
    "keys": "create_rsa/create_ec/info:0/info:1/key_within:0/key_within:1/info:2/key_within:2/destroy:2/destroy:0/info:0/key_within:0/"
    "destroy:0/info:1/create_rsa/info:2",
    "signatures": "create_rsa/create_ec/sign:0/sign_ec:1/sign:1/sign_ec:0/sign_within:0/sign_within:1/sign:2/sign_ec:2/sign_within:2/"
    "destroy:0/sign:0/sign_within:0",
    "drawings": "once/once_ec/rand:33/serial/once_within/create_rsa/once/sign:5/rand:20/serial",
}


def signer_cases():
    """Calls of both signers in turn, all of them and each alone failing."""
    for label, calls in CALLS.items():
        yield signer_line(label, calls)
        count = len(calls.split("/"))
        for number in range(count):
            yield signer_line(f"{label}-but-call-{number}", calls, failing=(number,))
        yield signer_line(f"{label}-failing", calls, failing=tuple(range(count)))
        yield signer_line(f"{label}-but-two", calls, failing=(3, 0))
        for size in (0, 1, 32, 65535, 65536, 65537):
            yield signer_line(f"{label}-of-{size}", calls, size=size)
    for n in (0, 1, 31, 32, 33, 64, *SIZES):
        yield signer_line(f"drawing-{n}", f"rand:{n}/rand:{n}")
        yield signer_line(f"signing-{n}", "create_rsa/sign:0/sign_within:0/once/once_within/once_ec", b"a" * n)
        yield signer_line(f"drawing-{n}", f"rand:{n}/serial", size=1)
        yield signer_line(f"signing-{n}", "create_rsa/sign:0/sign_within:0/once/once_within/once_ec", b"a", size=n)


def unsigned_cases():
    """What is to be signed for key 0 itself, and for another; whatever the signature is."""
    own = own_anchor(FIRST, LAST)
    own.serial = 7
    other = options_of(serial=7, key=9, subject=name(1, 9), authority=key_identifier(1, 0))
    for label, number, o in (("own", 0, own), ("other", 9, other)):
        argument = f"{number}/{FIRST}/{LAST}"
        yield line(f"unsigned-{label}", "both", b"", step("unsigned", *tbs_fields(o), argument=argument),
            step("to_be_signed", signed_part(o), argument=argument))
        for n in (0, 1, *SIZES):
            yield line(f"signature-of-{n}-of-{label}", "der", b"a" * n,
                step("with_signature", seq(signed_part(o), ALGORITHM, bits(b"a" * n)), argument=argument))
    years = options_of(serial=7, key=9, subject=name(1, 9), authority=key_identifier(1, 0), validity=(-631152001, 2524608000))
    yield line("unsigned-of-1949-to-2050", "both", b"", step("to_be_signed", signed_part(years), argument="9/-631152001/2524608000"))


def extension_writing():
    """Extensions that are written, of the sizes."""
    for n in (0, 1, *SIZES):
        part = b"a" * n
        for call, flag in (("write_extension", b""), ("write_critical", TRUE)):
            yield line(f"{call}-of-{n}", "der", part, step(call, extension(SUBJECT_KEY, part, flag), argument=SUBJECT_KEY[2:]))
            yield line(f"{call}-under-{n}", "der", b"x", step(call, extension(value(6, part + b"\1"), b"x", flag), argument=part + b"\1"))
        named = extension(AUTHORITY_KEY, seq(value(0x80, OTHER)))
        yield line(f"write-authority-behind-{n}", "der", part, step("write_authority", part + named, argument=OTHER),
            step("write_authority", part, argument=b""))


def own_anchor(first, last):
    """The certificate that key 0 issues to itself, valid from the first second to the last."""
    return options_of(constraints=True, issuer=name(1, 0), subject=name(1, 0), key=0, validity=(first, last))


def made_lines():
    """What is made is what these fields are written as, read again, and believed in its validity."""
    last = NOW + 60
    anchor = own_anchor(NOW, last)
    yield line("made-anchor", "both", certificate(anchor), step("made_anchor", certificate(anchor), argument=f"0/{NOW}/{last}"),
        step("decoded", *fields(anchor)), step("anchor", *failing("verification", 4), argument=f"1/0/{NOW - 1}"),
        *[step("anchor", DONE, argument=f"1/0/{moment}") for moment in (NOW, last)],
        step("anchor", *failing("verification", 4), argument=f"1/0/{last + 1}"))
    entity = options_of(serial=drawn_serial(1, 1), key=9, subject=name(1, 9), authority=key_identifier(1, 0), validity=(NOW, last))
    yield line("made-entity", "both", certificate(entity), step("made_entity", certificate(entity), argument=f"9/{NOW}/{last}"),
        step("decoded", *fields(entity)), step("named", DONE, argument=f"1/0/{NOW}"), step("named", 7, argument=f"1/9/{NOW}"),
        *[step("end_entity", DONE, argument=f"1/0/{moment}") for moment in (NOW, last)])


def version_cases():
    """Versions of certificates that are read, and that are none."""
    three = bytes.fromhex("a003020102")
    yield line("only-version-3", "both", three + NULL, step("version", DONE), step("capture", NULL))
    yield line("only-version-3-in-a-long-form", "ber", bytes.fromhex("a08103020102") + NULL, step("version", DONE), step("capture", NULL))
    yield line("only-version-3-without-a-length", "ber", bytes.fromhex("a0800201020000") + NULL, step("version", DONE),
        step("capture", NULL))
    for label, octets in (("1", "a003020100"), ("2", "a003020101"), ("4", "a003020103"), ("258", "a00402020102"),
            ("with-a-zero", "a00402020002"),
            ("negative", "a0030201fe"), ("twice", "a006020102020102"), ("none", "a000"), ("cut", "a0030201"), ("bare", "020102"),
            ("under-1", "a103020102"), ("primitive", "8003020102"), ("boolean", "a003010102")):
        yield line(f"only-version-{label}", "both", bytes.fromhex(octets), step("version", MALFORMED))
    yield line("only-version-of-nothing", "both", b"", step("version", MALFORMED))
    yield line("only-version-in-a-long-form-in-der", "der", bytes.fromhex("a08103020102"), step("version", MALFORMED))


def lines():
    """All lines."""
    for cases in (good_cases, version_cases, extension_cases, malformed_cases, ber_cases, size_cases, check_cases, each_cases,
            elsewhere_cases, crl_cases,
            crl_size_cases, toy_cases, signer_cases, unsigned_cases, extension_writing, made_lines):
        yield from cases()


if __name__ == "__main__":
    write("test_certificates", lines())
