#!/usr/bin/env python3
"""Writes signed messages and what their validation has to answer: crates/test_messages/data/cases.txt, and the stdout beside it.

    tools/cases/message_cases.py            writes both files
    tools/cases/message_cases.py MESSAGE    compares the builder with a message in hex, octet by octet, and says whether they are equal

The envelopes are those of tools/cases/signed_messages.py, which says what the toy scheme is: no octet and no expected answer comes from
the program under test.

A line is `NAME MODE FORMAT SEED MOMENT EXPECTED MESSAGE`: MODE `strict` or `loose`; FORMAT `rsa` or `ec`, the format of the issuer's
key, whose bits are SEED and number 0; MOMENT in seconds since 1970; EXPECTED `ok`, `malformed`, or `inspection-N` or
`verification-N` for the first check that fails; MESSAGE in terms (tools/cases/stored_cases.py).

Or a line is `NAME built MOMENT SEED REVOKED CONTENT MESSAGE`: of what parts crates/rpki_vectors builds the message, or `moment` where
it builds none; REVOKED has commas between its numbers, and `-` stands for an empty field.

Or a line is `NAME created MOMENT KEY FAILING CONTENT MESSAGE`: what `SignedMessage::create` makes with the toy signer of seed 1 under
the key with this number, `moment`, `key_not_found` or `signer` where it refuses; FAILING lists the signer's calls that fail.

Or a line is `NAME unsigned MOMENT SERIAL CONTENT MESSAGE`: the message with this number of its certificate whose attributes key 1 of seed 1
signs and whose certificate and CRL key 0 does, where the signatures come from elsewhere; or `moment`.

Or a line is `NAME long MOMENT OCTETS COUNT CONTENT MESSAGE`: what `create` makes with a signer of the same keys whose signatures are as
many zeros as OCTETS says, or `too_long`; COUNT is how many too long signatures it gave. The MESSAGE is in terms
(tools/cases/stored_cases.py).

Or a line is `NAME DER OCTETS STEP..`, of tools/cases/message_walks.py.

Or a line is `NAME checks FORMAT SEED NUMBER MOMENT DIGITS MESSAGE`: the fourteen checks of the message under the issuer's key of this
format, whose bits are SEED and NUMBER, each as the digit 1 where it holds and else 0.
"""

import itertools
import pathlib
import sys

import message_walks
from signed_messages import (
    ALGORITHM, BINARY_SIGNING_TIME, BREAKS, CALLS, CONTENT_A, FIRST, LAST, MOST, NOW, NULL, OF_CRLS, OUTER_TWO, QUERY,
    QUERY_MESSAGE, RSA, RSA_SHA256, SIGNING_TIME, attribute, behind_last, broken, broken_ber_cases, built, created,
    failing, failing_cases, indefinite, integer, malformed_cases, message, numbered, octet_string, oid, overlong,
    printable, segmented, seq, two_crls, value, without, zeros,
)
from stored_cases import SIZES, terms

ROOT = pathlib.Path(__file__).resolve().parents[2]
CRATE = ROOT / "crates" / "test_messages"

# ---- the cases

BOTH = ("strict", "loose")


def case(label, octets, expected, modes=BOTH, seed=1, moment=NOW, form="rsa"):
    """The lines of a message: what its validation answers in each mode."""
    return [" ".join([f"{label}-{mode}", mode, form, str(seed), str(moment), expected, terms(octets)]) for mode in modes]


def good_cases():
    """Messages that pass all checks."""
    yield "good", message()
    yield "good-seed-7", message(seed=7), 7
    yield "empty-content", message(content=b"")
    yield "not-xml", message(content=bytes(range(256)))
    yield "another-serial-listed", message(entries=(2, 3, 1 << 64))
    yield "numbers-near-the-serial-listed", message(entries=(0, 256, 257))
    yield "no-entries-list", message(entries=None)
    yield "no-authority-in-certificate", message(authority_key=None)
    yield "no-authority-in-crl", message(crl_authority=None)
    yield "no-authority-anywhere", message(authority_key=None, crl_authority=None)
    yield "constraints-empty", message(constraints=False)
    yield "long-serial", message(serial=(1 << 159) - 1)
    yield "validity-begins-now", message(validity=(NOW, LAST))
    yield "validity-ends-now", message(validity=(FIRST, NOW))
    yield "crl-begins-now", message(updates=(NOW, LAST))
    yield "crl-ends-now", message(updates=(FIRST, NOW))
    yield "octets-behind-the-envelope", message() + b"\0\xff\x30"
    binary = attribute(BINARY_SIGNING_TIME, integer(NOW))
    yield "binary-signing-time", message(attributes=behind_last(binary))
    yield "no-signing-time", message(attributes=without(SIGNING_TIME))
    unknown = attribute(oid("1.3.6.1.4.1.99999.1"), NULL, integer(5), octet_string(b"x"))
    yield "unknown-attribute-of-three-values", message(attributes=behind_last(unknown))
    yield "attributes-in-another-order", message(attributes=lambda xs: xs[::-1])
    yield "signer-sha256-with-rsa", message(signer_algorithm=ALGORITHM)
    yield "signer-sha256-with-rsa-without-null", message(signer_algorithm=seq(RSA_SHA256))
    yield "signer-rsa-without-null", message(signer_algorithm=seq(RSA))
    yield "digests-with-null", message(digest_parameters=(NULL,))
    yield "crl-without-null-twice", message(crl_inner=seq(RSA_SHA256), crl_outer=seq(RSA_SHA256))


def crl_cases():
    """Messages with two CRLs, and what they answer."""
    yield "two-crls", two_crls({}, dict(entries=(2, 3), crl_number=1)), "ok"
    yield "one-crl-twice", message(crls=lambda x: value(0xA1, x + x)), "ok"
    for check in OF_CRLS:
        broken_one = BREAKS[check]
        yield f"check-{check}-of-the-first-crl", two_crls(broken_one, {}), failing(check)
        yield f"check-{check}-of-the-second-crl", two_crls({}, broken_one), failing(check)
        yield f"check-{check}-of-both-crls", two_crls(broken_one, broken_one), failing(check)
    yield "checks-10-9-of-two-crls", two_crls(BREAKS[10], BREAKS[9]), failing(9)
    yield "second-crl-of-another-issuer", two_crls({}, dict(crl_seed=2)), "verification-10"


def ber_cases():
    """Messages in BER, which are read loosely alone."""
    flat = lambda octets: indefinite(0x24, b"".join(octet_string(octets[i:i + 40]) for i in range(0, len(octets), 40)))
    yield "indefinite-envelope", message(outer=indefinite)
    yield "segmented-content", message(content_string=flat)
    yield "nested-segments-in-indefinite-envelope", message(outer=indefinite, content_string=segmented)
    yield "indefinite-attributes", message(attributes_tag=indefinite)
    yield "two-outer-lengths-indefinite-and-nested-segments", created(QUERY, NOW, **OUTER_TWO)
    yield "overlong-length-in-the-certificate", message(tbs_length=overlong)
    yield "overlong-length-of-the-envelope", message(outer=lambda tag, octets: value(tag, octets, overlong))
    yield "two-crls-in-indefinite-envelope", two_crls({}, {}, outer=indefinite, content_string=segmented)
    yield "two-crls-in-an-indefinite-set", two_crls({}, {}, crls=lambda x: indefinite(0xA1, x))


# ---- parts of the sizes where a length or a count takes one octet more; what is in BER is read loosely alone, for a short file

SMALL = SIZES[:4]


def varied(n):
    """Octets of this size that don't repeat soon."""
    return bytes(i % 251 for i in range(n))


def content_sizes():
    """Contents of the sizes."""
    for n in SIZES:
        yield from case(f"content-of-{n}", message(content=varied(n)), "ok")


def segment_sizes():
    """The content in segments of one octet, one behind the other; and in one segment, so many levels down (X.690, 8.7.3)."""
    flat = lambda octets: indefinite(0x24, b"".join(octet_string(bytes([octet])) for octet in octets))
    for n in SIZES:
        octets = message(content=varied(n), content_string=flat)
        yield from case(f"content-in-{n}-segments", octets, "ok", modes=("loose",))
        octets = message(content_string=lambda octets: b"\x24\x80" * n + octet_string(octets) + b"\0\0" * n)
        yield from case(f"content-in-a-segment-{n}-levels-down", octets, "ok", modes=("loose",))


def entry_sizes():
    """The certificate's number is 1. In the longest lists one number stands many times."""
    for n in SMALL:
        yield from case(f"{n}-entries", message(entries=range(2, n + 2)), "ok")
    yield from case("last-of-256-entries-is-the-serial", message(entries=[*range(2, 257), 1]), "verification-14")
    for n in SIZES[4:]:
        yield from case(f"{n}-entries", message(entries=[2] * n), "ok")
        yield from case(f"last-of-{n}-entries-is-the-serial", message(entries=[2] * (n - 1) + [1]), "verification-14")


def name_sizes():
    """Names of the sizes."""
    for n in SIZES:
        text = lambda octets: printable((octets * 7)[:n] if n in SMALL else b"a" * n)
        yield from case(f"names-of-{n}", message(issuer_text=text, subject_text=text), "ok")


def signature_sizes():
    """A signature of the toy scheme has 32 octets, so these don't hold."""
    for n in SIZES:
        spelled = lambda octets: (octets * 8)[:n] if n in SMALL else bytes(n)
        yield from case(f"signature-of-{n}", message(signature=spelled), "verification-3")


def extension_sizes():
    """Unknown extensions, which aren't critical, in front of the known ones."""
    for n in SIZES:
        unknown = [seq(oid(f"1.3.6.1.4.1.99999.{arc if n in SMALL else 1}"), octet_string(b"")) for arc in range(n)]
        yield from case(f"{n}-unknown-extensions", message(certificate_extensions=lambda xs: [*unknown, *xs]), "ok")


def open_levels(n):
    """So many SEQUENCEs, each the only value in the one round it, of indefinite lengths."""
    return b"\x30\x80" * n + b"\0\0" * n


def der_levels(n):
    """The same in DER."""
    octets = b""
    for _ in range(n):
        octets = seq(octets)
    return octets


def level_sizes():
    """Among the values of an unknown attribute, which aren't looked at."""
    in_attribute = lambda levels: message(attributes=behind_last(attribute(oid("1.3.6.1.4.1.99999.1"), levels)))
    for n in SIZES:
        yield from case(f"{n}-levels-in-an-attribute", in_attribute(open_levels(n)), "ok", modes=("loose",))
    for n in SMALL:
        yield from case(f"{n}-der-levels-in-an-attribute", in_attribute(der_levels(n)), "ok")


def level_places():
    """A name's value and an entry's extensions aren't looked at either, but a CRL is in DER; an algorithm's parameters are NULL or
    nothing."""
    in_ber, in_der = open_levels(256), der_levels(256)
    yield from case("256-levels-in-a-name", message(subject_text=lambda octets: in_ber), "ok", modes=("loose",))
    yield from case("256-der-levels-in-a-name", message(subject_text=lambda octets: in_der), "ok")
    yield from case("256-levels-in-an-entry", message(entries=(2,), entry_extensions=in_ber), "malformed")
    yield from case("256-der-levels-in-an-entry", message(entries=(2,), entry_extensions=in_der), "ok")
    yield from case("256-der-levels-in-the-digest-algorithms", message(digest_parameters=(in_der,)), "malformed")
    yield from case("256-der-levels-in-the-signer-algorithm", message(signer_algorithm=seq(RSA, in_der)), "malformed")


def stored_cases():
    """The messages that were made elsewhere, at several moments."""
    query, content_a = bytes.fromhex(QUERY_MESSAGE), bytes.fromhex(CONTENT_A)
    for moment in (FIRST, NOW, LAST):
        yield from case(f"query-at-{moment}", query, "ok", moment=moment)
    for moment in (FIRST - 1, LAST + 1):
        yield from case(f"query-at-{moment}", query, "verification-5", moment=moment)
    yield from case("content-a", content_a, "verification-3")


def lines():
    """The lines of validation."""
    for label, octets, *seed in good_cases():
        yield from case(label, octets, "ok", seed=seed[0] if seed else 1)
    yield from stored_cases()
    for check in BREAKS:
        yield from case(f"check-{check}", broken(check), failing(check))
    for first, second in itertools.combinations(BREAKS, 2):
        yield from case(f"checks-{first}-{second}", broken(first, second), failing(first), modes=("strict",))
    for label, octets, expected in (*failing_cases(), *crl_cases()):
        yield from case(label, octets, expected)
    yield from case("issuer-of-another-format", message(), "verification-8", form="ec")
    for label, octets in (*malformed_cases(), *broken_ber_cases()):
        yield from case(label, octets, "malformed")
    for label, octets in ber_cases():
        yield from case(label, octets, "ok", modes=("loose",))
        yield from case(label, octets, "malformed", modes=("strict",))
    for part in (content_sizes, segment_sizes, entry_sizes, name_sizes, signature_sizes, extension_sizes, level_sizes,
            level_places):
        yield from part()


def compare(octets):
    """Whether the builder writes this message, whose certificate has the serial number that stands in it."""
    at = octets.index(b"\xa0\3\2\1\2\2") + 6
    serial = int.from_bytes(octets[at + 1:at + 1 + octets[at]], "big")
    own = message(serial=serial)
    differing = [i for i, (a, b) in enumerate(zip(own, octets)) if a != b]
    print(f"{len(own)} and {len(octets)} octets, {len(differing)} differ: {differing[:8]}")


# The first and the last moment of which a message is built.
FIRST_BUILT, LAST_BUILT = -62167218900, 253402300499
LARGEST = (1 << 64) - 1
BUILT = {
    "query": (QUERY, NOW, 1, ()),
    "with-another-listed": (QUERY, NOW, 1, (2,)),
    "with-its-own-listed": (QUERY, NOW, 1, (1,)),
    "with-others-listed": (QUERY, NOW, 1, (0, 256, 257, 1 << 63, LARGEST)),
    "with-numbers-of-all-sizes": (b"", NOW, LARGEST, (0, 127, 128, 255, 256, 32768, (1 << 63) - 1, 1 << 63, LARGEST)),
    "in-1970": (b"\0\xff", 0, 0, ()),
    "at-the-first-moment": (QUERY, FIRST_BUILT, 3, (5,)),
    "where-utc-times-begin": (QUERY, -631152000, 9, ()),
    "where-utc-times-end": (QUERY, 2524607999, 9, (1,)),
    "at-the-last-moment": (QUERY, LAST_BUILT, 3, (5,)),
}


def built_line(label, parts, expected):
    """A line of what rpki_vectors builds of parts."""
    content, moment, seed, revoked = parts
    listed = ",".join(map(str, revoked))
    return " ".join((f"built-{label}", "built", str(moment), str(seed), listed or "-", content.hex() or "-", expected))


def built_cases():
    """What rpki_vectors builds, and how that is validated."""
    for label, parts in BUILT.items():
        yield built_line(label, parts, built(*parts).hex())
    for label, moment in (("smallest", -1 << 63), ("early", FIRST_BUILT - 1), ("late", LAST_BUILT + 1), ("greatest", (1 << 63) - 1)):
        yield built_line(f"too-{label}", (QUERY, moment, 1, ()), "moment")
    for label, answer, seed, moment in (
            ("query", "ok", 1, NOW), ("query", "ok", 1, FIRST), ("query", "ok", 1, LAST), ("query", "verification-5", 1, FIRST - 1),
            ("query", "verification-5", 1, LAST + 1), ("query", "verification-6", 2, NOW), ("with-its-own-listed",
                "verification-14", 1, NOW), ("with-another-listed", "ok", 1, NOW), ("with-others-listed", "ok", 1, NOW)):
        octets = built(*BUILT[label])
        yield from case(f"built-{label}-at-{moment}-under-{seed}", octets, answer, seed=seed, moment=moment)


def created_line(label, content, moment, expected, key="0", failing="-"):
    """A line of what `create` makes."""
    return " ".join((f"created-{label}", "created", str(moment), key, failing, content.hex() or "-", expected))


def created_cases():
    """What `create` makes of contents, at moments, with calls failing, and without the key."""
    for n in (0, *SIZES):
        content = varied(n)
        yield created_line(f"of-{n}", content, NOW, created(content, NOW).hex())
    for moment in (300, 2524607699, 2524607900, 2524607999, 2524608300, 253402300499):
        yield created_line(f"at-{moment}", QUERY, moment, created(QUERY, moment).hex())
    for moment in (-1, 0, 299, 253402300500):
        yield created_line(f"at-{moment}", QUERY, moment, "moment")
    for call in range(1, CALLS + 1):
        yield created_line(f"failing-{call}", QUERY, NOW, "signer", failing=str(call))
    yield created_line("failing-later", QUERY, NOW, created(QUERY, NOW).hex(), failing=str(CALLS + 1))
    yield created_line("under-no-key", QUERY, NOW, "key_not_found", key="1")
    # The attributes are signed before the key is asked for, and the key is asked for before the CRL is signed.
    for call, answer in (1, "signer"), (2, "signer"), (3, "key_not_found"):
        yield created_line(f"under-no-key-failing-{call}", QUERY, NOW, answer, key="1", failing=str(call))
    for last in (NOW - 301, NOW - 300, NOW + 300, NOW + 301):
        answer = "ok" if abs(last - NOW) <= 300 else "verification-5"
        yield from case(f"created-at-{last}", created(QUERY, NOW), answer, moment=last)


def long_cases():
    """What `create` makes with signatures of many lengths."""
    for count in (0, 1, MOST - 1, MOST, MOST + 1, 2 * MOST):
        # The first signature that is too long is the last that is asked for.
        expected = "too_long" if count > MOST else terms(created(QUERY, NOW, sign=zeros(count)))
        yield " ".join((f"long-{count}", "long", str(NOW), str(count), str(int(count > MOST)), QUERY.hex(), expected))


# ---- all checks of a message


def checks_line(label, octets, broken=(), form="rsa", seed=1, number=0, moment=NOW):
    """A line of a message with each check by itself."""
    digits = "".join("0" if check in broken else "1" for check in BREAKS)
    return " ".join((f"all-checks-{label}", "checks", form, str(seed), str(number), str(moment), digits, octets.hex()))


def checks_cases():
    """Messages with each check by itself: each alone broken, all but one, and all."""
    yield checks_line("good", message())
    for moment, broken_then in ((FIRST - 1, (5, 11)), (FIRST, ()), (LAST, ()), (LAST + 1, (5, 12))):
        yield checks_line(f"at-{moment}", message(), broken_then, moment=moment)
    for seed, number in ((1, 9), (9, 0)):
        yield checks_line(f"under-{seed}-{number}", message(), (6, 8, 10, 13), seed=seed, number=number)
    yield checks_line("under-another-that-none-names", message(authority_key=None, crl_authority=None), (8, 10), number=9)
    yield checks_line("under-another-format", message(), (8, 10), form="ec")
    yield checks_line("under-another-later", message(), (5, 6, 8, 10, 12, 13), number=9, moment=LAST + 1)
    for check in BREAKS:
        yield checks_line(f"{check}", broken(check), (check,))
        yield checks_line(f"all-but-{check}", broken(*(BREAKS.keys() - {check})), BREAKS.keys() - {check})
    yield checks_line("none", broken(*BREAKS), BREAKS)
    for check in OF_CRLS:
        yield checks_line(f"{check}-of-the-first-crl", two_crls(BREAKS[check], {}), (check,))
        yield checks_line(f"{check}-of-the-second-crl", two_crls({}, BREAKS[check]), (check,))
    yield checks_line("9-and-10-of-two-crls", two_crls(BREAKS[10], BREAKS[9]), (9, 10))


def unsigned_line(label, content, moment, serial):
    """A line of a message whose signatures come from elsewhere."""
    has_window = 300 <= moment <= 253402300499
    expected = numbered(content, moment, serial).hex() if has_window else "moment"
    return " ".join((f"unsigned-{label}", "unsigned", str(moment), str(serial), content.hex() or "-", expected))


def unsigned_cases():
    """Messages whose signatures come from elsewhere."""
    for n in (0, *SIZES):
        yield unsigned_line(f"of-{n}", varied(n), NOW, 1)
    for moment in (299, 300, 2524607900, 253402300499, 253402300500):
        yield unsigned_line(f"at-{moment}", QUERY, moment, 7)
    for serial in (0, 127, 128, 255, 256, LARGEST):
        yield unsigned_line(f"numbered-{serial}", QUERY, NOW, serial)


def agree_elsewhere():
    """The message that was made elsewhere has another serial number: it is the same from the certificate's algorithm to its
    signature, and from the CRL on."""
    own, other = built(QUERY, NOW, 1, ()), bytes.fromhex(QUERY_MESSAGE)
    assert own[181:456] == other[200:475] and own[488:] == other[507:]
    assert created(QUERY, NOW).hex() == (ROOT / "examples" / "query-list.hex").read_text().strip()


def main():
    """Writes the cases, or compares a message with what is built here."""
    if len(sys.argv) > 1:
        compare(bytes.fromhex(pathlib.Path(sys.argv[1]).read_text()))
        return
    agree_elsewhere()
    written = [*lines(), *built_cases(), *created_cases(), *unsigned_cases(), *long_cases(), *checks_cases(),
        *message_walks.lines()]
    names = [line.split(" ")[0] for line in written]
    assert len(names) == len(set(names))
    (CRATE / "data" / "cases.txt").write_text("".join(line + "\n" for line in written))
    (CRATE / "stdout").write_text(f"{len(written)} cases, 0 differ\n")


if __name__ == "__main__":
    main()
