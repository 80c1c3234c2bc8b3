"""Cases of crates/test_external: trust anchors, certificate requests and setup messages, verified by answers and made of signatures.

tools/cases/answer_cases.py writes them with its own. Certificates and requests are put together by tools/cases/certificate_cases.py and
tools/cases/request_cases.py, or come from OpenSSL; which signatures hold, the `openssl` command or the toy scheme says. Of these a line is
`NAME CALL ANSWER INPUT WORD..`, as there:

    anchor-asked    ANSWERS                         of the certificate: the text of the questions and its digest; of each question its
                                                    part, and a digit for what the answers say of it under each of two algorithms
    anchor          MOMENT DIGEST ANSWERS           nothing, where the certificate is a trust anchor's
    anchor-prepared FIRST LAST KEY                  the octets that are to be signed
    anchor-finished FIRST LAST KEY SIGNATURE        the certificate
    anchor-made     FIRST LAST                      the one that the toy signer makes under its key 0
    request-asked   ANSWERS                         as anchor-asked, of the request
    request         DIGEST ANSWERS                  nothing, where the request is signed under its own key
    request-prepared KEY REPOSITORY MANIFEST NOTIFY             the octets that are to be signed; NOTIFY may be a hyphen
    request-finished KEY REPOSITORY MANIFEST NOTIFY SIGNATURE   the request
    request-made    KEY REPOSITORY MANIFEST NOTIFY  the one that the toy signer makes under its key 0, which KEY is
    setup-asked     KIND ANSWERS                    as anchor-asked, of the certificate in the setup message
    setup           KIND MOMENT DIGEST ANSWERS      the message's text

or it is one of the program.
"""

import base64
import hashlib

import openssl_requests
import questions
from answer_lines import MOST, USAGE, of_call, row
from certificate_cases import (
    ANCHOR, BELOW, FALSE, OPENSSL, TRUE, certificate, constraints, extension, options_of, own_anchor, signed_part,
    spelled_key,
)
from request_cases import (
    MANIFEST, NOTIFY, REPOSITORY, SUBJECT_INFO_ACCESS, description, info, long_text, options_of as request_of, request,
    usage,
)
from run_cases import NO_VALUE, ROOTS, asked, setup_message, updown
from signed_messages import COMMON_NAME, FIRST, LAST, NOW, QUERY, key_bits, key_identifier, printable, seq, sign, value
from stored_cases import SIZES

EC = spelled_key(("ec", b"\4" + bytes(64))).hex()
LONG = spelled_key(("rsa", bytes(MOST + 1))).hex()
LONG_EC = spelled_key(("ec", bytes(MOST + 1))).hex()
TOY = spelled_key(0).hex()
NO_DIGEST = "00" * 32
APART, NUMBER, SIGNATURE = (14, b"OtherQuestions"), USAGE, (6, b"Signature")
SAID = {
    APART: b"the answers are to other questions", NUMBER: b"not as many answers as questions",
    SIGNATURE: b"the signature does not hold"}
DONE = b""


def changed(octets):
    """With the last bit turned, which is of the signature."""
    return octets[:-1] + bytes([octets[-1] ^ 1])


def name_of(held):
    """The name that a key with these bits has (RFC 5280, 4.1.2.4)."""
    return seq(value(0x31, seq(COMMON_NAME, printable(hashlib.sha1(held).hexdigest().upper().encode()))))


# ---- trust anchors


def failing(check):
    """What is printed where this check of an anchor fails."""
    return b"check %d failed" % check


def self_named(held, **more):
    """The certificate of a key with these bits, which names itself as its issuer."""
    return options_of(constraints=True, authority=hashlib.sha1(held).digest(), key=("rsa", held), **more)


def anchors():
    """Of certificates: name, octets, whether it names itself as its issuer, a digit for each answer, the moment, and the failing check."""
    toy = certificate(options_of(**ANCHOR))
    yield "toy", toy, True, "1", NOW, None
    yield "no", toy, True, "0", NOW, 5
    for moment in FIRST - 1, FIRST, LAST, LAST + 1:
        yield f"at-{moment}", toy, True, "1", moment, None if FIRST <= moment <= LAST else 4
    yield "unnamed", certificate(own_anchor(FIRST, LAST)), False, "", NOW, None
    below = options_of(constraints=True, authority=key_identifier(1, 9), signer=9)
    yield "below-another", certificate(below), False, "", NOW, None
    for check, breaks in BELOW.items():
        yield f"broken-{check}", certificate(options_of(**{**ANCHOR, **breaks})), True, "01"[check != 5], NOW, check
    on_a_curve = options_of(**{**ANCHOR, "key": ("ec", key_bits(1, 1))})
    yield "on-a-curve", certificate(on_a_curve), True, "1", NOW, 5
    for label, octets in ("openssl", OPENSSL), ("openssl-changed", changed(OPENSSL)):
        digits = questions.openssl_says(questions.of_anchor(octets, True))
        assert digits == "01"[octets == OPENSSL], label
        yield label, octets, True, digits, 1800000000, 5 if octets != OPENSSL else None
    for n in 0, 1, *SIZES:
        yield f"of-{n}", certificate(self_named(b"\1" * n, signature=b"\3" * n)), True, "1", NOW, None


def bound(asked_of, digits):
    """Answers to other questions, and answers of another number: name, digest, digits, and the answer."""
    digest = questions.digest_of(asked_of)
    yield "of-others", NO_DIGEST, digits, APART
    yield "of-nothing", hashlib.sha256(b"").hexdigest(), digits, APART
    yield "of-others-and-number", NO_DIGEST, digits + "1", APART
    yield "one-more", digest, digits + "1", NUMBER
    yield "none", digest, "", NUMBER


def anchor_rows():
    """Trust anchors: what is asked of them, and what they are by the answers, at their moments."""
    for label, octets, names_itself, digits, moment, check in anchors():
        asked_of = questions.of_anchor(octets, names_itself)
        if "openssl" not in label and label != "on-a-curve" and "of-" not in label and label != "no":
            assert questions.toy_says(asked_of) == digits, label
        yield of_call("anchor-asked", label, (digits,), octets, *questions.shown(asked_of, digits))
        words = str(moment), questions.digest_of(asked_of), digits
        yield of_call("anchor", label, words, octets, *((b"refused", failing(check)) if check else (DONE,)))
    toy = certificate(options_of(**ANCHOR))
    for label, digest, digits, answer in bound(questions.of_anchor(toy, True), "1"):
        yield of_call("anchor", label, (str(LAST + 1), digest, digits), toy, b"refused", SAID[answer])
    unnamed = certificate(own_anchor(FIRST, LAST))
    digest = questions.digest_of(questions.of_anchor(unnamed, False))
    yield of_call("anchor", "unnamed-answered", (str(NOW), digest, "1"), unnamed, b"refused", SAID[NUMBER])


def of_making(thing, label, words, signed, signature, octets):
    """What is prepared and finished, by the call and by the program."""
    yield of_call(f"{thing}-prepared", label, words, b"", signed)
    yield of_call(f"{thing}-finished", label, (*words, signature.hex()), b"", octets)
    yield row(f"prepare-{thing}-{label}", ("prepare", thing, *words), b"", (0, f"{thing} {signed.hex()}".encode()))
    yield row(f"finish-{thing}-{label}", ("finish", thing, *words, f"{thing}={signature.hex()}"), b"", (0, octets.hex().encode()))


TEXTS = {b"TooLong": b"content, key or signature too long", b"IncompatibleKey": b"a key is no RSA key",
    b"Usage": b"the URI with its slash is unlawful"}


def of_failing(thing, label, words, signature, answer, prepares=False):
    """A refusal of what is prepared and finished, or only of what is finished."""
    refused, status = (b"refused", TEXTS[answer]), {b"TooLong": 9, b"IncompatibleKey": 7, b"Usage": 2}[answer]
    if not prepares:
        yield of_call(f"{thing}-prepared", label, words, b"", *refused)
        yield row(f"prepare-{thing}-{label}", ("prepare", thing, *words), b"", (status, answer))
    yield of_call(f"{thing}-finished", label, (*words, signature), b"", *refused)
    yield row(f"finish-{thing}-{label}", ("finish", thing, *words, f"{thing}={signature}"), b"", (status, answer))


LONG_SIGNATURE = "00" * (MOST + 1)


def made_anchor_rows():
    """Trust anchors that are made of a signature from elsewhere."""
    for first, last in (NOW, NOW + 60), (0, 253402300799), (LAST, FIRST):
        o = own_anchor(first, last)
        signed, octets = signed_part(o), certificate(o)
        words = str(first), str(last), TOY
        yield from of_making("anchor", f"from-{first}-to-{last}", words, signed, sign(1, 0, signed), octets)
        yield of_call("anchor-made", f"from-{first}-to-{last}", words[:2], b"", octets)
    for n in 0, 1, *SIZES:
        held, named = b"\1" * n, name_of(b"\1" * n)
        o = options_of(constraints=True, issuer=named, subject=named, key=("rsa", held), signature=b"\3" * n)
        words = str(FIRST), str(LAST), spelled_key(("rsa", held)).hex()
        yield from of_making("anchor", f"of-{n}", words, signed_part(o), b"\3" * n, certificate(o))
    for label, key, signature, answer in (
            ("long", LONG, "00", b"TooLong"), ("curve", EC, "00", b"IncompatibleKey"), ("long-on-a-curve", LONG_EC, "", b"TooLong"),
            ("curve-and-long-signature", EC, LONG_SIGNATURE, b"IncompatibleKey")):
        yield from of_failing("anchor", label, (str(FIRST), str(LAST), key), signature, answer)
    yield from of_failing("anchor", "long-signature", (str(FIRST), str(LAST), TOY), LONG_SIGNATURE, b"TooLong", prepares=True)
    good = "anchor", str(FIRST), str(LAST), TOY
    for label, more in (
            ("first", (good[0], "-1", *good[2:])), ("last", (*good[:2], "01", TOY)), ("key", (*good[:3], "00")), ("words", good[:3]),
            ("thing", ("Anchor", *good[1:]))):
        yield row(f"prepare-anchor-no-{label}", ("prepare", *more), b"", USAGE)
        yield row(f"finish-anchor-no-{label}", ("finish", *more, "anchor=00"), b"", USAGE)
    for label, more in (
            ("name", "00"), ("other-name", "request=00"), ("odd", "anchor=0"), ("digits", "anchor=0g"), ("equals", "anchor00"),
            ("none", "")):
        yield row(f"finish-anchor-no-signature-{label}", ("finish", *good, more), b"", USAGE)
    yield row("prepare-anchor-more-words", ("prepare", *good, "anchor=00"), b"", USAGE)
    yield row("finish-anchor-two-signatures", ("finish", *good, "anchor=00", "anchor=00"), b"", USAGE)


# ---- certificate requests


def requests_asked():
    """Of requests: name, octets, a digit for the answer, and whether it is verified by that."""
    toy, openssl = request(request_of()), openssl_requests.PLACES["authority"][0]
    yield "toy", toy, "1", True
    yield "no", toy, "0", False
    yield "spoilt", request(request_of(spoilt=True)), "0", False
    yield "on-a-curve", request(request_of(key=("ec", key_bits(1, 0)))), "1", False
    for label, octets in ("openssl", openssl), ("openssl-changed", changed(openssl)):
        digits = questions.openssl_says(questions.of_request(octets))
        assert digits == "01"[octets == openssl], label
        yield label, octets, digits, digits == "1"
    for n in 0, 1, *SIZES:
        yield f"of-{n}", request(request_of(key=("rsa", b"\1" * n), signature=b"\3" * n)), "1", True


def held_by(octets):
    """The bits of the key of a request."""
    (_, key, _, _), _, _ = questions.of_request(octets)
    return questions.values(questions.inner(key))[1][1][1:]


def key_digits(octets):
    """The key of a request, as the program writes it."""
    (_, key, _, _), _, _ = questions.of_request(octets)
    return key.hex().encode()


def request_rows():
    """Certificate requests: what is asked of them, and whether they hold by the answers."""
    for label, octets, digits, holds in requests_asked():
        asked_of = questions.of_request(octets)
        yield of_call("request-asked", label, (digits,), octets, *questions.shown(asked_of, digits))
        digest = questions.digest_of(asked_of)
        yield of_call("request", label, (digest, digits), octets, *((DONE,) if holds else (b"refused", SAID[SIGNATURE])))
        answer = (0, key_digits(octets)) if holds else SIGNATURE
        text = updown(b"issue", asked(base64.b64encode(octets)))
        bits = held_by(octets)
        yield of_call("request-at", label, (), octets, bits)
        yield of_call("request-in", label, (), text, bits)
        for call, field in ("request", octets.hex().encode()), ("issue", text):
            yield row(f"questions-{call}-{label}", ("questions", call), field, (0, questions.asked_lines(asked_of)))
            yield row(f"{call}-{label}", (call, digest, digits), field, answer)
    toy = request(request_of())
    for label, digest, digits, answer in bound(questions.of_request(toy), "1"):
        yield of_call("request", label, (digest, digits), toy, b"refused", SAID[answer])
        yield row(f"request-{label}", ("request", digest, digits), toy.hex().encode(), answer)
        yield row(f"issue-{label}", ("issue", digest, digits), updown(b"issue", asked(base64.b64encode(toy))), answer)
    syntax, xml = (5, b"InvalidCsrSyntax"), (5, b"XmlError")
    for label, field, answer in (
            ("cut", toy[:-1].hex().encode(), syntax), ("empty", b"", syntax), ("odd", b"0", (3, b"Hex")),
            ("of-a-router", openssl_requests.PLACES["router"][0].hex().encode(), syntax)):
        yield row(f"questions-request-{label}", ("questions", "request"), field, answer)
        yield row(f"request-{label}", ("request", NO_DIGEST, ""), field, answer)
        if answer == syntax:
            yield of_call("request-at", f"no-{label}", (), bytes.fromhex(field.decode()), b"refused", syntax[1])
    for label, field, answer in (
            ("list", updown(b"list"), xml), ("query", QUERY, xml), ("empty", b"", xml),
            ("value", updown(b"issue", asked(NO_VALUE)), syntax)):
        yield row(f"questions-issue-{label}", ("questions", "issue"), field, answer)
        yield row(f"issue-of-no-{label}", ("issue", NO_DIGEST, ""), field, answer)
        yield of_call("request-in", f"no-{label}", (), field, b"refused", answer[1])
    digest = questions.digest_of(questions.of_request(toy))
    yield row("request-with-octets-behind", ("request", digest, "1"), toy.hex().encode() + b"00", (0, key_digits(toy)))
    for call, more in (
            ("questions", ("request", "00")), ("questions", ("issue", "00")), ("request", (digest,)), ("request", (digest, "1", "1")),
            ("request", (digest[1:], "1")), ("issue", (digest, "2")), ("issue", ())):
        yield row(f"{call}-of-other-words-{'-'.join(more)[:20] or 'none'}-{len(more)}", (call, *more), toy.hex().encode(), USAGE)


HERE, FILE, HTTPS = "rsync://localhost/repo/x", "rsync://localhost/repo/ca.mft", "https://localhost/repo/notify.xml"


def made_request(slashed, manifest, notify, **more):
    """What is made for these places (RFC 6487, 6)."""
    places = [(REPOSITORY, slashed), (MANIFEST, manifest), *([(NOTIFY, notify)] if notify != "-" else [])]
    described = seq(*(description(method, location.encode()) for method, location in places))
    return request_of(extensions=[constraints(TRUE), usage(), extension(SUBJECT_INFO_ACCESS, described, FALSE)], **more)


def made_request_rows():
    """Certificate requests that are made of a signature from elsewhere, with places of many lengths."""
    longest = long_text("rsync://localhost/repo/", 65534)
    for label, repository, manifest, notify in (
            ("all", HERE, FILE, HTTPS), ("without-notify", HERE, FILE, "-"), ("directory", f"{HERE}/", FILE, HTTPS),
            ("upper-case", "RSYNC://LocalHost/Repo/X", FILE, "HTTPS://LocalHost"), ("longest", longest, longest + "a", "-"),
            *((f"places-of-{n}", long_text("rsync://localhost/repo/", n), long_text("rsync://localhost/r/", n),
                long_text("https://localhost/", n)) for n in (127, 128, 255, 256))):
        o = made_request(repository if repository.endswith("/") else f"{repository}/", manifest, notify)
        signed, octets = info(o), request(o)
        words = TOY, repository, manifest, notify
        yield from of_making("request", label, words, signed, sign(1, 0, signed), octets)
        yield of_call("request-made", label, words, b"", octets)
    for n in 0, 1, *SIZES:
        held = b"\1" * n
        o = made_request(f"{HERE}/", FILE, "-", key=("rsa", held), subject=name_of(held), signature=b"\3" * n)
        yield from of_making("request", f"of-{n}", (spelled_key(("rsa", held)).hex(), HERE, FILE, "-"), info(o), b"\3" * n, request(o))
    longer = long_text("rsync://localhost/repo/", 65535)
    for label, key, repository, signature, answer in (
            ("long", LONG, longer, "00", b"TooLong"), ("curve", EC, longer, "00", b"IncompatibleKey"),
            ("long-on-a-curve", LONG_EC, HERE, "", b"TooLong"), ("uri", TOY, longer, LONG_SIGNATURE, b"Usage"),
            ("curve-and-long-signature", EC, HERE, LONG_SIGNATURE, b"IncompatibleKey")):
        yield from of_failing("request", label, (key, repository, FILE, HTTPS), signature, answer)
    yield from of_failing("request", "long-signature", (TOY, HERE, FILE, "-"), LONG_SIGNATURE, b"TooLong", prepares=True)
    good = "request", TOY, HERE, FILE, HTTPS
    for label, place, held in (
            ("thing", 0, "csr"), ("key", 1, "00"), ("repository", 2, HTTPS), ("repository-text", 2, ""), ("dots", 2, "rsync://h/m/../x"),
            ("manifest", 3, "ca.mft"), ("notify", 4, "http://localhost/"), ("notify-text", 4, ""), ("notify-hyphens", 4, "--")):
        more = (*good[:place], held, *good[place + 1:])
        yield row(f"prepare-request-no-{label}", ("prepare", *more), b"", USAGE)
        yield row(f"finish-request-no-{label}", ("finish", *more, "request=00"), b"", USAGE)
    yield row("prepare-request-fewer-words", ("prepare", *good[:-1]), b"", USAGE)
    yield row("prepare-request-more-words", ("prepare", *good, "request=00"), b"", USAGE)
    for label, more in ("none", ()), ("unnamed", ("00",)), ("other", ("anchor=00",)), ("two", ("request=00",) * 2):
        yield row(f"finish-request-signature-{label}", ("finish", *good, *more), b"", USAGE)


# ---- setup messages


def setup_rows():
    """Each of the four messages with a certificate that names itself, and all certificates in one of them."""
    toy = certificate(options_of(**ANCHOR))
    for parts in ROOTS:
        yield from of_setup("toy", parts, toy, True, "1", NOW, None)
        kind = parts[0].decode()
        refused = (5, b"XmlError"), b"malformed XML"
        yield from of_no_setup("no-message", kind, QUERY, *refused)
        yield from of_no_setup("another-message", kind, setup_message(*ROOTS[kind == "child_request"], base64.b64encode(toy)), *refused)
        for label, octets in ("cut", toy[:-1]), ("no-octets", b"\0"):
            yield from of_no_setup(label, kind, setup_message(*parts, base64.b64encode(octets)),
                (5, b"InvalidTaCertEncoding"), b"the certificate is malformed")
    for label, octets, names_itself, digits, moment, check in anchors():
        if label != "toy":
            yield from of_setup(label, ROOTS[0], octets, names_itself, digits, moment, check)
    behind = toy + b"\0"
    yield from of_setup("octet-behind", ROOTS[1], behind, True, "1", NOW, None, toy)
    message = setup_message(*ROOTS[0], base64.b64encode(toy))
    for label, digest, digits, answer in bound(questions.of_anchor(toy, True), "1"):
        words = "child_request", str(LAST + 1), digest, digits
        yield of_call("setup", label, words, message, b"refused", SAID[answer])
        yield row(f"setup-{label}", ("setup", *words), message, answer)
    good = "child_request", str(NOW), questions.digest_of(questions.of_anchor(toy, True)), "1"
    for label, more in (
            ("kind", ("child", *good[1:])), ("moment", (good[0], "-1", *good[2:])), ("digest", (*good[:2], "00", "1")),
            ("digits", (*good[:3], "x")), ("answers", good[:3]), ("end", (*good, "1")), ("words", ())):
        yield row(f"setup-no-{label}", ("setup", *more), message, USAGE)
    for label, more in ("kind", ("setup",)), ("other-kind", ("setup", "child")), ("end", ("setup", "child_request", "00")):
        yield row(f"questions-setup-no-{label}", ("questions", *more), message, USAGE)


def of_setup(label, parts, octets, names_itself, digits, moment, check, read=None):
    """A setup message with this certificate, where a part of the octets may be read: its questions, and what is answered by answers."""
    kind, message = parts[0].decode(), setup_message(*parts, base64.b64encode(octets))
    asked_of = questions.of_anchor(read or octets, names_itself)
    yield of_call("setup-asked", f"{kind}-{label}", (kind, digits), message, *questions.shown(asked_of, digits))
    yield row(f"questions-setup-{kind}-{label}", ("questions", "setup", kind), message, (0, questions.asked_lines(asked_of)))
    words = kind, str(moment), questions.digest_of(asked_of), digits
    yield of_call("setup", f"{kind}-{label}", words, message, *((b"refused", failing(check)) if check else (message,)))
    yield row(f"setup-{kind}-{label}", ("setup", *words), message, (5, b"InvalidTaCert") if check else (0, message))


def of_no_setup(label, kind, message, answer, text):
    """The rows of a text that is no setup message of this kind."""
    yield of_call("setup-asked", f"{kind}-{label}", (kind, ""), message, b"refused", text)
    yield row(f"questions-setup-{kind}-{label}", ("questions", "setup", kind), message, answer)
    words = kind, str(NOW), NO_DIGEST, "11"
    yield of_call("setup", f"{kind}-{label}", words, message, b"refused", text)
    yield row(f"setup-{kind}-{label}", ("setup", *words), message, answer)


def rows():
    """All rows of this script."""
    for group in anchor_rows, made_anchor_rows, request_rows, made_request_rows, setup_rows:
        yield from group()
