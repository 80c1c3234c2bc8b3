#!/usr/bin/env python3
"""Writes the cases on which crates/test_external runs `rpki_external::run_keys`: its data/cases.txt, and the stdout beside it.

    tools/cases/answer_cases.py                  writes the rows of this script, and keeps the sets of cases that the file has
    tools/cases/answer_cases.py SET FOLDER       takes a set of cases of the command `receive` anew from a folder

The rows are made of the messages with RSA keys in data/messages.txt, which tools/cases/rsa_messages.py had OpenSSL make; of messages of the
toy scheme, as tools/cases/signed_messages.py spells them; and of what stands here. Which signatures hold, the `openssl` command says. No
expected answer comes from the program under test.

A case of a folder is case-N.words (one word a line), case-N.in (the input) and case-N.expected (the status in decimal, a line feed,
then what is written); they come from a model that was written apart. Those whose first word isn't `receive` are left out.

A line is `NAME HOW STATUS OUTPUT INPUT WORD..`: HOW is `keys` where the words are the program's own, `whole` where they are and the input
isn't handed in an octet at a time too, and `toy` where they are those of `receive` without last time, digest and answers, which the toy
scheme gives. The status is in decimal, what is written and the input are stored octets, and the words are as they are, or behind a `#` in
hexadecimal. A `-` stands for an empty field.

Or it is `NAME CALL ANSWER INPUT WORD..`, with a public call that the program is made of, and the fields that it answers, with `;` between
them, each of them stored octets:

    asked     ANSWERS KEY..         the text of the questions and its digest; of each question its part, and a digit for what the answers
                                    say of it under each of two algorithms
    held      KEY..                 part, octets and signature of the own question and of each part, behind the own one its key; and the
                                    keys: of a key its bits
    inspected                       what is in the message, as a JSON text, which the script reads from the octets by itself
    told                            the same of a message that was read in DER
    received  KIND MOMENT LAST DIGEST ANSWERS KEY..                    the message's text, the key's place, and the signing time, if any
    checked   MOMENT DIGEST ANSWERS KEY                                a digit for each of the fourteen checks
    guarded   MOMENT ANSWERS KEY                                       the same, and what a guard says to the message, twice
    prepared  MOMENT SERIAL ISSUER-KEY ONE-OFF-KEY                     attributes, CRL and certificate; INPUT is the content
    finished  MOMENT SERIAL ISSUER-KEY ONE-OFF-KEY SIGNATURE..         the message
    octets    KEY..                 the octets of the questions
    record    PART                  the record of INPUT under the part's tag, behind `abc`
    message   KIND                  the text of the message that INPUT is
    request-at, request-in          the bits of the key of the request with which INPUT begins, or that stands in it, an issue request
    printed   WORD                  the errors, parts and refusals that the word names, as they are printed and shown, or which of them
                                    are equal; or as what they are passed on

or one of tools/cases/anchor_cases.py; or `refused` and the error as it is printed.
"""

import base64
import hashlib
import pathlib
import subprocess
import sys
from unittest import mock

import anchor_cases
import printed_cases
import questions
import signed_messages as messages
from answer_lines import MOST, USAGE, case, of_call, row
from inspection import inspected
from publication_cases import element, root
from questions import header_of, inner, openssl_says, parts_of
from rsa_messages import values
from run_cases import NO_VALUE, asked, issued, issuer, resource_class, updown
from signed_messages import NOW, NULL, QUERY, RSA, bits, indefinite, key_bits, numbered, segmented, seq, sign
from stored_cases import SIZES, write

ROOT = pathlib.Path(__file__).resolve().parents[2]
CRATE = ROOT / "crates" / "test_external"
INPUT = (ROOT / "examples" / "query-list.hex").read_bytes()
SETS = "ber", "two", "pub", "prov"
SERIAL = 0x0123456789abcdef0123456789abcdef01234567
LONGEST = 1 << 26
NO_DIGEST = "00" * 32


def cases_of(name, folder):
    """The cases of a folder that receive."""
    for file in sorted(folder.glob("case-*.in")):
        words = file.with_suffix(".words").read_text().split("\n")[:-1]
        status, _, output = file.with_suffix(".expected").read_bytes().partition(b"\n")
        # a model of the publication protocol alone takes the other protocol's word for no word of a command
        if name in ("ber", "two") and words[1:2] == ["provisioning"] and file.with_suffix(".expected").read_bytes() == b"2\nUsage\n":
            continue
        if words[:1] == ["receive"]:
            yield toy_case(f"{name}-{file.stem[5:]}", words, file.read_bytes(), int(status), output)


def toy_case(name, words, field, status, output):
    """A case of `receive` without answers; what is received has its receipt's line before it."""
    return case(name, "toy", words, field, status, toy_line(words, field) + output if status == 0 else output)


def toy_line(words, field):
    """The place of the first key that signed a SEQUENCE of the message by the toy scheme, and the signing time."""
    message = bytes.fromhex(field.decode().removesuffix("\n"))
    sequences = [message[at:questions.end_of(message, at)] for at in range(len(message)) if message[at] == 0x30]
    for place, key in enumerate(words[3:]):
        held = values(inner(bytes.fromhex(key)))[1][1][1:]
        if any(hashlib.sha256(held + part).digest() in message for part in sequences):
            return receipt_line(place, questions.signing_time(message))
    raise AssertionError(words)


# ---- what is asked, and what is received by answers


def of_questions(name, message, *keys, field=None):
    """The program's questions of a message, which may be spelled in another way."""
    lines = questions.asked_lines(questions.of_message(message, *keys))
    return row(name, ("questions", "message", *keys), field or message.hex().encode(), (0, lines))


def by_answers(kind, moment, message, digits, *keys, last="-", digest=None):
    """The words behind `receive`, or those of the call."""
    return kind, str(moment), last, digest or questions.digest_of(questions.of_message(message, *keys)), digits, *keys


def receipt_line(place, time):
    """The line that `receive` writes of a message: the key's place and when the message was signed."""
    return f"{place} {'-' if time is None else time}\n".encode()


def receipt(message, place, text):
    """What is written of a message that is received."""
    return 0, receipt_line(place, questions.signing_time(message)) + text


def receipt_fields(message, place, text):
    """What is received of a message: its text, the key's place, and when it was signed, if it says so."""
    time = questions.signing_time(message)
    return text, str(place).encode(), *([] if time is None else [str(time).encode()])


def validation(check):
    """The status and the line where this check fails."""
    return 6, b"Validation %d" % check


# ---- what is in a message


def inspected_rows():
    """Messages of OpenSSL, and toy messages of which each has a part in another way; and what is none."""
    example = (ROOT / "examples" / "rsa-query.der").read_bytes()
    for call in "inspected", "told":
        yield of_call(call, "example", (), example, inspected(example))
    for name, _, _, _, _, message, _ in stored():
        yield of_call("inspected", name, (), message, inspected(message))
        yield of_call("inspected", f"{name}-in-ber", (), in_ber(message), inspected(message))
        yield row(f"inspect-{name}", ("inspect",), message.hex().encode(), (0, inspected(message)))
    alone = seq(messages.RSA_SHA256)
    for label, message in (
            ("toy", numbered(QUERY, NOW, SERIAL)), ("no-content", numbered(b"", NOW, 1)), ("serial-0", messages.message(serial=0)),
            ("first-bit-of-the-serial", messages.message(serial=0x80)), ("longest-serial", messages.message(serial=(1 << 160) - 1)),
            ("two-crls", messages.two_crls({}, dict(entries=(2, 3), crl_number=0, updates=(NOW + 1, NOW + 2)))),
            ("no-list-of-entries", messages.message(entries=None)), ("revoked", messages.message(entries=(1, 2, 1 << 64))),
            ("no-authority", messages.message(authority_key=None, crl_authority=None)),
            ("of-an-authority", messages.message(constraints=True)), ("of-no-authority", messages.message(constraints=False)),
            ("no-signing-time", messages.message(attributes=messages.without(messages.SIGNING_TIME))),
            ("before-1970", messages.message(signed_at=-1, validity=(-62135596800, -1), updates=(-2, -1))),
            ("late", messages.message(validity=(NOW, 253402300799))),
            ("no-crl-number", messages.message(crl_extensions=messages.without(messages.CRL_NUMBER))),
            ("inner-algorithm-alone", messages.message(crl_inner=alone)), ("outer-algorithm-alone", messages.message(crl_outer=alone)),
            ("signer-sha256-with-rsa", messages.message(signer_algorithm=messages.ALGORITHM)),
            ("signer-sha256-with-rsa-alone", messages.message(signer_algorithm=alone)),
            ("signer-rsa-alone", messages.message(signer_algorithm=seq(messages.RSA))),
            ("another-digest", messages.message(digested=b"another content")),
            ("another-signer", messages.message(signer_id=messages.OTHER)),
            ("without-signature", messages.message(signature=lambda x: b""))):
        yield of_call("inspected", label, (), message, inspected(message))
    message = numbered(QUERY, NOW, SERIAL)
    yield of_call("inspected", "octets-behind", (), message + b"\0\xff\x30", inspected(message))
    for label, octets_of_none in ("no-message", message[:-1]), ("no-octets", b""), ("text", QUERY):
        yield of_call("inspected", label, (), octets_of_none, b"refused", b"malformed value")


# ---- messages under RSA keys


def changed(message, part, place=-1):
    """The message with one bit of a part changed."""
    at = message.index(part) + (place if place >= 0 else len(part) + place)
    assert message.count(part) == 1
    return message[:at] + bytes([message[at] ^ 1]) + message[at + 1:]


def openssl_receives(message):
    """Whether OpenSSL says that content, digest and attributes are signed under the certificate's key."""
    words = ["openssl", "cms", "-verify", "-noverify", "-binary", "-inform", "DER", "-out", "/dev/null"]
    return subprocess.run(words, input=message, capture_output=True).returncode == 0


def first_failing(text, digest, answers):
    """The first check that fails, by the digest that Python has of the content, and by OpenSSL's answers."""
    found = [2] if hashlib.sha256(text).digest() != digest else []
    return (found + [check for check, answer in zip((3, 8, 10, 10), answers) if answer == "0"])[0]


def alterations(message):
    """Names, and messages with one bit of what is signed, or of a signature, changed."""
    (key, signed, signature), (tbs, of_certificate), lists = parts_of(message)
    yield "signing-time", changed(message, values(signed)[0][1], values(signed)[0][1].index(b"\x17\x0d") + 13)
    yield "key", changed(message, key, 100)
    yield "certificate", changed(message, tbs, tbs.index(b"\x02\x10") + 17)
    for place in 0, 128, -1:
        label = {0: "-at-its-beginning", 128: "-amid"}.get(place, "")
        yield f"signature{label}", changed(message, signature, place)
        yield f"certificate-signature{label}", changed(message, of_certificate, place)
        for number, (crl, of_crl) in enumerate(lists):
            yield f"crl-{number}-signature{label}", changed(message, of_crl, place)
    for number, (crl, _) in enumerate(lists):
        # The last octet of the CRL number, which stands at the end.
        yield f"crl-{number}", changed(message, crl)


def altered_rows(name, kind, moment, key, message, text):
    """One bit of each part changed: the check is the first that OpenSSL's answers, and Python's digest of the content, make false."""
    digest = hashlib.sha256(text).digest()
    other_digest = bytes([digest[0] ^ 1]) + digest[1:]
    told = next((told for told in (b"first", b"child") if told in text), text)
    other_text = text.replace(told, bytes([told[0] ^ 1]) + told[1:], 1)
    for label, altered, held, named in (
            *((label, altered, text, digest) for label, altered in alterations(message)),
            ("content", changed(message, text, text.index(told)), other_text, digest),
            ("digest", changed(message, digest, 0), text, other_digest)):
        digits = openssl_says(questions.of_message(altered, key))
        check = first_failing(held, named, digits)
        assert openssl_receives(altered) == (check > 3), (name, label)
        # Of the list alone no bit can be changed so that it is a message still, and that comes before all checks.
        answer = (5, b"XmlError") if label == "content" and told == text else validation(check)
        words = by_answers(kind, moment, altered, digits, key)
        yield row(f"{name}-changed-{label}", ("receive", *words), altered.hex().encode(), answer)
        yield of_questions(f"{name}-changed-{label}-questions", altered, key)
        # A changed key isn't the one that the certificate's identifier is the SHA-1 of.
        failing = all_failing(held, named, digits) | ({4} if label == "key" else set())
        yield from explained(f"{name}-changed-{label}", moment, altered, digits, key, failing)


def in_ber(message):
    """The message with its content in segments, and with indefinite lengths round all that no signature covers."""
    (_, envelope), = values(message)
    kind, (_, held) = values(envelope)
    version, digests, (_, content), certificates, (_, lists), (_, signers) = values(inner(held))
    content_type, (_, string) = values(content)
    (_, signer), = values(signers)
    fields = values(signer)
    attributes = indefinite(0xA0, fields[3][1])
    signer = b"".join(header_of(*field) if place != 3 else attributes for place, field in enumerate(fields))
    content = header_of(*content_type) + indefinite(0xA0, segmented(inner(string)))
    data = b"".join((
        header_of(*version), indefinite(0x31, digests[1]), indefinite(0x30, content), indefinite(0xA0, certificates[1]),
        indefinite(0xA1, lists), indefinite(0x31, indefinite(0x30, signer))))
    return indefinite(0x30, header_of(*kind) + indefinite(0xA0, indefinite(0x30, data)))


def ber_rows(name, kind, moment, key, message, text):
    """The same message in BER: the questions are the same, and so is what is received."""
    spelled = in_ber(message)
    assert openssl_receives(spelled), name
    field = spelled.hex().encode()
    yield of_questions(f"{name}-questions-in-ber", message, key, field=field)
    answers = openssl_says(questions.of_message(message, key))
    words = "receive", *by_answers(kind, moment, message, answers, key)
    yield row(f"{name}-received-in-ber", words, field, receipt(message, 0, text))
    yield row(f"{name}-broken-in-ber", words, field[:-4], (4, b"CmsDecode"))
    words = by_answers(kind, moment, message, "0" + answers[1:], key)
    yield row(f"{name}-no-in-ber", ("receive", *words), field, validation(3))


def places_rows(name, kind, moment, key, other, message, text):
    """The key at each place of one to eight, as OpenSSL answers."""
    field = message.hex().encode()
    of_key, of_other = (openssl_says(questions.of_message(message, held)) for held in (key, other))
    for count in range(1, 9):
        for place in range(count) if count in (3, 8) else sorted({0, count - 1}):
            keys = [other] * count
            keys[place] = key
            digits = of_key[0] + "".join((of_key if held is key else of_other)[1:] for held in keys)
            words = by_answers(kind, moment, message, digits, *keys)
            yield row(f"{name}-at-{place}-of-{count}", ("receive", *words), field, receipt(message, place, text))
            yield of_call("received", f"{name}-at-{place}-of-{count}", words, message, *receipt_fields(message, place, text))
    yield of_questions(f"{name}-questions-of-a-key-twice", message, key, key)
    words = by_answers(kind, moment, message, of_other[0] + of_other[1:] * 8, *[other] * 8)
    yield row(f"{name}-eight-others", ("receive", *words), field, validation(6))


def all_failing(text, digest, answers):
    """All checks that fail, by the digest that Python has of the content, and by OpenSSL's answers."""
    found = {2} if hashlib.sha256(text).digest() != digest else set()
    return found | {check for check, answer in zip((3, 8, 10, 10), answers) if answer == "0"}


def digits_but(failing):
    """The fourteen digits of checks of which these fail."""
    return "".join("0" if check in failing else "1" for check in range(1, 15)).encode()


def explained(name, moment, message, digits, key, failing):
    """The fourteen checks of a message, by the program and by the call."""
    digest = questions.digest_of(questions.of_message(message, key))
    words = str(moment), digest, digits, key
    yield row(f"explain-{name}", ("explain", *words), message.hex().encode(), (0, digits_but(failing)))
    yield of_call("checked", name, words, message, digits_but(failing))


def stored():
    """The messages with RSA keys: name, kind, moment, issuer's key, another key, octets and text."""
    for line in (CRATE / "data" / "messages.txt").read_text().splitlines():
        name, kind, moment, key, other, message, text = line.split(" ", 6)
        yield name, kind, moment, key, other, bytes.fromhex(message), text.encode()


def real_rows():
    """Each message with an RSA key, under several keys, at moments, and by answers that hold and that don't."""
    for name, kind, moment, key, other, message, text in stored():
        field, by = message.hex().encode(), (kind, moment, message)
        yield of_questions(f"{name}-questions", message, key)
        answers = openssl_says(questions.of_message(message, key))
        assert set(answers) == {"1"}, (name, answers)
        yield row(f"{name}-received", ("receive", *by_answers(*by, answers, key)), field, receipt(message, 0, text))
        for label, keys in ("second", (other, key)), ("first", (key, other)), ("of-eight", (other,) * 7 + (key,)):
            digits = openssl_says(questions.of_message(message, *keys))
            yield of_questions(f"{name}-questions-{label}", message, *keys)
            words = by_answers(*by, digits, *keys)
            yield row(f"{name}-received-{label}", ("receive", *words), field, receipt(message, keys.index(key), text))
        of_other = openssl_says(questions.of_message(message, other))
        yield row(f"{name}-other-key", ("receive", *by_answers(*by, of_other, other)), field, validation(6))
        failing = {6, 13, *all_failing(text, hashlib.sha256(text).digest(), of_other)}
        yield from explained(f"{name}-other-key", moment, message, of_other, other, failing)
        later = kind, int(moment) + 301, message
        yield row(f"{name}-later", ("receive", *by_answers(*later, answers, key)), field, validation(5))
        yield from explained(f"{name}-later", int(moment) + 301, message, answers, key, {5, 12})
        yield from explained(name, moment, message, answers, key, set())
        for place, check in enumerate((3, 8, 10, 10)[:len(answers)]):
            digits = answers[:place] + "0" + answers[place + 1:]
            yield row(f"{name}-no-to-{place}", ("receive", *by_answers(*by, digits, key)), field, validation(check))
        yield from altered_rows(name, kind, moment, key, message, text)
        yield from ber_rows(name, kind, moment, key, message, text)
        yield from places_rows(name, kind, moment, key, other, message, text)
        yield from bound_rows(name, *by, answers, text, key, other)
        yield from last_rows(name, *by, answers, text, key)


def bound_rows(name, kind, moment, message, answers, text, key, other):
    """Answers to other questions: those of another key, of more keys and of another message; and answers of another number."""
    field = message.hex().encode()
    elsewhere = next(held for _, _, _, _, _, held, _ in stored() if held != message)
    apart = (14, b"OtherQuestions"), b"the answers are to other questions"
    number = USAGE, b"not as many answers as questions"
    for label, digits, digest, (answer, said) in (
            ("another-key", answers, questions.of_message(message, other), apart),
            ("two-keys", answers, questions.of_message(message, key, other), apart),
            ("another-message", answers, questions.of_message(elsewhere, key), apart),
            ("another-key-and-number", answers + "1", questions.of_message(message, other), apart),
            ("no-answers", "", questions.of_message(message, key), number),
            ("one-answer-less", answers[1:], questions.of_message(message, key), number),
            ("one-answer-more", answers + "1", questions.of_message(message, key), number)):
        digest = questions.digest_of(digest)
        words = by_answers(kind, moment, message, digits, key, digest=digest)
        yield row(f"{name}-of-{label}", ("receive", *words), field, answer)
        yield of_call("received", f"{name}-of-{label}", words, message, b"refused", said)
        words = moment, digest, digits, key
        yield row(f"explain-{name}-of-{label}", ("explain", *words), field, answer)
        yield of_call("checked", f"{name}-of-{label}", words, message, b"refused", said)


def last_rows(name, kind, moment, message, answers, text, key):
    """A last time a second earlier, the same, and later; it is asked of what is accepted alone, and behind all else."""
    field, seen = message.hex().encode(), questions.signing_time(message)
    for label, last in ("earlier", seen - 1), ("far-earlier", 0), ("equal", seen), ("later", seen + 1), ("far-later", 253402300799):
        words = by_answers(kind, moment, message, answers, key, last=str(last))
        is_later = seen > last
        replayed = 15, f"Replayed {last} {seen}".encode()
        yield row(f"{name}-last-{label}", ("receive", *words), field, receipt(message, 0, text) if is_later else replayed)
        fields = receipt_fields(message, 0, text) if is_later else (b"refused", b"the message is not signed later than the last one")
        yield of_call("received", f"{name}-last-{label}", words, message, *fields)
    no = "0" + answers[1:]
    for label, digits, digest, answer in (
            ("check", no, None, validation(3)), ("number", answers[1:], None, USAGE),
            ("other-questions", answers, NO_DIGEST, (14, b"OtherQuestions"))):
        words = by_answers(kind, moment, message, digits, key, last=str(seen), digest=digest)
        yield row(f"{name}-{label}-before-last", ("receive", *words), field, answer)


# ---- words and inputs


def word_rows():
    """Answers, words and inputs that are none, and which refusal comes first."""
    name, kind, moment, key, other, message, text = next(stored())
    field, of_key = message.hex().encode(), questions.digest_of(questions.of_message(message, key))
    received = receipt(message, 0, text)
    words = lambda digits, *keys, **more: ("receive", *by_answers(more.pop("kind", kind), moment, message, digits, *keys, **more))
    for label, digits in ("none", ""), ("two", "11"), ("four", "1111"), ("twenty-five", "1" * 25), ("thousand", "1" * 1000):
        yield row(f"answers-{label}", words(digits, key), field, USAGE)
    yield row("answers-for-two-keys", words("11100", key, other), field, received)
    yield row("answers-for-one-of-two-keys", words("111", key, other), field, USAGE)
    for label, digits in ("letter", "11y"), ("two", "112"), ("blank", "11 "), ("feed", "11\n"), ("minus", "-11"):
        yield row(f"answers-with-a-{label}", words(digits, key), field, USAGE)
    yield row("answers-before-the-message", words("11", key), b"00", (4, b"CmsDecode"))
    yield row("answers-before-digits", words("11", key), b"0", (3, b"Hex"))
    yield row("answers-before-the-content", words("11", key, kind="provisioning"), field, USAGE)
    yield row("another-protocol", words("111", key, kind="provisioning"), field, (5, b"XmlError"))
    # The answers to a key's questions are one behind the other, and a question that comes twice has its first answer.
    yield row("same-key-twice", words("11100", key, key), field, received)
    yield row("same-key-twice-no-first", words("10111", key, key), field, validation(8))
    for label, more in ("no-keys", ()), ("nine-keys", (key,) * 9), ("no-key", ("00",)), ("key-with-more", (key + "00",)):
        yield row(f"questions-{label}", ("questions", "message", *more), field, USAGE)
        yield row(f"receive-{label}", ("receive", kind, moment, "-", of_key, "111", *more), field, USAGE)
    for label, more in (
            ("none", ()), ("unknown", ("content",)), ("upper-case", ("Questions", "message", key)), ("help", ("--help", key)),
            ("questions", ("questions", key)), ("questions-alone", ("questions",)), ("questions-of-a-list", ("questions", "Message", key)),
            ("inspect", ("inspect", key)), ("explain", ("explain", moment, of_key, "111", key, key)),
            ("explain-alone", ("explain", moment, of_key, "111")), ("explain-at-no-moment", ("explain", "-", of_key, "111", key))):
        yield row(f"words-{label}", more, field, USAGE)
    for label, change in (
            ("kind", {1: "setup"}), ("moment", {2: "0" + moment}), ("last", {3: ""}), ("last-time", {3: "0" + moment}),
            ("digest", {4: ""}), ("digest-of-63", {4: of_key[1:]}), ("digest-of-65", {4: of_key + "0"}),
            ("digits-of-digest", {4: "g" * 64})):
        more = [change.get(place, held) for place, held in enumerate(words("111", key))]
        yield row(f"receive-no-{label}", more, field, USAGE)
    for label, held, answer in (
            ("odd", field[:-1], (3, b"Hex")), ("two-feeds", field + b"\n\n", (3, b"Hex")), ("empty", b"", (4, b"CmsDecode")),
            ("broken", field[:-2], (4, b"CmsDecode"))):
        for call, more in (
                ("questions", ("questions", "message", key)), ("receive", words("111", key)), ("inspect", ("inspect",)),
                ("explain", ("explain", moment, of_key, "111", key)), ("receive-unbound", words("1", key, digest=NO_DIGEST))):
            yield row(f"{call}-{label}", more, held, answer)
    for label, held in ("feed", field + b"\n"), ("upper-case", field.upper()), ("more", field + b"00"):
        yield of_questions(f"questions-{label}", message, key, field=held)
        yield row(f"received-{label}", words("111", key), held, received)
        yield row(f"inspect-{label}", ("inspect",), held, (0, inspected(message)))
    yield row("received-digest-in-upper-case", words("111", key, digest=of_key.upper()), field, received)


# ---- what is made


class Keys:
    """Signatures that are listed, of what is recorded, in place of the toy scheme's."""

    def __init__(self, signature):
        self.signature, self.signed = signature, []

    def sign(self, seed, number, octets_to_sign, spoilt=False):
        """Notes what is to be signed, and signs it as it was told."""
        self.signed.append((number, octets_to_sign))
        return self.signature(number, octets_to_sign)


def toy_key(number):
    """The toy key with this number of seed 1, in hexadecimal."""
    return seq(seq(RSA, NULL), bits(key_bits(1, number))).hex()


def is_crl(signed):
    """Of what key 0 signs, a CRL begins with its version, a certificate with a tag round it."""
    return inner(signed)[0] == 2


def made(content, moment, serial, signature):
    """What is to be signed of attributes, CRL and certificate, their signatures, and the message."""
    keys = Keys(signature)
    message = numbered(content, moment, serial, sign=keys.sign)
    attributes, = (signed for number, signed in keys.signed if number == 1)
    crl, = (signed for number, signed in keys.signed if number == 0 and is_crl(signed))
    certificate, = (signed for number, signed in keys.signed if number == 0 and not is_crl(signed))
    signed = attributes, crl, certificate
    return signed, [signature(number, part) for number, part in zip((1, 0, 0), signed)], message


def toy(number, signed):
    """What the toy key with this number of seed 1 signs."""
    return sign(1, number, signed)


def listed(*signatures):
    """The signature of the attributes, of the CRL and of the certificate."""
    return lambda number, signed: signatures[0] if number == 1 else signatures[1 if is_crl(signed) else 2]


def lines(signed):
    """What `prepare` writes: a line for each part that is to be signed."""
    return "\n".join(f"{name} {part.hex()}" for name, part in zip(SIGNED, signed)).encode()


SIGNED = "attributes", "crl", "certificate"


def named(*digits):
    """The words of signatures."""
    return [f"{name}={held}" for name, held in zip(SIGNED, digits)]


def made_words(moment=NOW, serial=SERIAL, keys=(0, 1)):
    """The words behind `prepare message` and `finish message`: of a toy key its number, of another the key itself."""
    return "publication", str(moment), f"{serial:040x}", *(toy_key(n) if isinstance(n, int) else n for n in keys)


# The words of three signatures, and keys of which no message is made: on a curve, too long, and as long as may be.
THREE = named("00", "01", "02")
EC_KEY = seq(seq(messages.oid("1.2.840.10045.2.1"), messages.oid("1.2.840.10045.3.1.7")), bits(b"\4" + bytes(64))).hex()
LONG_KEY = seq(seq(RSA, NULL), bits(bytes((1 << 16) + 1))).hex()
MOST_KEY = seq(seq(RSA, NULL), bits(bytes(1 << 16))).hex()


def make_rows():
    """Messages that are prepared and finished, and words and signatures of which none is made."""
    for label, moment, serial, signature in (
            ("toy", NOW, SERIAL, toy), ("numbered-0", NOW, 0, toy), ("numbered-most", NOW, (1 << 159) - 1, toy),
            ("at-300", 300, SERIAL, toy), ("at-the-end", 253402300499, SERIAL, toy),
            ("of-other-lengths", NOW, SERIAL, listed(b"\1" * 256, b"", b"\2" * 700))):
        signed, signatures, message = made(QUERY, moment, serial, signature)
        yield row(f"prepare-{label}", ("prepare", "message", *made_words(moment, serial)), QUERY, (0, lines(signed)))
        digits = named(*(signature_octets.hex() for signature_octets in signatures))
        yield row(f"finish-{label}", ("finish", "message", *made_words(moment, serial), *digits), QUERY, (0, message.hex().encode()))
    yield from unmade_rows()
    yield from unmade_by_signatures()
    yield from unmade_by_words()


def unmade_rows():
    """Texts, moments and keys of which no message is made, and which refusal comes first."""
    for label, more, field, answer in (
            ("no-text", made_words(), b"", (5, b"XmlError")),
            ("provisioning", ("provisioning", *made_words()[1:]), QUERY, (5, b"XmlError")),
            ("early", made_words(moment=299), QUERY, (8, b"Moment")),
            ("late", made_words(moment=253402300500), QUERY, (8, b"Moment")),
            ("one-key", made_words(keys=(0, 0)), QUERY, (7, b"KeyReused")),
            ("issuer-on-a-curve", made_words(keys=(EC_KEY, 1)), QUERY, (7, b"IncompatibleKey")),
            ("one-off-on-a-curve", made_words(keys=(0, EC_KEY)), QUERY, (7, b"IncompatibleKey")),
            ("one-key-on-a-curve", made_words(keys=(EC_KEY, EC_KEY)), QUERY, (7, b"IncompatibleKey")),
            ("long-issuer", made_words(keys=(LONG_KEY, 1)), QUERY, (9, b"TooLong")),
            ("long-one-off", made_words(keys=(0, LONG_KEY)), QUERY, (9, b"TooLong")),
            ("long-before-format", made_words(keys=(LONG_KEY, EC_KEY)), QUERY, (9, b"TooLong")),
            ("moment-before-long", made_words(moment=0, keys=(LONG_KEY, 1)), QUERY, (8, b"Moment")),
            ("moment-before-format", made_words(moment=299, keys=(EC_KEY, 1)), QUERY, (8, b"Moment")),
            ("moment-before-one-key", made_words(moment=253402300500, keys=(0, 0)), QUERY, (8, b"Moment")),
            ("long-before-one-key", made_words(keys=(LONG_KEY, LONG_KEY)), QUERY, (9, b"TooLong")),
            ("long-of-both", made_words(keys=(LONG_KEY, MOST_KEY)), QUERY, (9, b"TooLong")),
            ("text-before-long", made_words(keys=(LONG_KEY, 1)), b"<msg/>", (5, b"XmlError")),
            ("text-before-one-key", made_words(keys=(0, 0)), b"<msg/>", (5, b"XmlError")),
            ("no-certificate", ("provisioning", *made_words()[1:]), NO_CERTIFICATE, (5, b"CertSyntax")),
            ("no-certificate-before-moment", ("provisioning", *made_words(moment=0)[1:]), NO_CERTIFICATE, (5, b"CertSyntax")),
            ("no-request", ("provisioning", *made_words()[1:]), NO_REQUEST, (5, b"InvalidCsrSyntax")),
            ("no-request-before-one-key", ("provisioning", *made_words(keys=(0, 0))[1:]), NO_REQUEST, (5, b"InvalidCsrSyntax")),
            ("publication-of-a-request", made_words(), NO_REQUEST, (5, b"XmlError")),
            ("text-before-moment", made_words(moment=0), b"<msg/>", (5, b"XmlError")),
            ("one-long-key", made_words(keys=(MOST_KEY, MOST_KEY)), QUERY, (7, b"KeyReused"))):
        yield row(f"prepare-{label}", ("prepare", "message", *more), field, answer)
        yield row(f"finish-{label}", ("finish", "message", *more, *THREE), field, answer)


def unmade_by_signatures():
    """Signatures that are too long, and what is refused before them."""
    for place in range(3):
        digits = named(*("00" * ((1 << 16) + 1 if place == number else 1) for number in range(3)))
        yield row(f"finish-long-signature-{place}", ("finish", "message", *made_words(), *digits), QUERY, (9, b"TooLong"))
    long_signatures = named("00" * (MOST + 1), "", "")
    yield row("finish-moment-before-signature", ("finish", "message", *made_words(moment=0), *long_signatures), QUERY, (8, b"Moment"))
    yield row("finish-format-before-signature", ("finish", "message", *made_words(keys=(EC_KEY, 1)), *long_signatures), QUERY,
        (7, b"IncompatibleKey"))
    yield row("finish-text-before-signature", ("finish", "message", *made_words(), *long_signatures), b"<msg/>", (5, b"XmlError"))
    yield row("finish-key-before-signature", ("finish", "message", *made_words(keys=(0, 0)), *long_signatures), QUERY, (7, b"KeyReused"))


def unmade_by_words():
    """Words that ask for no message, and words of signatures that are none."""
    for label, change in (
            ("short", {2: "00" * 19}), ("long", {2: "00" * 21}), ("first-bit", {2: "80" + "00" * 19}), ("odd", {2: "0" * 39}),
            ("no-digits", {2: "g" * 40}), ("none", {2: ""}), ("most-bits", {2: "ff" * 20}), ("no-issuer", {3: "00"}),
            ("no-one-off", {4: "3000"}), ("odd-issuer", {3: toy_key(0)[:-1]}), ("no-digits-of-one-off", {4: toy_key(1)[:-2] + "0x"}),
            ("more-of-issuer", {3: toy_key(0) + "00"}), ("issuer-none", {3: ""}), ("no-kind", {0: "setup"}),
            ("upper-kind", {0: "Publication"}),
            ("no-moment", {1: "-1"}), ("moment-from-zero", {1: "0" + str(NOW)}), ("late-moment", {1: "253402300800"})):
        more = [change.get(place, held) for place, held in enumerate(made_words())]
        yield row(f"prepare-serial-{label}", ("prepare", "message", *more), QUERY, USAGE)
        yield row(f"finish-serial-{label}", ("finish", "message", *more, *THREE), QUERY, USAGE)
    yield row("prepare-more-words", ("prepare", "message", *made_words(), "00"), QUERY, USAGE)
    yield row("prepare-fewer-words", ("prepare", "message", *made_words()[:-1]), QUERY, USAGE)
    yield row("prepare-of-nothing", ("prepare", *made_words()), QUERY, USAGE)
    yield row("finish-of-nothing", ("finish", *made_words(), *THREE), QUERY, USAGE)
    for label, more in (
            ("two", THREE[:2]), ("four", (*THREE, "certificate=00")), ("no", ()), ("odd", named("00", "0", "00")),
            ("spelled-so", named("00", "01", "0g")), ("blank", named("0 ", "01", "02")), ("unnamed", ("00", "01", "02")),
            ("swapped", (THREE[1], THREE[0], THREE[2])), ("upper-case", [held.upper() for held in THREE]),
            ("spaced", [held.replace("=", " ") for held in THREE])):
        yield row(f"finish-{label}-signatures", ("finish", "message", *made_words(), *more), QUERY, USAGE)


# Texts of the form of a message, in which a certificate and a request are none.
NO_CERTIFICATE = updown(b"issue_response", resource_class(issued(NO_VALUE), issuer()))
NO_REQUEST = updown(b"issue", asked(NO_VALUE))


def syntax_rows():
    """What the content is decides before any answer, and behind their number."""
    for label, content, answer in (
            ("no-certificate", NO_CERTIFICATE, (5, b"CertSyntax")), ("no-request", NO_REQUEST, (5, b"InvalidCsrSyntax")),
            ("no-message", b"<message/>", (5, b"XmlError")), ("nothing", b"", (5, b"XmlError"))):
        message = numbered(content, NOW, SERIAL)
        for digits, answer_to_digits in ("000", answer), ("111", answer), ("11", USAGE):
            words = by_answers("provisioning", NOW, message, digits, toy_key(0))
            yield row(f"receive-{label}-{digits}", ("receive", *words), message.hex().encode(), answer_to_digits)
    # One octet more than are read: digits where they are expected, and blanks.
    for label, words, octet in (
            ("receive", ("receive", "publication", str(NOW), "-", NO_DIGEST, "111", toy_key(0)), b"0"), ("inspect", ("inspect",), b"0"),
            ("prepare", ("prepare", "message", "publication", str(NOW), f"{SERIAL:040x}", toy_key(0), toy_key(1)), b" ")):
        field = f"{(octet * 64).hex()}*{LONGEST // 64}|{octet.hex()}"
        yield case(f"keys-{label}-too-much", "whole", words, field, 9, b"TooLong\n")


def toy_rows():
    """Messages of the toy scheme that none is made of the others: without signing time, where a last time has to be refused."""
    key = toy_key(0)
    timeless = messages.message(attributes=messages.without(messages.SIGNING_TIME))
    for label, message in ("timeless", timeless), ("toy", messages.message()):
        digits = questions.toy_says(questions.of_message(message, key))
        assert digits == "111", label
        for last in "-", "0", str(NOW - 1), str(NOW):
            words, refused = by_answers("publication", NOW, message, digits, key, last=last), None
            if last != "-" and label == "timeless":
                refused = (15, b"NoTime"), b"the message has no signing time"
            elif last == str(NOW):
                refused = (15, b"Replayed %d %d" % (NOW, NOW)), b"the message is not signed later than the last one"
            answer = refused[0] if refused else receipt(message, 0, QUERY)
            yield row(f"{label}-last-{last}", ("receive", *words), message.hex().encode(), answer)
            fields = (b"refused", refused[1]) if refused else receipt_fields(message, 0, QUERY)
            yield of_call("received", f"{label}-last-{last}", words, message, *fields)
        said = (b"NoTime",) * 2 if label == "timeless" else (b"%d" % NOW, b"Replayed %d %d" % (NOW, NOW))
        yield of_call("guarded", label, (str(NOW), digits, key), message, digits_but(()), *said)
    for check in messages.BREAKS:
        message = messages.broken(check)
        digits = questions.toy_says(questions.of_message(message, key))
        yield from explained(f"broken-{check}", NOW, message, digits, key, {check})
        said = (b"Validation %d" % check,) * 2
        yield of_call("guarded", f"broken-{check}", (str(NOW), digits, key), message, digits_but({check}), *said)


# ---- sizes


def key_of(held):
    """An RSA key with these bits, in hexadecimal."""
    return seq(seq(RSA, NULL), bits(held)).hex()


def made_with(issuer_bits, bits_of_one_off, *arguments):
    """As `made`, where the keys have these bits."""
    held = {0: issuer_bits, 1: bits_of_one_off}
    with mock.patch.object(messages, "key_bits", lambda _, number: held[number]):
        return made(*arguments)


def size_rows():
    """Keys and signatures of so many octets: prepared, finished, asked of and received, whatever the signatures are."""
    for n in 0, 1, *SIZES:
        held = b"\1" * n, b"\2" * n
        # Without octets both keys are the same.
        held = held if n else (b"\1", b"")
        keys = [key_of(octets_of_key) for octets_of_key in held]
        signed, signatures, message = made_with(*held, QUERY, NOW, SERIAL, listed(b"\3" * n, b"\4" * n, b"\5" * n))
        words = "publication", str(NOW), f"{SERIAL:040x}", *keys
        field, digits = message.hex().encode(), [octets_of_signature.hex() for octets_of_signature in signatures]
        yield row(f"prepare-keys-of-{n}", ("prepare", "message", *words), QUERY, (0, lines(signed)))
        yield row(f"finish-keys-and-signatures-of-{n}", ("finish", "message", *words, *named(*digits)), QUERY, (0, field))
        yield of_questions(f"questions-of-{n}", message, keys[0])
        yield of_call("asked", f"of-{n}", ("101", keys[0]), message, *questions.shown(questions.of_message(message, keys[0]), "101"))
        for name, answers, answer in (("received", "111", receipt(message, 0, QUERY)), ("no", "110", validation(10))):
            words = by_answers("publication", NOW, message, answers, keys[0])
            yield row(f"{name}-of-{n}", ("receive", *words), field, answer)
        yield of_call("received", f"keys-of-{n}", by_answers("publication", NOW, message, "111", keys[0]), message,
            *receipt_fields(message, 0, QUERY))
        yield from explained(f"of-{n}", NOW, message, "101", keys[0], {8})
        yield of_call("guarded", f"of-{n}", (str(NOW), "111", keys[0]), message, digits_but(()), b"%d" % NOW,
            b"Replayed %d %d" % (NOW, NOW))
        yield of_call("held", f"of-{n}", keys, message, *held_fields(message, keys))
        yield of_call("inspected", f"of-{n}", (), message, inspected(message))
        yield of_call("told", f"of-{n}", (), message, inspected(message))
        plan = str(NOW), "77", *keys
        signed, signatures, message = made_with(*held, QUERY, NOW, 77, listed(b"\3" * n, b"\4" * n, b"\5" * n))
        yield of_call("prepared", f"keys-of-{n}", plan, QUERY, *signed)
        yield of_call("finished", f"keys-and-signatures-of-{n}", (*plan, *digits), QUERY, message)


def held_fields(message, keys):
    """What a caller holds of the questions of a message: the octets asked, and the bits of each key."""
    (name, key, *own), parts, _ = questions.of_message(message)
    bits_of = lambda spelled: values(inner(spelled))[1][1][1:]
    others = (field for part in parts for field in (part[0].encode(), *part[1:]))
    return name.encode(), *own, bits_of(key), *others, *(bits_of(bytes.fromhex(held)) for held in keys)


def varied_content(n):
    """Octets of which each begins anew what is repeated."""
    return (bytes(range(16)) * (n // 16 + 1))[:n]


def content_rows():
    """Contents of so many octets: texts of messages, with blanks that are not written again, or without; and others, by the calls."""
    words = "publication", str(NOW), f"{SERIAL:040x}", toy_key(0), toy_key(1)
    for n in 0, 1, *SIZES:
        plan, content = (str(NOW), "77", toy_key(0), toy_key(1)), varied_content(n)
        signed, signatures, message = made(content, NOW, 77, toy)
        yield of_call("prepared", f"content-of-{n}", plan, content, *signed)
        yield of_call("finished", f"content-of-{n}", (*plan, *(held.hex() for held in signatures)), content, message)
        yield of_call("asked", f"content-of-{n}", ("111", toy_key(0)), message,
            *questions.shown(questions.of_message(message, toy_key(0)), "111"))
        yield of_call("inspected", f"content-of-{n}", (), message, inspected(message))
    for n in SIZES:
        blank = QUERY.replace(b"<list/>", b" " * (n - len(QUERY)) + b"<list/>")
        assert len(blank) == n
        signed, signatures, message = made(QUERY, NOW, SERIAL, toy)
        yield row(f"prepare-text-of-{n}", ("prepare", "message", *words), blank, (0, lines(signed)))
        message = numbered(blank, NOW, SERIAL)
        received = "receive", *by_answers("publication", NOW, message, "111", toy_key(0))
        yield row(f"received-text-of-{n}", received, message.hex().encode(), receipt(message, 0, QUERY))
        text = text_of(n)
        kind = "provisioning" if b"<message" in text else "publication"
        signed, signatures, message = made(text, NOW, SERIAL, toy)
        digits = named(*(held.hex() for held in signatures))
        yield row(f"prepare-{kind}-of-{n}", ("prepare", "message", kind, *words[1:]), text, (0, lines(signed)))
        yield row(f"finish-{kind}-of-{n}", ("finish", "message", kind, *words[1:], *digits), text, (0, message.hex().encode()))
        received = by_answers(kind, NOW, message, "111", toy_key(0))
        yield row(f"received-{kind}-of-{n}", ("receive", *received), message.hex().encode(), receipt(message, 0, text))
        yield of_call("received", f"{kind}-of-{n}", received, message, *receipt_fields(message, 0, text))


def text_of(n):
    """A text of so many octets, as a message is written."""
    if n < 300:
        held = updown(b"list").replace(b"Carol", b"")
        return held.replace(b'sender=""', b'sender="%s"' % (b"a" * (n - len(held))))
    held = QUERY.replace(b"<list/>", b'<publish tag="%s" uri="rsync://localhost/ca/f.txt">%s</publish>')
    size = n - len(held % (b"", b""))
    return held % (b"a" * (size % 4), b"AAAA" * (size // 4))


# ---- calls


def call_rows():
    """The calls' refusals, each at its place in their order."""
    ec = seq(seq(messages.oid("1.2.840.10045.2.1"), messages.oid("1.2.840.10045.3.1.7")), bits(b"\4" + bytes(64))).hex()
    long, keys = key_of(bytes(MOST + 1)), (toy_key(0), toy_key(1))
    texts = {
        "moment": b"the moment has no window", "long": b"content, key or signature too long", "format": b"a key is no RSA key",
        "one-key": b"the one-off key is the issuing key"}
    for label, moment, held, answer in (
            ("moment", 299, keys, "moment"), ("late", 253402300500, keys, "moment"), ("moment-first", 0, (long, long), "moment"),
            ("long", NOW, (toy_key(0), long), "long"), ("long-second", NOW, (long, ec), "long"),
            ("long-of-both", NOW, (long, long), "long"),
            ("format", NOW, (toy_key(0), ec), "format"), ("format-third", NOW, (ec, ec), "format"),
            ("one-key", NOW, (toy_key(0),) * 2, "one-key")):
        yield of_call("prepared", label, (str(moment), "1", *held), b"a", b"refused", texts[answer])
        yield of_call("finished", label, (str(moment), "1", *held, "00" * (MOST + 1), "", ""), b"a", b"refused", texts[answer])
    for place in range(3):
        signatures = ["00" * (MOST + (number == place)) for number in range(3)]
        yield of_call("finished", f"long-signature-{place}", (str(NOW), "1", *keys, *signatures), b"a", b"refused", texts["long"])
    message, key = numbered(QUERY, NOW, 1), toy_key(0)
    of_key = questions.of_message(message, key)
    yield of_call("asked", "no-message", ("1", key), message[:-1], b"refused", b"malformed value")
    for label, digits, more in ("fewer-answers", "1", (key,)), ("a-key-twice", "10011", (key, key)), ("keys-on-a-curve", "111", (ec,)):
        yield of_call("asked", label, (digits, *more), message, *questions.shown(questions.of_message(message, *more), digits))
    yield of_call("held", "a-key-twice", (key, key), message, *held_fields(message, (key, key)))
    yield of_call("held", "two-crls", (key, ec), messages.two_crls({}, {}), *held_fields(messages.two_crls({}, {}), (key, ec)))
    nothing = numbered(b"", NOW, 1)
    for label, digits, octets_of_message, text in (
            ("no-message", "11", message[:-1], b"Could not decode CMS"), ("number", "11", message, b"not as many answers as questions"),
            ("greater-number", "1111", message, b"not as many answers as questions"),
            ("number-before-content", "11", nothing, b"not as many answers as questions"),
            ("no-content", "000", nothing, b"malformed XML"), ("no", "011", message, b"CMS is not valid: check 3 failed")):
        asked_of = of_key if octets_of_message != nothing else questions.of_message(nothing, key)
        words = by_answers("publication", NOW, message, digits, key, digest=questions.digest_of(asked_of))
        yield of_call("received", label, words, octets_of_message, b"refused", text)
    yield of_call("checked", "no-message", (str(NOW), NO_DIGEST, "1", key), message[:-1], b"refused", b"Could not decode CMS")


def written_rows():
    """Octets that are written, and what stands in octets and texts."""
    for n in 0, 1, *SIZES:
        held, digits = (b"\1" * max(n, 1), b"\2" * n), listed(b"\3" * n, b"\4" * n, b"\5" * n)
        message, key = made_with(*held, QUERY, NOW, SERIAL, digits)[2], key_of(held[0])
        yield of_call("octets", f"of-{n}", (key,), message, questions.octets_of(questions.of_message(message, key)))
        yield of_call("record", f"of-{n}", ("crl",), b"\6" * n, b"abc" + questions.record(3, b"\6" * n))
        content = base64.b64encode(b"c" * n)
        text = root(b"query", element(b"publish", content, tag=b"t" * min(n, 1024), uri=b"rsync://localhost/ca/f"))
        yield of_call("message", f"of-{n}", ("publication",), text, text)
    message, keys = messages.two_crls({}, {}), (toy_key(0), toy_key(1))
    yield of_call("octets", "under-two-keys", keys, message, questions.octets_of(questions.of_message(message, *keys)))
    yield of_call("octets", "no-message", keys, message[:-1], b"refused", b"malformed value")
    for part, tag in questions.TAGS.items():
        yield of_call("record", part, (part,), b"octets", b"abc" + questions.record(tag, b"octets"))
    yield of_call("message", "provisioning", ("provisioning",), updown(b"list"), updown(b"list"))
    for kind, text in ("publication", updown(b"list")), ("provisioning", QUERY), ("publication", b""):
        yield of_call("message", f"{kind}-no-{len(text)}", (kind,), text, b"refused", b"XmlError")
    for label, text, refusal in ("certificate", NO_CERTIFICATE, b"CertSyntax"), ("request", NO_REQUEST, b"InvalidCsrSyntax"):
        yield of_call("message", f"no-{label}", ("provisioning",), text, b"refused", refusal)


def rows():
    """All rows of this script."""
    yield toy_case("toy-example", ("receive", "publication", str(NOW), toy_key(0)), INPUT, 0, QUERY + b"\n")
    yield from word_rows()
    yield from make_rows()
    yield from syntax_rows()
    yield from size_rows()
    yield from content_rows()
    yield from call_rows()
    yield from written_rows()
    yield from inspected_rows()
    yield from toy_rows()
    yield from anchor_cases.rows()
    yield from printed_cases.rows()
    yield from real_rows()


def main():
    """Writes the rows and the sets that are kept, or takes a set anew from a folder."""
    kept = []
    file = CRATE / "data" / "cases.txt"
    if file.exists():
        kept = [line for line in file.read_text().splitlines() if line.split("-")[0] in SETS]
    if len(sys.argv) > 1:
        name, folder = sys.argv[1], pathlib.Path(sys.argv[2])
        assert name in SETS, name
        kept = [line for line in kept if line.split("-")[0] != name] + list(cases_of(name, folder))
    write("test_external", [*rows(), *kept])


if __name__ == "__main__":
    main()
