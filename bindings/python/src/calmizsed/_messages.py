"""Signed messages: they are received, looked at, and made."""

from __future__ import annotations

import datetime
import json
import secrets
from dataclasses import dataclass
from typing import Any, Iterable, Optional, TypedDict, TypeVar, cast

from calmizsed import _library, keys
from calmizsed._asking import ATTRIBUTES, CERTIFICATE, CRL, Questions, Verifier, questions_of, records
from calmizsed._causes import CHECKS, SHORT_KEY
from calmizsed._values import Kind, Octets, Text, moment_of, octets_of, seconds_of, text_of
from calmizsed.errors import CheckFailed, Refusal

SERIAL_OCTETS = 20
PART_OF_CHECK = {3: ATTRIBUTES, 8: CERTIFICATE, 10: CRL}


@dataclass(frozen=True)
class Receipt:
    """A message that was received: all checks hold."""

    kind: Kind
    text: str
    """The message of the protocol, in XML, written anew by the library."""
    place: int
    """The place of the key under which it was accepted, from 0."""
    signing_seconds: Optional[int]
    """When the message says that it was signed, in seconds since 1970; None where it doesn't say."""

    @property
    def signing_time(self) -> Optional[datetime.datetime]:
        """When the message says that it was signed: who keeps it, and hands it in as `after` the next time, admits none twice."""
        return None if self.signing_seconds is None else moment_of(self.signing_seconds)


class Algorithm(TypedDict):
    """An algorithm identifier."""

    algorithm: str
    parameters: Optional[str]


class CertificateShown(TypedDict):
    """What is in a message's certificate."""

    authority_key_identifier: Optional[str]
    ca: Optional[bool]
    key_algorithm: str
    length: int
    modulus_length: Optional[int]
    not_after: int
    not_before: int
    serial_number: str
    sha256: str
    subject_key_identifier: str
    subject_public_key_length: int


class CrlShown(TypedDict):
    """What is in a CRL."""

    authority_key_identifier: Optional[str]
    crl_number: Optional[str]
    entries: int
    next_update: int
    signature_algorithm: Algorithm
    tbs_algorithm: Algorithm
    this_update: int


class Inspection(TypedDict):
    """What is in a signed message, as the library says it: octets in hexadecimal, times in seconds since 1970, lengths in octets."""

    certificate: CertificateShown
    content_length: int
    content_sha256: str
    content_type: str
    crls: list[CrlShown]
    message_digest: str
    signature_algorithm: Algorithm
    signature_length: int
    signer_identifier: str
    signing_time: Optional[int]


@dataclass(frozen=True)
class CheckResult:
    """A check of a signed message under a key."""

    number: int
    holds: bool
    reached: bool
    """Whether those before it hold; else `receive` doesn't come to it."""
    meaning: str
    look_at: str
    compared: str
    """The values that were compared, in words."""


def _questions(message: bytes, handed_in: bytes) -> Questions:
    """What is asked of a signed message."""
    return questions_of(_library.library().call("message_questions", message, handed_in).octets)


def answers_of(questions: Questions, verifier: Verifier) -> tuple[bytes, dict[int, str]]:
    """The answers, and by the part why they are no, where only the length of a key is why."""
    answers = questions.answers(verifier)
    if verifier != keys.RSA or 0 not in answers:
        return answers, {}
    pairs = zip(questions.parts(), answers, questions.answers(keys.RSA_SHORT_KEYS))
    return answers, {part: SHORT_KEY for part, answer, other in pairs if answer != other}


R = TypeVar("R", bound=Refusal)


def with_cause(refused: R, cause: str) -> R:
    """The refusal, with a further cause."""
    return type(refused)(refused.name, refused.status, "; ".join(filter(None, (refused.cause, cause))), refused.check)


def receive(
        kind: Kind, message: Octets, public_keys: Iterable[keys.PublicKey], when: datetime.datetime, *,
        after: Optional[datetime.datetime] = None, verifier: Verifier = keys.RSA) -> Receipt:
    """The message of the protocol that a signed message holds, if all fourteen checks hold at the moment under one of one to eight keys.

    With `after` it has to be signed later than that. Raises a `Refusal` else: `CheckFailed`, `Replayed`, `NotAMessage`, `WrongForm`, ..
    """
    octets, handed_in = octets_of(message), b"".join(map(keys.public_octets, public_keys))
    questions = _questions(octets, handed_in)
    answers, causes = answers_of(questions, verifier)
    last = (0, 0) if after is None else (1, seconds_of(after))
    try:
        result = _library.library().call(
            "message_receive", Kind(kind), octets, handed_in, seconds_of(when), *last, questions.digest, answers)
    except CheckFailed as refused:
        raise with_cause(refused, causes.get(PART_OF_CHECK.get(refused.check or 0, 0), "")) from None
    return Receipt(Kind(kind), result.octets.decode("utf-8"), result.place, result.signing_time)


def inspect(message: Octets) -> Inspection:
    """What is in a signed message. NOTHING OF IT IS CHECKED."""
    return cast(Inspection, json.loads(_library.library().call("message_inspect", octets_of(message)).octets))


def content(message: Octets) -> bytes:
    """The content of a signed message, if it has the digest that was signed. NO SIGNATURE IS CHECKED: anyone can have made it."""
    return _library.library().call("message_content", octets_of(message)).octets


def read(kind: Kind, text: Text) -> str:
    """The message of the protocol that a text is, in XML, written anew, as `create` has it signed."""
    return _library.library().call("text_read", Kind(kind), text_of(text)).octets.decode("utf-8")


def explain(
        message: Octets, public_key: keys.PublicKey, when: datetime.datetime, *,
        verifier: Verifier = keys.RSA) -> tuple[CheckResult, ...]:
    """Each of the fourteen checks of a signed message under a key at a moment, with what was compared."""
    octets, key, seconds = octets_of(message), keys.public_octets(public_key), seconds_of(when)
    questions = _questions(octets, key)
    answers, causes = answers_of(questions, verifier)
    held = _library.library().call("message_explain", octets, key, seconds, questions.digest, answers).octets
    compared = _compared(inspect(octets), questions, key, seconds)
    found, reached = [], True
    for number, (check, holds) in enumerate(zip(CHECKS.values(), held), 1):
        values = "; ".join(filter(None, (compared[number], causes.get(PART_OF_CHECK.get(number, 0), ""))))
        found.append(CheckResult(number, bool(holds), reached, check.meaning, check.look_at, values))
        reached = reached and bool(holds)
    return tuple(found)


def shown_time(seconds: int) -> str:
    """A moment as RFC 3339 writes it, or in seconds where datetime has none such."""
    try:
        return moment_of(seconds).isoformat().replace("+00:00", "Z")
    except OverflowError:
        return f"{seconds} seconds"


def _bits(key: bytes) -> str:
    """How long a key is."""
    public = keys.rsa_key(key)
    return "a key that is none of RSA" if public is None else f"a key of {public.key_size} bits"


def _algorithm(algorithm: Algorithm) -> str:
    """An algorithm identifier in words."""
    return " ".join(str(word) for word in (algorithm["algorithm"], algorithm["parameters"]) if word is not None)


def _compared(shown: Inspection, questions: Questions, key: bytes, seconds: int) -> dict[int, str]:
    """By the number of the check, the values that it compares."""
    certificate, crls, when = shown["certificate"], shown["crls"], shown_time(seconds)
    identifier = keys.identifier(key).hex()
    own = next(one.own_key for one in questions.questions if one.own_key is not None)
    of_crls = {
        9: [f"{_algorithm(crl['tbs_algorithm'])} and {_algorithm(crl['signature_algorithm'])}" for crl in crls],
        10: [f"{_bits(key)}" for _ in crls],
        11: [f"of {shown_time(crl['this_update'])}, at {when}" for crl in crls],
        12: [f"until {shown_time(crl['next_update'])}, at {when}" for crl in crls],
        13: [f"{crl['authority_key_identifier'] or 'none'}, and the key's is {identifier}" for crl in crls],
        14: [f"{certificate['serial_number']}, and {crl['entries']} entries" for crl in crls],
    }
    return {
        1: f"{shown['signer_identifier']} and {certificate['subject_key_identifier']}",
        2: f"{shown['content_sha256']} and {shown['message_digest']}",
        3: f"{shown['signature_length']} octets, {_bits(own)}",
        4: f"{certificate['subject_key_identifier']} and {keys.identifier(own).hex()}",
        5: f"{shown_time(certificate['not_before'])} to {shown_time(certificate['not_after'])}, at {when}",
        6: f"{certificate['authority_key_identifier'] or 'none'}, and the key's is {identifier}",
        7: f"cA is {'not there' if certificate['ca'] is None else str(certificate['ca']).lower()}",
        8: _bits(key),
        **{number: ", ".join(values) or "no CRL" for number, values in of_crls.items()},
    }


def _serial() -> bytes:
    """A certificate's serial number, of 20 octets, drawn at random."""
    return (1 + secrets.randbelow(2 ** (8 * SERIAL_OCTETS - 1) - 1)).to_bytes(SERIAL_OCTETS, "big")


def create(
        kind: Kind, text: Text, issuing_key: keys.SigningKey, when: datetime.datetime, *,
        one_off_key: Optional[keys.SigningKey] = None, verifier: Verifier = keys.RSA) -> bytes:
    """The signed message, in DER, with the message of the protocol that a text is, valid from 300 seconds before the moment to 300 after.

    The attributes are signed by a key that is drawn for this message alone, unless `one_off_key` brings it; certificate and CRL by the
    issuing key, whom the partner knows. Each signature is verified before it is used.
    """
    one_off = one_off_key if one_off_key is not None else keys.PrivateKey.generate()
    plan: tuple[Any, ...] = (
        Kind(kind), text_of(text), seconds_of(when), _serial(), octets_of(issuing_key.public_key), octets_of(one_off.public_key))
    signers = {ATTRIBUTES: one_off, CRL: issuing_key, CERTIFICATE: issuing_key}
    prepared = records(_library.library().call("message_prepare", *plan).octets)
    signed = {tag: keys.signature_of(signers[tag], octets, verifier) for tag, octets in prepared}
    return _library.library().call("message_finish", *plan, signed[ATTRIBUTES], signed[CRL], signed[CERTIFICATE]).octets
