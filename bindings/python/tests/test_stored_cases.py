"""The stored cases of the programs, through the package: what the program wrote is what comes, under the status that it ended with."""

from __future__ import annotations

import hashlib
import json
import re
from typing import Callable, Union

import pytest
from support import Case, cases, is_hexadecimal, toy_verifier

import calmizsed
from calmizsed import Kind, Refusal, SetupKind, request, setup
from calmizsed._asking import DIGEST, questions_of, record
from calmizsed._values import moment_of

KINDS = {kind.name.lower(): kind for kind in Kind}
SETUP_KINDS = {kind.name.lower(): kind for kind in SetupKind}


def name_of(case: Case) -> str:
    """The name of a case."""
    return case.name


def found_of(call: Callable[[], bytes]) -> tuple[int, bytes]:
    """The status of a call, and the line that the program would write."""
    try:
        return 0, call() + b"\n"
    except Refusal as refused:
        return refused.status, refused.name.encode() + b"\n"


def is_moment(word: str) -> bool:
    """Whether the program takes a word as a moment, and datetime has it."""
    return re.fullmatch("0|[1-9][0-9]{0,11}", word) is not None and int(word) <= 253402300799


def is_spelled(case: Case) -> bool:
    """Whether a case's input is hexadecimal."""
    return is_hexadecimal(case.given.decode("latin-1").removesuffix("\n"))


def given(case: Case) -> bytes:
    """The octets that a case's input spells."""
    return bytes.fromhex(case.given.decode("latin-1"))


def usable(case: Case, keys: list[str]) -> bool:
    """Whether a case's words and input can be arguments of a call; what else a program refuses is its own matter."""
    return case.status not in (10, 11) and bool(keys) and all(map(is_hexadecimal, keys)) and all(keys) and is_spelled(case)


def toy_receives() -> list[Case]:
    """Runs of rpkica's receive."""
    return [
        case for case in cases("test_run", "receive")
        if len(case.words) > 3 and case.words[1] in KINDS and is_moment(case.words[2]) and usable(case, case.words[3:])]


def rsa_receives() -> list[Case]:
    """Runs of rpkikeys's receive."""
    return [
        case for case in cases("test_external", "receive")
        if len(case.words) > 6 and case.words[1] in KINDS and is_moment(case.words[2]) and is_moment(case.words[3].replace("-", "0"))
        and is_hexadecimal(case.words[4]) and case.words[5].isdigit() and usable(case, case.words[6:])]


@pytest.mark.parametrize("case", toy_receives(), ids=name_of)
def test_receive_under_the_toy_scheme(case: Case) -> None:
    """As rpkica, with the toy scheme as the verifier."""
    octets, keys = given(case), [bytes.fromhex(word) for word in case.words[3:]]
    found = found_of(lambda: calmizsed.receive(
        KINDS[case.words[1]], octets, keys, moment_of(int(case.words[2])), verifier=toy_verifier).text.encode())
    assert found == (case.status, case.written)


class Answers:
    """Stands for a verifier, and answers what a case's words say, one question after the other; the core asks in this order."""

    def __init__(self, digits: str) -> None:
        self.left = list(digits)

    def __call__(self, key: bytes, octets: bytes, signature: bytes) -> bool:
        return self.left.pop(0) == "1"


def asked_count(message: bytes, keys: bytes) -> tuple[bytes, int]:
    """The digest of a message's questions, and how many there are."""
    questions = questions_of(calmizsed.library().call("message_questions", message, keys).octets)
    return questions.digest, len(questions.answers(lambda *_: True))


@pytest.mark.parametrize("case", rsa_receives(), ids=name_of)
def test_receive_by_given_answers(case: Case) -> None:
    """As rpkikeys, where the words have the answers that the verifier gives. Where they answer other questions, the core is asked."""
    octets, keys = given(case), [bytes.fromhex(word) for word in case.words[6:]]
    kind, when, last, digest, digits = KINDS[case.words[1]], int(case.words[2]), case.words[3], case.words[4], case.words[5]
    after = None if last == "-" else moment_of(int(last))

    def call() -> bytes:
        wanted, count = asked_count(octets, b"".join(keys))
        if wanted.hex() != digest.lower() or count != len(digits) or set(digits) - set("01"):
            return calmizsed.library().call(
                "message_receive", kind, octets, b"".join(keys), when, int(after is not None), 0 if after is None else int(last),
                bytes.fromhex(digest), bytes(map(int, digits))).octets
        receipt = calmizsed.receive(kind, octets, keys, moment_of(when), after=after, verifier=Answers(digits))
        time_word = "-" if receipt.signing_seconds is None else receipt.signing_seconds
        return f"{receipt.place} {time_word}\n{receipt.text}".encode()

    assert found_of(call) == (case.status, case.written)


@pytest.mark.parametrize("case", [case for case in cases("test_external", "inspect") if is_spelled(case) and len(case.words) == 1],
                         ids=name_of)
def test_inspect(case: Case) -> None:
    """What is shown has the names and values that the program writes."""
    octets = given(case)
    if case.status == 0:
        assert calmizsed.inspect(octets) == json.loads(case.written)
    elif case.status == 4:
        with pytest.raises(calmizsed.errors.NotAMessage):
            calmizsed.inspect(octets)
    else:
        assert case.status in (9, 10, 11, 12)


@pytest.mark.parametrize("case", [
    case for case in cases("test_run", "setup") if len(case.words) == 3 and case.words[1] in SETUP_KINDS and is_moment(case.words[2])
    and case.status not in (10, 11)], ids=name_of)
def test_setup_under_the_toy_scheme(case: Case) -> None:
    """As rpkica; and what is received reads as a value, which spells the same text."""
    kind = SETUP_KINDS[case.words[1]]
    found = found_of(lambda: setup.receive(kind, case.given, moment_of(int(case.words[2])), verifier=toy_verifier).text.encode())
    assert found == (case.status, case.written)
    if case.status == 0:
        assert setup.Message.from_xml(case.written[:-1]).to_xml().encode() == case.written[:-1]


def test_there_are_cases() -> None:
    """None of the lists above is empty."""
    assert len(toy_receives()) > 300
    assert len(rsa_receives()) > 100


@pytest.mark.parametrize(
    "case", [case for case in cases("test_run", "content") if is_spelled(case) and len(case.words) == 1 and case.status not in (10, 11)],
    ids=name_of)
def test_content(case: Case) -> None:
    """As rpkica."""
    assert found_of(lambda: calmizsed.content(given(case))) == (case.status, case.written)


def digested(call: str, *arguments: Union[bytes, int]) -> bool:
    """Whether the digest of questions, the last record, is the SHA-256 of the octets before it."""
    octets = calmizsed.library().call(call, *arguments).octets
    end = len(octets) - len(record(DIGEST, bytes(32)))
    return octets[end:] == record(DIGEST, hashlib.sha256(octets[:end]).digest())


def test_the_digest_of_questions_is_that_of_the_records_before_it() -> None:
    """Of messages under one key and several, of setup messages, of certificate requests and issue requests."""
    for case in (case for case in rsa_receives() if case.status == 0):
        assert digested("message_questions", given(case), bytes.fromhex("".join(case.words[6:]))), case.name
    for case in (case for case in setups() if case.status == 0):
        assert digested("setup_questions", SETUP_KINDS[case.words[1]], case.given), case.name
    for case in (case for case in requests() if case.status == 0):
        assert digested("request_questions", given(case)), case.name
    for case in (case for case in issues() if case.status == 0):
        assert digested("issue_questions", case.given), case.name


def answers_these(call: str, arguments: list[bytes], kinds: list[int], digest: str, digits: str) -> bool:
    """Whether a case answers the questions that these arguments have, each of them."""
    if not is_hexadecimal(digest) or set(digits) - set("01"):
        return False
    try:
        questions = questions_of(calmizsed.library().call(call, *kinds, *arguments).octets)
    except Refusal:
        return not digits
    return questions.digest.hex() == digest.lower() and len(questions.parts()) == len(digits)


def explains() -> list[Case]:
    """Runs of rpkikeys's explain with answers to the questions."""
    return [
        case for case in cases("test_external", "explain") if len(case.words) == 5 and is_moment(case.words[1])
        and usable(case, [case.words[4]])
        and answers_these("message_questions", [given(case), bytes.fromhex(case.words[4])], [], case.words[2], case.words[3])]


@pytest.mark.parametrize("case", explains(), ids=name_of)
def test_explain_by_given_answers(case: Case) -> None:
    """As rpkikeys: a digit for each check."""
    def call() -> bytes:
        found = calmizsed.explain(
            given(case), bytes.fromhex(case.words[4]), moment_of(int(case.words[1])), verifier=Answers(case.words[3]))
        assert [check.number for check in found] == list(range(1, 15))
        return "".join("1" if check.holds else "0" for check in found).encode()
    assert found_of(call) == (case.status, case.written)


def requests() -> list[Case]:
    """Runs of rpkikeys's request with an answer to the question."""
    return [
        case for case in cases("test_external", "request") if len(case.words) == 3 and is_spelled(case) and case.status not in (10, 11)
        and answers_these("request_questions", [given(case)], [], *case.words[1:])]


def issues() -> list[Case]:
    """Runs of rpkikeys's issue with an answer to the question."""
    return [
        case for case in cases("test_external", "issue") if len(case.words) == 3 and case.status not in (10, 11)
        and answers_these("issue_questions", [case.given], [], *case.words[1:])]


@pytest.mark.parametrize("case", requests(), ids=name_of)
def test_request_by_given_answers(case: Case) -> None:
    """As rpkikeys: the key in hexadecimal."""
    found = found_of(lambda: request.verify(given(case), verifier=Answers(case.words[2])).hex().encode())
    assert found == (case.status, case.written)


@pytest.mark.parametrize("case", issues(), ids=name_of)
def test_issue_by_given_answers(case: Case) -> None:
    """As rpkikeys: the key in hexadecimal."""
    found = found_of(lambda: request.verify_issue(case.given, verifier=Answers(case.words[2])).hex().encode())
    assert found == (case.status, case.written)


def setups() -> list[Case]:
    """Runs of rpkikeys's setup with answers to the questions."""
    return [
        case for case in cases("test_external", "setup")
        if len(case.words) == 5 and case.words[1] in SETUP_KINDS and is_moment(case.words[2]) and case.status not in (10, 11)
        and answers_these("setup_questions", [case.given], [SETUP_KINDS[case.words[1]]], *case.words[3:])]


@pytest.mark.parametrize("case", setups(), ids=name_of)
def test_setup_by_given_answers(case: Case) -> None:
    """As rpkikeys."""
    found = found_of(lambda: setup.receive(
        SETUP_KINDS[case.words[1]], case.given, moment_of(int(case.words[2])), verifier=Answers(case.words[4])).text.encode())
    assert found == (case.status, case.written)


def test_there_are_more_cases() -> None:
    """None of these lists is empty."""
    assert [len(found) > 4 for found in (explains(), requests(), issues(), setups())] == [True] * 4
