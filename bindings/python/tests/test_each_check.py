"""Each of the fourteen checks, broken alone in messages that OpenSSL signs by keys of 2048 and 4096 bits.

The messages are those of tools/cases/signed_messages.py, with these keys and signatures in place of the toy scheme's.
"""

from __future__ import annotations

import importlib
import pathlib
from typing import Any, Callable

import pytest
from launcher import run
from octets import in_pem
from support import Keys, make_by_openssl, openssl, toy_bits

import calmizsed
from calmizsed import Kind
from calmizsed._values import moment_of
from calmizsed.errors import CheckFailed

signed_messages: Any = importlib.import_module("signed_messages")

SECONDS = int(signed_messages.NOW)
NOW = moment_of(SECONDS)
TEXT = signed_messages.QUERY.decode("ascii")
CHECKS = sorted(signed_messages.BREAKS)
BY_OPENSSL = 1, 2, 3  # those that `openssl cms -verify -noverify` makes too
PAIRS = [(1, 2), (2, 3), (3, 14), (4, 8), (5, 12), (6, 13), (7, 9), (10, 14), (11, 12)]
Maker = Callable[..., bytes]


@pytest.fixture(params=["2048", "4096"])
def issuer(request: pytest.FixtureRequest) -> str:
    """The key under which certificate and CRL are signed; the attributes are signed under another one."""
    return str(request.param)


@pytest.fixture
def maker(keys: Keys, issuer: str, monkeypatch: pytest.MonkeyPatch) -> Maker:
    """What makes a message that is good but for these checks."""
    names = {0: issuer, 1: "other"}
    bits = {number: toy_bits(keys.der(name)) for number, name in names.items()}

    def signature(_: int, number: int, octets: bytes, spoilt: bool = False) -> bytes:
        made = openssl("dgst", "-sha256", "-sign", keys.private(names[number]), data=octets)
        return made[:-1] + bytes([made[-1] ^ spoilt])

    def make(*checks: int) -> bytes:
        return bytes(signed_messages.broken(*checks))

    monkeypatch.setattr(signed_messages, "key_bits", lambda _, number: bits[number])
    monkeypatch.setitem(signed_messages.GOOD, "sign", signature)
    return make


def failing(message: bytes, key: bytes) -> list[int]:
    """The checks that fail."""
    return [check.number for check in calmizsed.explain(message, key, NOW) if not check.holds]


def refused(message: bytes, key: bytes) -> tuple[str, Any, int]:
    """How it is refused."""
    with pytest.raises(CheckFailed) as raised:
        calmizsed.receive(Kind.PUBLICATION, message, [key], NOW)
    return raised.value.name, raised.value.check, raised.value.status


def test_a_good_message(maker: Maker, keys: Keys, issuer: str, tmp_path: pathlib.Path) -> None:
    """It is received, and OpenSSL verifies it and its certificate's key."""
    message = maker()
    assert calmizsed.receive(Kind.PUBLICATION, message, [keys.der(issuer)], NOW).text == TEXT
    certs = tmp_path / "entity.pem"
    assert openssl("cms", "-verify", "-noverify", "-inform", "DER", "-certsout", certs, data=message).decode() == TEXT
    assert openssl("x509", "-in", certs, "-noout", "-pubkey") == keys.public("other").read_bytes()
    crl = in_pem(tmp_path / "list.crl", signed_messages.own_crl())
    assert openssl("crl", "-in", crl, "-noout", "-crlnumber").endswith(f"{SECONDS * 1000:X}\n".encode())


@pytest.mark.parametrize("check", CHECKS)
def test_one_check_fails(maker: Maker, keys: Keys, issuer: str, check: int) -> None:
    """That one, and no other; OpenSSL refuses the message where it makes that check."""
    message, key = maker(check), keys.der(issuer)
    assert refused(message, key) == (f"Validation {check}", check, 6)
    assert failing(message, key) == [check]
    openssl("cms", "-verify", "-noverify", "-inform", "DER", data=message, status=4 if check in BY_OPENSSL else 0)


@pytest.mark.parametrize("checks", PAIRS)
def test_two_checks_fail(maker: Maker, keys: Keys, issuer: str, checks: tuple[int, int]) -> None:
    """The first is named."""
    message, key = maker(*checks), keys.der(issuer)
    assert refused(message, key)[1] == checks[0] and failing(message, key) == list(checks)


@pytest.mark.parametrize("issuer", ["4096"], indirect=True)
@pytest.mark.parametrize("check", CHECKS)
def test_the_command_explains_it(maker: Maker, keys: Keys, issuer: str, check: int) -> None:
    """Its line says FAILED; those before it say ok, and those behind it that they weren't reached, and would hold."""
    message = maker(check)
    ended = run("explain", "-", "--key", keys.public(issuer), "--at", SECONDS, data=message)
    lines = ended.out.decode().splitlines()
    states = [line[3:14].strip() for line in lines]
    assert ended.status == 6 and states == ["ok"] * (check - 1) + ["FAILED"] + ["not reached"] * (14 - check)
    assert all(line.endswith("; it would hold") for line in lines[check:]) and "; look at: " in lines[check - 1]


@pytest.mark.parametrize("bits", [2048, 4096])
def test_a_message_of_openssl_by_the_command(tmp_path: pathlib.Path, bits: int) -> None:
    """One of `openssl cms`, with a certificate and a CRL of `openssl ca`, is received, explained and shown."""
    made = make_by_openssl(tmp_path, TEXT, bits)
    (tmp_path / "key.der").write_bytes(made.key)
    (tmp_path / "other.der").write_bytes(made.other)
    key = "--key", tmp_path / "key.der", "--at", made.moment
    assert run("receive", "publication", "-", *key, "-q", data=made.message) == (0, TEXT.encode() + b"\n", "")
    ended = run("explain", "-", *key, data=made.message)
    assert ended.status == 0 and [line[3:14].strip() for line in ended.out.decode().splitlines()] == ["ok"] * 14
    assert f"{bits // 8} octets, a key of {bits} bits" in ended.out.decode()
    assert f"RSA, modulus of {bits // 8} octets" in run("inspect", "-", data=made.message).out.decode()
    ended = run("receive", "publication", "-", "--key", tmp_path / "other.der", "--at", made.moment, data=made.message)
    assert ended.status == 6 and ended.said.startswith("calmizsed: Validation 6: ")
