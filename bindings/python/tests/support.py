"""What tests share: the tree's stored cases, the toy scheme of its programs, and the openssl command."""

from __future__ import annotations

import hashlib
import importlib
import pathlib
import random
import struct
import subprocess
import sys
from typing import Iterator, NamedTuple, Optional

TREE = pathlib.Path(__file__).resolve().parents[3]
EXAMPLES = TREE / "examples"
SIGNED_AT = 1795927350  # when examples/rsa-query.der says that it was signed, as OpenSSL shows it
sys.path[0:0] = [str(TREE / "tools" / "cases"), str(TREE / "tools" / "run")]
_values = importlib.import_module("rsa_messages").values
_octets_of = importlib.import_module("stored_cases").octets_of
_broken = importlib.import_module("fuzz").broken


def octets_of(terms: str) -> bytes:
    """The octets that the terms of a stored case spell."""
    return bytes(_octets_of(terms))


def broken(chance: random.Random, octets: bytes, other: bytes) -> bytes:
    """The octets after one change, as the fuzzer of the programs makes it."""
    return bytes(_broken(chance, octets, other))


class Case(NamedTuple):
    """A run of a program: what it is given, its words, its status and what it writes."""

    name: str
    status: int
    written: bytes
    given: bytes
    words: list[str]


def _word(field: str) -> str:
    """The word that a field stands for."""
    if field.startswith("#"):
        return octets_of(field[1:]).decode("latin-1")
    return "" if field == "-" else field


def cases(crate: str, verb: Optional[str]) -> Iterator[Case]:
    """The stored runs of a program with this verb, or all."""
    for line in (TREE / "crates" / crate / "data" / "cases.txt").read_text(encoding="utf-8").splitlines():
        name, *fields = line.split(" ")
        fields = fields[1:] if fields[0] in ("keys", "decide") else fields
        if fields[0].isdigit():
            status, written, given, *words = fields
            if words and (verb is None or _word(words[0]) == verb):
                yield Case(name, int(status), octets_of(written), octets_of(given), [_word(word) for word in words])


def with_digest(asked: list[tuple[int, bytes]]) -> list[tuple[int, bytes]]:
    """Records of questions, and that of their digest behind them: the SHA-256 of their octets, each with a length of eight octets."""
    spelled = b"".join(struct.pack(">BQ", tag, len(octets)) + octets for tag, octets in asked)
    return [*asked, (19, hashlib.sha256(spelled).digest())]


def is_hexadecimal(word: str) -> bool:
    """Whether a word is octets in hexadecimal."""
    return len(word) % 2 == 0 and not set(word.lower()) - set("0123456789abcdef")


def toy_bits(key: bytes) -> bytes:
    """The bits of a key in DER."""
    (_, inner), = _values(key)
    return bytes(_values(inner)[1][1][1:])


def toy_verifier(key: bytes, octets: bytes, signature: bytes) -> bool:
    """The toy scheme, which the programs know: whoever knows the public key can sign for it."""
    return hashlib.sha256(toy_bits(key) + octets).digest() == signature


def openssl(*words: object, data: bytes = b"", status: int = 0) -> bytes:
    """What the openssl command writes."""
    ended = subprocess.run(["openssl", *map(str, words)], input=data, stdout=subprocess.PIPE, stderr=subprocess.PIPE, check=False)
    assert ended.returncode == status, ended.stderr.decode("utf-8", "replace")
    return ended.stdout


def request_shown(der: bytes) -> str:
    """What openssl shows of a certificate request that is signed under its key. Its status is 0 for one that isn't too: its words count."""
    words = ["openssl", "req", "-verify", "-inform", "DER", "-noout", "-text"]
    ended = subprocess.run(words, input=der, stdout=subprocess.PIPE, stderr=subprocess.PIPE, check=True)
    assert ended.stderr.strip().endswith(b"verify OK"), ended.stderr
    return ended.stdout.decode("utf-8")


class Keys(NamedTuple):
    """Files of keys, by their names."""

    folder: pathlib.Path

    def private(self, name: str) -> pathlib.Path:
        """The file of a private key, in PEM."""
        return self.folder / f"{name}.pem"

    def public(self, name: str) -> pathlib.Path:
        """The file of a public key, in PEM."""
        return self.folder / f"{name}-public.pem"

    def der(self, name: str) -> bytes:
        """A public key in DER, as OpenSSL writes it."""
        return openssl("pkey", "-pubin", "-in", self.public(name), "-outform", "DER")


class Made(NamedTuple):
    """A message that OpenSSL signed: the protocol, a moment at which it is valid, the issuer's key and another, and the text in it."""

    kind: str
    moment: int
    key: bytes
    other: bytes
    message: bytes
    text: str


def made_by_openssl() -> list[Made]:
    """Those that are stored."""
    found = []
    for line in (TREE / "crates" / "test_external" / "data" / "messages.txt").read_text(encoding="utf-8").splitlines():
        _, kind, moment, key, other, message, text = line.split(" ", 6)
        found.append(Made(kind, int(moment), bytes.fromhex(key), bytes.fromhex(other), bytes.fromhex(message), text))
    return found


def make_by_openssl(folder: pathlib.Path, text: str, bits: int) -> Made:
    """A new one of the publication protocol, with keys of so many bits."""
    module = importlib.import_module("rsa_messages")

    def key_of(where: pathlib.Path, name: str) -> bytes:
        openssl("genpkey", "-algorithm", "RSA", "-pkeyopt", f"rsa_keygen_bits:{bits}", "-out", where / f"{name}.pem")
        return openssl("pkey", "-in", where / f"{name}.pem", "-pubout", "-outform", "DER")

    drawn, module.key_of = module.key_of, key_of  # type: ignore[attr-defined]
    try:
        _, kind, moment, key, other, message, _ = module.made(folder, "list", "publication", text)
    finally:
        module.key_of = drawn  # type: ignore[attr-defined]
    return Made(kind, moment, key, other, message, text)
