"""Questions and answers: which signatures hold; and records. include/calmizsed.h says how records and answers are laid out."""

from __future__ import annotations

from typing import Callable, Iterator, NamedTuple, Optional

ATTRIBUTES, CERTIFICATE, CRL, ANCHOR, REQUEST = 1, 2, 3, 4, 5
SIGNATURE, OWN_KEY, KEY, DIGEST = 16, 17, 18, 19
REPLY, REPLY_AND_CHANGES, OBJECT, NO_OBJECT = 20, 21, 22, 23
HEAD = 9

Verifier = Callable[[bytes, bytes, bytes], bool]
"""Whether, under a key in DER, of these octets, this is a signature of RSA with SHA-256, in PKCS #1 v1.5."""


def records(octets: bytes) -> Iterator[tuple[int, bytes]]:
    """The tag and the octets of each record."""
    place = 0
    while place < len(octets):
        end = place + HEAD + int.from_bytes(octets[place + 1:place + HEAD], "big")
        yield octets[place], octets[place + HEAD:end]
        place = end


def record(tag: int, octets: bytes) -> bytes:
    """A record with this tag."""
    return bytes([tag]) + len(octets).to_bytes(HEAD - 1, "big") + octets


class Question(NamedTuple):
    """A part that should be signed, under a key of its own or under each of the keys that were handed in, and its signature."""

    part: int
    own_key: Optional[bytes]
    octets: bytes
    signature: bytes


class Questions(NamedTuple):
    """What is asked, in its order, and the digest that binds the answers to it."""

    questions: tuple[Question, ...]
    keys: tuple[bytes, ...]
    digest: bytes

    def answers(self, verifier: Verifier) -> bytes:
        """An octet for each question: 1 where the signature holds, and 0 where it doesn't."""
        own = [verifier(one.own_key, one.octets, one.signature) for one in self.questions if one.own_key is not None]
        shared = [one for one in self.questions if one.own_key is None]
        return bytes(own) + bytes(verifier(key, one.octets, one.signature) for key in self.keys for one in shared)

    def parts(self) -> list[int]:
        """The part that each answer is on."""
        own = [one.part for one in self.questions if one.own_key is not None]
        return own + len(self.keys) * [one.part for one in self.questions if one.own_key is None]


def questions_of(octets: bytes) -> Questions:
    """The questions that records are."""
    asked: list[Question] = []
    keys: list[bytes] = []
    own_key: Optional[bytes] = None
    part, signed, digest = 0, b"", b""
    for tag, held in records(octets):
        if tag == OWN_KEY:
            own_key = held
        elif tag == SIGNATURE:
            asked.append(Question(part, own_key, signed, held))
            own_key = None
        elif tag == KEY:
            keys.append(held)
        elif tag == DIGEST:
            digest = held
        else:
            part, signed = tag, held
    return Questions(tuple(asked), tuple(keys), digest)
