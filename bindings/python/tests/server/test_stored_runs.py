"""The stored runs of rpkipub, over HTTP: each reply has the content that the program's has."""

from __future__ import annotations

import hashlib
import pathlib
from typing import NamedTuple

import pytest
from sqlalchemy import insert, update
from support import TREE, is_hexadecimal, octets_of, toy_bits, toy_verifier
from web import over_http

import calmizsed
from calmizsed._values import moment_of
from calmizsed.server import tables
from calmizsed.server.answering import Answering
from calmizsed.server.application import Application
from calmizsed.server.database import Database
from calmizsed.server.metrics import Metrics
from calmizsed.server.one_off import OneOffKeys


class Run(NamedTuple):
    """A run of rpkipub that ends well, or at a line that is no hexadecimal."""

    name: str
    moment: int
    base: str
    key: bytes
    queries: list[str]
    replies: list[bytes]


def runs() -> list[Run]:
    """Those that are stored and have replies."""
    found = []
    for line in (TREE / "crates" / "test_lines" / "data" / "cases.txt").read_text(encoding="utf-8").splitlines():
        name, program, status, out, given, *words = line.split(" ")
        replies = octets_of(out).splitlines()
        if program == "pub" and status in ("0", "3") and len(words) == 3 and replies[:1] not in ([], [b"Hex"]):
            base = octets_of(words[1][1:]).decode("ascii")
            lines = octets_of(given).decode("latin-1").splitlines()
            wanted = [bytes.fromhex(one.decode()) for one in replies if one != b"Hex"]
            found.append(Run(name, int(words[0]), base, bytes.fromhex(words[2]), lines, wanted))
    return found


class ToySigner:
    """Signs by the toy scheme of the programs, which gives no security."""

    def __init__(self, key: bytes) -> None:
        self.public_key = key

    def sign(self, octets: bytes) -> bytes:
        """The signature."""
        return hashlib.sha256(toy_bits(self.public_key) + octets).digest()


def other_key(key: bytes, number: int) -> bytes:
    """Another toy key."""
    return key[:-1] + bytes([key[-1] ^ number])


def says_when(message: bytes) -> bool:
    """Whether a message says when it was signed; one that can't be read is refused for that."""
    try:
        return calmizsed.inspect(message)["signing_time"] is not None
    except calmizsed.Refusal:
        return True


@pytest.mark.parametrize("run", runs(), ids=[run.name for run in runs()])
def test_run(run: Run, tmp_path: pathlib.Path) -> None:
    """Query for query. rpkipub takes messages of one second, so that the signing time is forgotten between them."""
    database = Database(f"sqlite:///{tmp_path / 'database'}")
    with database.writing() as connection:
        tables.create(connection)
        connection.execute(insert(tables.PUBLISHERS).values(id=1, handle="ca", base=run.base, word="ca", added=0))
        connection.execute(insert(tables.PUBLISHER_KEYS).values(publisher=1, place=1, key=run.key, added=0))
    answering = Answering(
        database, ToySigner(other_key(run.key, 2)), OneOffKeys(uses=100, draw=lambda: ToySigner(other_key(run.key, 4))),
        verifier=toy_verifier, clock=lambda: moment_of(run.moment))
    application = Application(answering, Metrics(), dict, hold=0.0)
    answered = 0
    with over_http(application) as post:
        for query, wanted in zip(run.queries, run.replies):
            assert is_hexadecimal(query)
            with database.writing() as connection:
                connection.execute(update(tables.PUBLISHERS).values(last_time=None))
            code, headers, body = post("/rfc8181/ca", bytes.fromhex(query))
            assert (code, headers["Content-Type"]) == (200, "application/rpki-publication")
            if not says_when(bytes.fromhex(query)) and b"NoTime" in calmizsed.content(body):
                break  # rpkipub takes it, and what it has is another state from here
            assert calmizsed.content(body) == calmizsed.content(wanted)
            answered += 1
    assert answered or not says_when(bytes.fromhex(run.queries[0]))
    database.close()


def test_there_are_runs() -> None:
    """There are many of them."""
    assert len(runs()) > 25
    assert sum(len(run.replies) for run in runs()) > 100
