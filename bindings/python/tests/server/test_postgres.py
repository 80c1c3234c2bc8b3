"""A server over PostgreSQL, which is started for this: answers, several processes at once, and a database that stops and comes back."""

from __future__ import annotations

import json
import pathlib
import threading
import time
from typing import Callable, Iterator

import pytest
import test_answering
from clusters import Cluster, is_there
from served import SECONDS, Sender, Served, codes, done, free_port
from sqlalchemy import text
from test_answering import Talk

from calmizsed.publication import ListQuery, Publish, SuccessReply
from calmizsed.server.database import Database

pytestmark = pytest.mark.skipif(not is_there(), reason="no PostgreSQL (Debian: postgresql)")
ANSWERS = [
    test_answering.test_changes_and_lists, test_answering.test_all_or_none, test_answering.test_others_objects,
    test_answering.test_many_objects, test_answering.test_replays, test_answering.test_refused_messages,
    test_answering.test_keys_change, test_answering.test_removal]


@pytest.fixture(scope="module")
def cluster() -> Iterator[Cluster]:
    """A server of PostgreSQL."""
    found = Cluster()
    yield found
    found.remove()


@pytest.fixture
def address(cluster: Cluster, request: pytest.FixtureRequest) -> str:
    """A database that is empty."""
    name = f"test{abs(hash(request.node.nodeid)) % 10 ** 9}"
    database = Database(cluster.address)
    with database.engine.connect().execution_options(isolation_level="AUTOCOMMIT") as connection:
        connection.execute(text(f"CREATE DATABASE {name}"))
    database.close()
    return cluster.address.replace("/postgres?", f"/{name}?")


@pytest.mark.parametrize("test", ANSWERS, ids=[test.__name__ for test in ANSWERS])
def test_answers(address: str, test: Callable[[Talk], None]) -> None:
    """As over SQLite."""
    talk = Talk(address)
    test(talk)
    talk.database.close()


def test_durable(address: str) -> None:
    """A commit waits for the disk, whatever the server's own setting is; a reader sees one state."""
    database = Database(address)
    with database.writing() as connection:
        assert connection.execute(text("SHOW synchronous_commit")).scalar() == "on"
    with database.reading() as connection:
        assert connection.execute(text("SHOW transaction_isolation")).scalar() == "repeatable read"
    database.close()


def test_two_machines(address: str, tmp_path: pathlib.Path) -> None:
    """Two processes over one database, of which one is the worker; of one publisher's changes none is lost or made twice."""
    first, second = tmp_path / "first", tmp_path / "second"
    first.mkdir()
    second.mkdir()
    one = Served(first, "--database", address, "--pause", "0.2")
    two = Served.__new__(Served)
    two.__dict__.update(one.__dict__, folder=second, data=second / "data")
    done("serve", "init", "--data", two.data, "--url", one.url, "--rsync-base", "rsync://localhost/repo/", "--rrdp-uri",
         "https://localhost/rrdp/", "--database", address, "--key", one.data / "issuer.pem")
    carol = one.add("carol")
    two.port = free_port()
    try:
        one.start()
        two.start()
        there = Sender.__new__(Sender)
        there.__dict__.update(carol.__dict__, port=two.port)
        taken: dict[str, int] = {}

        def work(sender: Sender, name: str) -> None:
            for number in range(20):
                reply = sender.ask(Publish(f"{carol.base}{name}{number}", b"octets"))
                if reply == SuccessReply():
                    taken[f"{carol.base}{name}{number}"] = number
                else:
                    assert codes(reply) == ["other_error"]  # the other one's message was signed later

        threads = [threading.Thread(target=work, args=pair) for pair in ((carol, "a"), (there, "b"))]
        for thread in threads:
            thread.start()
        for thread in threads:
            thread.join()
        carol.last = there.last = max(carol.last, there.last)
        assert carol.listed().keys() == taken.keys() and len(taken) >= 20
        status = json.loads(done("serve", "status", "--data", two.data))
        assert status["objects"] == len(taken) and status["rrdp"]["worker"] is not None
    finally:
        one.kill()
        two.kill()


def test_a_database_that_stops(cluster: Cluster, address: str, tmp_path: pathlib.Path) -> None:
    """While it is away each query gets an answer of HTTP; when it is back all that was acknowledged is there."""
    served = Served(tmp_path, "--database", address)
    carol = served.add("carol")
    served.start()
    made = set()
    try:
        for round_number in range(2):
            for number in range(5):
                uri = f"{carol.base}{round_number}-{number}"
                assert carol.ask(Publish(uri, b"octets")) == SuccessReply()
                made.add(uri)
            cluster.stop()
            begin = time.monotonic()
            assert carol.post(carol.signed(ListQuery()))[0] == 503
            assert time.monotonic() - begin < SECONDS
            cluster.start()
            assert carol.listed().keys() == made
    finally:
        served.kill()
    assert "octets" not in served.log()
