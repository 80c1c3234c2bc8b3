"""What HTTP answers: paths, methods, types and lengths; metrics, status and logs."""

from __future__ import annotations

import json
import logging
import pathlib
import threading
from typing import Iterator

import pytest
from sqlalchemy.exc import OperationalError
from test_answering import URI, Talk
from web import request

import calmizsed
from calmizsed.publication import ChangeQuery, ListQuery, Publish
from calmizsed.server import logs
from calmizsed.server.application import Application
from calmizsed.server.metrics import Metrics

CAROL = "/rfc8181/carol"


@pytest.fixture
def talk(tmp_path: pathlib.Path) -> Iterator[Talk]:
    """A server."""
    found = Talk(f"sqlite:///{tmp_path / 'database'}")
    yield found
    found.database.close()


@pytest.fixture
def application(talk: Talk) -> Application:
    """Its application, which takes queries of up to 3,000,000 octets."""
    return Application(talk.answering, Metrics(), lambda: {"state": "fine"}, most=3_000_000, hold=0.0)


def test_a_query(talk: Talk, application: Application) -> None:
    """A query gets a reply of its type, whatever parameters the type has."""
    for kind in ("application/rpki-publication", "Application/RPKI-Publication; charset=binary"):
        talk.moment += 1
        code, headers, body = request(application, CAROL, talk.signed(ListQuery()), kind=kind)
        assert (code, headers["Content-Type"], headers["Content-Length"]) == (200, "application/rpki-publication", str(len(body)))
        assert b"list" not in calmizsed.content(body)


@pytest.mark.parametrize("path", [
    "/", "/rfc8181", "/rfc8181/", "/rfc8181/nobody", "/rfc8181/carol/", "/rfc8181/../carol", "/rfc8181/carol%00", "/rfc8181/" + "c" * 129,
    "/rfc8181/ca\u0000rol", "/RFC8181/carol", "", "/metrics/"])
def test_other_paths(talk: Talk, application: Application, path: str) -> None:
    """Nothing is at another path."""
    assert request(application, path, talk.signed(ListQuery())).code == 404


@pytest.mark.parametrize("method", ["GET", "HEAD", "PUT", "DELETE", "OPTIONS", "post", "TRACE"])
def test_other_methods(application: Application, method: str) -> None:
    """A publisher's path has POST alone, and the others GET."""
    code, headers, body = request(application, CAROL, method=method)
    assert (code, headers["Allow"]) == (405, "POST") and (body == b"") == (method == "HEAD")
    if method not in ("GET", "HEAD"):
        assert request(application, "/status", method=method).headers["Allow"] == "GET, HEAD"


@pytest.mark.parametrize("kind", ["", "application/rpki-updown", "text/xml", "application/rpki-publication2", "application"])
def test_other_types(talk: Talk, application: Application, kind: str) -> None:
    """Another type is refused before the query is read."""
    assert request(application, CAROL, talk.signed(ListQuery()), kind=kind).code == 415


def test_lengths(talk: Talk, application: Application) -> None:
    """A query without a length, one that is too long, and one that isn't as long as it says."""
    assert request(application, CAROL, length="").code == 411
    assert request(application, CAROL, length="3000001").code == 413
    assert request(application, CAROL, length="9" * 18).code == 413
    for word in ("-1", "1e3", "0x10", "9" * 19, "+1", "\u0661"):
        assert request(application, CAROL, length=word).code == 400
    query = talk.signed(ListQuery())
    assert request(application, CAROL, query[:-1], length=str(len(query))).code == 400
    assert request(application, CAROL, query).code == 200


def test_replies_wait(talk: Talk, application: Application) -> None:
    """A reply waits until a second after its query came, if the message was taken; others need not."""
    waits: list[float] = []
    patient = Application(talk.answering, Metrics(), dict, hold=1.0)
    query = talk.signed(ListQuery())
    for octets in (query, query, b"\x30\x03abc"):
        assert request(patient, CAROL, octets, hold=waits.append).code == 200
    talk.moment += 1
    others = Publish("rsync://localhost/repo/dave/a", b"")
    assert request(patient, CAROL, talk.signed(ChangeQuery((others,))), hold=waits.append).code == 200
    assert len(waits) == 2 and all(0.0 < seconds <= 1.0 for seconds in waits)
    talk.moment += 1
    assert request(application, CAROL, talk.signed(ListQuery()), hold=waits.append).code == 200
    assert len(waits) == 2


def test_large_queries(talk: Talk, application: Application) -> None:
    """A large query is taken too, and what comes behind it."""
    for number in range(3):
        talk.moment += 1
        query = talk.signed(ChangeQuery((Publish(f"{URI}{number}", bytes(1_500_000)),)))
        assert b"<success" in calmizsed.content(request(application, CAROL, query).body)


def test_large_queries_at_once(talk: Talk, application: Application, monkeypatch: pytest.MonkeyPatch) -> None:
    """While half of the threads have large queries the next large one comes again, and a small one is answered."""
    begun, go_on = threading.Barrier(3), threading.Event()

    def waits(*_: object) -> None:
        begun.wait(60.0)
        go_on.wait(60.0)

    body, slow = bytes(1_500_000), Application(talk.answering, Metrics(), dict, threads=4, hold=0.0)
    with monkeypatch.context() as patched:
        patched.setattr(talk.answering, "answer", waits)
        threads = [threading.Thread(target=request, args=(slow, CAROL, body)) for _ in range(2)]
        for thread in threads:
            thread.start()
        begun.wait(60.0)
    assert request(slow, CAROL, body).code == 503
    assert request(slow, CAROL, talk.signed(ListQuery())).code == 200
    go_on.set()
    for thread in threads:
        thread.join()
    assert request(slow, CAROL, body).code == 200


def test_a_database_that_fails(talk: Talk, application: Application, monkeypatch: pytest.MonkeyPatch) -> None:
    """The client comes again; nothing of the query is in the answer or the logs."""
    def fails(*_: object) -> None:
        raise OperationalError("INSERT SECRET", {"octets": "SECRET"}, Exception("SECRET"))

    with monkeypatch.context() as patched:
        patched.setattr(talk.answering, "answer", fails)
        code, headers, body = request(application, CAROL, talk.signed(ListQuery()))
    assert (code, headers["Retry-After"]) == (503, "5") and b"SECRET" not in body
    with monkeypatch.context() as patched:
        patched.setattr(talk.answering, "answer", lambda *_: 1 // 0)
        assert request(application, CAROL, talk.signed(ListQuery())).code == 500
    assert request(application, CAROL, talk.signed(ListQuery())).code == 200


def test_metrics_and_status(talk: Talk, application: Application) -> None:
    """What came is counted, by publisher, kind and outcome."""
    request(application, CAROL, talk.signed(ListQuery()))
    request(application, CAROL, talk.signed(ListQuery()))
    request(application, CAROL, b"\x30\x03abc")
    request(application, "/nothing")
    code, headers, body = request(application, "/metrics", method="GET")
    assert code == 200 and headers["Content-Type"].startswith("text/plain; version=0.0.4")
    for line in (
            'calmizsed_queries_total{kind="list",outcome="success",publisher="carol"} 1.0',
            'calmizsed_queries_total{kind="none",outcome="replay",publisher="carol"} 1.0',
            'calmizsed_queries_total{kind="none",outcome="rejected",publisher="carol"} 1.0',
            'calmizsed_http_answers_total{code="404"} 1.0'):
        assert line.encode() in body.splitlines()
    assert json.loads(request(application, "/status", method="GET").body) == {"state": "fine"}


def test_logs(talk: Talk, application: Application, caplog: pytest.LogCaptureFixture) -> None:
    """A line has the publisher, the kind, what came out and how long it took, and nothing of an object."""
    caplog.set_level(logging.INFO, logs.NAME)
    request(application, CAROL, talk.signed(ChangeQuery((Publish(URI, b"SECRET"),))))
    record = next(one for one in caplog.records if one.getMessage() == "query")
    line, value = logs.Lines().format(record), json.loads(logs.Json().format(record))
    assert "publisher=carol kind=change outcome=success changes=1 milliseconds=" in line
    assert (value["publisher"], value["kind"], value["outcome"], value["changes"]) == ("carol", "change", "success", 1)
    assert value["milliseconds"] > 0 and "SECRET" not in line


def test_no_line_is_forged() -> None:
    """A log has one line for a record, whatever is in it."""
    record = logging.LogRecord(logs.NAME, logging.INFO, "", 0, "a\nb\x1b[0m", None, None)
    record.cause = "c\r\nd\u2028e"
    line = logs.Lines().format(record)
    assert len(line.splitlines()) == 1 and "\x1b" not in line
    assert len(logs.Json().format(record).splitlines()) == 1
