"""The application, by WSGI: which path, method, type and length get a reply of the protocol, and what HTTP answers else."""

from __future__ import annotations

import contextlib
import json
import re
import threading
import time
from typing import Any, Callable, Iterable, Iterator, Optional, Protocol

from sqlalchemy.exc import DBAPIError, SQLAlchemyError

from calmizsed.errors import CalmizsedError, TooLong
from calmizsed.server.answering import Answer
from calmizsed.server.logs import LOG
from calmizsed.server.metrics import CONTENT_TYPE as METRICS_TYPE
from calmizsed.server.metrics import Metrics
from calmizsed.server.options import Options
from calmizsed.server.settings import PATH

CONTENT_TYPE = "application/rpki-publication"
HOLD = "calmizsed.hold"
"""Of an environment: has the answer wait for so many seconds before it is sent, without a thread. Elsewhere the thread waits."""
LARGE, LARGE_AT_ONCE = 1 << 20, 2  # what is large takes many times its length while it is read
SECONDS_FOR_LARGE = 30.0
RETRY_SECONDS = 5
WORD = re.compile(r"[A-Za-z0-9._-]{1,128}")
REASONS = {
    200: "OK", 400: "Bad Request", 404: "Not Found", 405: "Method Not Allowed", 411: "Length Required", 413: "Content Too Large",
    415: "Unsupported Media Type", 500: "Internal Server Error", 503: "Service Unavailable"}

Environment = dict[str, Any]
StartResponse = Callable[[str, list[tuple[str, str]]], Any]


class Answers(Protocol):
    """What answers queries: `Answering`, or processes that do."""

    def answer(self, word: str, octets: bytes) -> Optional[Answer]:
        """The answer to a message that came at a path, or None where no publisher has the path."""


class HttpError(Exception):
    """What HTTP answers where there is no reply of the protocol."""

    def __init__(self, code: int, said: str, *headers: tuple[str, str]) -> None:
        super().__init__(code, said)
        self.code = code
        self.said = said
        self.headers = headers


def _busy(said: str) -> HttpError:
    """Has the client come again."""
    return HttpError(503, said, ("Retry-After", str(RETRY_SECONDS)))


def _check_query(method: str, path: str, kind: str) -> None:
    """Raises what HTTP answers to a request that is no query of a publisher, by its head."""
    if not path.startswith(PATH) or not WORD.fullmatch(path[len(PATH):]):
        raise HttpError(404, "no publisher is here")
    if method != "POST":
        raise HttpError(405, "POST alone", ("Allow", "POST"))
    if kind.partition(";")[0].strip().lower() != CONTENT_TYPE:
        raise HttpError(415, f"{CONTENT_TYPE} alone", ("Accept", CONTENT_TYPE))


def is_query(method: str, path: str, kind: str) -> bool:
    """Whether a request can be a query of a publisher, by its head: the body of any other isn't looked at."""
    try:
        _check_query(method, path, kind)
    except HttpError:
        return False
    return True


class Application:
    """The application. `status` says how the server is, as a value of JSON."""

    def __init__(
            self, answering: Answers, metrics: Metrics, status: Callable[[], object], *, most: int = Options.most,
            threads: int = Options.threads, hold: float = Options.hold) -> None:
        self.answering = answering
        self.metrics = metrics
        self.most = most
        self.hold = hold
        self._status = status
        # Large queries take half of the threads at most, also while they wait: small ones are answered meanwhile.
        self._waiting = threading.BoundedSemaphore(max(1, threads // 2))
        self._large = threading.BoundedSemaphore(LARGE_AT_ONCE)

    def __call__(self, environment: Environment, start_response: StartResponse) -> Iterable[bytes]:
        """Answers a request."""
        try:
            code, kind, octets, headers = 200, *self._answered(environment), list[tuple[str, str]]()
        except HttpError as error:
            code, kind, octets, headers = error.code, "text/plain; charset=utf-8", (error.said + "\n").encode(), list(error.headers)
        except Exception:  # whatever it is, the client gets an answer
            LOG.exception("a request failed")
            code, kind, octets, headers = 500, "text/plain; charset=utf-8", b"the server failed\n", []
        self.metrics.answer(code)
        head = [("Content-Type", kind), ("Content-Length", str(len(octets))), ("Cache-Control", "no-store"), *headers]
        start_response(f"{code} {REASONS[code]}", head)
        return [] if environment.get("REQUEST_METHOD") == "HEAD" else [octets]

    def _answered(self, environment: Environment) -> tuple[str, bytes]:
        """The type and the octets of what is there."""
        path = environment.get("PATH_INFO", "")
        if path.startswith(PATH):
            return CONTENT_TYPE, self._reply(environment, path)
        if path not in ("/metrics", "/status"):
            raise HttpError(404, "nothing is here")
        if environment.get("REQUEST_METHOD") not in ("GET", "HEAD"):
            raise HttpError(405, "GET alone", ("Allow", "GET, HEAD"))
        if path == "/metrics":
            return METRICS_TYPE, self.metrics.text()
        try:
            return "application/json", (json.dumps(self._status(), indent=2) + "\n").encode("utf-8")
        except SQLAlchemyError as error:
            raise _busy(f"the database has no answer: {type(error).__name__}") from None

    def _reply(self, environment: Environment, path: str) -> bytes:
        """The reply to a query."""
        _check_query(environment.get("REQUEST_METHOD", ""), path, environment.get("CONTENT_TYPE", ""))
        word, length = path[len(PATH):], self._length(environment)
        begin = time.perf_counter()
        if length <= LARGE:
            octets, took = self._answer(word, self._body(environment, length))
        else:
            with self._held(self._waiting, 0.0), self._held(self._large, SECONDS_FOR_LARGE):
                octets, took = self._answer(word, self._body(environment, length))
        wait = self.hold - (time.perf_counter() - begin)
        if took and wait > 0.0:
            environment.get(HOLD, time.sleep)(wait)
        return octets

    @staticmethod
    @contextlib.contextmanager
    def _held(semaphore: threading.Semaphore, seconds: float) -> Iterator[None]:
        """Holds a semaphore, or has the client come again, if others hold it for so long."""
        if not semaphore.acquire(timeout=seconds):
            raise _busy("other large queries are being answered")
        try:
            yield
        finally:
            semaphore.release()

    def _length(self, environment: Environment) -> int:
        """How long the body is."""
        word = environment.get("CONTENT_LENGTH", "")
        if word == "":
            raise HttpError(411, "the length of the query is wanted")
        if not re.fullmatch("[0-9]{1,18}", word):
            raise HttpError(400, "a length that is none")
        if int(word) > self.most:
            raise HttpError(413, f"a query may have {self.most} octets")
        return int(word)

    def _body(self, environment: Environment, length: int) -> bytes:
        """The octets of the body."""
        octets: bytes = environment["wsgi.input"].read(length)
        if len(octets) != length:
            raise HttpError(400, "the query ended before its end")
        return octets

    def _answer(self, word: str, octets: bytes) -> tuple[bytes, bool]:
        """The octets of the reply, which are committed, and whether the publisher's next message has to be signed in a later second."""
        begin = time.perf_counter()
        answer: Optional[Answer] = None
        try:
            answer = self.answering.answer(word, octets)
        except SQLAlchemyError as error:
            self._failed(word, "database", self._said(error))
        except TooLong as error:
            raise HttpError(413, f"the query, or a part of it, is too long: {error.cause}") from None
        except (CalmizsedError, MemoryError) as error:  # who signs has failed, or memory ran out
            self._failed(word, "failed", str(error) or type(error).__name__)
        if answer is None:
            raise HttpError(404, "no publisher is here")
        seconds = time.perf_counter() - begin
        self.metrics.query(answer.publisher, answer.kind, answer.outcome, answer.changes, seconds)
        LOG.info("query", extra={
            "publisher": answer.publisher, "kind": answer.kind, "outcome": answer.outcome, "changes": answer.changes or None,
            "cause": answer.cause, "milliseconds": round(1000 * seconds, 1)})
        return answer.octets, answer.took

    @staticmethod
    def _said(error: SQLAlchemyError) -> str:
        """What a database said, in a line; what a query held isn't in it."""
        return type(error.orig).__name__ if isinstance(error, DBAPIError) and error.orig is not None else type(error).__name__

    @staticmethod
    def _failed(word: str, outcome: str, cause: str) -> None:
        """Has the client come again, where nothing was changed."""
        LOG.error("a query got no reply", extra={"publisher": word, "outcome": outcome, "cause": cause})
        raise _busy("the query could not be answered: nothing was changed, unless the connection broke while it was committed")
