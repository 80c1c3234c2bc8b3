"""What lies below the application: answers that wait, bodies that aren't taken, room for those that are, and addresses."""

from __future__ import annotations

import contextlib
import http.client
import socket
import threading
import time
from typing import Any, Callable, Iterator

import pytest

from calmizsed.server import listening
from calmizsed.server.application import CONTENT_TYPE, HOLD
from calmizsed.server.settings import PATH

SECONDS = 30.0
CAROL = PATH + "carol"
POST = f"POST {CAROL} HTTP/1.1\r\nHost: localhost\r\nContent-Type: {CONTENT_TYPE}\r\n"


def answers(environment: dict[str, Any], start_response: Callable[..., Any]) -> list[bytes]:
    """An application that says how long the body is."""
    body = str(len(environment["wsgi.input"].read())).encode()
    start_response("200 OK", [("Content-Length", str(len(body)))])
    return [body]


@contextlib.contextmanager
def running(application: Any, threads: int = 1, host: str = "127.0.0.1") -> Iterator[Any]:
    """A server that runs."""
    server, stop = listening.listen(application, host, 0, threads, 100, 8 << 20), threading.Event()
    thread = threading.Thread(target=listening.serve, args=(server, stop))
    thread.start()
    try:
        yield server
    finally:
        stop.set()
        thread.join(SECONDS)
        assert not thread.is_alive()


def asked(server: Any, octets: bytes) -> bytes:
    """All that comes back for what is sent."""
    with socket.create_connection((server.effective_host, server.effective_port), SECONDS) as one:
        with contextlib.suppress(ConnectionError):
            one.sendall(octets)
        return rest(one)


def rest(one: socket.socket) -> bytes:
    """All that comes from a connection."""
    found = b""
    with contextlib.suppress(ConnectionError):
        while part := one.recv(65536):
            found += part
    return found


def wait_for(holds: Callable[[], bool]) -> None:
    """Waits until something is so."""
    end = time.monotonic() + SECONDS
    while not holds():
        assert time.monotonic() < end
        time.sleep(0.02)


def test_answers_that_wait() -> None:
    """They are sent once their time has come, and take no thread meanwhile: one thread has twenty of them wait, and answers others."""
    def waits(environment: dict[str, Any], start_response: Callable[..., Any]) -> list[bytes]:
        if environment["PATH_INFO"] == "/wait":
            environment[HOLD](1.0)
        start_response("200 OK", [("Content-Length", "40000")])
        return [bytes(40000)]

    times: list[float] = []

    def ask(server: Any, path: str) -> None:
        begin = time.monotonic()
        connection = http.client.HTTPConnection("127.0.0.1", server.effective_port, timeout=SECONDS)
        connection.request("GET", path)
        assert connection.getresponse().read() == bytes(40000)
        connection.close()
        times.append(time.monotonic() - begin)

    with running(waits) as server:
        threads = [threading.Thread(target=ask, args=(server, "/wait")) for _ in range(20)]
        for thread in threads:
            thread.start()
        time.sleep(0.2)
        ask(server, "/")
        assert times.pop() < 1.0 and not times
        for thread in threads:
            thread.join()
    assert len(times) == 20 and min(times) >= 1.0 and max(times) < 10.0


@pytest.mark.parametrize("head", [
    f"POST /nothing HTTP/1.1\r\nHost: localhost\r\nContent-Type: {CONTENT_TYPE}\r\n",
    f"PUT {CAROL} HTTP/1.1\r\nHost: localhost\r\nContent-Type: {CONTENT_TYPE}\r\n",
    f"POST {CAROL} HTTP/1.1\r\nHost: localhost\r\n",
    f"POST {CAROL} HTTP/1.1\r\nHost: localhost\r\nContent-Type: text/xml\r\nExpect: 100-continue\r\n",
    "POST / HTTP/1.0\r\nConnection: keep-alive\r\n"])
@pytest.mark.parametrize("body", ["Content-Length: 8000000\r\n\r\n", "Transfer-Encoding: chunked\r\n\r\n5\r\nabcde\r\n"])
def test_bodies_that_nobody_asks_for(head: str, body: str) -> None:
    """The answer comes before the body does, and the connection is closed behind it: no octet of a body is read as a request."""
    if "HTTP/1.0" in head and "chunked" in body:
        body = "Content-Length: 5\r\n\r\nabcde"
    with running(answers) as server:
        found = asked(server, (head + body + "GET / HTTP/1.1\r\nHost: localhost\r\n\r\n").encode())
        wait_for(lambda: not server.active_channels)
        assert server.room._left == listening.HELD
    assert found.startswith((b"HTTP/1.1 200 ", b"HTTP/1.0 200 ")) and found.endswith(b"\r\n0") and found.count(b"HTTP/") == 1
    assert b"Connection: close\r\n" in found


def test_a_body_that_is_asked_for() -> None:
    """It is taken whole: in memory, in a file, in chunks, and one behind the other on a connection."""
    small, large = b"a" * 100, b"b" * 3_000_000
    requests = [POST.encode() + f"Content-Length: {len(body)}\r\n\r\n".encode() + body for body in (small, large)]
    chunks = POST.encode() + b"Transfer-Encoding: chunked\r\n\r\n" + b"".join(b"10000\r\n" + bytes(65536) + b"\r\n" for _ in range(3))
    last = POST.encode() + b"Connection: close\r\nContent-Length: 5\r\n\r\nabcde"
    with running(answers) as server:
        found = asked(server, b"".join([*requests, chunks, b"0\r\n\r\n", last]))
        wait_for(lambda: not server.active_channels)
        assert server.room._left == listening.HELD
    assert [part.rpartition(b"\r\n")[2] for part in found.split(b"HTTP/1.1 200 OK")[1:]] == [b"100", b"3000000", b"196608", b"5"]


def test_room(monkeypatch: pytest.MonkeyPatch) -> None:
    """Where long queries hold as much as there is room for, the next long one is cut off, and a short one is answered."""
    monkeypatch.setattr(listening, "HELD", 1_000_000)
    head = POST.encode() + b"Connection: close\r\nContent-Length: 900000\r\n\r\n"
    with running(answers) as server:
        with socket.create_connection(("127.0.0.1", server.effective_port), SECONDS) as one:
            one.sendall(head + bytes(800_000))
            wait_for(lambda: bool(server.room._left < 300_000))
            assert asked(server, head + bytes(900_000)) == b""
            assert asked(server, POST.encode() + b"Connection: close\r\nContent-Length: 50000\r\n\r\n" + bytes(50_000)).endswith(b"50000")
            one.sendall(bytes(100_000))
            assert rest(one).endswith(b"900000")
        wait_for(lambda: not server.active_channels)
        assert server.room._left == 1_000_000


def test_slow_queries(monkeypatch: pytest.MonkeyPatch) -> None:
    """A long query may take longer than a short one, if it comes with some speed."""
    monkeypatch.setattr(listening, "REQUEST_SECONDS", 0.5)
    monkeypatch.setattr(listening, "LEAST_SPEED", 10_000)
    with running(answers) as server:
        for octets, is_taken in ((3000, True), (10, False)):
            with socket.create_connection(("127.0.0.1", server.effective_port), SECONDS) as one:
                one.sendall(POST.encode() + f"Connection: close\r\nContent-Length: {20 * octets}\r\n\r\n".encode())
                with contextlib.suppress(ConnectionError):
                    for _ in range(20):
                        one.sendall(bytes(octets))
                        time.sleep(0.1)
                found = rest(one)
            assert found.endswith(b"60000") == is_taken


def test_names() -> None:
    """A name with several addresses has the server listen at the first; one with none is told as such."""
    with running(answers, host="localhost") as server:
        assert asked(server, b"GET / HTTP/1.1\r\nHost: localhost\r\nConnection: close\r\n\r\n").endswith(b"\r\n0")
    with pytest.raises(OSError):
        listening.listen(answers, "no.such.host.invalid", 0, 1, 100, 100)
