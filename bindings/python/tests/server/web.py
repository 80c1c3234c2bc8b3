"""Requests to the application: by WSGI alone, and over HTTP."""

from __future__ import annotations

import contextlib
import http.client
import io
import threading
import time
from typing import Any, Callable, Iterator, NamedTuple, Optional

from calmizsed.server import listening
from calmizsed.server.application import HOLD, Application

TYPE = "application/rpki-publication"


class Answered(NamedTuple):
    """An answer of HTTP."""

    code: int
    headers: dict[str, str]
    body: bytes


def request(
        application: Application, path: str, body: bytes = b"", method: str = "POST", kind: str = TYPE,
        length: Optional[str] = None, hold: Callable[[float], None] = time.sleep) -> Answered:
    """The answer to a request. `hold` has it wait."""
    told: list[Any] = []
    environment = {
        "REQUEST_METHOD": method, "PATH_INFO": path, "CONTENT_TYPE": kind, "CONTENT_LENGTH": str(len(body)) if length is None else length,
        "wsgi.input": io.BytesIO(body), HOLD: hold}
    octets = b"".join(application(environment, lambda status, headers: told.extend((status, headers))))
    return Answered(int(told[0].split(" ")[0]), dict(told[1]), octets)


@contextlib.contextmanager
def over_http(application: Application) -> Iterator[Callable[[str, bytes], Answered]]:
    """The application at an address of HTTP: what a query to a path is answered there."""
    server = listening.listen(application, "127.0.0.1", 0, 2, 20, 1 << 25)
    stop = threading.Event()
    thread = threading.Thread(target=listening.serve, args=(server, stop))
    thread.start()
    connection = http.client.HTTPConnection("127.0.0.1", int(server.effective_port), timeout=60.0)

    def post(path: str, octets: bytes) -> Answered:
        connection.request("POST", path, octets, {"Content-Type": TYPE})
        answer = connection.getresponse()
        return Answered(answer.status, dict(answer.getheaders()), answer.read())

    try:
        yield post
    finally:
        connection.close()
        stop.set()
        thread.join()
