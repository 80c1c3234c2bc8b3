"""The server of HTTP: waitress, with bounds on how slowly a request may come and on what is held of all, and an end that loses no reply.

An application can have an answer wait before it is sent, which takes none of the threads: `environment[HOLD](seconds)`.
"""

from __future__ import annotations

import resource
import socket
import threading
import time
from typing import Any

from waitress.channel import HTTPChannel
from waitress.parser import HTTPRequestParser
from waitress.server import create_server
from waitress.task import WSGITask

from calmizsed.server.application import HOLD, is_query

REQUEST_SECONDS = 60.0
LEAST_SPEED = 1 << 16  # octets a second that a long request has to come with
IDLE_SECONDS = 30
END_SECONDS = 20.0
LOOP_SECONDS = 0.2
OTHER_FILES = 200  # besides connections: the database, the files of RRDP, buffers of long queries
IN_MEMORY = 1 << 15  # octets of a body: a longer one is in a file
SMALL = 1 << 16  # octets for which there is always room
HELD = 1 << 30


class Room:
    """The octets of requests that aren't answered yet, of all connections together."""

    def __init__(self, most: int) -> None:
        self._lock = threading.Lock()
        self._left = most
        self._held: dict[object, int] = {}

    def take(self, owner: object, octets: int) -> bool:
        """Notes octets of a connection; whether it may go on."""
        with self._lock:
            self._left -= octets
            held = self._held[owner] = self._held.get(owner, 0) + octets
            return held <= SMALL or self._left >= 0

    def give_back(self, owner: object) -> None:
        """Notes that a connection holds none."""
        with self._lock:
            self._left += self._held.pop(owner, 0)


class Parser(HTTPRequestParser):  # type: ignore[misc]
    """A request. A body that nobody asks for isn't taken: the connection is closed behind the answer."""

    body_rcv: Any = None

    def parse_header(self, header_plus: bytes) -> None:
        """Reads the head."""
        super().parse_header(header_plus)
        path = "/" + self.path.lstrip("/")  # as the task has it
        if self.body_rcv is not None and not is_query(self.command, path, self.headers.get("CONTENT_TYPE", "")):
            self.body_rcv, self.content_length, self.chunked, self.expect_continue = None, 0, False, False
            self.headers.pop("CONTENT_LENGTH", None)
            self.headers["CONNECTION"] = "close"


class Task(WSGITask):  # type: ignore[misc]
    """A request that is answered."""

    def get_environment(self) -> Any:
        """What the application is given."""
        environment = super().get_environment()
        environment[HOLD] = self.channel.hold
        return environment


class Channel(HTTPChannel):  # type: ignore[misc]
    """A connection. It is closed where a request comes too slowly or never ends, and where there is no room for a long one."""

    parser_class = Parser
    task_class = Task
    begun = 0.0
    held_until = 0.0

    def received(self, data: bytes) -> bool:
        """Takes some octets of a request."""
        if self.request is None:
            self.begun = time.monotonic()
        has_room = self.server.room.take(self, len(data))  # before a thread can answer them, and give them back
        taken = has_room and bool(super().received(data))
        if not has_room or self._is_slow():
            self.will_close = True
            return False
        return taken

    def _is_slow(self) -> bool:
        """Whether a request that isn't whole yet has taken too long."""
        if self.request is None:
            return False
        received = int(self.request.body_bytes_received)
        return time.monotonic() - self.begun > REQUEST_SECONDS + received / LEAST_SPEED

    def service(self) -> None:
        """Answers a request."""
        super().service()
        if not self.requests and self.request is None:
            self.server.room.give_back(self)

    def del_channel(self, map: Any = None) -> None:  # pylint: disable=redefined-builtin
        """It is closed."""
        super().del_channel(map)
        self.server.room.give_back(self)

    # ---- answers that wait

    def hold(self, seconds: float) -> None:
        """Has what is to be sent wait."""
        self.held_until = max(self.held_until, time.monotonic() + seconds)

    def _is_held(self) -> bool:
        """Whether what is to be sent has to wait."""
        return time.monotonic() < self.held_until

    def writable(self) -> bool:
        """Whether there is something that may be sent now."""
        return bool(self.will_close or not self._is_held() and super().writable())

    def _flush_some(self, do_close: bool = True) -> bool:
        """Sends some octets, if they may be sent now."""
        return not self._is_held() and bool(super()._flush_some(do_close=do_close))


def most_connections(wanted: int) -> int:
    """How many connections there can be: the limit of open files is raised for them as far as it may be."""
    soft, hard = resource.getrlimit(resource.RLIMIT_NOFILE)
    most = 2 * wanted + OTHER_FILES  # a connection may have a file for its query
    soft_wanted = most if hard == resource.RLIM_INFINITY else min(most, hard)
    if soft != resource.RLIM_INFINITY and soft < soft_wanted:
        resource.setrlimit(resource.RLIMIT_NOFILE, (soft_wanted, hard))
        soft = soft_wanted
    return wanted if soft == resource.RLIM_INFINITY else max(16, min(wanted, (soft - OTHER_FILES) // 2))


def listen(application: Any, host: str, port: int, threads: int, connections: int, most: int) -> Any:
    """Listens at an address: of a name that has several, at the first."""
    address = str(socket.getaddrinfo(host, port, type=socket.SOCK_STREAM, flags=socket.AI_PASSIVE)[0][4][0])
    server = create_server(
        application, host=address, port=port, threads=threads, connection_limit=most_connections(connections), asyncore_use_poll=True,
        channel_timeout=IDLE_SECONDS, cleanup_interval=5, max_request_body_size=most, inbuf_overflow=IN_MEMORY, ident="calmizsed",
        backlog=4096, log_socket_errors=False, expose_tracebacks=False, clear_untrusted_proxy_headers=True)
    server.channel_class = Channel
    server.room = Room(HELD)
    return server


def _is_busy(server: Any) -> bool:
    """Whether a reply is being made, or is on its way."""
    return any(channel.requests or channel.total_outbufs_len for channel in list(server.active_channels.values()))


def serve(server: Any, stop: threading.Event) -> None:
    """Answers until it is told to stop; then the requests that came whole are answered still, and no others."""
    end = float("inf")
    while time.monotonic() < end:
        server.asyncore.loop(timeout=LOOP_SECONDS, map=server._map, use_poll=True, count=1)
        if stop.is_set():
            server.accepting = False
            end = min(end, time.monotonic() + END_SECONDS)
            if not _is_busy(server):
                break
    server.task_dispatcher.shutdown()
    server.close()
