"""A small server for tests of the client: it keeps objects in memory, and has faults at will. What it decides, the tests say."""

from __future__ import annotations

import hashlib
import threading
from http.server import BaseHTTPRequestHandler, ThreadingHTTPServer
from types import TracebackType
from typing import Optional

import calmizsed
from calmizsed import Kind, keys, publication
from calmizsed.publication import ChangeQuery, ErrorReply, ListedObject, ListQuery, ListReply, Message, Publish, ReportError, SuccessReply

BASE = "rsync://localhost/repo/carol/"
TYPE = "application/rpki-publication"


class SmallServer:
    """A server for one publisher. `faults` are taken in turn, one a query; where there is none left, all goes well."""

    def __init__(self, publisher_key: bytes, key: keys.SigningKey) -> None:
        self.publisher_key = publisher_key
        self.key = key
        self.objects: dict[str, bytes] = {}
        self.faults: list[str] = []
        self.queries: list[Message] = []
        self.last: Optional[int] = None
        self._server = ThreadingHTTPServer(("127.0.0.1", 0), self._handler())
        self._thread = threading.Thread(target=self._server.serve_forever, args=(0.05,))

    @property
    def address(self) -> str:
        """Where it is."""
        return f"http://127.0.0.1:{self._server.server_address[1]}/rfc8181/carol"

    def __enter__(self) -> SmallServer:
        self._thread.start()
        return self

    def __exit__(self, kind: Optional[type[BaseException]], error: Optional[BaseException], trace: Optional[TracebackType]) -> None:
        self._server.shutdown()
        self._server.server_close()
        self._thread.join()

    def _handler(server) -> type[BaseHTTPRequestHandler]:  # noqa: N805
        class Handler(BaseHTTPRequestHandler):
            """Answers."""

            def do_POST(self) -> None:
                """A query."""
                body = self.rfile.read(int(self.headers["Content-Length"]))
                assert self.headers["Content-Type"] == TYPE
                fault = server.faults.pop(0) if server.faults else ""
                if fault == "break before":
                    self.connection.close()
                elif fault.isdigit():
                    self.send_error(int(fault))
                elif fault == "redirect":
                    self.send_response(307)
                    self.send_header("Location", server.address)
                    self.end_headers()
                else:
                    self.answer(body, fault)

            def answer(self, body: bytes, fault: str) -> None:
                """Sends a reply."""
                reply = calmizsed.create(Kind.PUBLICATION, server.reply_to(body, fault).to_xml(), server.key, calmizsed.now())
                if fault == "break behind":
                    self.connection.close()
                    return
                self.send_response(200)
                self.send_header("Content-Type", "text/html" if fault == "other type" else TYPE)
                self.send_header("Content-Length", str(len(reply)))
                self.end_headers()
                self.wfile.write(reply[:20] if fault == "half" else reply)

            def log_message(self, *_: object) -> None:
                """Says nothing."""

        return Handler

    def reply_to(self, body: bytes, fault: str) -> Message:
        """The reply to a query, whose changes are made."""
        receipt = calmizsed.receive(Kind.PUBLICATION, body, [self.publisher_key], calmizsed.now())
        assert receipt.signing_seconds is not None
        if fault == "replay" or (self.last is not None and receipt.signing_seconds <= self.last):
            return ErrorReply((ReportError("other_error", "the message is a replay"),))
        self.last = receipt.signing_seconds
        query = Message.from_xml(receipt.text)
        self.queries.append(query)
        if isinstance(query, ListQuery):
            return ListReply(tuple(ListedObject(uri, hashlib.sha256(held).digest()) for uri, held in sorted(self.objects.items())))
        assert isinstance(query, ChangeQuery)
        return self.changed(query, fault)

    def changed(self, query: ChangeQuery, fault: str) -> Message:
        """The reply to changes, of which all are made or none."""
        if fault == "refuse":
            return ErrorReply((ReportError("permission_failure", "not yours", None, query.changes[0]),))
        objects = dict(self.objects)
        for change in query.changes:
            old = objects.pop(change.uri, None)
            if (None if old is None else hashlib.sha256(old).digest()) != change.hash:
                return ErrorReply((ReportError("no_object_matching_hash", None, None, change),))
            if isinstance(change, Publish):
                objects[change.uri] = change.content
        self.objects = objects
        return SuccessReply()


def changes_in(query: Message) -> list[tuple[str, str]]:
    """What a query changes: a word, and what stands behind the base."""
    assert isinstance(query, ChangeQuery)
    words = {publication.Publish: "publish", publication.Withdraw: "withdraw"}
    return [
        ("replace" if isinstance(one, Publish) and one.hash else words[type(one)], one.uri[len(BASE):]) for one in query.changes]
