"""A publisher (RFC 8181): asks a server what it has, compares that with a folder, and sends what is to be changed.

Signing times are whole seconds, and a server takes no message that is signed no later than the one before. So each message of a publisher
waits for a second of its own, and one that the server answers as a replay is signed anew.
"""

from __future__ import annotations

import hashlib
import http.client
import os
import pathlib
import time
import urllib.error
import urllib.parse
import urllib.request
from dataclasses import dataclass, field
from typing import Callable, Iterator, Optional, Sequence, Union

from calmizsed import keys, publication, setup
from calmizsed._asking import Verifier
from calmizsed._messages import create, receive
from calmizsed._values import Kind, moment_of
from calmizsed.errors import CalmizsedError, WrongForm
from calmizsed.files import FileError
from calmizsed.publication import ChangeQuery, ErrorReply, ListQuery, ListReply, Message, Publish, SuccessReply, Withdraw
from calmizsed.server.places import NoPlace, uri_of

CONTENT_TYPE = "application/rpki-publication"
SECONDS = 60.0
MOST_REPLY = 1 << 28
MOST_QUERY = 24 << 20  # octets of a query's XML: a server takes 32 MiB where nothing else was asked for
ABOUT_ELEMENT = 256  # octets of an element besides its URI and its object
TRIES = 5
BUFFER = 1 << 20
OTHER_ERROR = "other_error"  # a replay: RFC 8181 has no code for it
STALE = frozenset(("no_object_present", "no_object_matching_hash", "object_already_present"))

Change = Union[Publish, Withdraw]


class ServerError(CalmizsedError):
    """The server has no answer, or refuses: `NoServer`, `OtherAnswer`, `ErrorReply`."""


class Broken(ServerError):
    """There was no connection, or it broke: whether the query was taken isn't known (`NoServer`)."""


class Refused(ServerError):
    """The server's reply is an error (`ErrorReply`), with these codes of RFC 8181."""

    def __init__(self, name: str, status: int, cause: str, codes: frozenset[str]) -> None:
        super().__init__(name, status, cause)
        self.args = (name, status, cause, codes)
        self.codes = codes


def _said(error: publication.ReportError) -> str:
    """An error in words: its code, the URI that it is on, and its text."""
    uri = None if error.failed is None or isinstance(error.failed, ListQuery) else error.failed.uri
    return ": ".join(filter(None, (error.error_code, uri, error.error_text)))


# ---- what there is, and what is to be changed


@dataclass(frozen=True)
class File:
    """A file that is to be published, and its SHA-256 when it was looked at."""

    path: pathlib.Path
    digest: bytes


def _digest_of(path: pathlib.Path) -> bytes:
    """The SHA-256 of a file."""
    digest = hashlib.sha256()
    try:
        with open(path, "rb") as file:
            while octets := file.read(BUFFER):
                digest.update(octets)
    except OSError as error:
        raise FileError("NoFile", 2, f"{path}: {error.strerror}") from None
    return digest.digest()


def files_of(folder: pathlib.Path) -> Iterator[tuple[pathlib.Path, tuple[str, ...]]]:
    """The files of a folder and of the folders in it, with the names that lead to them. Names that begin with a dot are left out."""
    def no_folder(error: OSError) -> None:
        raise FileError("NoFile", 2, f"{error.filename}: {error.strerror}")

    for place, folders, names in os.walk(folder, onerror=no_folder):
        folders[:] = sorted(name for name in folders if not name.startswith("."))
        within = pathlib.Path(place).relative_to(folder).parts
        for name in folders:
            if (pathlib.Path(place) / name).is_symlink():
                raise FileError("NoFile", 2, f"{pathlib.Path(place) / name}: a link to a folder, which is not followed")
        for name in sorted(name for name in names if not name.startswith(".")):
            path = pathlib.Path(place) / name
            if not path.is_file():
                raise FileError("NoFile", 2, f"{path}: no file that can be published")
            yield path, (*within, name)


def found(folder: pathlib.Path, base: str) -> dict[str, File]:
    """The files of a folder, by the URIs under which they are published."""
    try:
        return {uri_of(base, names): File(path, _digest_of(path)) for path, names in files_of(folder)}
    except NoPlace as error:
        raise FileError("NoFile", 2, error.cause) from None


def _published(uri: str, file: File, old: Optional[bytes]) -> Publish:
    """The change that publishes a file."""
    try:
        return Publish(uri, file.path.read_bytes(), old)
    except OSError as error:
        raise FileError("NoFile", 2, f"{file.path}: {error.strerror}") from None


def changes(listed: dict[str, bytes], files: dict[str, File]) -> Iterator[Change]:
    """What is to be changed, in the order of the URIs."""
    for uri in sorted(listed.keys() | files.keys()):
        file, old = files.get(uri), listed.get(uri)
        if file is None:
            yield Withdraw(uri, listed[uri])
        elif file.digest != old:
            yield _published(uri, file, old)


def parts(all_changes: Iterator[Change], most: int) -> Iterator[tuple[Change, ...]]:
    """The changes in as few queries as have room for them: one, unless it were larger than that."""
    part: list[Change] = []
    room = most
    for change in all_changes:
        octets = ABOUT_ELEMENT + len(change.uri) + (4 * len(change.content) // 3 if isinstance(change, Publish) else 0)
        if part and octets > room:
            yield tuple(part)
            part, room = [], most
        part.append(change)
        room -= octets
    if part:
        yield tuple(part)


# ---- the server


class _NoRedirect(urllib.request.HTTPRedirectHandler):
    """Follows no redirect: a query goes to the address that was asked for, and nowhere else."""

    def redirect_request(self, *_: object) -> None:
        """None."""


@dataclass
class Server:
    """A server: its address, the rsync URI under which the publisher may publish, and the keys under which its replies hold."""

    address: str
    base: str
    public_keys: Sequence[keys.PublicKey]
    seconds: float = SECONDS

    @classmethod
    def of(cls, response: setup.RepositoryResponse, seconds: float = SECONDS) -> Server:
        """That of a repository's response (RFC 8183, 5.2.4), whose anchor's checks hold."""
        return cls(response.service_uri, response.sia_base, (response.public_key,), seconds)

    def exchange(self, message: bytes) -> bytes:
        """Sends a message, and gives the answer's octets."""
        opener = urllib.request.build_opener(_NoRedirect)
        try:
            if urllib.parse.urlsplit(self.address).scheme not in ("http", "https"):
                raise ServerError("NoServer", 2, f"{self.address}: no address of HTTP")
            request = urllib.request.Request(self.address, message, {"Content-Type": CONTENT_TYPE}, method="POST")
            with opener.open(request, timeout=self.seconds) as answer:
                return self._read(answer)
        except urllib.error.HTTPError as error:
            if error.code in (502, 503, 504):
                raise Broken("NoServer", 1, f"{self.address}: {error.code} {error.reason}") from None
            raise ServerError("OtherAnswer", 1, f"{self.address}: {error.code} {error.reason}") from None
        except urllib.error.URLError as error:
            raise Broken("NoServer", 1, f"{self.address}: {error.reason}") from None
        except (OSError, http.client.HTTPException) as error:
            raise Broken("NoServer", 1, f"{self.address}: {error or type(error).__name__}") from None
        except ValueError as error:
            raise ServerError("NoServer", 2, f"{self.address}: {error}") from None

    def _read(self, answer: http.client.HTTPResponse) -> bytes:
        """The body of an answer, if it is a reply."""
        kind = answer.headers.get_content_type()
        if answer.status != http.client.OK or kind != CONTENT_TYPE:
            raise ServerError("OtherAnswer", 1, f"{self.address}: {answer.status}, {kind}")
        octets, end = bytearray(), time.monotonic() + self.seconds
        while part := answer.read1(BUFFER):
            octets += part
            if len(octets) > MOST_REPLY:
                raise ServerError("OtherAnswer", 1, f"{self.address}: a reply of more than {MOST_REPLY} octets")
            if time.monotonic() > end:
                raise Broken("NoServer", 1, f"{self.address}: the reply took longer than {self.seconds:g} seconds")
        if answer.length:
            raise Broken("NoServer", 1, f"{self.address}: the reply ended before its end")
        return bytes(octets)


def _check(change: Change) -> None:
    """Says which change it is where the library has no text for a query."""
    try:
        ChangeQuery((change,)).to_xml()
    except WrongForm as error:
        raise WrongForm(error.name, error.status, f"{change.uri}: no URI at which something can be published") from None


@dataclass
class Publisher:
    """A publisher at a server. `tell` is told of what is tried again."""

    server: Server
    key: keys.SigningKey
    verifier: Verifier = keys.RSA
    tell: Callable[[str], None] = lambda text: None
    tries: int = TRIES
    _last: int = field(default=0, init=False)

    def _moment(self) -> int:
        """A second that is later than that of the last message."""
        while int(time.time()) <= self._last:
            time.sleep(max(0.0, min(1.0, self._last + 1 - time.time())) + 0.001)
        self._last = int(time.time())
        return self._last

    def ask(self, query: Message) -> Message:
        """The server's reply to a query. One that it answers as a replay is signed anew; so is a list that it didn't answer."""
        for left in reversed(range(self.tries)):
            try:
                return self._asked(query)
            except Refused as error:
                if not left or error.codes != {OTHER_ERROR}:
                    raise
                self.tell(f"signing anew: {error.cause}")
            except Broken as error:
                if not left or not isinstance(query, ListQuery):
                    raise
                self.tell(f"asking again: {error.cause}")
                time.sleep(1.0)
        raise AssertionError("no try is left, and the last one raises")

    def _asked(self, query: Message) -> Message:
        """The reply to a query that is sent once."""
        moment = moment_of(self._moment())
        message = create(Kind.PUBLICATION, query.to_xml(), self.key, moment, verifier=self.verifier)
        octets = self.server.exchange(message)
        receipt = receive(Kind.PUBLICATION, octets, self.server.public_keys, moment_of(int(time.time())), verifier=self.verifier)
        reply = Message.from_xml(receipt.text)
        if isinstance(reply, ErrorReply):
            codes = frozenset(one.error_code for one in reply.errors)
            raise Refused("ErrorReply", 1, "; ".join(map(_said, reply.errors)), codes)
        return reply

    def listed(self) -> dict[str, bytes]:
        """What the server has: the digests, by URI."""
        reply = self.ask(ListQuery())
        if not isinstance(reply, ListReply):
            raise ServerError("OtherAnswer", 1, f"a {type(reply).__name__} to a list")
        return {one.uri: one.hash for one in reply.objects}

    def change(self, part: tuple[Change, ...]) -> None:
        """Has the server make changes."""
        try:
            reply = self.ask(ChangeQuery(part))
        except WrongForm:
            for change in part:
                _check(change)
            raise
        if not isinstance(reply, SuccessReply):
            raise ServerError("OtherAnswer", 1, f"a {type(reply).__name__} to changes")

    def publish(self, files: dict[str, File], most: int = MOST_QUERY, made: Callable[[Change], None] = lambda change: None) -> None:
        """Has the server have these files and no others. `made` is told of each change that the server says is made.

        Where a connection breaks, or what the server has was changed meanwhile, it is listed once more, and what is left is sent.
        """
        for left in reversed(range(self.tries)):
            listed = self.listed()
            try:
                for part in parts(changes(listed, files), most):
                    self.change(part)
                    for change in part:
                        made(change)
                return
            except (Broken, Refused) as error:
                if not left or (isinstance(error, Refused) and not error.codes <= STALE):
                    raise
                self.tell(f"listing again: {error}")
