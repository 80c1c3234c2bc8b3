"""What tests of the server share: a server that is run by its command, and publishers that send it queries."""

from __future__ import annotations

import http.client
import os
import pathlib
import signal
import socket
import subprocess
import sys
import time
from typing import Optional, Union
from urllib.parse import urlsplit

from launcher import LAUNCHER, run
from support import openssl

import calmizsed
from calmizsed import Kind, keys, publication, setup
from calmizsed._values import moment_of
from calmizsed.publication import Message

TYPE = "application/rpki-publication"
SECONDS = 60.0
RSYNC_BASE = "rsync://localhost/repo/"
RRDP_URI = "https://localhost/rrdp/notification.xml"


def free_port() -> int:
    """A port that nobody listens at."""
    with socket.socket() as one:
        one.bind(("127.0.0.1", 0))
        return int(one.getsockname()[1])


def done(*words: object) -> bytes:
    """What the command writes, if it ends well."""
    ended = run(*map(str, words))
    assert ended.status == 0, ended.said
    return ended.out


class Sender:
    """A publisher that signs queries, each a second later than the one before, and reads the replies."""

    def __init__(self, response: setup.RepositoryResponse, key: keys.SigningKey, address: Optional[str] = None) -> None:
        parts = urlsplit(address or response.service_uri)
        self.host, self.port, self.path = str(parts.hostname), parts.port or 80, parts.path or "/"
        self.base = response.sia_base
        self.server_key = response.public_key
        self.key = key
        self.last = 0
        self._one_off = keys.PrivateKey.generate()

    def signed(self, query: Message, seconds: Optional[int] = None) -> bytes:
        """A signed query."""
        moment = max(int(time.time()), self.last + 1) if seconds is None else seconds
        self.last = max(self.last, moment)
        return calmizsed.create(Kind.PUBLICATION, query.to_xml(), self.key, moment_of(moment), one_off_key=self._one_off)

    def post(self, octets: bytes, kind: str = TYPE) -> tuple[int, bytes]:
        """The code of HTTP, and the body."""
        connection = http.client.HTTPConnection(self.host, self.port, timeout=SECONDS)
        try:
            connection.request("POST", self.path, octets, {"Content-Type": kind})
            answer = connection.getresponse()
            return answer.status, answer.read()
        finally:
            connection.close()

    def read(self, octets: bytes) -> Message:
        """The message in a reply, which holds under the server's key."""
        return Message.from_xml(calmizsed.receive(Kind.PUBLICATION, octets, [self.server_key], calmizsed.now()).text)

    def send(self, octets: bytes) -> Message:
        """The reply to octets."""
        code, body = self.post(octets)
        assert code == 200, body
        return self.read(body)

    def ask(self, *changes: Union[publication.Publish, publication.Withdraw]) -> Message:
        """The reply to changes, or to a list where there are none."""
        return self.send(self.signed(publication.ChangeQuery(changes) if changes else publication.ListQuery()))

    def listed(self) -> dict[str, bytes]:
        """What the server has."""
        reply = self.ask()
        assert isinstance(reply, publication.ListReply)
        return {one.uri: one.hash for one in reply.objects}


def codes(reply: Message) -> list[str]:
    """The codes of an error reply."""
    assert isinstance(reply, publication.ErrorReply), reply
    return [error.error_code for error in reply.errors]


class Served:
    """A server in a folder, run by its command."""

    def __init__(self, folder: pathlib.Path, *words: object) -> None:
        self.folder = folder
        self.data = folder / "data"
        self.port = free_port()
        self.url = f"http://127.0.0.1:{self.port}"
        self._process: Optional[subprocess.Popen[bytes]] = None
        self._key: Optional[keys.PrivateKey] = None
        done("serve", "init", "--data", self.data, "--url", self.url, "--rsync-base", RSYNC_BASE, "--rrdp-uri", RRDP_URI, *words)

    def add(self, handle: str, address: Optional[str] = None) -> Sender:
        """Adds a publisher with a key of its own."""
        key = self.folder / f"{handle.replace('/', '+')}.pem"
        anchor, request = key.with_suffix(".der"), key.with_suffix(".xml")
        openssl("genpkey", "-algorithm", "RSA", "-pkeyopt", "rsa_keygen_bits:2048", "-out", key)
        done("anchor", "new", "--key", key, "-o", anchor)
        done("setup", "publisher-request", "--handle", handle, "--anchor", anchor, "-o", request)
        response = setup.RepositoryResponse.from_xml(done("serve", "add", "--data", self.data, request))
        return Sender(response, calmizsed.files.load_private_key(key.read_bytes()), address)

    def start(self, *words: object, hold: float = 0.0) -> None:
        """Starts it, and waits until it answers. Publishers of tests sign each message a second later than the last one by themselves."""
        log = open(self.folder / "log", "ab")
        self._process = subprocess.Popen(
            [str(LAUNCHER), "serve", "run", "--data", str(self.data), "--listen", f"127.0.0.1:{self.port}", "--hold", str(hold),
             *map(str, words)],
            stderr=log, stdin=subprocess.DEVNULL, start_new_session=True, env={**os.environ, "PYTHON": sys.executable})
        log.close()
        end = time.monotonic() + SECONDS
        while True:
            assert self._process.poll() is None, self.log()[-2000:]
            try:
                socket.create_connection(("127.0.0.1", self.port), SECONDS).close()
                return
            except ConnectionRefusedError:
                assert time.monotonic() < end, self.log()[-2000:]
                time.sleep(0.1)

    def log(self) -> str:
        """What was logged."""
        return (self.folder / "log").read_text("utf-8")

    def kill(self) -> None:
        """Ends it at once, and all that it started."""
        if self._process is not None:
            os.killpg(self._process.pid, signal.SIGKILL)
            self._process.wait()
            self._process = None

    def stop(self) -> int:
        """Ends it as an operator does; its status."""
        assert self._process is not None
        self._process.terminate()
        status = self._process.wait(SECONDS)
        self._process = None
        return status

    def below(self) -> dict[int, str]:
        """The processes that it started, and what each was started as."""
        assert self._process is not None
        found = {}
        for folder in pathlib.Path("/proc").iterdir():
            try:
                parent = int((folder / "stat").read_text("ascii", "replace").rpartition(")")[2].split()[1]) if folder.name.isdigit() else 0
                if parent == self._process.pid:
                    found[int(folder.name)] = (folder / "cmdline").read_text("utf-8", "replace")
            except OSError:
                continue  # it has ended meanwhile
        return found

    def kill_alone(self) -> None:
        """Ends it at once, and none that it started."""
        assert self._process is not None
        self._process.kill()
        self._process.wait()

    def memory(self) -> int:
        """How many octets of memory its process has in use."""
        assert self._process is not None
        for line in pathlib.Path(f"/proc/{self._process.pid}/status").read_text("ascii").splitlines():
            if line.startswith("VmRSS:"):
                return 1024 * int(line.split()[1])
        raise AssertionError("no VmRSS")
