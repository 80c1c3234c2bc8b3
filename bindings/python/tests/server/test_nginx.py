"""nginx in front, by the example: queries by TLS, the files of RRDP, and nothing else."""

from __future__ import annotations

import hashlib
import os
import pathlib
import re
import shutil
import subprocess
import time
from typing import Iterator
from xml.etree import ElementTree

import pytest
from served import SECONDS, Sender, Served, free_port
from support import EXAMPLES, openssl

from calmizsed.publication import ChangeQuery, ListQuery, Publish, SuccessReply

NGINX = shutil.which("nginx") or ("/usr/sbin/nginx" if os.path.exists("/usr/sbin/nginx") else None)
pytestmark = pytest.mark.skipif(NGINX is None or shutil.which("curl") is None, reason="no nginx, or no curl")


class Front:
    """A server with nginx in front of it."""

    def __init__(self, folder: pathlib.Path) -> None:
        self.folder = folder
        self.served = Served(folder, "--pause", "0.2", "--tree-pause", "0.2")
        self.port = free_port()
        openssl(
            "req", "-x509", "-newkey", "rsa:2048", "-nodes", "-keyout", folder / "tls.key", "-out", folder / "tls.pem", "-subj",
            "/CN=localhost", "-addext", "subjectAltName=DNS:localhost")
        text = (EXAMPLES / "nginx.conf").read_text("ascii")
        for old, new in (
                ("listen 443 ssl", f"listen 127.0.0.1:{self.port} ssl"), ("127.0.0.1:8181", f"127.0.0.1:{self.served.port}"),
                ("/etc/ssl/certs/calmizsed.pem", f"{folder}/tls.pem"), ("/etc/ssl/private/calmizsed.key", f"{folder}/tls.key"),
                ("/var/lib/calmizsed/", f"{self.served.data}/")):
            assert old in text
            text = text.replace(old, new)
        # Of root's nginx the processes that answer are another user's, who can't look into a folder of tests.
        user = "user root;" if os.geteuid() == 0 else ""
        temporary = " ".join(f"{name}_temp_path {folder}/{name};" for name in ("client_body", "proxy", "fastcgi", "uwsgi", "scgi"))
        (folder / "nginx.conf").write_text(
            f"{user} worker_processes 1; daemon off; pid {folder}/nginx.pid; error_log {folder}/nginx.log;\nevents {{ }}\n"
            f"http {{ access_log off; {temporary}\n{text}\n}}\n")
        self.process = subprocess.Popen([str(NGINX), "-c", str(folder / "nginx.conf"), "-e", str(folder / "nginx.log")])

    def curl(self, path: str, *words: str) -> bytes:
        """What comes at a path, with the code and the type in a last line."""
        command = [
            "curl", "-sS", "--cacert", str(self.folder / "tls.pem"), "--max-time", str(SECONDS), "--retry", "5", "--retry-connrefused",
            "-w", "\n%{http_code} %{content_type}", *words, f"https://localhost:{self.port}{path}", "--resolve",
            f"localhost:{self.port}:127.0.0.1"]
        return subprocess.run(command, stdout=subprocess.PIPE, check=True).stdout

    def send(self, sender: Sender, octets: bytes) -> tuple[str, bytes]:
        """The code and the type, and the reply to a query."""
        (self.folder / "query").write_bytes(octets)
        body, _, last = self.curl(
            sender.path, "-H", "Content-Type: application/rpki-publication", "--data-binary", f"@{self.folder}/query").rpartition(b"\n")
        return last.decode(), body


@pytest.fixture(scope="module")
def front(tmp_path_factory: pytest.TempPathFactory) -> Iterator[Front]:
    """One that runs."""
    found = Front(tmp_path_factory.mktemp("front"))
    try:
        found.served.start()
        yield found
    finally:
        found.process.terminate()
        found.process.wait()
        found.served.kill()


def test_queries_and_files(front: Front) -> None:
    """A publisher publishes by TLS, and the files of RRDP have what it published."""
    carol = front.served.add("carol")
    uri = carol.base + "a.cer"
    last, body = front.send(carol, carol.signed(ChangeQuery((Publish(uri, b"octets"),))))
    assert last == "200 application/rpki-publication" and carol.read(body) == SuccessReply()
    end = time.monotonic() + SECONDS
    while True:
        body, _, last_line = front.curl("/rrdp/notification.xml").rpartition(b"\n")
        if last_line == b"200 application/xml" and b'serial="1"' not in body.split(b"snapshot")[0]:
            break
        assert time.monotonic() < end, last_line
        time.sleep(0.3)
    found = re.search(rb'<snapshot uri="https://localhost(/rrdp/[^"]*)" hash="([0-9a-f]*)"', body)
    if found is None:
        found = re.search(rb'<snapshot hash="([0-9a-f]*)" uri="https://localhost(/rrdp/[^"]*)"', body)
        assert found is not None
        path, digest = found[2], found[1]
    else:
        path, digest = found[1], found[2]
    snapshot = front.curl(path.decode()).rpartition(b"\n")[0]
    assert hashlib.sha256(snapshot).hexdigest().encode() == digest
    assert [one.attrib["uri"] for one in ElementTree.fromstring(snapshot)] == [uri]


def test_other_answers(front: Front) -> None:
    """What the server refuses comes through, and its metrics don't."""
    erin = front.served.add("erin")
    assert front.curl("/metrics").endswith(b"\n404 text/html")
    words = "-X", "POST", "-H", "Content-Length: 0", "-H", "Content-Type: application/rpki-publication"
    assert front.curl("/rfc8181/nobody", *words).split()[-3] == b"404"
    assert front.curl(erin.path).split()[-3] == b"405"
    (front.folder / "large").write_bytes(bytes(33 << 20))
    assert front.curl(erin.path, "--data-binary", f"@{front.folder}/large", "-H", "Expect:").split()[-2] == b"413"
    last, body = front.send(erin, erin.signed(ListQuery()))
    assert last == "200 application/rpki-publication" and body
