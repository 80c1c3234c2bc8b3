"""A server by its command: curl, publishers at once, the commands beside it, and how it ends."""

from __future__ import annotations

import json
import pathlib
import socket
import stat
import subprocess
import threading
import time
from typing import Iterator

import pytest
from launcher import run
from served import SECONDS, TYPE, Sender, Served, codes, done
from support import openssl

from calmizsed.publication import ChangeQuery, ListQuery, ListReply, Publish, SuccessReply, Withdraw


@pytest.fixture(scope="module")
def served(tmp_path_factory: pytest.TempPathFactory) -> Iterator[Served]:
    """A server that runs."""
    found = Served(tmp_path_factory.mktemp("served"), "--pause", "0.2", "--tree-pause", "0.2")
    found.start()
    yield found
    found.kill()


@pytest.fixture(scope="module")
def carol(served: Served) -> Sender:
    """A publisher."""
    return served.add("carol")


def test_private_files(served: Served) -> None:
    """Nobody else reads the issuing key, nor the database's address."""
    for name in ("issuer.pem", "server.json"):
        assert stat.S_IMODE((served.data / name).stat().st_mode) == 0o600


def test_curl(served: Served, carol: Sender, tmp_path: pathlib.Path) -> None:
    """A query by curl, with its length and in chunks."""
    for words in (["-H", "Accept: */*"], ["-H", "Transfer-Encoding: chunked"]):
        (tmp_path / "query").write_bytes(carol.signed(ListQuery()))
        ended = subprocess.run([
            "curl", "-sS", "--max-time", str(SECONDS), "-H", f"Content-Type: {TYPE}", *words, "--data-binary", f"@{tmp_path / 'query'}",
            "-w", "%{http_code} %{content_type}", "-o", str(tmp_path / "reply"), f"{served.url}{carol.path}"],
            stdout=subprocess.PIPE, check=True)
        assert ended.stdout.decode() == f"200 {TYPE}"
        assert isinstance(carol.read((tmp_path / "reply").read_bytes()), ListReply)


def raw(served: Served, octets: bytes) -> bytes:
    """What comes for octets of HTTP."""
    with socket.create_connection(("127.0.0.1", served.port), SECONDS) as connection:
        connection.sendall(octets)
        found = b""
        while part := connection.recv(65536):
            found += part
        return found


def test_no_length(served: Served, carol: Sender) -> None:
    """A query without a length, and one that says it is too long, are answered before any of it comes."""
    head = f"POST {carol.path} HTTP/1.1\r\nHost: a\r\nConnection: close\r\nContent-Type: {TYPE}\r\n"
    assert raw(served, (head + "\r\n").encode()).startswith(b"HTTP/1.1 411 ")
    assert raw(served, (head + f"Content-Length: {1 << 40}\r\n\r\n").encode()).startswith(b"HTTP/1.1 413 ")


def test_two_publishers_at_once(served: Served) -> None:
    """Each sees what it published itself, and all of it."""
    senders = [served.add(handle) for handle in ("two/a", "two-a")]
    faults: list[BaseException] = []

    def work(sender: Sender) -> None:
        try:
            for number in range(15):
                assert sender.ask(Publish(f"{sender.base}{number}", sender.base.encode())) == SuccessReply()
            listed = sender.listed()
            for uri in sorted(listed)[:5]:
                assert sender.ask(Withdraw(uri, listed[uri])) == SuccessReply()
        except BaseException as error:
            faults.append(error)

    threads = [threading.Thread(target=work, args=(sender,)) for sender in senders]
    for thread in threads:
        thread.start()
    for thread in threads:
        thread.join()
    assert not faults
    bases = {sender.base for sender in senders}
    assert len(bases) == 2
    for sender in senders:
        listed = sender.listed()
        assert len(listed) == 10 and all(uri.startswith(sender.base) for uri in listed)


def test_add_list_key_remove(served: Served, tmp_path: pathlib.Path) -> None:
    """The commands beside a server that runs."""
    erin = served.add("erin")
    again = run("serve", "add", "--data", str(served.data), str(served.folder / "erin.xml"))
    assert again.status == 0 and erin.base.encode() in again.out
    assert erin.ask(Publish(erin.base + "a", b"a")) == SuccessReply()
    found = {one["handle"]: one for one in json.loads(done("serve", "list", "--data", served.data, "--json"))}
    assert found["erin"]["objects"] == 1 and list(found["erin"]["keys"]) == ["1"] and found["erin"]["last_time"] is not None
    frank = served.add("frank")
    done("serve", "key", "--data", served.data, "erin", "--add", served.folder / "frank.xml")
    erin.key = frank.key
    assert erin.listed() and run("serve", "key", "--data", str(served.data), "erin").status == 2
    done("serve", "key", "--data", served.data, "erin", "--retire", "2")
    assert codes(erin.ask()) == ["bad_cms_signature"]
    done("serve", "remove", "--data", served.data, "erin")
    assert erin.post(erin.signed(ListQuery()))[0] == 404
    gone = run("serve", "remove", "--data", str(served.data), "erin")
    assert gone.status == 2 and "NoPublisher" in gone.said
    status = json.loads(done("serve", "status", "--data", served.data))
    assert status["schema"] == 1 and status["rrdp"]["serial"] >= 1


def test_set_up_again(served: Served) -> None:
    """What publishers were told of can't be changed, and another key can't take the place of the issuing key."""
    words = ["serve", "init", "--data", str(served.data), "--rrdp-uri", "https://localhost/rrdp/"]
    other = run(*words, "--url", "http://localhost:1", "--rsync-base", "rsync://localhost/repo/")
    assert other.status == 2 and "OtherServer" in other.said
    wrong = run(*words, "--url", served.url, "--rsync-base", "https://localhost/repo/")
    assert wrong.status == 2
    key = run(*words, "--url", served.url, "--rsync-base", "rsync://localhost/repo/", "--key", str(served.folder / "carol.pem"))
    assert key.status == 2 and "OtherServer" in key.said


def test_addresses(tmp_path: pathlib.Path) -> None:
    """Publishers are told of a notification by https alone (RFC 8182, 3.2); a server may be reached by http."""
    words = ["serve", "init", "--data", str(tmp_path / "data"), "--rsync-base", "rsync://localhost/repo/"]
    for url, rrdp_uri in (
            ("http://localhost", "http://localhost/rrdp/"), ("ftp://localhost", "https://localhost/rrdp/"),
            ("http://localhost/?a", "https://localhost/rrdp/"), ("http://localhost", "https://localhost/rrdp")):
        ended = run(*words, "--url", url, "--rrdp-uri", rrdp_uri)
        assert ended.status == 2 and "WrongUrl" in ended.said
    assert not (tmp_path / "data" / "server.json").exists()


def test_a_client_that_goes_on_at_once(tmp_path: pathlib.Path) -> None:
    """One that asks for the list and then sends its changes at once, each signed when it is sent, has both taken."""
    served = Served(tmp_path)
    carol = served.add("carol")
    served.start("--no-worker", hold=1.0)
    try:
        for number in range(3):
            assert isinstance(carol.send(carol.signed(ListQuery(), int(time.time()))), ListReply)
            query = ChangeQuery((Publish(f"{carol.base}{number}", b"octets"),))
            assert carol.send(carol.signed(query, int(time.time()))) == SuccessReply()
    finally:
        served.kill()


def test_no_server(tmp_path: pathlib.Path) -> None:
    """A folder without a server is none."""
    for verb in ("run", "list", "status"):
        ended = run("serve", verb, "--data", str(tmp_path / "nothing"))
        assert ended.status == 2 and "NoServer" in ended.said


def test_sign_command(tmp_path: pathlib.Path) -> None:
    """A command signs; what it signs holds under the key of the anchor."""
    openssl("genpkey", "-algorithm", "RSA", "-pkeyopt", "rsa_keygen_bits:2048", "-out", tmp_path / "server.pem")
    openssl("pkey", "-in", tmp_path / "server.pem", "-pubout", "-out", tmp_path / "public.pem")
    served = Served(
        tmp_path, "--public-key", tmp_path / "public.pem", "--sign-command", f"openssl dgst -sha256 -sign {tmp_path / 'server.pem'}")
    carol = served.add("carol")
    served.start("--no-worker", "--key-uses", 1, "--log", "json")
    try:
        assert carol.listed() == {}
        (tmp_path / "server.pem").rename(tmp_path / "gone.pem")
        assert carol.post(carol.signed(ListQuery()))[0] == 503
        (tmp_path / "gone.pem").rename(tmp_path / "server.pem")
        assert carol.listed() == {}
        assert any(json.loads(line).get("outcome") == "success" for line in served.log().splitlines())
    finally:
        served.kill()


def test_end(tmp_path: pathlib.Path) -> None:
    """A signal ends it well, and a server that starts at once has the session's worker."""
    served = Served(tmp_path)
    carol = served.add("carol")
    for _ in range(2):
        served.start()
        carol.listed()
        assert served.stop() == 0
    assert json.loads(done("serve", "status", "--data", served.data))["rrdp"]["worker"] is None
