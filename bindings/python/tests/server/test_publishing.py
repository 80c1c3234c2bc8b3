"""The client: what it sends, what it tries again, and what the command says."""

from __future__ import annotations

import datetime
import json
import pathlib
import socket
import time
from typing import Iterator

import pytest
from launcher import run
from small_server import BASE, SmallServer, changes_in
from support import Keys

import calmizsed
from calmizsed import anchor, setup
from calmizsed.files import FileError
from calmizsed.publication import ChangeQuery, ListQuery, Publish, Withdraw
from calmizsed.publishing import Broken, Change, Publisher, Refused, Server, ServerError, changes, found, parts


@pytest.fixture
def server(keys: Keys) -> Iterator[SmallServer]:
    """A small server, for the publisher with the key `2048`."""
    with SmallServer(keys.der("2048"), calmizsed.files.load_private_key(keys.private("other").read_bytes())) as made:
        yield made


@pytest.fixture
def folder(tmp_path: pathlib.Path) -> pathlib.Path:
    """A folder with three objects, and names that aren't published."""
    made = tmp_path / "objects"
    (made / "0").mkdir(parents=True)
    (made / "a.cer").write_bytes(b"1")
    (made / "b.crl").write_bytes(b"2")
    (made / "0" / "c.roa").write_bytes(b"")
    (made / ".hidden").write_bytes(b"4")
    (made / ".git").mkdir()
    (made / ".git" / "d").write_bytes(b"5")
    return made


def publisher_of(server: SmallServer, keys: Keys, **words: int) -> Publisher:
    """The publisher of the server."""
    key = calmizsed.files.load_private_key(keys.private("2048").read_bytes())
    return Publisher(Server(server.address, BASE, [keys.der("other")], 30.0), key, **words)  # type: ignore[arg-type]


def test_delta(server: SmallServer, folder: pathlib.Path, keys: Keys) -> None:
    """One list and one delta, in the order of the URIs; then a list alone."""
    server.objects = {BASE + "b.crl": b"old", BASE + "gone": b"3", BASE + "0/c.roa": b""}
    publisher, told = publisher_of(server, keys), list[Change]()
    publisher.publish(found(folder, BASE), made=told.append)
    assert server.objects == {BASE + "0/c.roa": b"", BASE + "a.cer": b"1", BASE + "b.crl": b"2"}
    assert [type(query) is ListQuery for query in server.queries] == [True, False]
    assert changes_in(server.queries[1]) == [("publish", "a.cer"), ("replace", "b.crl"), ("withdraw", "gone")]
    assert [change.uri for change in told] == [BASE + "a.cer", BASE + "b.crl", BASE + "gone"]
    publisher.publish(found(folder, BASE))
    assert len(server.queries) == 3 and isinstance(server.queries[2], ListQuery)


@pytest.mark.parametrize("faults, lists, deltas", [
    (["", "break before"], 2, 1),
    (["", "break behind"], 2, 1),  # it was made, and the list says so
    (["", "half"], 2, 1),
    (["", "503", "502"], 2, 1),
    (["break before", "break behind", ""], 2, 1),
    (["replay", "", "replay"], 1, 1),
    (["", "replay", "replay"], 1, 1),
])
def test_faults(server: SmallServer, folder: pathlib.Path, keys: Keys, faults: list[str], lists: int, deltas: int) -> None:
    server.faults = list(faults)
    publisher_of(server, keys).publish(found(folder, BASE))
    assert server.objects == {BASE + "0/c.roa": b"", BASE + "a.cer": b"1", BASE + "b.crl": b"2"} and not server.faults
    sent = [isinstance(query, ListQuery) for query in server.queries]
    assert (sent.count(True), sent.count(False)) == (lists, deltas)


def test_changed_meanwhile(server: SmallServer, folder: pathlib.Path, keys: Keys, monkeypatch: pytest.MonkeyPatch) -> None:
    """Where the server has another object than it listed, it is asked once more."""
    changed = server.changed

    def meanwhile(query: object, fault: str) -> object:
        monkeypatch.setattr(server, "changed", changed)
        server.objects[BASE + "a.cer"] = b"of another run"
        return changed(query, fault)  # type: ignore[arg-type]

    monkeypatch.setattr(server, "changed", meanwhile)
    publisher_of(server, keys).publish(found(folder, BASE))
    assert server.objects[BASE + "a.cer"] == b"1"
    assert changes_in(server.queries[-1])[1] == ("replace", "a.cer")


def test_several_runs_in_a_second(server: SmallServer, folder: pathlib.Path, keys: Keys) -> None:
    """A new process knows nothing of the last one's messages: it signs anew in a later second."""
    for _ in range(2):
        publisher_of(server, keys).publish(found(folder, BASE))
    assert len(server.queries) == 3


@pytest.mark.parametrize("faults, error, name", [
    (["", "refuse"], Refused, "ErrorReply"),
    (["replay"] * 2, Refused, "ErrorReply"),
    (["404"], ServerError, "OtherAnswer"),
    (["413"], ServerError, "OtherAnswer"),
    (["redirect"], ServerError, "OtherAnswer"),
    (["other type"], ServerError, "OtherAnswer"),
    (["break before"] * 2, Broken, "NoServer"),
    (["", "break before", "", "break before"], Broken, "NoServer"),
])
def test_no_success(
        server: SmallServer, folder: pathlib.Path, keys: Keys, faults: list[str], error: type[Exception], name: str) -> None:
    server.faults = list(faults)
    with pytest.raises(error) as refused:
        publisher_of(server, keys, tries=2).publish(found(folder, BASE))
    assert isinstance(refused.value, ServerError) and refused.value.name == name and not server.faults
    assert server.objects == {}


def test_no_uri(server: SmallServer, folder: pathlib.Path, keys: Keys, monkeypatch: pytest.MonkeyPatch) -> None:
    """Where the library takes no query with a file's URI, the error says which."""
    to_xml = ChangeQuery.to_xml

    def refusing(query: ChangeQuery) -> str:
        if any(" " in change.uri for change in query.changes):
            raise calmizsed.errors.WrongForm("XmlError", 5, "no message")
        return to_xml(query)

    monkeypatch.setattr(ChangeQuery, "to_xml", refusing)
    (folder / "b c.cer").write_bytes(b"1")
    with pytest.raises(calmizsed.errors.WrongForm) as refused:
        publisher_of(server, keys).publish(found(folder, BASE))
    assert refused.value.cause.startswith(f"{BASE}b c.cer: ") and server.objects == {}


def test_other_servers_key(server: SmallServer, folder: pathlib.Path, keys: Keys) -> None:
    """A reply that another signed is none."""
    publisher = publisher_of(server, keys)
    publisher.server.public_keys = [keys.der("4096")]
    with pytest.raises(calmizsed.errors.CheckFailed):
        publisher.publish(found(folder, BASE))


def test_silent_server(folder: pathlib.Path, keys: Keys) -> None:
    """A server that takes a connection and says nothing is waited for so long, and no longer."""
    with socket.create_server(("127.0.0.1", 0)) as silent:
        key = calmizsed.files.load_private_key(keys.private("2048").read_bytes())
        address = f"http://127.0.0.1:{silent.getsockname()[1]}/"
        begin = time.monotonic()
        with pytest.raises(Broken):
            Publisher(Server(address, BASE, [keys.der("other")], 0.5), key, tries=1).listed()
        assert time.monotonic() - begin < 30


@pytest.mark.parametrize("address", ["file:///etc/passwd", "ftp://localhost/", "localhost", "http://[", "http://localhost:port/"])
def test_no_address(keys: Keys, address: str) -> None:
    key = calmizsed.files.load_private_key(keys.private("2048").read_bytes())
    with pytest.raises(ServerError) as refused:
        Publisher(Server(address, BASE, [keys.der("other")]), key, tries=1).listed()
    assert refused.value.name == "NoServer"


def test_parts() -> None:
    """One query, unless it were too large."""
    every = [Publish(f"{BASE}{number}", bytes(300)) for number in range(5)] + [Withdraw(f"{BASE}w", bytes(32))]
    assert list(parts(iter(every), 1 << 20)) == [tuple(every)]
    few = list(parts(iter(every), 1500))
    assert [len(part) for part in few] == [2, 2, 2] and sum(few, ()) == tuple(every)
    assert [len(part) for part in parts(iter(every), 1)] == [1] * 6
    assert list(parts(iter([]), 10)) == []


def test_changes(folder: pathlib.Path) -> None:
    files = found(folder, BASE)
    assert sorted(files) == [BASE + "0/c.roa", BASE + "a.cer", BASE + "b.crl"]
    assert list(changes({uri: file.digest for uri, file in files.items()}, files)) == []
    assert list(changes({}, {})) == []


def test_what_cannot_be_published(folder: pathlib.Path) -> None:
    with pytest.raises(FileError):
        found(folder / "none", BASE)
    (folder / "link").symlink_to(folder / "0")
    with pytest.raises(FileError):
        found(folder, BASE)
    (folder / "link").unlink()
    (folder / "link").symlink_to(folder / "nothing")
    with pytest.raises(FileError):
        found(folder, BASE)


# ---- the command


@pytest.fixture
def response(server: SmallServer, keys: Keys, tmp_path: pathlib.Path) -> pathlib.Path:
    """The server's setup message."""
    key, now = calmizsed.files.load_private_key(keys.private("other").read_bytes()), calmizsed.now()
    made = setup.RepositoryResponse(anchor.create(key, now, now + datetime.timedelta(days=1)), "carol", server.address, BASE)
    (tmp_path / "response.xml").write_text(made.to_xml(), encoding="ascii")
    return tmp_path / "response.xml"


def test_command(server: SmallServer, folder: pathlib.Path, keys: Keys, response: pathlib.Path) -> None:
    server.objects = {BASE + "gone": b"3"}
    words = "publish", folder, "--response", response, "--key", keys.private("2048")
    lines = [f"publish {BASE}0/c.roa", f"publish {BASE}a.cer", f"publish {BASE}b.crl", f"withdraw {BASE}gone"]
    dry = run(*words, "--dry-run")
    assert (dry.status, dry.out.decode("ascii").splitlines()) == (0, lines)
    assert server.objects == {BASE + "gone": b"3"} and "4 changes would be made; 3 objects" in dry.said
    done = run(*words)
    assert (done.status, done.out.decode("ascii").splitlines()) == (0, lines)
    assert sorted(server.objects) == [BASE + "0/c.roa", BASE + "a.cer", BASE + "b.crl"]
    again = run(*words, "--json", "--quiet")
    assert (again.status, json.loads(again.out), again.said) == (0, {"dry_run": False, "changes": [], "files": 3}, "")


def test_command_without_response(server: SmallServer, folder: pathlib.Path, keys: Keys) -> None:
    words = (
        "publish", folder, "--server", server.address, "--base", BASE.rstrip("/"), "--server-key", keys.public("4096"), "--server-key",
        keys.public("other"), "--public-key", keys.public("2048"), "--sign-command", f"openssl dgst -sha256 -sign {keys.private('2048')}")
    assert run(*words, "-q").status == 0
    assert len(server.objects) == 3


def test_command_refuses(server: SmallServer, folder: pathlib.Path, keys: Keys, response: pathlib.Path, tmp_path: pathlib.Path) -> None:
    key = "--key", keys.private("2048")
    (tmp_path / "empty").mkdir()
    empty = run("publish", tmp_path / "empty", "--response", response, *key)
    assert (empty.status, "EmptyFile" in empty.said) == (2, True)
    assert run("publish", tmp_path / "empty", "--response", response, *key, "--withdraw-all").status == 0
    assert run("publish", folder, "--response", response, "--server", server.address, *key).status == 2
    assert run("publish", folder, "--server", server.address, *key).status == 2
    assert run("publish", folder, "--response", keys.public("2048"), *key).status == 5
    other = run("publish", folder, "--response", response, "--key", keys.private("4096"))
    assert other.status != 0 and server.objects == {}
    server.faults = ["", "refuse"]
    refused = run("publish", folder, "--response", response, *key)
    assert (refused.status, f"ErrorReply: permission_failure: {BASE}0/c.roa: not yours" in refused.said) == (1, True)
