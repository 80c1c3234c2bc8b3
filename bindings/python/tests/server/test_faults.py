"""Faults: the server is killed under load, the disk is full, clients are slow or many, messages are none. What was acknowledged is there.

CALMIZSED_KILLS says how often the server is killed, CALMIZSED_CONNECTIONS how many connections are held open at once, and CALMIZSED_BROKEN
how many messages are broken as the fuzzer of the programs breaks them.
"""

from __future__ import annotations

import contextlib
import hashlib
import http.client
import json
import os
import pathlib
import random
import resource
import shutil
import socket
import subprocess
import threading
import time
from dataclasses import dataclass, field
from typing import Iterator, Optional, Union

import pytest
from served import SECONDS, TYPE, Sender, Served, codes, done
from support import broken, cases, is_hexadecimal
from test_answering import URI, Talk
from working import Party

import calmizsed
from calmizsed.publication import ChangeQuery, ErrorReply, ListQuery, Publish, SuccessReply, Withdraw
from calmizsed.server import listening
from calmizsed.server.session import LEASE_SECONDS

KILLS = int(os.environ.get("CALMIZSED_KILLS", "5"))
CONNECTIONS = int(os.environ.get("CALMIZSED_CONNECTIONS", "1500"))
BROKEN = int(os.environ.get("CALMIZSED_BROKEN", "200"))
PAIRS = 3
PART = 20_000  # octets of a query that never comes whole
AHEAD = 200.0  # seconds that a publisher's signing times may be ahead of the clock; a message of 300 seconds ahead isn't valid yet


def digest(octets: bytes) -> bytes:
    """A SHA-256."""
    return hashlib.sha256(octets).digest()


@dataclass
class Model:
    """What a publisher knows: what was acknowledged, and the changes of a query whose reply didn't come."""

    sender: Sender
    random: random.Random
    acknowledged: dict[str, bytes] = field(default_factory=dict)
    doubtful: Optional[dict[str, bytes]] = None
    taken: int = 0
    lost: int = 0

    def query(self) -> tuple[ChangeQuery, dict[str, bytes]]:
        """Changes of some objects in pairs, which are equal wherever a query is made whole, and what is there behind them."""
        after, changes = dict(self.acknowledged), list[Union[Publish, Withdraw]]()
        for number in self.random.sample(range(20), PAIRS):
            octets = self.random.randbytes(self.random.choice((0, 10, 2000)))
            gone = self.random.random() < 0.3
            for half in "ab":
                uri = f"{self.sender.base}{number}/{half}"
                old = after.pop(uri, None)
                if not gone:
                    changes.append(Publish(uri, octets, old))
                    after[uri] = digest(octets)
                elif old is not None:
                    changes.append(Withdraw(uri, old))
        return ChangeQuery(tuple(changes) or (Publish(self.sender.base + "one", b""),)), after

    def step(self) -> None:
        """One query. Where the connection breaks it isn't known whether it was taken."""
        self.settle()
        query, after = self.query()
        if "one" in str(query.changes[0].uri):
            return
        octets = self.sender.signed(query)
        self.doubtful = after
        reply = self.sender.send(octets)
        assert reply == SuccessReply(), reply
        self.acknowledged, self.doubtful = after, None
        self.taken += 1

    def settle(self) -> None:
        """Asks what is there: what was acknowledged, or that with all changes of the query in doubt. Nothing is half there."""
        if self.doubtful is None:
            return
        listed = self.sender.listed()
        assert listed in (self.acknowledged, self.doubtful), "a change that was acknowledged is lost, or one is half there"
        self.lost += listed == self.acknowledged
        self.acknowledged, self.doubtful = listed, None

    def work(self, stop: threading.Event, faults: list[BaseException]) -> None:
        """Sends queries until the server goes away, or until it is told to stop. Each is signed a second later than the one before."""
        try:
            while not stop.is_set():
                if self.sender.last > time.time() + AHEAD:
                    stop.wait(0.05)
                else:
                    self.step()
        except (OSError, http.client.HTTPException):
            pass
        except BaseException as error:
            faults.append(error)


def fetch(party: Party) -> None:
    """Has a relying party fetch, if there is a notification yet."""
    if (party.folder / "notification.xml").exists():
        party.fetch()


def test_killed_under_load(tmp_path: pathlib.Path) -> None:
    """Each acknowledged change is there, none is half there, and RRDP's serial numbers never go back."""
    served = Served(tmp_path, "--pause", "0.05", "--tree-pause", "0.05")
    chance = random.Random(20260)
    handles = [f"publisher{number}" for number in range(2 * (1 + KILLS // 10))]
    models = [Model(served.add(handle), random.Random(handle)) for handle in handles]
    party = Party(served.data / "rrdp")
    faults: list[BaseException] = []
    try:
        for turn in range(KILLS):
            served.start("--threads", 4)
            stop = threading.Event()
            first = 2 * turn % len(models)  # two at once, in turn: none runs far ahead of the clock
            threads = [threading.Thread(target=model.work, args=(stop, faults)) for model in models[first:first + 2]]
            for thread in threads:
                thread.start()
            before, end = sum(model.taken for model in models), time.monotonic() + SECONDS
            while sum(model.taken for model in models) == before and time.monotonic() < end and not faults:
                time.sleep(0.05)
            time.sleep(2.5 * chance.random())
            served.kill()
            stop.set()
            for thread in threads:
                thread.join()
            assert not faults, faults
            fetch(party)
        served.start()
        for model in models:
            model.settle()
            assert model.sender.listed() == model.acknowledged
        wanted = {uri: one for model in models for uri, one in model.acknowledged.items()}
        end = time.monotonic() + 2 * SECONDS + LEASE_SECONDS  # the worker that was killed has the session for a while yet
        while {uri: digest(octets) for uri, octets in party.objects.items()} != wanted:
            assert time.monotonic() < end, "the files of RRDP don't come to what is published"
            time.sleep(0.2)
            fetch(party)
    finally:
        served.kill()
    assert sum(model.taken for model in models) >= KILLS


@pytest.mark.skipif(os.geteuid() != 0 or shutil.which("mount") is None, reason="only root mounts a small disk")
def test_a_full_disk(tmp_path: pathlib.Path) -> None:
    """What has no room is refused by HTTP, what was acknowledged stays, and with room all goes on."""
    disk = tmp_path / "disk"
    disk.mkdir()
    mounted = subprocess.run(["mount", "-t", "tmpfs", "-o", "size=12m", "tmpfs", str(disk)], stderr=subprocess.PIPE, check=False)
    if mounted.returncode:
        pytest.skip("no small disk can be mounted")
    served: Optional[Served] = None
    try:
        served = Served(tmp_path, "--database", f"sqlite:///{disk}/database")
        carol = served.add("carol")
        served.start("--no-worker")
        made: dict[str, bytes] = {}
        refused = 0
        for number in range(60):
            uri, octets = f"{carol.base}{number}", bytes([number]) * 300_000
            code, body = carol.post(carol.signed(ChangeQuery((Publish(uri, octets),))))
            if code == 200:
                assert carol.read(body) == SuccessReply()
                made[uri] = digest(octets)
            else:
                assert code == 503
                refused += 1
        assert made and refused
        subprocess.run(["mount", "-o", "remount,size=60m", str(disk)], check=True)
        assert carol.listed() == made
        assert carol.ask(Publish(carol.base + "more", b"more")) == SuccessReply()
    finally:
        if served is not None:
            served.kill()
        subprocess.run(["umount", str(disk)], check=True)


# ---- clients


@pytest.fixture(scope="module")
def served(tmp_path_factory: pytest.TempPathFactory) -> Iterator[Served]:
    """A server that runs."""
    found = Served(tmp_path_factory.mktemp("served"))
    found.start("--no-worker", "--most", 4 << 20)
    yield found
    found.kill()


@pytest.fixture(scope="module")
def carol(served: Served) -> Sender:
    """A publisher."""
    return served.add("carol")


def head(sender: Sender, *lines: str) -> bytes:
    """The head of a query."""
    return "\r\n".join([f"POST {sender.path} HTTP/1.1", "Host: localhost", f"Content-Type: {TYPE}", *lines, "", ""]).encode()


def test_many_connections(served: Served, carol: Sender) -> None:
    """While many connections are open, and send nothing or a part of a query, a publisher gets its reply."""
    wanted = CONNECTIONS + 200
    soft, hard = resource.getrlimit(resource.RLIMIT_NOFILE)
    resource.setrlimit(resource.RLIMIT_NOFILE, (min(max(soft, wanted), hard), hard))
    number = min(CONNECTIONS, min(max(soft, wanted), hard) - 200)
    with contextlib.ExitStack() as stack:
        for place in range(number):
            one = stack.enter_context(socket.create_connection(("127.0.0.1", served.port), SECONDS))
            if place % 2:
                one.sendall(head(carol, "Content-Length: 1000000") + bytes(PART))
        begin = time.monotonic()
        assert carol.listed() == {}
        assert time.monotonic() - begin < SECONDS
        assert served.memory() < 500 << 20
    assert carol.listed() == {}


def test_a_body_that_never_ends(served: Served, carol: Sender) -> None:
    """A body in chunks ends with an answer once it is too long, and no more of it is kept than the limit."""
    before = served.memory()
    chunk = b"10000\r\n" + bytes(0x10000) + b"\r\n"
    with socket.create_connection(("127.0.0.1", served.port), SECONDS) as one:
        one.sendall(head(carol, "Transfer-Encoding: chunked"))
        sent, answer = 0, b""
        try:
            for _ in range(2000):
                one.sendall(chunk)
                sent += len(chunk)
        except OSError:
            pass  # it was closed
        with contextlib.suppress(OSError):
            answer = one.recv(65536)
    assert sent < 120 << 20 and (not answer or b" 413 " in answer)
    assert served.memory() - before < 64 << 20
    assert carol.listed() == {}


def test_a_slow_client(served: Served, carol: Sender) -> None:
    """One that sends its query slowly gets its reply, and holds up nobody meanwhile."""
    query = carol.signed(ListQuery())
    with socket.create_connection(("127.0.0.1", served.port), SECONDS) as one:
        octets = head(carol, f"Content-Length: {len(query)}", "Connection: close") + query
        for place in range(20):
            one.sendall(octets[len(octets) * place // 20:len(octets) * (place + 1) // 20])
            time.sleep(0.05)
            if place == 10:
                assert carol.post(b"")[0] == 200
        found = b""
        while part := one.recv(65536):
            found += part
    assert found.startswith(b"HTTP/1.1 200 ")


def test_too_slow_a_client(monkeypatch: pytest.MonkeyPatch) -> None:
    """One whose query takes too long to come is cut off, however many octets it goes on to send."""
    monkeypatch.setattr(listening, "REQUEST_SECONDS", 1.0)
    server = listening.listen(lambda *_: [], "127.0.0.1", 0, 1, 20, 1 << 20)
    stop = threading.Event()
    thread = threading.Thread(target=listening.serve, args=(server, stop))
    thread.start()
    try:
        with socket.create_connection(("127.0.0.1", int(server.effective_port)), SECONDS) as one:
            one.sendall(b"POST / HTTP/1.1\r\nHost: a\r\nContent-Length: 1000\r\n\r\n")
            begin, end = time.monotonic(), time.monotonic() + SECONDS
            with pytest.raises(OSError):
                while time.monotonic() < end:
                    one.sendall(b"x")
                    time.sleep(0.1)
            assert time.monotonic() - begin < SECONDS
    finally:
        stop.set()
        thread.join(SECONDS)
    assert not thread.is_alive()


def test_malformed_messages(served: Served, carol: Sender) -> None:
    """Always an answer: what is no message gets a signed error, and changes nothing."""
    query = carol.signed(ListQuery())
    chance = random.Random(4)
    bodies = [b"", b"\x30", b"\x30\x80", b"0" * 1000, b"\x30\x84\xff\xff\xff\xff", bytes(1 << 20), b"<msg/>", query[:-1], query + b"\0"]
    for _ in range(30):
        one = bytearray(query)
        one[chance.randrange(len(one))] ^= 1 << chance.randrange(8)
        bodies.append(bytes(one))
    for body in bodies:
        code, octets = carol.post(body)
        assert code == 200, (code, body[:20])
        reply = carol.read(octets)
        assert not isinstance(reply, SuccessReply)
    for octets in (b"GET\r\n\r\n", b"\x16\x03\x01\x02\x00\x01\x00", b"POST / HTTP/9.9\r\n\r\n", b"A" * 300_000):
        with socket.create_connection(("127.0.0.1", served.port), SECONDS) as one_connection:
            with contextlib.suppress(OSError):
                one_connection.sendall(octets)
                one_connection.shutdown(socket.SHUT_WR)
                while one_connection.recv(65536):
                    pass
    assert carol.listed() == {}


def test_broken_messages(served: Served, carol: Sender) -> None:
    """A query that the fuzzer broke is answered, and done only where it still is the query that was signed."""
    given = [case.given.decode("latin-1").removesuffix("\n") for case in cases("test_external", "receive")]
    others = [bytes.fromhex(digits) for digits in given if digits and is_hexadecimal(digits)]
    chance, before = random.Random(20261), served.memory()
    done_as_signed = 0
    for number in range(BROKEN):
        query = carol.signed(ChangeQuery((Publish(f"{carol.base}broken/{number}", b"octets"),)), int(time.time()))
        octets = query
        for _ in range(chance.choice([1, 1, 1, 2, 3, 8])):
            octets = broken(chance, octets, chance.choice(others))
        code, body = carol.post(octets)
        assert code == 200, (number, code)
        if carol.read(body) == SuccessReply():
            assert calmizsed.content(octets) == calmizsed.content(query), number
            done_as_signed += 1
    listed = carol.listed()
    assert len(listed) == done_as_signed < BROKEN / 4
    if listed:
        assert carol.ask(*(Withdraw(uri, one) for uri, one in listed.items())) == SuccessReply()
    assert served.memory() - before < 64 << 20


def test_memory_is_bounded(served: Served, carol: Sender) -> None:
    """Many large bodies that are no messages, at once, take no more memory than the few that are read at once."""
    before = served.memory()
    body = b"\x30\x83\x3f\xff\xf0" + bytes((4 << 20) - 100)
    threads = [threading.Thread(target=lambda: [carol.post(body) for _ in range(3)]) for _ in range(6)]
    for thread in threads:
        thread.start()
    for thread in threads:
        thread.join()
    assert served.memory() - before < 300 << 20
    assert carol.listed() == {}


def test_a_crash_between_commit_and_reply(tmp_path: pathlib.Path) -> None:
    """A query that was committed and got no reply comes again as a replay, and the list shows the truth."""
    talk = Talk(f"sqlite:///{tmp_path / 'database'}")
    query = talk.signed(ChangeQuery((Publish(URI, b"one"),)))
    assert talk.answering.answer("carol", query) is not None  # the reply is dropped
    talk.database.close()
    again = Talk.__new__(Talk)
    again.__dict__.update(talk.__dict__)
    reply, answer = again.send(query)
    assert isinstance(reply, ErrorReply) and codes(reply) == ["other_error"]
    listed = again.ask(ListQuery())
    assert {one.uri: one.hash for one in listed.objects} == {URI: digest(b"one")}  # type: ignore[attr-defined]
    talk.database.close()


def test_status_says_it(served: Served) -> None:
    """The status is there while the server runs, by HTTP and by the command."""
    with contextlib.closing(http.client.HTTPConnection("127.0.0.1", served.port, timeout=SECONDS)) as connection:
        connection.request("GET", "/status")
        by_http = json.loads(connection.getresponse().read())
    by_command = json.loads(done("serve", "status", "--data", served.data))
    assert by_http["objects"] == by_command["objects"] and by_http["process"]["worker"] is None
