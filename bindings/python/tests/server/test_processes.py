"""Queries that are answered in processes of their own."""

from __future__ import annotations

import http.client
import json
import os
import pathlib
import signal
import threading
import time
from typing import Callable, Iterator

import pytest
from served import SECONDS, Sender, Served

from calmizsed.publication import ListQuery, Publish, SuccessReply, Withdraw


@pytest.fixture
def served(tmp_path: pathlib.Path) -> Iterator[Served]:
    """A server with two such processes."""
    found = Served(tmp_path)
    found.start("--no-worker", "--processes", 2)
    yield found
    found.kill()


def answering(served: Served) -> list[int]:
    """The processes that answer."""
    return [pid for pid, words in served.below().items() if "resource_tracker" not in words]


def wait_for(holds: Callable[[], bool]) -> None:
    """Waits until something is so."""
    end = time.monotonic() + SECONDS
    while not holds():
        assert time.monotonic() < end
        time.sleep(0.1)


def got(served: Served, path: str) -> str:
    """What the server has at a path."""
    connection = http.client.HTTPConnection("127.0.0.1", served.port, timeout=SECONDS)
    connection.request("GET", path)
    found = connection.getresponse().read().decode()
    connection.close()
    return found


def is_gone(pid: int) -> bool:
    """Whether a process has ended."""
    try:
        os.kill(pid, 0)
    except ProcessLookupError:
        return True
    return pathlib.Path(f"/proc/{pid}/stat").read_text("ascii", "replace").rpartition(")")[2].split()[0] == "Z"


def test_answers(served: Served) -> None:
    """Publishers at once get their replies from both, and all is counted in one place."""
    senders = [served.add(handle) for handle in ("carol", "dave", "erin")]
    faults: list[BaseException] = []

    def work(sender: Sender) -> None:
        try:
            for number in range(10):
                assert sender.ask(Publish(f"{sender.base}{number}", b"octets")) == SuccessReply()
            listed = sender.listed()
            assert len(listed) == 10
            assert sender.ask(*(Withdraw(uri, one) for uri, one in listed.items())) == SuccessReply()
        except BaseException as error:
            faults.append(error)

    threads = [threading.Thread(target=work, args=(sender,)) for sender in senders]
    for thread in threads:
        thread.start()
    for thread in threads:
        thread.join()
    assert not faults, faults
    assert len(answering(served)) == 2
    metrics = got(served, "/metrics")
    for sender, handle in zip(senders, ("carol", "dave", "erin")):
        assert f'calmizsed_queries_total{{kind="change",outcome="success",publisher="{handle}"}} 11.0' in metrics
        assert sender.post(b"0")[0] == 200
    assert "calmizsed_answering_starts 1.0" in metrics and "one_off_keys_ready" not in metrics
    assert json.loads(got(served, "/status"))["process"]["processes"] == 2


def test_other_answers(served: Served) -> None:
    """What is refused by HTTP is so too: a path of nobody, and a query that the library has no room for."""
    carol = served.add("carol")
    assert carol.listed() == {}
    path, carol.path = carol.path, "/rfc8181/nobody"
    assert carol.post(b"0")[0] == 404
    carol.path = path
    again = carol.signed(ListQuery())
    assert carol.post(again)[0] == 200
    reply = carol.send(again)
    assert not isinstance(reply, SuccessReply)


def test_a_process_that_ends(served: Served) -> None:
    """Where processes are killed, queries are answered by others, and what was acknowledged is there."""
    carol = served.add("carol")
    assert carol.ask(Publish(carol.base + "one", b"one")) == SuccessReply()
    before = answering(served)
    for pid in before:
        os.kill(pid, signal.SIGKILL)
    wait_for(lambda: all(map(is_gone, before)))
    codes = {carol.post(carol.signed(ListQuery()))[0] for _ in range(5)}
    assert 200 in codes and codes <= {200, 503}
    assert list(carol.listed()) == [carol.base + "one"]
    assert not set(before) & set(answering(served))


def test_one_that_ends(served: Served) -> None:
    """Where one of them is killed while it has nothing to do, the others end too, and queries are answered by new ones."""
    carol = served.add("carol")

    def both() -> bool:
        threads = [threading.Thread(target=carol.post, args=(carol.signed(ListQuery()),)) for _ in range(4)]
        for thread in threads:
            thread.start()
        for thread in threads:
            thread.join()
        return len(answering(served)) == 2

    wait_for(both)  # a second one begins when a query comes while the first has one
    before = answering(served)
    os.kill(before[0], signal.SIGKILL)
    wait_for(lambda: is_gone(before[0]))
    codes = {carol.post(carol.signed(ListQuery()))[0] for _ in range(5)}
    assert 200 in codes and codes <= {200, 503}
    wait_for(lambda: all(map(is_gone, before)))
    assert carol.listed() == {}
    assert served.stop() == 0


def test_ends_after_one_has_ended(served: Served) -> None:
    """Where one of them was killed and no query came since, the server ends when it is told to."""
    carol = served.add("carol")
    carol.listed()
    before = answering(served)
    os.kill(before[0], signal.SIGKILL)
    wait_for(lambda: is_gone(before[0]))
    assert served.stop() == 0
    wait_for(lambda: all(map(is_gone, before)))


def test_told_to_end(served: Served) -> None:
    """A service manager tells all processes at once: what comes before they have ended is answered still."""
    carol = served.add("carol")
    carol.listed()
    before = answering(served)
    for pid in before:
        os.kill(pid, signal.SIGTERM)
    assert carol.listed() == {}
    assert served.stop() == 0
    wait_for(lambda: all(map(is_gone, before)))


def test_ends(served: Served) -> None:
    """They end with the server, where it is ended and where it is killed."""
    carol = served.add("carol")
    carol.listed()
    first = answering(served)
    assert first and served.stop() == 0
    assert all(map(is_gone, first))
    served.start("--no-worker", "--processes", 2)
    carol.listed()
    second = answering(served)
    served.kill_alone()
    wait_for(lambda: all(map(is_gone, second)))
