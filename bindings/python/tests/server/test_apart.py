"""The worker in a process of its own: it works, tells what it does, and ends with the server, however that ends."""

from __future__ import annotations

import errno
import os
import pathlib
import signal
import subprocess
import sys
import time
from typing import Any, Callable

import pytest
from sqlalchemy import select
from working import RSYNC_BASE, Party, Repository

from calmizsed.server import session, tables
from calmizsed.server.apart import WorkerApart
from calmizsed.server.worker import Pauses

SECONDS = 120
A = f"{RSYNC_BASE}carol/a.cer"
PAUSES = Pauses(rrdp=0.1, tree=0.1, keep=10.0)
SERVER = """
import pathlib, sys, time
sys.path[0:0] = sys.argv[1:3]
from working import Repository
from calmizsed.server.apart import WorkerApart
from calmizsed.server.worker import Pauses
repository = Repository(pathlib.Path(sys.argv[3]))
WorkerApart(repository.address, repository.places, Pauses(rrdp=0.1, tree=0.1, keep=10.0)).start()
time.sleep(600)
"""


def wait_for(condition: Callable[[], bool]) -> None:
    """Waits until something is so."""
    end = time.monotonic() + SECONDS
    while not condition():
        assert time.monotonic() < end
        time.sleep(0.05)


def owner_of(repository: Repository) -> str:
    """The worker that has the session, or nothing."""
    with repository.database.reading() as connection:
        return connection.execute(select(tables.SESSION.c.owner)).scalar() or ""


@pytest.fixture
def repository(tmp_path: pathlib.Path) -> Repository:
    """A repository with two publishers."""
    made = Repository(tmp_path)
    made.create()
    return made


def test_works_and_ends(repository: Repository) -> None:
    repository.change(1, {A: b"1"})
    worker, party = WorkerApart(repository.address, repository.places, PAUSES), Party(repository.folder / "rrdp")
    worker.start()
    try:
        wait_for(lambda: worker.progress.tree_serial == 1)
        repository.change(1, {A: b"2"})
        wait_for(lambda: worker.progress.serial == 2)
        party.fetch()
        assert party.objects == {A: b"2"} and owner_of(repository)
    finally:
        worker.stop()
    assert (worker.starts, owner_of(repository)) == (1, "")


def test_starts_again(repository: Repository, monkeypatch: pytest.MonkeyPatch) -> None:
    """Where the process is killed another one begins, and need not wait for the lease of the first."""
    monkeypatch.setattr("calmizsed.server.apart.SECONDS_BETWEEN", 0.1)
    worker = WorkerApart(repository.address, repository.places, PAUSES)
    worker.start()
    try:
        wait_for(lambda: worker.progress.serial == 1)
        os.kill(int(owner_of(repository).split(" ")[1]), signal.SIGKILL)
        repository.change(1, {A: b"1"})
        wait_for(lambda: worker.progress.serial == 2)
        assert worker.starts == 2
    finally:
        worker.stop()


def test_no_room_for_a_process(repository: Repository, monkeypatch: pytest.MonkeyPatch) -> None:
    """Where no process can be started, one is later."""
    monkeypatch.setattr("calmizsed.server.apart.SECONDS_BETWEEN", 0.1)
    popen, refused = subprocess.Popen, list[int]()

    def begin(*words: Any, **more: Any) -> Any:
        if len(refused) < 2:
            refused.append(1)
            raise OSError(errno.EAGAIN, "no room")
        return popen(*words, **more)

    monkeypatch.setattr("calmizsed.server.apart.subprocess.Popen", begin)
    worker = WorkerApart(repository.address, repository.places, PAUSES)
    worker.start()
    try:
        wait_for(lambda: worker.progress.serial == 1)
        assert worker.starts == 3
    finally:
        worker.stop()


def test_ends_with_the_server(repository: Repository) -> None:
    """A server that is killed leaves no worker behind."""
    here = pathlib.Path(__file__).resolve().parent
    words = [sys.executable, "-c", SERVER, str(here), str(here.parents[1] / "src"), str(repository.folder)]
    server = subprocess.Popen(words)
    wait_for(lambda: (repository.folder / "rrdp" / "notification.xml").exists() and bool(owner_of(repository)))
    number = int(owner_of(repository).split(" ")[1])
    assert number != server.pid
    server.kill()
    server.wait(SECONDS)
    wait_for(lambda: owner_of(repository) == "")


def test_who_is_gone() -> None:
    """A worker of this machine whose process has ended is gone; of another machine nothing is known."""
    machine, number, _ = session.new_owner().split(" ")
    ended = subprocess.Popen([sys.executable, "-c", ""])
    ended.wait(SECONDS)
    assert number == str(os.getpid())
    assert session.is_gone(f"{machine} {ended.pid} word")
    assert not session.is_gone(f"{machine} {os.getpid()} word")
    assert not session.is_gone(f"other{machine} {ended.pid} word")
    assert not any(session.is_gone(owner) for owner in ("", "word", f" {ended.pid} word", f"{machine} word word"))
