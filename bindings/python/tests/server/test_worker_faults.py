"""The worker is killed at random moments, while changes are made: serial numbers never go back, and no change is lost or half there."""

from __future__ import annotations

import os
import pathlib
import random
import signal
import subprocess
import sys
import threading
import time
from typing import Iterator

import pytest
from clusters import Cluster
from sqlalchemy import select
from sqlalchemy.exc import SQLAlchemyError
from test_tree import files_in
from working import RSYNC_BASE, Party, Repository

from calmizsed.server import tables
from calmizsed.server.worker import Pauses

KILLS = int(os.environ.get("CALMIZSED_KILLS", "5"))
SECONDS = 120
WORK = pathlib.Path(__file__).with_name("work_on.py")


class Killed:
    """A worker in a process of its own, which is killed and started again."""

    def __init__(self, repository: Repository) -> None:
        self._words = [sys.executable, str(WORK), str(repository.folder), repository.address]
        self.process = subprocess.Popen(self._words)

    def kill(self) -> None:
        """Kills it."""
        self.process.kill()
        assert self.process.wait(SECONDS) == -signal.SIGKILL

    def start(self) -> None:
        """Starts it again."""
        self.process = subprocess.Popen(self._words)

    def end(self) -> None:
        """Has it end by itself."""
        self.process.terminate()
        assert self.process.wait(SECONDS) == 0


def has_notification(repository: Repository) -> bool:
    """Whether there is a notification, within a while."""
    end = time.monotonic() + SECONDS
    while not (repository.folder / "rrdp" / "notification.xml").exists():
        if time.monotonic() > end:
            return False
        time.sleep(0.05)
    return True


def committed(repository: Repository) -> int:
    """The serial number of the session."""
    with repository.database.reading() as connection:
        return int(connection.execute(select(tables.SESSION.c.serial)).scalar())


def fetch(party: Party) -> None:
    """Fetches; where the files of the notification that was read were dropped meanwhile, once more."""
    end = time.monotonic() + SECONDS
    while True:
        try:
            party.fetch()
            return
        except FileNotFoundError:
            assert time.monotonic() < end
            time.sleep(0.05)


@pytest.mark.skipif(sys.platform != "linux", reason="signals as Linux has them")
def test_kills(tmp_path: pathlib.Path) -> None:
    random.seed(9)
    repository = Repository(tmp_path)
    repository.create()
    repository.change(2, {f"{RSYNC_BASE}dave/large": random.randbytes(50000)})
    killed, party, last = Killed(repository), Party(tmp_path / "rrdp"), 0
    states = [repository.objects()]
    assert has_notification(repository)
    for _ in range(KILLS):
        end = time.monotonic() + random.uniform(0.0, 2.0)
        while time.monotonic() < end:
            uris = [f"{RSYNC_BASE}carol/{number}" for number in range(6)]
            repository.change(1, {uri: random.choice([None, random.randbytes(3000)]) for uri in random.sample(uris, 3)})
            states.append(repository.objects())
            fetch(party)
            assert party.objects in states  # nothing is half there
        killed.kill()
        assert committed(repository) >= max(last, party.serial)
        last = committed(repository)
        fetch(party)
        killed.start()
    end = time.monotonic() + SECONDS
    while party.objects != repository.objects():
        assert time.monotonic() < end
        time.sleep(0.2)
        fetch(party)
    assert party.serial >= last and party.serial > 1
    while {RSYNC_BASE + path: octets for path, octets in files_in((tmp_path / "tree" / "current").resolve()).items()} != party.objects:
        assert time.monotonic() < end
        time.sleep(0.2)
    killed.end()
    assert len({session for session, _ in party.seen}) == 2  # of snapshots and of deltas: it is one session all along


@pytest.fixture
def small_disk(tmp_path: pathlib.Path) -> Iterator[pathlib.Path]:
    """A folder on a disk of a megabyte."""
    folder = tmp_path / "small"
    folder.mkdir()
    words = ["mount", "-t", "tmpfs", "-o", "size=1m", "tmpfs", str(folder)]
    if os.geteuid() or subprocess.run(words, stderr=subprocess.DEVNULL, check=False).returncode:
        pytest.skip("only root may mount a disk")
    yield folder
    subprocess.run(["umount", "-l", str(folder)], check=True)


def test_full_disk(tmp_path: pathlib.Path, small_disk: pathlib.Path) -> None:
    """Where there is no room for a snapshot all stays as it was, and no part of it takes room; later it is made up for."""
    repository = Repository(small_disk, f"sqlite:///{tmp_path / 'database'}")
    repository.create()
    worker, party = repository.worker(), Party(small_disk / "rrdp")
    repository.change(2, {f"{RSYNC_BASE}dave/small": b"1"})
    worker.turn()
    before = os.statvfs(small_disk).f_bavail
    repository.change(1, {f"{RSYNC_BASE}carol/large": random.randbytes(900000)})
    for _ in range(3):
        with pytest.raises(OSError) as refused:
            worker.turn()
        assert refused.value.errno == 28
    fetch(party)
    assert (party.serial, party.objects) == (1, {f"{RSYNC_BASE}dave/small": b"1"})
    assert before - os.statvfs(small_disk).f_bavail <= 2
    repository.change(1, {f"{RSYNC_BASE}carol/large": random.randbytes(50000)})
    worker.turn()
    fetch(party)
    assert (party.serial, party.objects) == (2, repository.objects())


def test_database_stops(tmp_path: pathlib.Path, postgres: Cluster, monkeypatch: pytest.MonkeyPatch) -> None:
    """While there is no database the files stay as they are; when it is back the worker goes on."""
    monkeypatch.setattr("calmizsed.server.worker.AFTER_FAULT", 0.2)
    repository = Repository(tmp_path, postgres.create("stops"))
    repository.create()
    worker, party, stop = repository.worker(Pauses(rrdp=0.0, tree=0.0, keep=10.0)), Party(tmp_path / "rrdp"), threading.Event()
    thread = threading.Thread(target=worker.run, args=(stop,))
    thread.start()
    try:
        assert has_notification(repository)
        fetch(party)
        postgres.stop()
        end = time.monotonic() + SECONDS
        while not worker.progress.faults:
            assert time.monotonic() < end
            time.sleep(0.05)
        fetch(party)
        postgres.start()
        for _ in range(40):  # of connections that were kept none is left, and each thread finds out by itself
            try:
                repository.change(1, {f"{RSYNC_BASE}carol/a": b"1"})
                break
            except SQLAlchemyError:
                time.sleep(0.2)
        while party.objects != repository.objects():
            assert time.monotonic() < end
            time.sleep(0.05)
            fetch(party)
        assert party.serial == 2 and len(party.objects) == 1
    finally:
        stop.set()
        thread.join(SECONDS)
