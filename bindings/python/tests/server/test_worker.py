"""The worker: what a relying party and rsync see of the database, round by round."""

from __future__ import annotations

import logging
import os
import pathlib
import random
import secrets
import shutil
import threading
import time
from typing import Any, Iterable

import pytest
from sqlalchemy import func, select, update
from sqlalchemy.engine import Connection
from test_rrdp import is_valid, needs_xmllint
from test_tree import files_in
from working import RSYNC_BASE, Party, Repository

from calmizsed.server import session, tables, tree
from calmizsed.server.rrdp import Files, State
from calmizsed.server.session import LeaseLost, Seen
from calmizsed.server.worker import Pauses

A, B, C = (f"{RSYNC_BASE}carol/{name}" for name in ("a.cer", "b.cer", "0/c.roa"))
D = f"{RSYNC_BASE}dave/d.mft"


@pytest.fixture(params=["sqlite", "postgresql"])
def repository(tmp_path: pathlib.Path, request: pytest.FixtureRequest) -> Repository:
    """A repository with two publishers."""
    address = None
    if request.param == "postgresql":
        address = request.getfixturevalue("postgres").create("w" + secrets.token_hex(8))
    made = Repository(tmp_path, address)
    made.create()
    return made


def tree_of(repository: Repository) -> dict[str, bytes]:
    """What lies in the current tree, by the URIs."""
    files = files_in((repository.folder / "tree" / "current").resolve())
    return {RSYNC_BASE + path: octets for path, octets in files.items()}


def waiting(repository: Repository) -> int:
    """How many changes no delta has."""
    with repository.database.reading() as connection:
        count = select(func.count()).select_from(tables.CHANGES).where(tables.CHANGES.c.serial.is_(None))
        return int(connection.execute(count).scalar())


def test_rounds(repository: Repository) -> None:
    worker, party = repository.worker(), Party(repository.folder / "rrdp")
    assert worker.turn()
    party.fetch()
    assert (party.serial, party.objects, tree_of(repository)) == (1, {}, {})
    repository.change(1, {A: b"1" * 4000, B: b"2", C: b""})
    repository.change(2, {D: b"4" * 20000})
    worker.turn()
    party.fetch()
    assert (party.serial, party.objects) == (2, repository.objects()) and party.objects == tree_of(repository)
    repository.change(1, {A: None, B: b"3"})
    repository.change(1, {A: b"5" * 4000})
    repository.change(1, {B: None, C: b"6"})
    worker.turn()
    party.fetch()
    assert (party.serial, party.objects) == (3, {A: b"5" * 4000, C: b"6", D: b"4" * 20000}) and party.objects == tree_of(repository)
    worker.turn()
    party.fetch()
    assert (party.serial, party.snapshots, waiting(repository)) == (3, 1, 0)


def test_nothing_is_no_serial(repository: Repository) -> None:
    worker, party = repository.worker(), Party(repository.folder / "rrdp")
    repository.change(1, {A: b"1"})
    worker.turn()
    repository.change(1, {B: b"2"})
    repository.change(1, {B: None})
    worker.turn()
    party.fetch()
    assert (party.serial, waiting(repository)) == (1, 0)
    assert sorted(path.name for path in (repository.folder / "rrdp").rglob("*.xml")) == ["notification.xml", "snapshot.xml"]


@needs_xmllint
def test_random_changes(repository: Repository) -> None:
    """Whatever happens at a few URIs: deltas and snapshots agree, files are valid, and old deltas go."""
    random.seed(8182)
    worker, party = repository.worker(), Party(repository.folder / "rrdp")
    worker.turn()
    party.fetch()
    uris = [f"{RSYNC_BASE}carol/{number % 3}/{number}" for number in range(9)]
    for _ in range(25):
        for _ in range(random.randrange(4)):
            octets = [None, random.randbytes(random.randrange(300))]
            repository.change(1, {uri: random.choice(octets) for uri in random.sample(uris, random.randrange(1, 4))})
        worker.turn()
        party.fetch()
        assert party.objects == repository.objects() == tree_of(repository)
    told = party.notification()
    names = [path for path in (repository.folder / "rrdp").rglob("*.xml") if path.name != "notification.xml"]
    assert len(names) <= 1 + len(told.deltas) + 2  # those of the last round, which are dropped by the next
    assert all(map(is_valid, [repository.folder / "rrdp" / "notification.xml", *names]))
    assert sum(path.stat().st_size for path in names if path.name == "delta.xml") < 20000


def test_dropped_files_stay(repository: Repository) -> None:
    worker = repository.worker(Pauses(rrdp=0.0, tree=0.0, keep=3600.0))
    for number in range(4):
        repository.change(1, {A: bytes([number])})
        worker.turn()
    assert len(list((repository.folder / "rrdp").rglob("snapshot.xml"))) == 4
    assert len(list((repository.folder / "tree").glob("version-*"))) == 4


def full(*_: object) -> None:
    """A disk without room."""
    raise OSError(28, "No space left on device")


def test_new_start(repository: Repository, monkeypatch: pytest.MonkeyPatch) -> None:
    """A new worker goes on with the session, also where the last one was stopped before it wrote the notification."""
    party = Party(repository.folder / "rrdp")
    first = repository.worker()
    repository.change(1, {A: b"1" * 1000})
    first.turn()
    party.fetch()
    repository.change(1, {B: b"2"})
    monkeypatch.setattr(first._files, "write_notification", full)
    with pytest.raises(OSError):
        first.turn()
    first.end()
    party.fetch()
    assert party.serial == 1
    assert repository.worker().turn()
    party.fetch()
    assert (party.serial, party.snapshots, party.objects) == (2, 1, {A: b"1" * 1000, B: b"2"})


def test_lost_files_begin_a_session(repository: Repository) -> None:
    party = Party(repository.folder / "rrdp")
    first = repository.worker()
    repository.change(1, {A: b"1"})
    first.turn()
    party.fetch()
    first.end()
    shutil.rmtree(repository.folder / "rrdp")
    repository.worker().turn()
    before = party.session
    party.fetch()
    assert party.session != before and (party.serial, party.objects) == (1, {A: b"1"})


def test_one_worker_at_a_time(repository: Repository) -> None:
    first, second = repository.worker(), repository.worker()
    assert first.turn() and not second.turn()
    first.end()
    assert second.turn() and not first.turn()
    with repository.database.writing() as connection:
        connection.execute(update(tables.SESSION).values(until=time.time() - 1))
    second._renew_at = 0.0
    assert first.turn() and not second.turn()


def test_a_slow_worker_changes_nothing(repository: Repository, monkeypatch: pytest.MonkeyPatch) -> None:
    """A worker whose time ran out while it wrote files doesn't commit them, and leaves none."""
    first, second, party = repository.worker(), repository.worker(), Party(repository.folder / "rrdp")
    first.turn()
    repository.change(1, {A: b"1"})
    write = first._files.write_snapshot

    def slow(*words: object) -> object:
        written = write(*words)  # type: ignore[arg-type]
        first.end()
        assert second.turn()
        return written

    monkeypatch.setattr(first._files, "write_snapshot", slow)
    with pytest.raises(LeaseLost):
        first.turn()
    party.fetch()
    assert (party.serial, party.objects) == (2, {A: b"1"})
    assert len(list((repository.folder / "rrdp").rglob("2/*/snapshot.xml"))) == 1


def test_full_disk(repository: Repository, monkeypatch: pytest.MonkeyPatch) -> None:
    """Where a file can't be synced there is no new serial number and no half file; later all is made up for."""
    worker, party = repository.worker(), Party(repository.folder / "rrdp")
    worker.turn()
    repository.change(1, {A: b"1"})
    with monkeypatch.context() as broken:
        broken.setattr(os, "fsync", full)
        with pytest.raises(OSError):
            worker.turn()
    party.fetch()
    assert (party.serial, waiting(repository)) == (1, 1)
    assert len(list((repository.folder / "rrdp").rglob("*.xml"))) == 2
    worker.turn()
    party.fetch()
    assert (party.serial, party.objects) == (2, {A: b"1"})


def test_left_out_is_told_once(repository: Repository, caplog: pytest.LogCaptureFixture) -> None:
    worker, party = repository.worker(), Party(repository.folder / "rrdp")
    wrong = f"{RSYNC_BASE}carol/a.cer/below"
    repository.change(1, {A: b"1", wrong: b"secret content"})
    with caplog.at_level(logging.INFO):
        worker.turn()
        repository.change(1, {B: b"2"})
        worker.turn()
    party.fetch()
    assert party.objects == {A: b"1", wrong: b"secret content", B: b"2"}
    assert (tree_of(repository), worker.progress.left_out) == ({A: b"1", B: b"2"}, 1)
    assert [wrong in record.getMessage() for record in caplog.records] == [True]
    assert "secret" not in caplog.text


def test_run_and_stop(repository: Repository) -> None:
    """The loop works, tells of faults and goes on, and lets another begin when it ends."""
    worker, stop = repository.worker(Pauses(rrdp=0.05, tree=0.05, keep=10.0)), threading.Event()
    thread = threading.Thread(target=worker.run, args=(stop,))
    thread.start()
    try:
        for number in range(3):
            repository.change(1, {A: bytes([number])})
            end = time.monotonic() + 30
            while waiting(repository) and time.monotonic() < end:
                time.sleep(0.02)
            assert waiting(repository) == 0
    finally:
        stop.set()
        thread.join(30)
    assert not thread.is_alive() and worker.progress.faults == 0
    assert repository.worker().turn()


def test_old_changes_are_forgotten(repository: Repository) -> None:
    worker = repository.worker()
    for number in range(6):
        repository.change(1, {A: bytes([number])})
        worker.turn()
    with repository.database.reading() as connection:
        state = session.state_of(connection)
        serials = list(connection.execute(select(tables.CHANGES.c.serial)).scalars())
    assert state is not None and min(serials) >= 5


def test_numbers_in_runs() -> None:
    """A change whose transaction was committed later, with a smaller number, isn't marked."""
    seen = Seen()
    seen._numbers.extend([7, 1, 2, 9, 3, 10])
    assert list(seen.runs()) == [(1, 3), (7, 7), (9, 10)]
    assert list(Seen().runs()) == []


def test_late_commit(repository: Repository) -> None:
    """A change with a smaller number that comes to be seen later isn't lost."""
    worker, party = repository.worker(), Party(repository.folder / "rrdp")
    worker.turn()
    repository.change(1, {A: b"1", B: b"2" * 2000})
    with repository.database.writing() as connection:
        connection.execute(update(tables.CHANGES).where(tables.CHANGES.c.uri == A).values(id=5))
    worker.turn()
    repository.change(1, {C: b"3"})
    with repository.database.writing() as connection:
        connection.execute(update(tables.CHANGES).where(tables.CHANGES.c.uri == C).values(id=1))
    worker.turn()
    party.fetch()
    assert party.objects == repository.objects() and (party.serial, waiting(repository)) == (3, 0)


def test_no_query_waits_for_a_notification(repository: Repository, monkeypatch: pytest.MonkeyPatch) -> None:
    """While the notification is written, which waits for the disk, changes are made."""
    worker, write = repository.worker(), Files.write_notification

    def slow(files: Files, base: str, state: State) -> None:
        thread = threading.Thread(target=repository.change, args=(1, {A: bytes([state.snapshot.serial])}))
        thread.start()
        thread.join(20.0)
        assert not thread.is_alive()
        write(files, base, state)

    monkeypatch.setattr(Files, "write_notification", slow)
    for _ in range(3):
        worker.turn()
    party = Party(repository.folder / "rrdp")
    party.fetch()
    assert party.serial == 3 and repository.objects() == {A: b"\3"}


def test_all_is_forgotten(repository: Repository) -> None:
    """However many changes no delta has that is offered: they go at once, some in each transaction."""
    worker = repository.worker()
    repository.change(1, {f"{RSYNC_BASE}carol/{number}": b"1" for number in range(2500)})
    worker.turn()
    repository.change(1, {A: b"1"})
    worker.turn()
    with repository.database.reading() as connection:
        assert connection.execute(select(func.count()).select_from(tables.CHANGES)).scalar() == 1


def test_the_store_is_looked_through_once(repository: Repository, monkeypatch: pytest.MonkeyPatch) -> None:
    """The lease is kept meanwhile, another worker can take it, and a fault doesn't begin it anew."""
    repository.change(1, {f"{RSYNC_BASE}carol/{number}": bytes([number]) for number in range(5)})
    first = repository.worker()
    assert first.turn()
    first.end()
    monkeypatch.setattr(session, "LEASE_SECONDS", 0.0)
    looked: list[pathlib.Path] = []
    digest_of, take = tree._digest_of, session.take_lease

    def noted(path: pathlib.Path) -> bytes:
        looked.append(path)
        return digest_of(path)

    monkeypatch.setattr(tree, "_digest_of", noted)
    taken: list[str] = []

    def counted(connection: Connection, owner: str) -> None:
        taken.append(owner)
        take(connection, owner)

    monkeypatch.setattr(session, "take_lease", counted)
    worker = repository.worker()
    assert worker.turn()
    assert len(looked) == 5 and len(taken) > 5 and set(taken) == {worker.owner}
    worker._begun = False
    assert worker.turn() and len(looked) == 5
    other = repository.worker()
    look = other._tree.store.look_through

    def lose(paths: Iterable[pathlib.Path]) -> None:
        monkeypatch.setattr(session, "LEASE_SECONDS", 1000.0)
        with repository.database.writing() as connection:
            take(connection, "another")
        look(paths)

    monkeypatch.setattr(other._tree.store, "look_through", lose)
    with pytest.raises(LeaseLost):
        other.turn()


def test_a_version_without_the_lease(repository: Repository, monkeypatch: pytest.MonkeyPatch) -> None:
    """A worker that lost the session while it built a version of the tree doesn't switch to it."""
    worker = repository.worker()
    worker.turn()
    current = (repository.folder / "tree" / "current").resolve()
    repository.change(1, {A: b"1"})
    build = worker._tree.build

    def slow(*given: Any) -> pathlib.Path:
        version = build(*given)
        with repository.database.writing() as connection:
            connection.execute(update(tables.SESSION).values(owner="another", until=time.time() + 1000.0))
        return version

    monkeypatch.setattr(worker._tree, "build", slow)
    with pytest.raises(LeaseLost):
        worker.turn()
    assert (repository.folder / "tree" / "current").resolve() == current
