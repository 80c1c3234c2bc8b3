"""The worker: it writes the files of RRDP and the tree for rsync from the database, now and then, and no query waits while it does.

A state is read in one transaction, which keeps nobody from writing. The files are written, and synced, under names that nobody knows yet;
then one short transaction makes them those of the session; then the notification takes the place of the one before, while no other worker
writes one. So a serial number never has two contents, and never goes back, wherever the worker is stopped.
"""

from __future__ import annotations

import contextlib
import itertools
import logging
import pathlib
import threading
import time
import uuid
from dataclasses import dataclass
from typing import Callable, Iterable, Iterator, Optional, TypeVar

from sqlalchemy.engine import Connection
from sqlalchemy.exc import SQLAlchemyError

from calmizsed.errors import CalmizsedError
from calmizsed.server import held, session
from calmizsed.server.database import Database
from calmizsed.server.kept import Kept
from calmizsed.server.places import NoPlace
from calmizsed.server.rrdp import Files, State, Written, offered
from calmizsed.server.tree import Tree

AFTER_FAULT = 5.0
CLEAN_SECONDS = 30.0
LEAST_ROOM, SNAPSHOTS_IN_ROOM = 1 << 30, 8  # for dropped files: else a snapshot a second would fill a disk
MOST_VERSIONS = 30
MOST_TOLD = 1000
LOG = logging.getLogger("calmizsed.server.worker")
T = TypeVar("T")


@dataclass(frozen=True)
class Places:
    """Where the files go, and how they are called from outside."""

    rrdp: pathlib.Path
    rrdp_base: str
    tree: pathlib.Path
    rsync_base: str


@dataclass(frozen=True)
class Pauses:
    """How many seconds lie at least between two serial numbers, and between two versions of the tree; how long what was dropped stays."""

    rrdp: float = 1.0
    tree: float = 10.0
    keep: float = 3600.0


@dataclass
class Progress:
    """What the worker has done, for those who ask how it is."""

    serial: int = 0
    tree_serial: Optional[int] = None
    rounds: int = 0
    faults: int = 0
    left_out: int = 0
    seconds: float = 0.0


class Stopped(CalmizsedError):
    """The worker was told to stop while it wrote files: `Stopped`."""

    def __init__(self) -> None:
        super().__init__("Stopped", 1, "the worker was told to stop")


class Worker:
    """The worker of a server. Of several, over one database, one works at a time."""

    def __init__(self, database: Database, places: Places, pauses: Pauses = Pauses()) -> None:
        self.database = database
        self.places = places
        self.pauses = pauses
        self.owner = session.new_owner()
        self.progress = Progress()
        self._files = Files(places.rrdp)
        self._tree = Tree(places.tree, places.rsync_base, self._leave_out)
        self._kept_files, self._kept_versions = Kept(pauses.keep), Kept(pauses.keep)
        self._stop = threading.Event()
        self._begun = False
        self._looked_through = False
        self._told: set[str] = set()
        self._renew_at = 0.0
        self._tree_at = self._clean_at = 0.0

    # ---- the loop

    def run(self, stop: threading.Event, report: Callable[[Progress], None] = lambda progress: None) -> None:
        """Works until it is told to stop. After each turn it reports what it has done."""
        self._stop = stop
        while not stop.is_set():
            begin = time.monotonic()
            try:
                self.turn()
                pause = self.pauses.rrdp
            except Stopped:
                break
            except (CalmizsedError, SQLAlchemyError, OSError) as error:
                self._begun = False
                self.progress.faults += 1
                pause = max(AFTER_FAULT, self.pauses.rrdp)
                LOG.error("the worker begins anew: %s", _said(error))
            report(self.progress)
            stop.wait(max(pause, time.monotonic() - begin))  # at most half of the time is spent here
        self.end()

    def turn(self) -> bool:
        """Does what there is to do, if no other worker does; whether this one does."""
        if not self._begun or time.monotonic() >= self._renew_at:
            try:
                self._take()
            except session.LeaseLost:
                self._begun = False
                return False
        begin = time.monotonic()
        if not self._begun:
            self._begin()
        if self._new_serial() is not None:
            self.progress.seconds = time.monotonic() - begin
        self._new_version()
        self._clean()
        self.progress.rounds += 1
        return True

    def _take(self) -> None:
        """Takes the session for a while, or for a while longer."""
        with self.database.writing() as connection:
            session.take_lease(connection, self.owner)
        self._renew_at = time.monotonic() + session.LEASE_SECONDS / 3

    def end(self) -> None:
        """Lets another worker begin at once."""
        self._begun = False
        try:
            with self.database.writing() as connection:
                session.give_lease_back(connection, self.owner)
        except SQLAlchemyError as error:
            LOG.warning("the session stays taken for a while: %s", _said(error))

    def _begin(self) -> None:
        """Has the folders and the notification be as the database has it."""
        self._files.prepare()
        self._tree.prepare(() if self._looked_through else self._renewing(self._tree.store.paths()))
        self._looked_through = True
        self.progress.tree_serial = None
        with self.database.reading() as connection:
            state = session.state_of(connection)
        if state is not None and not self._files.are_there(state):
            LOG.warning("files of the session %s are missing: a new session begins", state.session)
            self._write_session()
        self._notify()
        self._begun = True

    # ---- RRDP

    def _notify(self) -> Optional[State]:
        """Writes the notification of what is committed. None that is older takes its place: it was read while no other was written."""
        with self._alone() as connection:
            state = session.state_of(connection, lock=True)
            if state is not None:
                self._files.write_notification(self.places.rrdp_base, state)
                self.progress.serial = state.snapshot.serial
        return state

    @contextlib.contextmanager
    def _alone(self) -> Iterator[Connection]:
        """A transaction in which no other worker writes a notification.

        On SQLite, whose writers are all on this machine, a file is locked for that, and not the database: no query waits for the disk.
        """
        if self.database.is_sqlite:
            with self._files.locked(), self.database.reading() as connection:
                yield connection
        else:
            with self.database.writing() as connection:
                yield connection

    def _new_serial(self) -> Optional[State]:
        """Writes a delta and a snapshot, if there are changes that no delta has."""
        with self.database.reading() as connection:
            before = session.state_of(connection)
            waiting = session.is_waiting(connection)
        if before is None:
            self._write_session()
        elif not waiting or not self._write_changes(before):
            return None
        return self._notify()

    def _write_session(self) -> None:
        """Begins a new session, with a snapshot as serial number 1."""
        seen, name = session.Seen(), str(uuid.uuid4())
        with self.database.reading() as connection:
            before = session.place_of(connection)
            for _ in seen.note(held.waiting(connection)):
                pass
            snapshot = self._files.write_snapshot(name, 1, self._renewing(held.objects(connection)))
        self._commit(before, State(name, snapshot, ()), seen, [snapshot])

    def _write_changes(self, before: State) -> bool:
        """Writes the next delta and the snapshot; whether there was anything to write."""
        number, seen, written = before.snapshot.serial + 1, session.Seen(), list[Written]()
        with self.database.reading() as connection:
            place = session.place_of(connection)
            changes = map(session.change_of, seen.note(held.waiting(connection)))
            elements = self._renewing(held.elements(connection, changes))
            first, state = next(elements, None), before
            try:
                if first is not None:
                    written.append(self._files.write_delta(before.session, number, itertools.chain([first], elements)))
                    written.append(self._files.write_snapshot(before.session, number, self._renewing(held.objects(connection))))
                    state = State(before.session, written[1], offered([*before.deltas, written[0]], written[1]))
            except BaseException:
                self._remove(written)
                raise
        self._commit(place, state, seen, written)
        return first is not None

    def _commit(self, before: tuple[str, int], state: State, seen: session.Seen, written: list[Written]) -> None:
        """Makes a state that of the session. Where another worker has it, the files are of no use."""
        try:
            with self.database.writing() as connection:
                session.commit(connection, self.owner, before, state, seen)
        except session.LeaseLost:
            self._remove(written)
            raise

    def _remove(self, written: list[Written]) -> None:
        """Removes files of which nobody knows."""
        for one in written:
            self._files.remove((self._files.folder / one.name).parent)

    def _go_on(self) -> None:
        """Keeps the session for longer, where it is time for that. Raises where another worker has it, and where this one is to stop."""
        if self._stop.is_set():
            raise Stopped
        if time.monotonic() >= self._renew_at:
            self._take()

    def _renewing(self, items: Iterable[T]) -> Iterator[T]:
        """The items, while the session stays this worker's, and until it is told to stop."""
        for item in items:
            self._go_on()
            yield item

    # ---- the tree

    def _new_version(self) -> None:
        """Builds a version of the tree, if there is a serial number that the last one hasn't, and the last one is old enough."""
        if self.progress.tree_serial == self.progress.serial or time.monotonic() < self._tree_at:
            return
        begin, serial, left_out = time.monotonic(), self.progress.serial, self.progress.left_out
        self.progress.left_out = 0
        try:
            with self.database.reading() as connection:
                found = self._renewing(held.digests(connection))
                version = self._tree.build(found, lambda wanted: held.contents(connection, wanted))
        except BaseException:
            self.progress.left_out = left_out
            raise
        self._take()
        self._tree.switch(version)
        self.progress.tree_serial = serial
        end = time.monotonic()
        self._tree_at = end + max(self.pauses.tree, end - begin)

    def _leave_out(self, error: NoPlace) -> None:
        """Tells of an object that can't lie in the tree, once. It is in the files of RRDP."""
        self.progress.left_out += 1
        if error.cause not in self._told and len(self._told) < MOST_TOLD:
            self._told.add(error.cause)
            LOG.warning("left out of the tree for rsync: %s", error.cause)

    # ---- what was dropped

    def _clean(self) -> None:
        """Removes what was dropped long enough ago, and changes that no delta has that is offered."""
        if time.monotonic() < self._clean_at:
            return
        self._clean_at = time.monotonic() + min(CLEAN_SECONDS, self.pauses.keep)
        state = self._forget()
        if state is None:
            return
        room = max(LEAST_ROOM, SNAPSHOTS_IN_ROOM * state.snapshot.size)
        for folder in self._renewing(self._kept_files.due(self._files.dropped(state), room)):
            self._files.remove(folder)
        self._tree.remove(self._renewing(self._kept_versions.due(self._tree.dropped(), MOST_VERSIONS)))

    def _forget(self) -> Optional[State]:
        """Removes all changes that no delta has that is offered, some in a transaction, so that no query waits long; what is offered."""
        while True:
            with self.database.writing() as connection:
                state = session.state_of(connection)
                if state is None or session.forget(connection, state) < session.AT_ONCE:
                    return state
            self._go_on()


def _said(error: Exception) -> str:
    """An error in a line. What a database says may have octets of objects in it, so of that only the kind is said."""
    if isinstance(error, SQLAlchemyError):
        return type(error).__name__
    return " ".join(str(error).split())
