"""A server that runs: what answers, what draws keys, what writes files, and how all of it ends."""

from __future__ import annotations

import pathlib
import signal
import threading
from dataclasses import asdict, dataclass
from typing import Any

from sqlalchemy.exc import SQLAlchemyError

from calmizsed import anchor
from calmizsed.server import listening, objects, publishers, session, settings, tables
from calmizsed.server.answering import Answering
from calmizsed.server.apart import WorkerApart
from calmizsed.server.application import Application
from calmizsed.server.database import Database
from calmizsed.server.logs import LOG
from calmizsed.server.metrics import Metrics
from calmizsed.server.one_off import OneOffKeys
from calmizsed.server.options import LINES, Options
from calmizsed.server.processes import AnsweringApart
from calmizsed.server.settings import Settings, SettingsError
from calmizsed.server.worker import Pauses, Places


@dataclass(frozen=True)
class Opened:
    """A server's data folder, and what the database says of it."""

    folder: pathlib.Path
    machine: settings.Machine
    database: Database
    settings: Settings


def opened(folder: pathlib.Path) -> Opened:
    """The server of a data folder."""
    machine = settings.load_machine(folder)
    database = Database(machine.database)
    with database.reading() as connection:
        tables.check(connection)
        found = settings.load(connection)
    if found is None:
        raise SettingsError("NoServer", 2, "the database has no settings: calmizsed serve init writes them")
    return Opened(folder, machine, database, found)


def status_of(database: Database) -> dict[str, Any]:
    """How a server is, by its database."""
    with database.reading() as connection:
        state, row = session.state_of(connection), connection.execute(tables.SESSION.select()).first()
        waiting = connection.execute(
            tables.CHANGES.select().where(tables.CHANGES.c.serial.is_(None)).limit(1)).first() is not None
        return {
            "schema": tables.version_of(connection), "publishers": publishers.count(connection), "objects": objects.count(connection),
            "rrdp": {
                "session": None if row is None else row.session, "serial": 0 if row is None else row.serial,
                "deltas": 0 if state is None else len(state.deltas), "changes_waiting": waiting,
                "worker": None if row is None else row.owner}}


def worker_of(server: Opened, log: str = LINES) -> WorkerApart:
    """The worker of a server, in a process of its own."""
    chosen, folder = server.settings, server.folder.resolve()
    places = Places(folder / "rrdp", chosen.rrdp_base, folder / "tree", chosen.rsync_base)
    return WorkerApart(server.machine.database, places, Pauses(chosen.pause, chosen.tree_pause, chosen.keep), log)


class Running:
    """A server with its threads."""

    def __init__(self, server: Opened, options: Options) -> None:
        signer = server.machine.signer(server.folder)
        if signer.public_key != anchor.public_key(server.settings.anchor):
            raise SettingsError("OtherKey", 2, "the key that signs isn't that of the server's anchor, which its publishers have")
        self.options = options
        self.stop = threading.Event()
        self.metrics = Metrics()
        self.one_off = OneOffKeys(uses=options.key_uses, seconds=options.key_seconds)
        self.database = server.database
        self.worker = worker_of(server, options.log) if options.worker else None
        self.apart = None if options.processes == 1 else AnsweringApart(
            server.machine, server.folder.resolve(), options.processes, options.key_uses, options.key_seconds)
        self.application = Application(
            self.apart or Answering(server.database, signer, self.one_off), self.metrics, self.status, most=options.most,
            threads=options.threads, hold=options.hold)
        self._watch()

    def _watch(self) -> None:
        """What the metrics ask for."""
        watch = self.metrics.watch
        if self.apart is None:
            watch("one_off_keys_ready", "Keys for one use that are ready", lambda: self.one_off.ready)
        else:
            apart = self.apart
            watch("answering_starts", "How often the processes that answer were started", lambda: apart.starts)
        if self.worker is not None:
            self._watch_worker(self.worker)

    def _watch_worker(self, worker: WorkerApart) -> None:
        """What the metrics ask for of the worker."""
        watch = self.metrics.watch
        watch("rrdp_serial", "The serial number of RRDP that this process wrote last", lambda: worker.progress.serial)
        watch("worker_faults", "How often the worker had to begin anew", lambda: worker.progress.faults)
        watch("worker_starts", "How often the worker's process was started", lambda: worker.starts)
        watch("tree_left_out", "Objects that can't lie in the tree for rsync", lambda: worker.progress.left_out)
        watch("rrdp_seconds", "How long the last delta and snapshot took", lambda: worker.progress.seconds)

    def status(self) -> dict[str, Any]:
        """How the server is."""
        found = status_of(self.database)
        found["process"] = {
            "processes": self.options.processes, "one_off_keys_ready": self.one_off.ready if self.apart is None else None,
            "worker": None if self.worker is None else asdict(self.worker.progress)}
        return found

    def run(self) -> None:
        """Serves until a signal ends it."""
        for number in (signal.SIGTERM, signal.SIGINT):
            signal.signal(number, lambda *_: self.stop.set())
        options = self.options
        try:
            server = listening.listen(
                self.application, options.host, options.port, options.threads, options.connections, options.most)
        except OSError as error:
            raise SettingsError("NoAddress", 1, f"{options.host}:{options.port}: {error.strerror}") from None
        if self.apart is None:
            self.one_off.start()
        if self.worker is not None:
            self.worker.start()
        LOG.info("listening at http://%s:%s", server.effective_host, server.effective_port)
        try:
            listening.serve(server, self.stop)
        finally:
            self._end()

    def _end(self) -> None:
        """Ends the threads."""
        self.stop.set()
        self.one_off.stop()
        if self.apart is not None:
            self.apart.stop()
        if self.worker is not None:
            self.worker.stop()
        try:
            self.database.close()
        except SQLAlchemyError as error:
            LOG.warning("the database: %s", type(error).__name__)
        LOG.info("ended")
