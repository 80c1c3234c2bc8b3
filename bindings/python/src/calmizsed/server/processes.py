"""Queries are answered in processes of their own: one process takes little more than one processor, however many threads it has.

HTTP, logs and metrics stay in the server's process, and so does the worker that writes files. The processes are those of
`concurrent.futures`. They end when the server does, also where it is killed; and where one of them ends by itself, so do the others, for it
may have ended with a lock that they wait for.
"""

from __future__ import annotations

import multiprocessing
import os
import pathlib
import signal
import threading
import time
from concurrent.futures import ProcessPoolExecutor
from concurrent.futures.process import BrokenProcessPool
from typing import Optional

from calmizsed.errors import CalmizsedError
from calmizsed.server.answering import Answer, Answering
from calmizsed.server.database import Database
from calmizsed.server.one_off import OneOffKeys
from calmizsed.server.settings import Machine

SECONDS_BETWEEN = 1.0
SECONDS_TO_END = 10  # of a process that is told to end: what it answers is answered first


class Interrupted(CalmizsedError):
    """The process that answered a query has ended: `Interrupted`."""

    def __init__(self) -> None:
        super().__init__("Interrupted", 1, "the process that answered has ended")


class AnsweringApart:
    """Answers queries as `Answering` does, several at once. Where a process ends by itself, all are started anew."""

    def __init__(self, machine: Machine, folder: pathlib.Path, processes: int, key_uses: int, key_seconds: float) -> None:
        self._given = machine, folder, key_uses, key_seconds, os.getpid()
        self._processes = processes
        self._lock = threading.Lock()
        self._pool = self._begun()
        self.starts = 1

    def _begun(self) -> ProcessPoolExecutor:
        """New processes, each of which begins with the first query that it gets."""
        return ProcessPoolExecutor(
            self._processes, mp_context=multiprocessing.get_context("spawn"), initializer=_begin, initargs=self._given)

    def answer(self, word: str, octets: bytes) -> Optional[Answer]:
        """The answer to a message that came at a path, or None where no publisher has the path."""
        pool = self._pool
        try:
            return pool.submit(_answer, word, octets).result()
        except BrokenProcessPool:
            self._renew(pool)
            raise Interrupted() from None

    def _renew(self, broken: ProcessPoolExecutor) -> None:
        """Starts processes in place of those that have ended."""
        with self._lock:
            if self._pool is broken:
                _kill_all()
                self._pool = self._begun()
                self.starts += 1

    def stop(self) -> None:
        """Has the processes end, once they have answered."""
        self._pool.shutdown()


_answering: Optional[Answering] = None  # of such a process


def _kill_all() -> None:
    """Ends all such processes."""
    for process in multiprocessing.active_children():
        process.kill()


def _end_with(parent: int) -> None:
    """Ends the process where the server has ended."""
    while os.getppid() == parent:
        time.sleep(SECONDS_BETWEEN)
    os._exit(1)


def _begin(machine: Machine, folder: pathlib.Path, key_uses: int, key_seconds: float, parent: int) -> None:
    """What such a process begins with."""
    global _answering
    # A terminal or a service manager sends these to the server too, which then ends this process, once it has answered.
    signal.signal(signal.SIGINT, signal.SIG_IGN)
    signal.signal(signal.SIGTERM, lambda *_: signal.alarm(SECONDS_TO_END))
    threading.Thread(target=_end_with, args=(parent,), daemon=True).start()
    one_off = OneOffKeys(uses=key_uses, seconds=key_seconds)
    one_off.start()
    _answering = Answering(Database(machine.database), machine.signer(folder), one_off)


def _answer(word: str, octets: bytes) -> Optional[Answer]:
    """The answer to a message, in such a process."""
    assert _answering is not None
    return _answering.answer(word, octets)
