"""The worker in a process of its own, so that it takes no time from the threads that answer queries.

The process is told on standard input what to work on, ends when that is closed, and so also when the server is killed; after each turn it
writes a line to standard output that says what it has done. Its log goes to standard error.
"""

from __future__ import annotations

import dataclasses
import functools
import json
import logging
import os
import pathlib
import signal
import subprocess
import sys
import threading
from typing import Any, Callable, Optional

import calmizsed
from calmizsed.server import logs
from calmizsed.server.database import Database
from calmizsed.server.options import LINES
from calmizsed.server.worker import Pauses, Places, Progress, Worker

# No module comes from the folder in which the server was started.
BEGIN = "import sys; sys.path[0] = sys.argv[1]; from calmizsed.server.apart import main; sys.exit(main())"
SECONDS_TO_END = 30.0
LOG = logging.getLogger("calmizsed.server.worker")
SECONDS_BETWEEN = 5.0


class WorkerApart:
    """A worker in a process, which is started again where it ends by itself."""

    def __init__(self, address: str, places: Places, pauses: Pauses, log: str = LINES) -> None:
        told = {"places": {name: str(value) for name, value in dataclasses.asdict(places).items()}}
        self._told = {"address": address, "pauses": dataclasses.asdict(pauses), "log": log, **told}
        self._stop = threading.Event()
        self._process: Optional[subprocess.Popen[bytes]] = None
        self._thread = threading.Thread(target=self._keep, name="worker")
        self.progress = Progress()
        self.starts = 0

    def start(self) -> None:
        """Starts it."""
        self._thread.start()

    def stop(self) -> None:
        """Has it end, and waits for that. What it was writing is of no effect then."""
        self._stop.set()
        process = self._process
        if process is not None and process.stdin is not None:
            try:
                process.stdin.close()
            except OSError:
                pass
            try:
                process.wait(SECONDS_TO_END)
            except subprocess.TimeoutExpired:
                process.kill()
        self._thread.join()

    def _keep(self) -> None:
        """Starts a process, and another where it ends."""
        while not self._stop.is_set():
            self.starts += 1
            try:
                self._run()
            except OSError as error:  # there is no room for a process now
                LOG.error("the worker can't be started: %s", error.strerror)
            self._stop.wait(SECONDS_BETWEEN)

    def _run(self) -> None:
        """Runs a process to its end."""
        source = str(pathlib.Path(calmizsed.__file__).resolve().parents[1])
        with subprocess.Popen([sys.executable, "-c", BEGIN, source], stdin=subprocess.PIPE, stdout=subprocess.PIPE) as process:
            assert process.stdin is not None and process.stdout is not None
            self._process = process
            try:
                process.stdin.write(json.dumps(self._told).encode("utf-8") + b"\n")
                process.stdin.flush()
                if self._stop.is_set():
                    process.stdin.close()
                for line in process.stdout:
                    self.progress = Progress(**json.loads(line))
            except (OSError, ValueError):  # it has ended, or this one closes its input at the same time
                pass
            process.wait()


def _at_end_of_input(act: Callable[[], Any]) -> None:
    """Acts when standard input is closed."""
    while sys.stdin.buffer.read(1):
        pass
    act()


def _report(stop: threading.Event, progress: Progress) -> None:
    """Says what was done. Where nobody listens any more the server has ended, and so does this process."""
    try:
        os.write(sys.stdout.fileno(), json.dumps(dataclasses.asdict(progress)).encode("ascii") + b"\n")
    except OSError:
        stop.set()


def main() -> int:
    """What the process does."""
    told, stop = json.loads(sys.stdin.buffer.readline()), threading.Event()
    signal.signal(signal.SIGINT, signal.SIG_IGN)  # a terminal sends it to the server too, which ends this one
    signal.signal(signal.SIGTERM, lambda *_: stop.set())
    threading.Thread(target=_at_end_of_input, args=(stop.set,), daemon=True).start()
    logs.begin(told["log"])
    named = told["places"]
    places = Places(pathlib.Path(named["rrdp"]), named["rrdp_base"], pathlib.Path(named["tree"]), named["rsync_base"])
    Worker(Database(told["address"]), places, Pauses(**told["pauses"])).run(stop, functools.partial(_report, stop))
    return 0
