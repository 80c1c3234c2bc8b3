"""Works on a repository until it is stopped, or killed: `work_on.py FOLDER ADDRESS`. A test starts it."""

from __future__ import annotations

import pathlib
import signal
import sys
import threading

sys.path[0:1] = [str(pathlib.Path(__file__).resolve().parent), str(pathlib.Path(__file__).resolve().parents[2] / "src")]

from working import Repository  # noqa: E402

from calmizsed.server.worker import Pauses  # noqa: E402


def main() -> None:
    """Works."""
    stop = threading.Event()
    signal.signal(signal.SIGTERM, lambda *_: stop.set())
    folder, address = sys.argv[1:]
    Repository(pathlib.Path(folder), address).worker(Pauses(rrdp=0.0, tree=0.0, keep=2.0)).run(stop)


if __name__ == "__main__":
    main()
