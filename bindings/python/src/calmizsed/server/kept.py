"""What is no longer pointed to stays for a while, for those who still fetch it."""

from __future__ import annotations

import pathlib
import time
from typing import Callable, Mapping


class Kept:
    """Paths that were dropped, and since when. It is kept in memory alone: after a new start they stay a whole while once more."""

    def __init__(self, seconds: float, clock: Callable[[], float] = time.monotonic) -> None:
        self.seconds = seconds
        self._clock = clock
        self._since: dict[pathlib.Path, tuple[float, float]] = {}

    def due(self, dropped: Mapping[pathlib.Path, int], room: int) -> list[pathlib.Path]:
        """Which of the paths that are dropped now, with the room that each takes, are to go, the oldest first.

        They have been so for long enough, or there is no room for them besides the younger ones.
        """
        moment = self._clock()
        self._since = {path: self._since.get(path) or (moment, _written(path)) for path in dropped}
        due = []
        for path in sorted(dropped, key=self._since.__getitem__, reverse=True):
            room -= dropped[path]
            if room < 0 or moment - self._since[path][0] >= self.seconds:
                due.append(path)
        return due[::-1]


def _written(path: pathlib.Path) -> float:
    """When a path was written."""
    try:
        return path.stat().st_mtime
    except OSError:
        return 0.0
