"""Keys for one use, drawn ahead by a thread: to draw one of 2048 bits takes tens of milliseconds, which no query should wait for.

Where none is ready, the last one may be used again for a while. A key signs nothing but the attributes of replies of this server, each of
which names it by a certificate of its own, so that a reply says no less under a key that signed another. What is lost is that a key which
becomes known later signed one reply alone; so it is bounded by a number of uses and a time, and `uses=1` has no key used twice.
"""

from __future__ import annotations

import contextlib
import os
import queue
import threading
import time
from typing import Callable, Optional

from calmizsed import keys
from calmizsed.server.options import Options

READY = 64
NICE = 15


class OneOffKeys:
    """Keys for one use. `draw` draws one."""

    def __init__(
            self, ready: int = READY, uses: int = Options.key_uses, seconds: float = Options.key_seconds, *,
            draw: Callable[[], keys.SigningKey] = keys.PrivateKey.generate, clock: Callable[[], float] = time.monotonic) -> None:
        self.uses = uses
        self.seconds = seconds
        self._draw = draw
        self._clock = clock
        self._ready: queue.Queue[keys.SigningKey] = queue.Queue(ready)
        self._lock, self._drawing = threading.Lock(), threading.Lock()
        self._last: Optional[keys.SigningKey] = None
        self._last_uses = 0
        self._last_since = 0.0
        self._stop = threading.Event()
        self._thread: Optional[threading.Thread] = None

    def start(self) -> None:
        """Begins to draw."""
        self._thread = threading.Thread(target=self._run, name="one-off keys", daemon=True)
        self._thread.start()

    def stop(self) -> None:
        """Draws no more."""
        self._stop.set()
        if self._thread is not None:
            self._thread.join()

    @property
    def ready(self) -> int:
        """How many are ready."""
        return self._ready.qsize()

    def _run(self) -> None:
        """Draws keys while there is room for them, and while the processor has nothing else to do: replies are signed first."""
        with contextlib.suppress(AttributeError, OSError):
            os.setpriority(os.PRIO_PROCESS, threading.get_native_id(), NICE)  # of this thread alone, where the system is Linux
        while not self._stop.is_set():
            key = self._draw()
            while not self._stop.is_set():
                try:
                    self._ready.put(key, timeout=1.0)
                    break
                except queue.Full:
                    continue

    def take(self) -> keys.SigningKey:
        """A key that was used for no other message, or, where none is ready, the last one that may still be used, or one drawn now."""
        found = self._at_hand()
        if found is None and self.uses > 1:
            with self._drawing:  # one that is drawn serves those who wait for it too
                found = self._at_hand() or self._begin(self._draw())
        return self._begin(self._draw()) if found is None else found

    def _at_hand(self) -> Optional[keys.SigningKey]:
        """A key that need not be drawn, if there is one."""
        try:
            return self._begin(self._ready.get_nowait())
        except queue.Empty:
            return self._again()

    def _begin(self, key: keys.SigningKey) -> keys.SigningKey:
        """The key, which is the last one from now."""
        with self._lock:
            self._last, self._last_uses, self._last_since = key, 1, self._clock()
        return key

    def _again(self) -> Optional[keys.SigningKey]:
        """The last key, if it may be used once more."""
        with self._lock:
            if self._last is None or self._last_uses >= self.uses or self._clock() - self._last_since > self.seconds:
                self._last = None
                return None
            self._last_uses += 1
            return self._last
