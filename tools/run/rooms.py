"""Rooms, in which tools/run/build_crates.py has rt prove one crate while it proves others.

`rt lib` and `rt run` keep every other rt out of the folders of all crates below the one that they work on, so that in one tree one crate
is proved at a time. A room is a folder with a crates.txt of its own, in which stand a crate and those below it, as they were when the build
began, and the proved libraries of those below. What rt keeps of its work on the crate, `out/incremental`, is moved into the room and back.
What it makes takes the place of what was there only once it is whole, by renaming.

(`rt all check --jobs N` in a program's folder works side by side too. It begins with a pass over all sources, gives each crate one job,
knows of no chain of crates, and shows a crate when it has ended.)

While rooms are in use, the crates' own folders are locked as rt locks them."""

from __future__ import annotations

import contextlib
import fcntl
import os
import pathlib
import shutil
import time
from typing import Callable, Iterable, Iterator, Optional

Path = pathlib.Path

LOCK_PAUSE = 0.2


class Stopped(Exception):
    """A signal asked the build to end while it waited."""


def try_lock(number: int) -> bool:
    """Whether no other process holds the folder; a file system without locks has none that could."""
    try:
        fcntl.flock(number, fcntl.LOCK_EX | fcntl.LOCK_NB)
    except BlockingIOError:
        return False
    except OSError:
        pass
    return True


def lock(folders: Iterable[Path], say: Callable[[str], None], is_stopped: Callable[[], bool]) -> list[int]:
    """Waits until no rt works in these folders, and keeps others out until what it gives is closed."""
    held: list[int] = []
    for folder in sorted(folders):
        held.append(os.open(folder, os.O_RDONLY))
        has_said = False
        while not try_lock(held[-1]):
            if not has_said:
                say(f"waiting for another build or another rt to finish in {folder}")
            has_said = True
            if is_stopped():
                raise Stopped
            time.sleep(LOCK_PAUSE)
    return held


def link(one: str, other: str) -> None:
    """Gives a file a second name, or copies it where that can't be."""
    try:
        os.link(one, other)
    except OSError:
        shutil.copy2(one, other)


def link_tree(one: Path, other: Path) -> None:
    """Makes one folder anew as another, by links to its files."""
    shutil.copytree(one, other, copy_function=link)


def remove(folder: Path) -> None:
    """Removes a folder, if it is there."""
    shutil.rmtree(folder, ignore_errors=True)


class Rooms:
    """The rooms of one build, in the folder `out/building` of one of its crates."""

    def __init__(self, top: Path, crates: list[str]) -> None:
        self.top, self.crates = top, crates
        self.at = self.out_of(crates[-1]) / "building"
        self.begun = 0  # when the sources were copied, in nanoseconds, by the file system's clock

    def out_of(self, crate: str) -> Path:
        """Where a crate keeps what rt made of it."""
        return self.top / "crates" / crate / "out"

    def place_of(self, crate: str) -> Path:
        """The crate's folder in its room."""
        return self.at / "rooms" / crate / "crates" / crate

    @contextlib.contextmanager
    def opened(self, say: Callable[[str], None], is_stopped: Callable[[], bool]) -> Iterator[None]:
        """Holds the crates' folders, and copies their sources; in the end all rooms are gone."""
        held = lock((self.top / "crates" / crate for crate in self.crates), say, is_stopped)
        try:
            for crate in self.crates:
                self.tidy_up(self.out_of(crate) / "building")
            self.copy_sources()
            yield
        finally:
            self.tidy_up(self.at)
            for number in held:
                os.close(number)

    def tidy_up(self, at: Path) -> None:
        """Removes rooms, also those of a build that was killed, and keeps what rt kept in them."""
        for kept in at.glob("rooms/*/crates/*/out/incremental"):
            self.put_back(kept)
        remove(at)

    def put_back(self, kept: Path) -> None:
        """Puts what a room kept back to its crate, if nothing stands there."""
        own = self.out_of(kept.parent.parent.name) / kept.name
        if own.parent.is_dir() and not own.exists():
            kept.rename(own)

    def copy_sources(self) -> None:
        """Copies the sources of all crates, so that they stay as they are while rt works."""
        (self.at / "sources").mkdir(parents=True)
        self.begun = (self.at / "sources").stat().st_mtime_ns
        for crate in self.crates:
            shutil.copytree(self.top / "crates" / crate, self.at / "sources" / crate, ignore=self.left_out)

    def left_out(self, folder: str, _names: list[str]) -> list[str]:
        """What of a folder isn't copied."""
        return ["out", "must-fail"] if Path(folder).parent == self.top / "crates" else []

    def lines_of(self, crates: list[str]) -> str:
        """The lines of crates.txt that name these crates."""
        text = (self.top / "crates.txt").read_text(encoding="utf-8")
        return "".join(f"{line}\n" for line in text.splitlines() if line.partition(":")[0].partition(" ")[0] in crates)

    def enter(self, crate: str, below: list[str]) -> Path:
        """Makes the crate's room, over the libraries of those below, and gives the folder that rt is to work in."""
        place, own = self.place_of(crate), self.out_of(crate)
        place.parent.mkdir(parents=True)
        (place.parent.parent / "crates.txt").write_text(self.lines_of([*below, crate]), encoding="utf-8")
        for name in [*below, crate]:
            link_tree(self.at / "sources" / name, place.parent / name)
            if (self.out_of(name) / "rlib").is_dir():
                link_tree(self.out_of(name) / "rlib", place.parent / name / "out" / "rlib")
        (place / "out").mkdir(exist_ok=True)
        for name in (crate, f"{crate}.stamp"):
            if (own / name).is_file():
                shutil.copy2(own / name, place / "out" / name)
        if (own / "incremental").is_dir():
            (own / "incremental").rename(place / "out" / "incremental")
        return place

    def leave(self, crate: str, is_made: bool) -> None:
        """Takes out of a room what rt kept of its work and, where all went well, what it made; and removes the room."""
        place, own = self.place_of(crate), self.out_of(crate)
        own.mkdir(exist_ok=True)
        if (place / "out" / "incremental").is_dir():
            self.put_back(place / "out" / "incremental")
        if is_made and (place / "out" / "rlib").is_dir():
            if (own / "rlib").is_dir():
                (own / "rlib").rename(place / "earlier")
            (place / "out" / "rlib").rename(own / "rlib")
        if is_made:
            self.take_linked(crate)
        remove(self.at / "rooms" / crate)

    def take_linked(self, crate: str) -> None:
        """A program or a static library is as old as the copy of the sources that it was made of, so that what changed since counts as
        newer."""
        place, own = self.place_of(crate), self.out_of(crate)
        for name in (crate, f"lib{crate}.a"):
            if (place / "out" / name).is_file():
                os.utime(place / "out" / name, ns=(self.begun, self.begun))
                os.replace(place / "out" / name, own / name)
        if (place / "out" / f"{crate}.stamp").is_file():
            os.replace(place / "out" / f"{crate}.stamp", own / f"{crate}.stamp")


def memory_free() -> Optional[int]:
    """The free memory in bytes, under the limit of a control group too; None where the system doesn't tell."""
    found = [number for number in (memory_of_system(), memory_of_group()) if number is not None]
    return min(found) if found else None


def memory_of_system() -> Optional[int]:
    """How much memory the system has to spare, if it says so."""
    with contextlib.suppress(OSError, ValueError):
        for line in Path("/proc/meminfo").read_text(encoding="ascii").splitlines():
            if line.startswith("MemAvailable:"):
                return 1024 * int(line.split()[1])
    return None


def memory_of_group() -> Optional[int]:
    """How much memory the group of processes may still take, if it has a limit."""
    group = Path("/sys/fs/cgroup")
    with contextlib.suppress(OSError, ValueError):
        limit = int((group / "memory.max").read_text(encoding="ascii"))
        rows = (group / "memory.stat").read_text(encoding="ascii").splitlines()
        return limit - sum(int(row.split()[1]) for row in rows if row.startswith("anon "))
    return None


def processors() -> int:
    """How many processors there are to use, by the quota of a control group too."""
    found = len(os.sched_getaffinity(0)) if hasattr(os, "sched_getaffinity") else os.cpu_count() or 1
    with contextlib.suppress(OSError, ValueError):
        quota, period = Path("/sys/fs/cgroup/cpu.max").read_text(encoding="ascii").split()
        found = min(found, max(int(quota) // int(period), 1))
    return found
