"""The tree that rsync hands out. Each version of it is a folder of its own, to which the link `current` is switched once it is whole.

The files are hard links of those in `store`, which are named by their SHA-256: an object is written once, for all versions that have it.
"""

from __future__ import annotations

import errno
import hashlib
import itertools
import os
import pathlib
import secrets
import shutil
from typing import Callable, Iterable, Iterator, NamedTuple

from calmizsed.server.places import NoPlace, Places
from calmizsed.server.rrdp import PUBLIC_FILE, public_folder, sync_folder

CURRENT, STORE, VERSION = "current", "store", "version-"
BATCH = 100
BUFFER = 1 << 20


class Held(NamedTuple):
    """An object that is held: whose it is, its URI, and its SHA-256."""

    publisher: int
    uri: str
    digest: bytes


Contents = Callable[[list[Held]], Iterator[tuple[Held, bytes]]]
"""The octets of objects."""


def batches(items: Iterable[Held]) -> Iterator[list[Held]]:
    """The items, some at a time."""
    iterator = iter(items)
    return iter(lambda: list(itertools.islice(iterator, BATCH)), [])


def _digest_of(path: pathlib.Path) -> bytes:
    """The SHA-256 of a file."""
    digest = hashlib.sha256()
    with open(path, "rb") as file:
        while octets := file.read(BUFFER):
            digest.update(octets)
    return digest.digest()


class Store:
    """The files of all versions, by their SHA-256."""

    def __init__(self, folder: pathlib.Path) -> None:
        self.folder = folder

    def prepare(self) -> None:
        """Makes the folders."""
        public_folder(self.folder)
        for number in range(256):
            public_folder(self.folder / f"{number:02x}")

    def look_through(self, paths: Iterable[pathlib.Path]) -> None:
        """Removes what isn't what its name says: as after a loss of power, for these files aren't synced."""
        for path in paths:
            if _digest_of(path).hex() != path.name:
                path.unlink()

    def path(self, digest: bytes) -> pathlib.Path:
        """Where the object with this digest is."""
        name = digest.hex()
        return self.folder / name[:2] / name

    def add(self, digest: bytes, octets: bytes) -> None:
        """Writes an object, which is there whole or not at all."""
        path = self.path(digest)
        new = path.with_name(f".{secrets.token_hex(8)}")
        try:
            new.write_bytes(octets)
            new.chmod(PUBLIC_FILE)
            os.replace(new, path)
        except BaseException:
            new.unlink(missing_ok=True)
            raise

    def sweep(self) -> None:
        """Removes the objects that no version has."""
        for path in self.paths():
            if path.stat().st_nlink == 1:
                path.unlink()

    def paths(self) -> Iterator[pathlib.Path]:
        """All files."""
        for folder in self.folder.iterdir():
            yield from folder.iterdir()


class Tree:
    """The folder with all versions. `left_out` is told of each object that can't lie in a tree."""

    def __init__(self, folder: pathlib.Path, base: str, left_out: Callable[[NoPlace], None]) -> None:
        self.folder = folder
        self.base = base
        self.store = Store(folder / STORE)
        self._left_out = left_out

    def prepare(self, stored: Iterable[pathlib.Path]) -> None:
        """Makes the folders, if they aren't there, and looks through these files of the store."""
        public_folder(self.folder)
        for link in self.folder.glob(f".{CURRENT}-*"):
            link.unlink()
        self.store.prepare()
        self.store.look_through(stored)

    def build(self, objects: Iterable[Held], contents: Contents) -> pathlib.Path:
        """Builds a new version of objects that come in ascending order of their URIs, and gives its folder."""
        version = self.folder / f"{VERSION}{secrets.token_hex(8)}"
        public_folder(version)
        try:
            places, last = Places(self.base), [version]
            for batch in batches(objects):
                self._place(batch, places, last, contents)
        except BaseException:
            shutil.rmtree(version, ignore_errors=True)
            raise
        return version

    def _place(self, batch: list[Held], places: Places, last: list[pathlib.Path], contents: Contents) -> None:
        """Places some objects. `last` is the folder of the last file, and those above it, which are there."""
        placed: list[tuple[Held, tuple[str, ...]]] = []
        for one in batch:
            try:
                placed.append((one, places.names(one.uri)))
            except NoPlace as error:
                self._left_out(error)
        missing = [one for one, _ in placed if not self.store.path(one.digest).is_file()]
        for one, octets in contents(missing) if missing else ():
            self.store.add(one.digest, octets)
        for one, names in placed:
            self._link(one.digest, _folder_of(names, last) / names[-1])

    def _link(self, digest: bytes, path: pathlib.Path) -> None:
        """Has a file be that of an object. A file can have so many links alone: one that has them all is written once more."""
        stored = self.store.path(digest)
        try:
            os.link(stored, path)
        except OSError as error:
            if error.errno != errno.EMLINK:
                raise
            self.store.add(digest, stored.read_bytes())
            os.link(stored, path)

    def switch(self, version: pathlib.Path) -> None:
        """Has `current` point to a version, at once."""
        new = self.folder / f".{CURRENT}-{secrets.token_hex(8)}"
        new.symlink_to(version.name)
        os.replace(new, self.folder / CURRENT)
        sync_folder(self.folder)

    def dropped(self) -> dict[pathlib.Path, int]:
        """The versions to which `current` doesn't point, of which each counts as one."""
        current = (self.folder / CURRENT).resolve()
        return {path: 1 for path in self.folder.iterdir() if path.name.startswith(VERSION) and path.resolve() != current}

    def remove(self, versions: Iterable[pathlib.Path]) -> None:
        """Removes versions, and the objects that these alone had."""
        any_removed = False
        for version in versions:
            shutil.rmtree(version, ignore_errors=True)
            any_removed = True
        if any_removed:
            self.store.sweep()


def _folder_of(names: tuple[str, ...], last: list[pathlib.Path]) -> pathlib.Path:
    """The folder of a file. Those that aren't there are made; `last` has it then, below those above it."""
    for depth, name in enumerate(names[:-1], 1):
        if len(last) > depth and last[depth].name != name:
            del last[depth:]
        if len(last) == depth:
            last.append(last[-1] / name)
            last[-1].mkdir(exist_ok=True)
            last[-1].chmod(0o755)
    del last[len(names):]
    return last[-1]
