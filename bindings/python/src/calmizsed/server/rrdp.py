"""The files of RRDP (RFC 8182): notification, snapshots and deltas. They are written as streams: memory doesn't grow with the objects."""

from __future__ import annotations

import binascii
import contextlib
import fcntl
import hashlib
import itertools
import os
import pathlib
import re
import secrets
import shutil
import time
from dataclasses import dataclass
from typing import BinaryIO, Iterable, Iterator, NamedTuple, Optional, Sequence
from xml.sax.saxutils import quoteattr

NAMESPACE = "http://www.ripe.net/rpki/rrdp"
NOTIFICATION = "notification.xml"
RANDOM_OCTETS = 16
PUBLIC_FILE, PUBLIC_FOLDER = 0o644, 0o755
BUFFER = 1 << 20
MOST_DELTAS = 500  # that are offered: a relying party takes a snapshot rather than many deltas, and a notification has a line for each
LOCK, SECONDS_TO_WAIT = ".lock", 30.0
PLAIN = re.compile(r"[A-Za-z0-9:/._~%-]*")


class Change(NamedTuple):
    """A change of what is at a URI: the digests of the object before and behind it, or None where there is none."""

    number: int
    publisher: int
    uri: str
    old: Optional[bytes]
    new: Optional[bytes]


class Element(NamedTuple):
    """What a delta says of a URI: the object that is there now, or None where it is withdrawn, and the digest of the one before."""

    uri: str
    old: Optional[bytes]
    octets: Optional[bytes]


@dataclass(frozen=True)
class Written:
    """A file that was written: its serial number, its name below the folder of RRDP, its size and its SHA-256."""

    serial: int
    name: str
    size: int
    digest: bytes


@dataclass(frozen=True)
class State:
    """What a notification says: deltas come with ascending serial numbers, of which the last is the snapshot's."""

    session: str
    snapshot: Written
    deltas: tuple[Written, ...]


def folded(changes: Iterable[Change]) -> Iterator[Change]:
    """The changes, of which those of a URI come one behind the other, as one change each. What came and went leaves none."""
    for _, group in itertools.groupby(changes, key=lambda change: (change.publisher, change.uri)):
        first = last = next(group)
        for last in group:
            pass
        if first.old != last.new:
            yield last._replace(old=first.old)


def offered(deltas: Sequence[Written], snapshot: Written) -> tuple[Written, ...]:
    """The deltas that a notification has: the newest, of which the sizes together are no more than the snapshot's (3.3.2), and not many."""
    kept: list[Written] = []
    room, serial = snapshot.size, snapshot.serial
    for delta in sorted(deltas, key=lambda one: one.serial, reverse=True):
        if delta.serial != serial or delta.size > room or len(kept) == MOST_DELTAS:
            break
        kept.append(delta)
        room -= delta.size
        serial -= 1
    return tuple(reversed(kept))


class _Counted:
    """A new file, of which the size and the digest are made while it is written."""

    def __init__(self, file: BinaryIO) -> None:
        self._file = file
        self._digest = hashlib.sha256()
        self.size = 0

    def write(self, text: str, octets: bytes = b"", behind: str = "") -> None:
        """Writes text, octets in base64, and text."""
        held = b"".join((text.encode("ascii"), binascii.b2a_base64(octets, newline=False), behind.encode("ascii")))
        self._file.write(held)
        self._digest.update(held)
        self.size += len(held)

    def digest(self) -> bytes:
        """The SHA-256 of what was written."""
        return self._digest.digest()


def sync_folder(folder: pathlib.Path) -> None:
    """Has the names in a folder outlast a loss of power."""
    number = os.open(folder, os.O_RDONLY | os.O_DIRECTORY | os.O_CLOEXEC)
    try:
        os.fsync(number)
    finally:
        os.close(number)


def public_folder(folder: pathlib.Path) -> None:
    """Makes a folder that everyone may read, if it isn't there."""
    try:
        folder.mkdir()
    except FileExistsError:
        return
    folder.chmod(PUBLIC_FOLDER)
    sync_folder(folder.parent)


def _quoted(uri: str) -> str:
    """A URI as an attribute's value. Most have nothing that XML writes otherwise."""
    return f'"{uri}"' if PLAIN.fullmatch(uri) else quoteattr(uri)


def _root(name: str, session: str, serial: int) -> str:
    """The first tag of a file."""
    return f'<{name} xmlns="{NAMESPACE}" version="1" session_id="{session}" serial="{serial}">\n'


def _publish(uri: str, octets: bytes, old: Optional[bytes] = None) -> tuple[str, bytes, str]:
    """A `publish` element: what stands before the object, the object, and what stands behind it."""
    replaced = "" if old is None else f' hash="{old.hex()}"'
    return f"<publish uri={_quoted(uri)}{replaced}>", octets, "</publish>\n"


class Files:
    """The folder of RRDP: `notification.xml`, and files that no other ever takes the place of, under names that can't be foreseen."""

    def __init__(self, folder: pathlib.Path) -> None:
        self.folder = folder

    def prepare(self) -> None:
        """Makes the folder, if it isn't there, and removes what was left of a notification that was never whole."""
        public_folder(self.folder)
        with self.locked():
            for path in self.folder.glob(f".{NOTIFICATION}-*"):
                path.unlink()

    @contextlib.contextmanager
    def locked(self) -> Iterator[None]:
        """Has no other process of this machine, and no other thread, be here. One that ends gives the lock back."""
        with open(self.folder / LOCK, "ab") as file:
            end = time.monotonic() + SECONDS_TO_WAIT
            while True:
                try:
                    fcntl.flock(file, fcntl.LOCK_EX | fcntl.LOCK_NB)
                    break
                except BlockingIOError:
                    if time.monotonic() > end:
                        raise
                    time.sleep(0.02)
            yield

    def _write(self, kind: str, session: str, serial: int, elements: Iterable[tuple[str, bytes, str]]) -> Written:
        """Writes a new file, which outlasts a loss of power once this has ended."""
        folder = self.folder
        for part in (session, str(serial), secrets.token_hex(RANDOM_OCTETS)):
            folder = folder / part
            public_folder(folder)
        path = folder / f"{kind}.xml"
        try:
            with open(path, "xb", buffering=BUFFER) as file:
                counted = _Counted(file)
                counted.write(_root(kind, session, serial))
                for element in elements:
                    counted.write(*element)
                counted.write(f"</{kind}>\n")
                file.flush()
                os.fchmod(file.fileno(), PUBLIC_FILE)
                os.fsync(file.fileno())
            sync_folder(folder)
        except BaseException:
            self.remove(folder)
            raise
        return Written(serial, str(path.relative_to(self.folder)), counted.size, counted.digest())

    def write_snapshot(self, session: str, serial: int, objects: Iterable[tuple[str, bytes]]) -> Written:
        """Writes a snapshot: all objects with their URIs (3.5.2)."""
        return self._write("snapshot", session, serial, (_publish(uri, octets) for uri, octets in objects))

    def write_delta(self, session: str, serial: int, elements: Iterable[Element]) -> Written:
        """Writes a delta (3.5.3)."""
        return self._write("delta", session, serial, map(_of_delta, elements))

    def write_notification(self, base: str, state: State) -> None:
        """Writes the notification (3.5.1), which takes the place of the one before once it is whole. `base` is the folder's address."""
        new = self.folder / f".{NOTIFICATION}-{secrets.token_hex(8)}"
        snapshot = state.snapshot
        lines = [_root("notification", state.session, snapshot.serial)]
        lines.append(f"<snapshot uri={quoteattr(base + snapshot.name)} hash=\"{snapshot.digest.hex()}\"/>\n")
        for delta in reversed(state.deltas):
            lines.append(f"<delta serial=\"{delta.serial}\" uri={quoteattr(base + delta.name)} hash=\"{delta.digest.hex()}\"/>\n")
        try:
            with open(new, "xb") as file:
                file.write("".join([*lines, "</notification>\n"]).encode("ascii"))
                file.flush()
                os.fchmod(file.fileno(), PUBLIC_FILE)
                os.fsync(file.fileno())
            os.replace(new, self.folder / NOTIFICATION)
        except BaseException:
            new.unlink(missing_ok=True)
            raise
        sync_folder(self.folder)

    def are_there(self, state: State) -> bool:
        """Whether the files of which a notification would tell are there, with their sizes."""
        try:
            return all((self.folder / one.name).stat().st_size == one.size for one in (state.snapshot, *state.deltas))
        except OSError:
            return False

    def dropped(self, state: State) -> dict[pathlib.Path, int]:
        """The folders of files of which the notification doesn't tell, and their sizes."""
        told = {(self.folder / one.name).parent for one in (state.snapshot, *state.deltas)}
        folders = (one for session in self.folder.iterdir() if session.is_dir() for serial in session.iterdir() for one in serial.iterdir())
        return {one: sum(file.stat().st_size for file in one.iterdir()) for one in folders if one not in told}

    def remove(self, folder: pathlib.Path) -> None:
        """Removes a folder with a dropped file, and the folders that held it alone."""
        shutil.rmtree(folder, ignore_errors=True)
        for above in (folder.parent, folder.parent.parent):
            try:
                above.rmdir()
            except OSError:
                return


def _of_delta(element: Element) -> tuple[str, bytes, str]:
    """An element of a delta."""
    if element.octets is not None:
        return _publish(element.uri, element.octets, element.old)
    assert element.old is not None
    return f'<withdraw uri={_quoted(element.uri)} hash="{element.old.hex()}"/>', b"", "\n"
