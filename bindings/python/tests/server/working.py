"""What tests of the worker share: a database with objects, changes that queries would make, and how a relying party reads RRDP."""

from __future__ import annotations

import base64
import hashlib
import pathlib
from dataclasses import dataclass, field
from typing import NamedTuple, Optional
from xml.etree import ElementTree

from sqlalchemy import and_, delete, insert, select

from calmizsed.server import tables
from calmizsed.server.database import Database
from calmizsed.server.worker import Pauses, Places, Worker

RSYNC_BASE = "rsync://localhost/repo/"
RRDP_BASE = "https://localhost/rrdp/"
NOTHING_WAITS = Pauses(rrdp=0.0, tree=0.0, keep=0.0)


def digest(octets: bytes) -> bytes:
    """A SHA-256."""
    return hashlib.sha256(octets).digest()


class Repository:
    """A database and the folders of a worker."""

    def __init__(self, folder: pathlib.Path, address: Optional[str] = None) -> None:
        self.folder = folder
        self.address = address or f"sqlite:///{folder / 'database'}"
        self.database = Database(self.address)
        self.places = Places(folder / "rrdp", RRDP_BASE, folder / "tree", RSYNC_BASE)

    def create(self) -> None:
        """Makes the tables, and two publishers."""
        tables.METADATA.create_all(self.database.engine)
        with self.database.writing() as connection:
            for number, handle in ((1, "carol"), (2, "dave")):
                connection.execute(insert(tables.PUBLISHERS).values(
                    id=number, handle=handle, base=f"{RSYNC_BASE}{handle}/", word=handle, added=0))

    def worker(self, pauses: Pauses = NOTHING_WAITS) -> Worker:
        """A worker."""
        return Worker(self.database, self.places, pauses)

    def change(self, publisher: int, changes: dict[str, Optional[bytes]]) -> None:
        """Makes changes, as a query's: each URI has this object behind them, or none."""
        objects = tables.OBJECTS.c
        with self.database.writing() as connection:
            for uri, octets in changes.items():
                here = and_(objects.publisher == publisher, objects.uri == uri)
                old = connection.execute(select(objects.digest).where(here)).scalar()
                connection.execute(delete(tables.OBJECTS).where(here))
                new = None if octets is None else digest(octets)
                if octets is not None:
                    connection.execute(insert(tables.OBJECTS).values(publisher=publisher, uri=uri, digest=new, octets=octets))
                connection.execute(insert(tables.CHANGES).values(publisher=publisher, uri=uri, old=old, new=new))

    def objects(self) -> dict[str, bytes]:
        """All objects, by their URIs."""
        with self.database.reading() as connection:
            return {row.uri: row.octets for row in connection.execute(select(tables.OBJECTS.c.uri, tables.OBJECTS.c.octets))}


class Notification(NamedTuple):
    """What a notification says: names and digests of files, of deltas by serial number."""

    session: str
    serial: int
    snapshot: tuple[str, str]
    deltas: dict[int, tuple[str, str]]


class Gap(Exception):
    """A relying party can't go on."""


@dataclass
class Party:
    """A relying party (RFC 8182, 3.4): it has what the files say, takes deltas where it can, and looks at each digest."""

    folder: pathlib.Path
    session: str = ""
    serial: int = 0
    objects: dict[str, bytes] = field(default_factory=dict)
    snapshots: int = 0
    seen: dict[tuple[str, int], bytes] = field(default_factory=dict)

    def notification(self) -> Notification:
        """The notification."""
        root = ElementTree.fromstring((self.folder / "notification.xml").read_bytes())
        first, *others = root
        deltas = {int(one.attrib["serial"]): (one.attrib["uri"], one.attrib["hash"]) for one in others}
        return Notification(
            root.attrib["session_id"], int(root.attrib["serial"]), (first.attrib["uri"], first.attrib["hash"]), deltas)

    def _file(self, told: tuple[str, str], session: str, serial: int) -> ElementTree.Element:
        """The root of a file, which has the digest, the session and the serial number that were told."""
        uri, wanted = told
        assert uri.startswith(RRDP_BASE)
        octets = (self.folder / uri[len(RRDP_BASE):]).read_bytes()
        assert digest(octets).hex() == wanted
        root = ElementTree.fromstring(octets)
        assert (root.attrib["session_id"], int(root.attrib["serial"])) == (session, serial)
        known = self.seen.setdefault((root.tag + session, serial), digest(octets))
        assert known == digest(octets), f"serial number {serial} has two contents"
        return root

    def fetch(self) -> None:
        """Comes to the state of the notification: by deltas where they lead there, else by the snapshot."""
        told = self.notification()
        if told.session == self.session:
            assert told.serial >= self.serial, "the serial number went back"
        wanted = list(range(self.serial + 1, told.serial + 1))
        if told.session == self.session and set(wanted) <= told.deltas.keys():
            for serial in wanted:
                self._take(self._file(told.deltas[serial], told.session, serial))
            snapshot = {}
            for element in self._file(told.snapshot, told.session, told.serial):
                snapshot[element.attrib["uri"]] = base64.b64decode(element.text or "")
            assert snapshot == self.objects, "the deltas lead elsewhere than the snapshot"
        else:
            self.snapshots += 1
            root = self._file(told.snapshot, told.session, told.serial)
            self.objects = {element.attrib["uri"]: base64.b64decode(element.text or "") for element in root}
            assert len(root) == len(self.objects)
        self.session, self.serial = told.session, told.serial

    def _take(self, root: ElementTree.Element) -> None:
        """Makes a delta's changes, each of which has to fit to what is there."""
        uris = [element.attrib["uri"] for element in root]
        assert len(uris) == len(set(uris)) > 0
        for element in root:
            uri, old = element.attrib["uri"], self.objects.get(element.attrib["uri"])
            assert (None if old is None else digest(old).hex()) == element.get("hash")
            if element.tag.endswith("publish"):
                self.objects[uri] = base64.b64decode(element.text or "")
            else:
                del self.objects[uri]
