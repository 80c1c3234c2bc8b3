"""The files of RRDP: valid by the schema, with the digests and sizes that are told, and read anew with another library."""

from __future__ import annotations

import base64
import hashlib
import pathlib
import shutil
import subprocess
import threading
import time
from xml.etree import ElementTree

import pytest

from calmizsed.server import rrdp
from calmizsed.server.kept import Kept
from calmizsed.server.rrdp import Change, Element, Files, State, Written, folded, offered

SESSION = "9df4b597-af9e-4dca-bdda-719cce2c4e28"
SCHEMA = pathlib.Path(rrdp.__file__).with_name("rrdp.rng")
SPACE = f"{{{rrdp.NAMESPACE}}}"
BASE = "https://localhost/rrdp/"
OLD = hashlib.sha256(b"old").digest()
URI = "rsync://localhost/repo/a&b'c.cer"
needs_xmllint = pytest.mark.skipif(shutil.which("xmllint") is None, reason="there is no xmllint")


def is_valid(path: pathlib.Path) -> bool:
    """Whether a file is valid by the schema."""
    ended = subprocess.run(
        ["xmllint", "--noout", "--huge", "--relaxng", str(SCHEMA), str(path)], stdout=subprocess.PIPE, stderr=subprocess.PIPE, check=False)
    return ended.returncode == 0


@pytest.fixture
def files(tmp_path: pathlib.Path) -> Files:
    """A folder of RRDP."""
    made = Files(tmp_path / "rrdp")
    made.prepare()
    return made


def root_of(files: Files, written: Written) -> ElementTree.Element:
    """The root of a file, whose size and digest are those that were told."""
    octets = (files.folder / written.name).read_bytes()
    assert (len(octets), hashlib.sha256(octets).digest()) == (written.size, written.digest)
    return ElementTree.fromstring(octets)


@needs_xmllint
def test_snapshot(files: Files) -> None:
    written = files.write_snapshot(SESSION, 7, iter([(URI, b"\0\xff"), ("rsync://localhost/repo/empty", b"")]))
    root = root_of(files, written)
    assert (root.tag, root.attrib) == (SPACE + "snapshot", {"version": "1", "session_id": SESSION, "serial": "7"})
    assert [(one.tag, one.attrib, base64.b64decode(one.text or "")) for one in root] == [
        (SPACE + "publish", {"uri": URI}, b"\0\xff"), (SPACE + "publish", {"uri": "rsync://localhost/repo/empty"}, b"")]
    assert is_valid(files.folder / written.name)
    empty = files.write_snapshot(SESSION, 7, iter([]))
    assert len(root_of(files, empty)) == 0 and is_valid(files.folder / empty.name)
    assert empty.name != written.name


@needs_xmllint
def test_delta(files: Files) -> None:
    written = files.write_delta(SESSION, 8, [Element(URI, None, b"1"), Element(URI + "2", OLD, b"2"), Element(URI + "3", OLD, None)])
    assert [(one.tag, one.attrib, base64.b64decode(one.text or "")) for one in root_of(files, written)] == [
        (SPACE + "publish", {"uri": URI}, b"1"),
        (SPACE + "publish", {"uri": URI + "2", "hash": OLD.hex()}, b"2"),
        (SPACE + "withdraw", {"uri": URI + "3", "hash": OLD.hex()}, b"")]
    assert is_valid(files.folder / written.name)


@needs_xmllint
def test_notification(files: Files) -> None:
    deltas = tuple(files.write_delta(SESSION, serial, [Element(URI, None, b"1")]) for serial in (7, 8))
    state = State(SESSION, files.write_snapshot(SESSION, 8, iter([(URI, b"1")])), deltas)
    files.write_notification(BASE, state)
    path = files.folder / "notification.xml"
    root = ElementTree.fromstring(path.read_bytes())
    assert root.attrib == {"version": "1", "session_id": SESSION, "serial": "8"}
    assert [(one.tag, one.attrib) for one in root] == [
        (SPACE + "snapshot", {"uri": BASE + state.snapshot.name, "hash": state.snapshot.digest.hex()}),
        *((SPACE + "delta", {"serial": str(one.serial), "uri": BASE + one.name, "hash": one.digest.hex()}) for one in reversed(deltas))]
    assert is_valid(path) and path.stat().st_mode & 0o777 == 0o644
    assert sorted(one.name for one in files.folder.iterdir()) == [".lock", SESSION, "notification.xml"]


@needs_xmllint
@pytest.mark.parametrize("text", [
    f'<delta xmlns="{rrdp.NAMESPACE}" version="1" session_id="{SESSION}" serial="1"/>',  # of no change
    f'<snapshot xmlns="{rrdp.NAMESPACE}" version="1" session_id="{SESSION}" serial="0"/>',
    f'<snapshot xmlns="{rrdp.NAMESPACE}" version="2" session_id="{SESSION}" serial="1"/>',
    f'<snapshot xmlns="{rrdp.NAMESPACE}" version="1" session_id="9df4b597" serial="1"/>',
    f'<snapshot version="1" session_id="{SESSION}" serial="1"/>',
    f'<snapshot xmlns="{rrdp.NAMESPACE}" version="1" session_id="{SESSION}" serial="1"><publish uri="rsync://a/b">AAA</publish></snapshot>',
    f'<snapshot xmlns="{rrdp.NAMESPACE}" version="1" session_id="{SESSION}" serial="1"><publish uri="http://a">AA==</publish></snapshot>',
    f'<notification xmlns="{rrdp.NAMESPACE}" version="1" session_id="{SESSION}" serial="1"/>',
])
def test_schema_refuses(tmp_path: pathlib.Path, text: str) -> None:
    (tmp_path / "file.xml").write_text(text, encoding="ascii")
    assert not is_valid(tmp_path / "file.xml")


def test_folded() -> None:
    one, two, three = b"1" * 32, b"2" * 32, b"3" * 32
    changes = [
        Change(1, 1, "a", None, one), Change(5, 1, "a", one, two),  # published as it was last
        Change(2, 1, "b", one, two), Change(3, 1, "b", two, None),  # withdrawn with the digest that others know
        Change(4, 1, "c", None, one), Change(6, 1, "c", one, None),  # came and went
        Change(7, 1, "d", one, two), Change(8, 1, "d", two, one),  # is as it was
        Change(9, 1, "e", one, None), Change(10, 1, "e", None, three),  # replaced
        Change(11, 2, "e", None, one),  # another publisher's
    ]
    assert [change[1:] for change in folded(changes)] == [
        (1, "a", None, two), (1, "b", one, None), (1, "e", one, three), (2, "e", None, one)]


def test_offered() -> None:
    """The newest deltas without a gap, together no larger than the snapshot."""
    def written(serial: int, size: int) -> Written:
        return Written(serial, f"{serial}", size, OLD)

    deltas = [written(serial, 10) for serial in (3, 4, 6, 7, 8, 9)]
    assert [one.serial for one in offered(deltas, written(9, 1000))] == [6, 7, 8, 9]
    assert [one.serial for one in offered(deltas, written(9, 30))] == [7, 8, 9]
    assert [one.serial for one in offered(deltas, written(9, 29))] == [8, 9]
    assert offered(deltas, written(9, 9)) == ()
    assert offered(deltas, written(10, 1000)) == ()  # the snapshot's own delta is missing
    assert offered([], written(1, 1)) == ()
    many = [written(serial, 1) for serial in range(1, 1000)]
    assert [one.serial for one in offered(many, written(999, 1000))] == list(range(1000 - rrdp.MOST_DELTAS, 1000))


def test_what_was_never_whole(files: Files) -> None:
    """What a worker left that was killed while it wrote a notification goes; one at a time is here."""
    left = files.folder / ".notification.xml-0123456789abcdef"
    left.write_bytes(b"<notif")
    files.prepare()
    assert not left.exists()
    begun, times = threading.Event(), list[float]()

    def hold() -> None:
        with Files(files.folder).locked():
            begun.set()
            time.sleep(0.3)
            times.append(time.monotonic())

    thread = threading.Thread(target=hold)
    thread.start()
    assert begun.wait(60.0)
    with files.locked():
        times.append(time.monotonic())
    thread.join()
    assert len(times) == 2 and times == sorted(times)


def test_dropped(files: Files) -> None:
    snapshots = [files.write_snapshot(SESSION, serial, iter([])) for serial in (1, 2)]
    delta = files.write_delta(SESSION, 2, [Element(URI, None, b"1")])
    state = State(SESSION, snapshots[1], (delta,))
    assert files.are_there(state)
    clock = [0.0]
    kept = Kept(10, lambda: clock[0])
    assert list(files.dropped(state).values()) == [snapshots[0].size]
    assert kept.due(files.dropped(state), 1000) == []
    clock[0] = 9.0
    assert kept.due(files.dropped(state), 1000) == []
    clock[0] = 10.0
    due = kept.due(files.dropped(state), 1000)
    assert due == [(files.folder / snapshots[0].name).parent]
    files.remove(due[0])
    assert not (files.folder / SESSION / "1").exists() and files.are_there(state)
    (files.folder / delta.name).write_bytes(b"")
    assert not files.are_there(state)


def test_no_room_for_dropped_files(tmp_path: pathlib.Path) -> None:
    """The oldest go first where there is no room for all."""
    clock = [0.0]
    kept, paths = Kept(100, lambda: clock[0]), [tmp_path / f"{number}" for number in range(4)]
    for number, path in enumerate(paths):
        path.mkdir()
        clock[0] = float(number)
        assert kept.due({one: 10 for one in paths[:number + 1]}, 40) == []
    assert kept.due({one: 10 for one in paths}, 25) == paths[:2]
    clock[0] = 101.0
    assert kept.due({one: 10 for one in paths}, 40) == paths[:2]
    assert kept.due({one: 10 for one in paths}, 15) == paths[:3]
