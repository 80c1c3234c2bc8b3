"""The tree for rsync: its versions, what they share, and what rsync fetches of it."""

from __future__ import annotations

import hashlib
import os
import pathlib
import shutil
import socket
import subprocess
import time
from typing import Iterator

import pytest

from calmizsed.server.places import NoPlace
from calmizsed.server.tree import CURRENT, Held, Tree

BASE = "rsync://localhost/repo/"
SECONDS = 60


class Objects:
    """Objects in memory."""

    def __init__(self, **octets: bytes) -> None:
        self.octets = {BASE + name.replace("__", "/"): held for name, held in octets.items()}
        self.asked: list[str] = []

    def held(self) -> Iterator[Held]:
        """Those, in the order of their URIs."""
        return (Held(1, uri, hashlib.sha256(held).digest()) for uri, held in sorted(self.octets.items()))

    def contents(self, wanted: list[Held]) -> Iterator[tuple[Held, bytes]]:
        """Their octets."""
        for one in wanted:
            self.asked.append(one.uri)
            yield one, self.octets[one.uri]


class Built:
    """A tree in a folder, and what was left out of it."""

    def __init__(self, folder: pathlib.Path) -> None:
        self.left_out: list[str] = []
        self.tree = Tree(folder, BASE, self.leave_out)
        self.tree.prepare(self.tree.store.paths())

    def leave_out(self, error: NoPlace) -> None:
        """Is told of an object that has no place."""
        self.left_out.append(error.cause)

    def switch_to(self, objects: Objects) -> pathlib.Path:
        """Builds a version, and has `current` point to it."""
        version = self.tree.build(objects.held(), objects.contents)
        self.tree.switch(version)
        return version


def files_in(folder: pathlib.Path) -> dict[str, bytes]:
    """The files of a folder and of those in it, by their paths."""
    return {str(path.relative_to(folder)): path.read_bytes() for path in folder.rglob("*") if path.is_file()}


@pytest.fixture
def built(tmp_path: pathlib.Path) -> Built:
    """A tree."""
    return Built(tmp_path / "tree")


def test_versions(built: Built) -> None:
    first = built.switch_to(Objects(a__x=b"1", a__y=b"2", b=b"1"))
    current = built.tree.folder / CURRENT
    assert files_in(current.resolve()) == {"a/x": b"1", "a/y": b"2", "b": b"1"}
    opened = os.open(current, os.O_RDONLY)
    second = Objects(a__x=b"1", a__y=b"3", c__d__e=b"")
    version = built.switch_to(second)
    assert files_in(current.resolve()) == {"a/x": b"1", "a/y": b"3", "c/d/e": b""}
    assert second.asked == [BASE + "a/y", BASE + "c/d/e"]  # what is there already isn't asked for
    assert files_in(first) == {"a/x": b"1", "a/y": b"2", "b": b"1"}  # who was in the old version sees it whole
    assert sorted(os.listdir(opened)) == ["a", "b"]
    os.close(opened)
    assert (first / "a" / "x").stat().st_ino == (version / "a" / "x").stat().st_ino
    assert (version / "a" / "x").stat().st_mode & 0o777 == 0o644 and (version / "a").stat().st_mode & 0o777 == 0o755


def test_old_versions(built: Built) -> None:
    first, second = built.switch_to(Objects(a=b"1", b=b"2")), built.switch_to(Objects(a=b"1"))
    assert built.tree.dropped() == {first: 1}
    built.tree.remove([first])
    assert not first.exists() and files_in(second) == {"a": b"1"}
    stored = [path.name for path in built.tree.store.folder.rglob("*") if path.is_file()]
    assert stored == [hashlib.sha256(b"1").hexdigest()]


def test_left_out(built: Built) -> None:
    objects = Objects(a=b"1", a__b=b"2", c=b"3")
    objects.octets[BASE + "../out"] = b"4"
    built.switch_to(objects)
    assert files_in((built.tree.folder / CURRENT).resolve()) == {"a": b"1", "c": b"3"}
    assert [BASE + "../out" in built.left_out[0], BASE + "a/b" in built.left_out[1]] == [True, True]
    assert not (built.tree.folder / "out").exists()


def test_broken_build(built: Built) -> None:
    version = built.switch_to(Objects(a=b"1"))

    def broken(_: list[Held]) -> Iterator[tuple[Held, bytes]]:
        raise OSError("no database")
        yield  # a generator

    with pytest.raises(OSError):
        built.tree.build(Objects(a=b"1", b=b"2").held(), broken)
    assert not built.tree.dropped() and files_in(version) == {"a": b"1"}


def test_store_after_loss_of_power(built: Built) -> None:
    """A file whose octets were lost is written anew after a start."""
    built.switch_to(Objects(a=b"whole"))
    stored = built.tree.store.path(hashlib.sha256(b"whole").digest())
    stored.write_bytes(b"")
    (built.tree.folder / f".{CURRENT}-left").symlink_to("version-left")
    again = Built(built.tree.folder)
    again.switch_to(Objects(a=b"whole"))
    assert files_in((again.tree.folder / CURRENT).resolve()) == {"a": b"whole"}
    assert not list(again.tree.folder.glob(f".{CURRENT}-*"))


def test_many_links(built: Built, monkeypatch: pytest.MonkeyPatch) -> None:
    """A file can have so many links alone: one more is a new file."""
    link, most = os.link, 3

    def few(source: pathlib.Path, target: pathlib.Path) -> None:
        if os.stat(source).st_nlink >= most:
            raise OSError(31, "Too many links")
        link(source, target)

    monkeypatch.setattr(os, "link", few)
    built.switch_to(Objects(**{f"a{number}": b"same" for number in range(7)}))
    assert set(files_in((built.tree.folder / CURRENT).resolve()).values()) == {b"same"}
    assert len(files_in((built.tree.folder / CURRENT).resolve())) == 7


@pytest.mark.skipif(shutil.which("rsync") is None, reason="there is no rsync")
def test_daemon(built: Built, tmp_path: pathlib.Path) -> None:
    """A daemon of rsync hands out the version to which `current` points, at each connection anew."""
    with socket.socket() as free:
        free.bind(("127.0.0.1", 0))
        port = free.getsockname()[1]
    settings = tmp_path / "rsyncd.conf"
    settings.write_text(
        f"port = {port}\naddress = 127.0.0.1\nuse chroot = no\nlog file = {tmp_path / 'log'}\n"
        f"[repo]\npath = {built.tree.folder / CURRENT}\nread only = yes\n", encoding="ascii")
    built.switch_to(Objects(a__x=b"1", b=b"2"))
    daemon = subprocess.Popen(["rsync", "--daemon", "--no-detach", f"--config={settings}"], stdin=subprocess.DEVNULL)
    try:
        copy = tmp_path / "copy"
        words = ["rsync", "-rt", "--delete", f"rsync://127.0.0.1:{port}/repo/", f"{copy}/"]
        end = time.monotonic() + SECONDS
        while subprocess.run(words, stderr=subprocess.DEVNULL, check=False).returncode:
            assert time.monotonic() < end
            time.sleep(0.2)
        assert files_in(copy) == {"a/x": b"1", "b": b"2"}
        time.sleep(1.1)  # rsync compares sizes and whole seconds
        built.switch_to(Objects(a__x=b"3", c=b"4"))
        subprocess.run(words, check=True, timeout=SECONDS)
        assert files_in(copy) == {"a/x": b"3", "c": b"4"}
    finally:
        daemon.terminate()
        daemon.wait(SECONDS)
