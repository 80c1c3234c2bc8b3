"""The server and the client by their commands, and what relying parties then have: by RRDP, and by rsync."""

from __future__ import annotations

import concurrent.futures
import pathlib
import shutil
import subprocess
import time
from typing import Callable, Iterator

import pytest
from launcher import Ended, run
from served import RSYNC_BASE, Served
from test_rrdp import is_valid, needs_xmllint
from test_tree import files_in
from working import Party

SECONDS = 120
HANDLES = "carol", "dave"
Files = dict[str, bytes]


@pytest.fixture
def served(tmp_path: pathlib.Path) -> Iterator[Served]:
    """A server that runs."""
    made = Served(tmp_path, "--pause", 0.1, "--tree-pause", 0.1)
    made.start()
    yield made
    made.kill()


class Folder:
    """A publisher's folder, with its setup message and its key."""

    def __init__(self, served: Served, handle: str) -> None:
        self.served = served
        self.handle = handle
        self.objects = served.folder / f"objects-{handle}"
        self.response = served.folder / f"{handle}-response.xml"
        served.add(handle)
        request = served.folder / f"{handle}.xml"
        assert run("serve", "add", request, "--data", served.data, "-o", self.response).status == 0

    def publish(self, files: Files) -> Ended:
        """Has the folder have these files alone, and publishes it."""
        shutil.rmtree(self.objects, ignore_errors=True)
        for name, octets in files.items():
            (self.objects / name).parent.mkdir(parents=True, exist_ok=True)
            (self.objects / name).write_bytes(octets)
        return run("publish", self.objects, "--response", self.response, "--key", self.served.folder / f"{self.handle}.pem")

    def uris(self, files: Files) -> Files:
        """The files by their URIs."""
        return {f"{RSYNC_BASE}{self.handle}/{name}": octets for name, octets in files.items()}


def wait_for(condition: Callable[[], bool]) -> None:
    """Waits until something is so."""
    end = time.monotonic() + SECONDS
    while not condition():
        assert time.monotonic() < end
        time.sleep(0.1)


def rsynced(served: Served) -> Files:
    """What rsync copies of the tree, by the URIs."""
    copy = served.folder / "copy"
    subprocess.run(["rsync", "-rc", "--delete", f"{served.data / 'tree' / 'current'}/", f"{copy}/"], check=True, timeout=SECONDS)
    return {RSYNC_BASE + name: octets for name, octets in files_in(copy).items()}


def has(party: Party, wanted: Files) -> bool:
    """Whether a relying party has this, once it has fetched."""
    if (party.folder / "notification.xml").exists():
        party.fetch()
    return party.objects == wanted


@needs_xmllint
@pytest.mark.skipif(shutil.which("rsync") is None, reason="there is no rsync")
def test_whole(served: Served) -> None:
    """Two publishers at once; what they publish comes out whole, also where the server is killed between, and goes when one is removed."""
    folders, party = [Folder(served, handle) for handle in HANDLES], Party(served.data / "rrdp")
    first: list[Files] = [{"a.cer": b"1", "0/b.roa": bytes(20000)}, {"a.cer": b"2", "c.mft": b""}]
    second: list[Files] = [{"a.cer": b"3", "0/b.roa": bytes(20000)}, {"a.cer": b"2", "d.crl": b"4"}]
    for files in (first, second):
        with concurrent.futures.ThreadPoolExecutor() as pool:
            ended = list(pool.map(Folder.publish, folders, files))
        assert [one.status for one in ended] == [0, 0], [one.said for one in ended]
        served.kill()
        served.start()
        wanted = {uri: octets for folder, held in zip(folders, files) for uri, octets in folder.uris(held).items()}
        wait_for(lambda: has(party, wanted))
        wait_for(lambda: rsynced(served) == wanted)
    assert run("serve", "remove", "dave", "--data", served.data).status == 0
    wait_for(lambda: has(party, folders[0].uris(second[0])))
    refused = folders[1].publish(second[1])
    assert (refused.status, "OtherAnswer" in refused.said and "404" in refused.said) == (1, True)
    assert all(map(is_valid, served.data.glob("rrdp/**/*.xml")))
    assert len({session for session, _ in party.seen}) == 2 and served.stop() == 0  # of snapshots and of deltas
