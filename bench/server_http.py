#!/usr/bin/env python3
"""Measures the publication server over HTTP: queries a second, by how many publishers, with how large deltas, for how much is held.

    bench/server_http.py [--held 1000,1000000] [--publishers 1,4,16] [--objects 1,100,10000] [--seconds 10] [--database ADDRESS]
                         [--processes N] [--key-uses N]

It takes what `calmizsed serve` takes; PYTHON names another Python. A publisher signs at most one query for each second, and signs 500
of them ahead, in the window for which messages are valid; so the queries are there before the clock runs, no reply is held back for the
next one (`--hold 0`), and no files are written for relying parties (`--no-worker`). What signing alone allows is measured by the calls that
the server makes for a reply, in as many processes and on as many threads as it has; with `--key-uses 1` that is mostly to draw keys. The
aims count on a machine that does nothing else. SQLite's file is in TMPDIR, and each commit waits for its disk."""
from __future__ import annotations

import argparse
import hashlib
import http.client
import multiprocessing
import pathlib
import socket
import statistics
import subprocess
import sys
import tempfile
import threading
import time
from typing import Any, NamedTuple, Optional

TOP = pathlib.Path(__file__).resolve().parents[1]
sys.path.insert(0, str(TOP / "bindings" / "python" / "src"))

from sqlalchemy import delete, func, insert, select, update  # noqa: E402

import calmizsed  # noqa: E402
from calmizsed import Kind, keys, publication  # noqa: E402
from calmizsed._values import moment_of  # noqa: E402
from calmizsed.server import publishers, running, tables  # noqa: E402
from calmizsed.server.answering import Remembering  # noqa: E402
from calmizsed.server.one_off import OneOffKeys  # noqa: E402
from calmizsed.server.options import Options  # noqa: E402

TYPE = "application/rpki-publication"
WINDOW = 250  # seconds before and behind the clock for which queries are signed ahead
OCTETS = 1000  # of an object
ROWS = 10000
SECONDS = 600.0


class Measured(NamedTuple):
    """What came out."""

    queries: int
    seconds: float
    times: list[float]


class Bench:
    """A server in a folder, with publishers that have keys."""

    def __init__(self, folder: pathlib.Path, database: Optional[str], most: int, processes: int, uses: int) -> None:
        self.folder = folder
        self.words = "--processes", str(processes), "--key-uses", str(uses)
        with socket.socket() as one:
            one.bind(("127.0.0.1", 0))
            self.port = int(one.getsockname()[1])
        words = [
            "--url", "http://127.0.0.1", "--rsync-base", "rsync://localhost/repo/", "--rrdp-uri", "https://localhost/rrdp/"]
        self.command("init", *words, *([] if database is None else ["--database", database]))
        self.opened = running.opened(folder)
        self.keys = [keys.PrivateKey.generate() for _ in range(most)]
        self.one_off = keys.PrivateKey.generate()
        with self.opened.database.writing() as connection:
            self.publishers = [
                publishers.add(connection, "rsync://localhost/repo/", f"bench{number}", key.public_key, 0)
                for number, key in enumerate(self.keys)]
        self._process: Optional[subprocess.Popen[bytes]] = None

    def command(self, verb: str, *words: str) -> None:
        """Runs one of the server's commands."""
        subprocess.run([str(TOP / "calmizsed"), "serve", verb, "-q", "--data", str(self.folder), *words], check=True)

    def start(self) -> None:
        """Starts the server."""
        self._process = subprocess.Popen(
            [str(TOP / "calmizsed"), "serve", "run", "--data", str(self.folder), "--listen", f"127.0.0.1:{self.port}", "--most",
             str(1 << 28), "--hold", "0", "--no-worker", *self.words],
            stdin=subprocess.DEVNULL, stdout=subprocess.DEVNULL, stderr=subprocess.DEVNULL, start_new_session=True)
        while True:
            try:
                socket.create_connection(("127.0.0.1", self.port)).close()
                return
            except ConnectionRefusedError:
                time.sleep(0.1)

    def stop(self) -> None:
        """Ends the server."""
        if self._process is not None:
            self._process.terminate()
            self._process.wait()
            self._process = None

    def hold(self, wanted: int) -> None:
        """Has the first publisher hold so many objects, and none know of a signing time."""
        first = self.publishers[0]
        with self.opened.database.writing() as connection:
            connection.execute(delete(tables.OBJECTS).where(tables.OBJECTS.c.uri.notlike("%/held/%")))
            connection.execute(delete(tables.CHANGES))
            connection.execute(update(tables.PUBLISHERS).values(last_time=None))
            there = connection.execute(select(func.count()).select_from(tables.OBJECTS)).scalar_one()
            for begin in range(there, wanted, ROWS):
                rows: list[dict[str, Any]] = []
                for number in range(begin, min(begin + ROWS, wanted)):
                    octets = number.to_bytes(8, "big") * (OCTETS // 8)
                    rows.append({
                        "publisher": first.number, "uri": f"{first.base}held/{number:08}", "digest": hashlib.sha256(octets).digest(),
                        "octets": octets})
                connection.execute(insert(tables.OBJECTS), rows)

    def signed(self, place: int, objects: int, wanted: int) -> list[bytes]:
        """Queries of a publisher, each of which publishes so many new objects."""
        begin = int(time.time()) - WINDOW
        found = []
        for number in range(min(wanted, 2 * WINDOW)):
            changes = tuple(
                publication.Publish(f"{self.publishers[place].base}new/{number}-{one}", bytes(OCTETS)) for one in range(objects))
            found.append(calmizsed.create(
                Kind.PUBLICATION, publication.ChangeQuery(changes).to_xml(), self.keys[place], moment_of(begin + number),
                one_off_key=self.one_off))
        return found

    def run(self, count: int, objects: int, seconds: float) -> Measured:
        """Has so many publishers send what they signed, each a query behind the other, for so long."""
        wanted = 2 * WINDOW if objects == 1 else 40 if objects <= 100 else 3
        all_queries = [self.signed(place, objects, wanted) for place in range(count)]
        times, bodies = list[float](), list[bytes]()
        end = time.perf_counter() + seconds

        def work(place: int) -> None:
            connection = http.client.HTTPConnection("127.0.0.1", self.port, timeout=SECONDS)
            path = f"/rfc8181/{self.publishers[place].word}"
            for query in all_queries[place]:
                begin = time.perf_counter()
                if begin > end:
                    break
                while True:  # where it is told to, it comes again
                    connection.request("POST", path, query, {"Content-Type": TYPE})
                    answer = connection.getresponse()
                    body = answer.read()
                    if answer.status != 503:
                        break
                    time.sleep(0.05)
                times.append(time.perf_counter() - begin)
                bodies.append(body if answer.status == 200 else b"")

        begin = time.perf_counter()
        threads = [threading.Thread(target=work, args=(place,)) for place in range(count)]
        for thread in threads:
            thread.start()
        for thread in threads:
            thread.join()
        found = Measured(len(times), time.perf_counter() - begin, times)
        if not all(body and b"success" in calmizsed.content(body) for body in bodies):
            raise SystemExit("an answer that is no success")
        return found


def signing_alone(seconds: float, uses: int) -> float:
    """Replies a second that are signed, as the server signs them, where there is nothing else to do."""
    signer, one_off = Remembering(keys.PrivateKey.generate()), OneOffKeys(uses=uses)
    one_off.take()  # the first one is drawn before the clock runs
    end, made, text = time.perf_counter() + seconds, [0] * Options.threads, publication.SuccessReply().to_xml()

    def work(place: int) -> None:
        while time.perf_counter() < end:
            calmizsed.create(Kind.PUBLICATION, text, signer, calmizsed.now(), one_off_key=one_off.take())
            made[place] += 1

    threads = [threading.Thread(target=work, args=(place,)) for place in range(len(made))]
    begin = time.perf_counter()
    for thread in threads:
        thread.start()
    for thread in threads:
        thread.join()
    return sum(made) / (time.perf_counter() - begin)


def signing_in(processes: int, seconds: float, uses: int) -> float:
    """The same in several processes at once."""
    with multiprocessing.get_context("spawn").Pool(processes) as pool:
        return sum(pool.starmap(signing_alone, [(seconds, uses)] * processes, chunksize=1))


def numbers(word: str) -> list[int]:
    """Numbers with commas between them."""
    return [int(one) for one in word.split(",")]


def main() -> None:
    """Measures what the words ask for."""
    parser = argparse.ArgumentParser()
    parser.add_argument("--held", type=numbers, default=[1000, 1000000])
    parser.add_argument("--publishers", type=numbers, default=[1, 4, 16])
    parser.add_argument("--objects", type=numbers, default=[1, 100, 10000])
    parser.add_argument("--seconds", type=float, default=10.0)
    parser.add_argument("--database")
    parser.add_argument("--processes", type=int, default=1)
    parser.add_argument("--key-uses", type=int, default=Options.key_uses)
    asked = parser.parse_args()
    print(f"signing alone: {signing_in(asked.processes, asked.seconds, asked.key_uses):.0f} replies a second", flush=True)
    print("held, publishers, objects a delta: queries a second, milliseconds of the middle one and of the slowest of twenty")
    with tempfile.TemporaryDirectory(prefix="bench-") as folder:
        bench = Bench(pathlib.Path(folder), asked.database, max(asked.publishers), asked.processes, asked.key_uses)
        for held in sorted(asked.held):
            for count in asked.publishers:
                for objects in asked.objects:
                    bench.hold(held)
                    bench.start()
                    try:
                        found = bench.run(count, objects, asked.seconds)
                    finally:
                        bench.stop()
                    times = sorted(found.times)
                    print(
                        f"{held}, {count}, {objects}: {found.queries / found.seconds:.1f}, {1000 * statistics.median(times):.1f}, "
                        f"{1000 * times[len(times) * 19 // 20]:.1f}", flush=True)


if __name__ == "__main__":
    main()
