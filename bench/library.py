#!/usr/bin/env python3
"""Times the library for C and what stands on it: a query of a kilobyte and one of a megabyte, received under a real RSA key.

    bench/library.py [--library DIR] [--seconds N]

DIR is where the Makefile put the library, else out/c, and N how long a round takes, of which the best of three counts; else one. It takes a
C compiler, OpenSSL's libcrypto with its headers, and the package `cryptography` of this Python; cargo for the row of Rust, and the
built program rpkikeys, or the one that RPKIKEYS names, for that of the program. It says which rows it leaves out.

Printed are the microseconds of a call in the quickest millisecond, or of the quickest call; the calls a second on one thread and on four;
and their ratio. So other work of the machine is seldom seen in the first column, and always in the others. The rows are

- the library with libcrypto's RSA, as bindings/c/receive.c has it, and with each answer yes, which is receipt without the signatures'
  arithmetic;
- on the same message CMS_verify of libcrypto, which looks at one signature and decides nothing else; and X509_verify and X509_CRL_verify
  with it, which look at the other two signatures that the library asks for;
- the program rpkikeys, which is started anew for each message and is handed the answers;
- Rust and Python with each answer yes: what they are more than C is what the language costs; and Python with `cryptography`.

Keys and messages are drawn in a temporary folder, which is removed. The aims count on a machine that does nothing else."""

from __future__ import annotations

import argparse
import datetime
import functools
import importlib
import os
import pathlib
import re
import shutil
import subprocess
import sys
import tempfile
import time
from typing import Any, Callable, Iterator, NamedTuple, Optional

TOP = pathlib.Path(__file__).resolve().parent.parent
SIZES = {"1 kB": 1 << 10, "1 MB": 1 << 20}
OBJECT = 600  # octets of an object, so that the smallest query has one
ROUNDS, THREADS, BATCH = 3, 4, 1e-3
AIMS = {"answers": 60, "Rust": 5, "Python": 60}
LEAST_RATIO = 3.6


class Skipped(Exception):
    """A row can't be made here."""


class Given(NamedTuple):
    """A message and its issuer's key, in files too, and when it was signed."""

    folder: pathlib.Path
    message: bytes
    key: bytes
    seconds: int

    def words(self) -> list[str]:
        """The files and the time, as C and Rust take them."""
        return [str(self.folder / "message"), str(self.folder / "key"), str(self.seconds)]


class Row(NamedTuple):
    """The microseconds of a call, and how many there are a second on one thread and on several."""

    microseconds: float
    alone: Optional[float] = None
    together: Optional[float] = None


def package() -> Any:
    """The package for Python."""
    sys.path.insert(0, str(TOP / "bindings" / "python" / "src"))
    return importlib.import_module("calmizsed")


def query(calmizsed: Any, size: int) -> str:
    """A query with objects that spell so many octets in all."""
    publication = calmizsed.publication
    most = max(size // (OBJECT * 4 // 3 + 60), 1)
    return str(publication.ChangeQuery(tuple(
        publication.Publish(f"rsync://localhost/ca/{place}.roa", os.urandom(OBJECT)) for place in range(most))).to_xml())


def given(calmizsed: Any, folder: pathlib.Path, size: int) -> Given:
    """A new message of about this size, under a new key of 2048 bits."""
    issuer, now = calmizsed.keys.PrivateKey.generate(), calmizsed.now()
    message = calmizsed.create(calmizsed.Kind.PUBLICATION, query(calmizsed, size), issuer, now)
    (folder / "message").write_bytes(message)
    (folder / "key").write_bytes(issuer.public_key)
    return Given(folder, message, issuer.public_key, int(now.timestamp()))


def run(words: list[str], **how: Any) -> str:
    """What a command writes, which has to succeed."""
    ended = subprocess.run(words, stdout=subprocess.PIPE, stderr=subprocess.PIPE, check=False, **how)
    if ended.returncode:
        raise Skipped(f"{words[0]} ended with {ended.returncode}: {ended.stderr.decode('utf-8', 'replace').strip()[-300:]}")
    return str(ended.stdout, "utf-8")


# ---- the rows


def compiled(folder: pathlib.Path, library: pathlib.Path) -> pathlib.Path:
    """The program in C."""
    if not shutil.which("cc"):
        raise Skipped("there is no cc")
    made = folder / "library"
    run(["cc", "-std=c99", "-O2", f"-I{TOP / 'include'}", "-o", str(made), str(TOP / "bench" / "library.c"),
         str(library / "libcalmizsed.a"), "-lcrypto", "-pthread"])
    return made


def in_c(program: pathlib.Path, way: str, it: Given, seconds: float) -> Row:
    """Calls of a way in C, on one thread and on several."""
    def measured(threads: int) -> tuple[float, float]:
        calls, took, least = run([str(program), *it.words(), way, str(threads), str(seconds)]).split()
        return int(calls) / float(took), float(least)

    alone, together = ([measured(threads) for _ in range(ROUNDS)] for threads in (1, THREADS))
    return Row(1e6 * min(least for _, least in alone), max(alone)[0], max(together)[0])


def by_program(calmizsed: Any, it: Given) -> Row:
    """Runs of the program, with the answers in its words."""
    program = pathlib.Path(os.environ.get("RPKIKEYS", str(TOP / "crates" / "rpkikeys" / "out" / "rpkikeys")))
    if not program.exists():
        raise Skipped(f"{program} isn't built")
    key, message = it.key.hex(), it.message.hex().encode("ascii")
    digest = calmizsed.library().call("message_questions", it.message, it.key).octets[-32:].hex()
    words = [str(program), "receive", "publication", str(it.seconds), "-", digest, "111", key]

    def once() -> None:
        subprocess.run(words, input=message, stdout=subprocess.DEVNULL, check=True)

    return repeated(once, 1)


def in_rust(library: pathlib.Path, it: Given) -> Row:
    """Calls of the crate."""
    if not shutil.which("cargo"):
        raise Skipped("there is no cargo")
    words = ["cargo", "bench", "--offline", "--quiet", "--bench", "receive", "--", *it.words()]
    said = run(words, cwd=TOP / "bindings" / "rust", env={**os.environ, "CALMIZSED_LIB_DIR": str(library.resolve())})
    found = re.search(r"^([\d.]+) microseconds a call$", said, re.MULTILINE)
    if found is None:
        raise Skipped(f"cargo bench wrote {said[-300:]!r}")
    return Row(float(found[1]))


def in_python(calmizsed: Any, it: Given, seconds: float, **how: Any) -> Row:
    """Calls of the package."""
    when = datetime.datetime.fromtimestamp(it.seconds, datetime.timezone.utc)
    return repeated(lambda: calmizsed.receive(calmizsed.Kind.PUBLICATION, it.message, [it.key], when, **how), seconds)


def repeated(once: Callable[[], object], seconds: float) -> Row:
    """Calls of a function here, one after the other."""
    least, most = float("inf"), 0.0
    for _ in range(ROUNDS):
        started, calls = time.perf_counter(), 0
        while calls == 0 or time.perf_counter() - started < seconds:
            begun, batch = time.perf_counter(), 0
            while batch == 0 or time.perf_counter() - begun < BATCH:
                once()
                batch += 1
            least = min(least, (time.perf_counter() - begun) / batch)
            calls += batch
        most = max(most, calls / (time.perf_counter() - started))
    return Row(1e6 * least, most)


# ---- the table


def rows(calmizsed: Any, library: pathlib.Path, it: Given, seconds: float) -> Iterator[tuple[str, str, Callable[[], Row]]]:
    """The name of each row, what it is, and how it is made."""
    program = functools.lru_cache(maxsize=None)(lambda: compiled(it.folder, library))
    for way, what in (("receive", "C, with libcrypto's RSA"), ("answers", "C, without signatures' arithmetic"), ("cms", "CMS_verify"),
                      ("all", "CMS_verify, and certificate and CRL")):
        yield way, what, lambda way=way: in_c(program(), way, it, seconds)  # type: ignore[misc]
    yield "program", "rpkikeys, a process each", lambda: by_program(calmizsed, it)
    yield "Rust", "Rust, without signatures' arithmetic", lambda: in_rust(library, it)
    yield "Python", "Python, without signatures' arithmetic", lambda: in_python(calmizsed, it, seconds, verifier=lambda *_: True)
    yield "whole", "Python, with cryptography", lambda: in_python(calmizsed, it, seconds)


def shown(number: Optional[float]) -> str:
    """Calls a second."""
    return "" if number is None else f"{number:.0f}"


def line(what: str, row: Row) -> str:
    """A row of the table."""
    ratio = "" if row.alone is None or row.together is None else f"{row.together / row.alone:.2f}"
    return f"{what:<40} {row.microseconds:>14.1f} {shown(row.alone):>12} {shown(row.together):>14} {ratio:>7}"


def said_of(made: dict[str, Row], is_small: bool) -> Iterator[str]:
    """What the rows say beside the aims."""
    if "answers" in made and is_small:
        core = made["answers"]
        yield f"without signatures' arithmetic: {core.microseconds:.1f} microseconds (the aim is {AIMS['answers']})"
        for name in ("Rust", "Python"):
            if name in made:
                yield f"{name} over C: {made[name].microseconds - core.microseconds:.1f} microseconds (the aim is {AIMS[name]})"
    if "receive" in made and made["receive"].alone and made["receive"].together:
        yield f"{THREADS} threads: {made['receive'].together / made['receive'].alone:.2f} times one (the aim is {LEAST_RATIO})"


def measure(calmizsed: Any, library: pathlib.Path, name: str, size: int, seconds: float) -> None:
    """Prints the table of a message of this size."""
    with tempfile.TemporaryDirectory() as folder:
        it = given(calmizsed, pathlib.Path(folder), size)
        print(f"\na query of {name}: a signed message of {len(it.message)} octets")
        print(f"{'':<40} {'microseconds':>14} {'calls a s':>12} {f'{THREADS} threads':>14} {'ratio':>7}")
        made: dict[str, Row] = {}
        for row, what, make in rows(calmizsed, library, it, seconds):
            try:
                made[row] = make()
                print(line(what, made[row]), flush=True)
            except Skipped as why:
                print(f"{what:<40} left out: {why}", flush=True)
        print("\n".join(said_of(made, size == min(SIZES.values()))))


def main() -> None:
    """Measures both messages."""
    parser = argparse.ArgumentParser(description=__doc__, formatter_class=argparse.RawDescriptionHelpFormatter)
    parser.add_argument("--library", type=pathlib.Path, default=TOP / "out" / "c", metavar="DIR")
    parser.add_argument("--seconds", type=float, default=1.0, metavar="N")
    asked = parser.parse_args()
    if not (asked.library / "libcalmizsed.a").exists():
        parser.error(f"{asked.library} has no libcalmizsed.a: make builds it")
    os.environ["CALMIZSED_LIBRARY"] = str((asked.library / "libcalmizsed.so.0").resolve())
    try:
        calmizsed = package()
    except ImportError as error:
        parser.error(f"{sys.executable} has no {error.name}")
    print(f"{os.cpu_count()} processors, with a load of {os.getloadavg()[0]:.1f}")
    for name, size in SIZES.items():
        try:
            measure(calmizsed, asked.library, name, size, asked.seconds)
        except Skipped as why:
            print(f"left out: {why}")


if __name__ == "__main__":
    main()
