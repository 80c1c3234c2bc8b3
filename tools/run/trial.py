#!/usr/bin/env python3
"""Tries a program without proofs, by `rt try`.

    tools/run/trial.py PROGRAM [WORDS ..] < INPUT

`RPKI_UNPROVED=1 ./rpkica WORDS < INPUT` calls it. Output and status are the program's own, and rt's lines are kept away; one line on
standard error says that nothing was proved. The program gets all of the input at once, and its output comes when it has ended. What rt try
can't do ends with status 125 and a line that says what: standard input that isn't there, or that is a terminal where it may be read; input
of 64 MiB or more; output of more than 1 MiB; more than ten minutes; and a fault that its checks find, whose lines are shown. So does an
unknown program, or no rt."""

from __future__ import annotations

import os
import pathlib
import re
import shutil
import signal
import subprocess
import sys
import tempfile
from typing import NoReturn, Optional

TOP = pathlib.Path(__file__).resolve().parents[2]
NOT_TRIED = 125
INPUT_MOST = 64 << 20  # rt try takes less than so many octets
SECONDS = 600
ENDED = re.compile(rb"^run=ended status=(\d+) .*proved=no\n\Z", re.M)
OF_RT = re.compile(rb"(interpreter|checked|races|rt): |run=")


def refuse(program: str, why: str) -> NoReturn:
    """Says why there is no trial, and ends."""
    print(f"{program}: not tried: {why}", file=sys.stderr)
    sys.exit(NOT_TRIED)


def reads_nothing(words: list[str]) -> bool:
    """Whether a program reads nothing with these words."""
    return words in ([], ["--help"], ["--version"])


def take_input(program: str, words: list[str], to: pathlib.Path) -> None:
    """Copies standard input to its end: rt try would take of a slow pipe what has come so far."""
    try:
        os.fstat(0)
    except OSError:
        refuse(program, "standard input isn't there; give it < FILE, or < /dev/null")
    if os.isatty(0):
        if not reads_nothing(words):
            refuse(program, "standard input is a terminal; a trial takes < FILE or a pipe")
        to.touch()
        return
    size = 0
    with open(to, "wb") as out:
        while more := read_some(program):
            out.write(more)
            size += len(more)
            if size >= INPUT_MOST:
                refuse(program, f"a trial takes less than {INPUT_MOST} octets of input; the proved program takes more")


def read_some(program: str) -> bytes:
    """Some octets of standard input; none at its end."""
    try:
        return os.read(0, 1 << 20)
    except OSError as error:
        refuse(program, f"standard input can't be read: {error.strerror}")


def run_try(program: str, words: list[str], room: pathlib.Path) -> None:
    """Runs rt, which cleans up by itself where a signal ends it."""
    with open(room / "stdin", "rb") as given, open(room / "stdout", "wb") as out, open(room / "stderr", "wb") as said:
        process = subprocess.Popen(
            ["rt", "try", "--seconds", str(SECONDS), "--", *words],
            cwd=TOP / "crates" / program,
            stdin=given,
            stdout=out,
            stderr=said,
            start_new_session=True,
        )
        try:
            process.wait()
        finally:
            process.terminate()
            process.wait()


def leave(number: int, _frame: object) -> NoReturn:
    """Ends as a signal asks."""
    sys.exit(128 + number)


def own_status(said: bytes) -> Optional[int]:
    """The program's own status, where rt says that it ended."""
    ended = ENDED.search(said)
    return int(ended[1]) if ended else None


def why_not(said: bytes) -> str:
    """Why there is no answer, by what rt said."""
    if b"wrote more than" in said:
        return "the program wrote more than 1 MiB, which a trial can't hand on; the proved program can"
    return "rt try has no answer:\n" + said.decode(errors="replace").rstrip("\n")


def hand_on(program: str, out: bytes, said: bytes) -> None:
    """Writes what the program wrote."""
    of_program = [line for line in said.splitlines(keepends=True) if not OF_RT.match(line)]
    sys.stderr.buffer.write(b"".join(of_program))
    sys.stderr.flush()
    try:
        with open(1, "wb", closefd=False) as to:
            to.write(out)
    except OSError as error:
        refuse(program, f"standard output can't be written: {error.strerror}")


def attempt(program: str, words: list[str], room: pathlib.Path) -> int:
    """Tries a program in a folder; its status."""
    take_input(program, words, room / "stdin")
    print(f"{program}: a trial: nothing is proved; without RPKI_UNPROVED, ./{program} is proved and built first", file=sys.stderr)
    run_try(program, words, room)
    said = (room / "stderr").read_bytes()
    status = own_status(said)
    if status is None:
        refuse(program, why_not(said))
    hand_on(program, (room / "stdout").read_bytes(), said)
    return status


def main() -> int:
    """Tries the program that the words name; its status."""
    if len(sys.argv) < 2:
        sys.exit("usage: tools/run/trial.py PROGRAM [WORDS ..] < INPUT")
    program, words = sys.argv[1], sys.argv[2:]
    if not (TOP / "crates" / program / "src" / "main.rt").is_file():
        refuse(program, "there is no such program")
    for number in (signal.SIGINT, signal.SIGTERM, signal.SIGHUP):
        signal.signal(number, leave)
    if not shutil.which("rt"):
        refuse(program, "rt isn't found: README says which toolchain this needs")
    with tempfile.TemporaryDirectory(prefix="trial-") as room:
        return attempt(program, words, pathlib.Path(room))


if __name__ == "__main__":
    sys.exit(main())
