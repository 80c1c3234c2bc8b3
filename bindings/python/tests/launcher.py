"""Runs of the command by the launcher at the top: through pipes, and in a terminal of 80 columns."""

from __future__ import annotations

import os
import pathlib
import subprocess
import sys
from typing import NamedTuple, Optional, Union

import pexpect
from support import EXAMPLES, TREE

LAUNCHER = TREE / "calmizsed"
QUERY = EXAMPLES / "rsa-query.der"
KEY = EXAMPLES / "rsa-issuer-public.pem"
LIST = (EXAMPLES / "query-list.xml").read_bytes()
CHILD_REQUEST = EXAMPLES / "rsa-child-request.xml"
AT_SIGNED = "2026-11-29T04:42:30Z"  # SIGNED_AT, by `date`
PLACES = "--repository", "rsync://localhost/ca/", "--manifest", "rsync://localhost/ca/ca.mft"
SECONDS = 60
Word = Union[str, pathlib.Path, int]


class Ended(NamedTuple):
    """How a run ended."""

    status: int
    out: bytes
    said: str


def run(*words: Word, data: bytes = b"", folder: Optional[pathlib.Path] = None, **environment: str) -> Ended:
    """A run through pipes."""
    ended = subprocess.run(
        [str(LAUNCHER), *map(str, words)], input=data, stdout=subprocess.PIPE, stderr=subprocess.PIPE, check=False, cwd=folder,
        env={**os.environ, "PYTHON": sys.executable, **environment})
    return Ended(ended.returncode, ended.stdout, ended.stderr.decode("utf-8"))


def in_terminal(*words: Word, given: str = "", passphrase: str = "", **environment: str) -> tuple[int, str]:
    """A run in a terminal, where an input is typed, or a passphrase when it is asked for: the status, and all that is shown."""
    settings = {name: value for name, value in os.environ.items() if name not in ("COLUMNS", "LINES", "NO_COLOR")}
    child = pexpect.spawn(
        str(LAUNCHER), [str(word) for word in words], dimensions=(24, 80), timeout=SECONDS, encoding="utf-8",
        env={**settings, "PYTHON": sys.executable, "TERM": "xterm", **environment})
    shown = ""
    if given:
        child.sendline(given)
        child.sendeof()
    if passphrase:
        child.expect("Passphrase of [^:]*: ")
        shown += child.before + child.after
        child.sendline(passphrase)
    child.expect(pexpect.EOF)
    shown += child.before
    child.close()
    return int(child.exitstatus), shown
