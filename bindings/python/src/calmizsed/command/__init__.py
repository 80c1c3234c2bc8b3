"""The command `calmizsed`: signed messages, setup messages, trust anchors and certificate requests, in files."""

from __future__ import annotations

import argparse
import json
import os
import sys
from typing import Optional, Sequence

from calmizsed.command import verbs
from calmizsed.command.inputs import WRITE_FAULT, tell, write
from calmizsed.command.words import asked_of
from calmizsed.errors import CalmizsedError

INTERRUPTED = 130


def refused(asked: argparse.Namespace, error: CalmizsedError) -> int:
    """Says why there is no result, in JSON too where that is asked for; the exit status."""
    tell(str(error))
    if getattr(asked, "json", False) and error.name != "WriteFault":
        said = {"name": error.name, "status": error.status, "check": error.check, "cause": error.cause}
        try:
            write(None, (json.dumps(said) + "\n").encode("ascii"))
        except CalmizsedError as fault:
            tell(str(fault))
    return error.status


def main(words: Optional[Sequence[str]] = None) -> int:
    """Does what the words ask for; the exit status."""
    asked = asked_of(words)
    try:
        try:
            run = asked.run if "run" in asked else getattr(verbs, asked.verb)
            status: int = run(asked)
            return status
        except CalmizsedError as error:
            return refused(asked, error)
    except BrokenPipeError:
        os.dup2(os.open(os.devnull, os.O_WRONLY), sys.stdout.fileno())
        return WRITE_FAULT
    except KeyboardInterrupt:
        return INTERRUPTED
