"""Logs, as lines or as JSON. What is logged of a query is who sent it, its kind, what came out and how long it took: never an object."""

from __future__ import annotations

import datetime
import json
import logging
import sys
from typing import Any

from calmizsed.server.options import JSON

NAME = "calmizsed.server"
LOG = logging.getLogger(NAME)
FIELDS = "publisher", "kind", "outcome", "changes", "cause", "milliseconds", "status"


def _when(record: logging.LogRecord) -> str:
    """When something was logged, as RFC 3339 writes it."""
    moment = datetime.datetime.fromtimestamp(record.created, datetime.timezone.utc)
    return moment.isoformat(timespec="milliseconds").replace("+00:00", "Z")


def _values(record: logging.LogRecord) -> dict[str, Any]:
    """The fields that a record has."""
    found = {name: getattr(record, name, None) for name in FIELDS}
    return {name: value for name, value in found.items() if value not in (None, "")}


def _one_line(text: str) -> str:
    """A text without line ends or other controls: a log has a line for each record, whatever a client sends."""
    return "".join(one if one.isprintable() else f"\\x{ord(one):02x}" for one in text)


class Lines(logging.Formatter):
    """A line for each record."""

    def format(self, record: logging.LogRecord) -> str:
        """The line of a record."""
        values = " ".join(f"{name}={_one_line(str(value))}" for name, value in _values(record).items())
        said = " ".join(filter(None, (_one_line(record.getMessage()), values)))
        trace = "" if record.exc_info is None else "\n" + self.formatException(record.exc_info)
        return f"{_when(record)} {record.levelname.lower()} {said}{trace}"


class Json(logging.Formatter):
    """A value of JSON in a line for each record."""

    def format(self, record: logging.LogRecord) -> str:
        """The line of a record."""
        said = {"time": _when(record), "level": record.levelname.lower(), "message": record.getMessage(), **_values(record)}
        if record.exc_info is not None:
            said["trace"] = self.formatException(record.exc_info)
        return json.dumps(said)


def begin(form: str) -> None:
    """Has logs go to standard error in a form."""
    handler = logging.StreamHandler(sys.stderr)
    handler.setFormatter(Json() if form == JSON else Lines())
    for name in (NAME, "waitress"):
        log = logging.getLogger(name)
        log.handlers[:] = [handler]
        log.propagate = False
        log.setLevel(logging.INFO if name == NAME else logging.ERROR)
