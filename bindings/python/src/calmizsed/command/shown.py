"""How results are shown: tables, colour on a terminal alone, a bar where work is long."""

from __future__ import annotations

import os
import shutil
import sys
import textwrap
from collections import Counter
from typing import Any, Iterable, Optional, TextIO
from xml.etree import ElementTree

from calmizsed import CheckResult, Inspection, Kind, content, read
from calmizsed._messages import shown_time
from calmizsed.command.inputs import is_terminal
from calmizsed.errors import CalmizsedError

COLOURS = {"ok": "32", "FAILED": "31;1", "not reached": "33"}
LABEL = 28
BAR = 40
LEAST_COLUMNS = 40
INDENT = 15


def columns(output: Optional[str]) -> Optional[int]:
    """How wide the terminal is that results are shown on; None where they go elsewhere, and no line is broken."""
    if output is not None or not is_terminal(sys.stdout):
        return None
    return max(shutil.get_terminal_size((80, 24)).columns, LEAST_COLUMNS)


def is_coloured(stream: TextIO) -> bool:
    """Whether colour is for it: on a terminal, unless NO_COLOR says otherwise."""
    return stream.isatty() and not os.environ.get("NO_COLOR") and os.environ.get("TERM") != "dumb"


def table(rows: Iterable[tuple[str, object]], width: Optional[int] = None) -> str:
    """Rows of a label and a value, which stands below where the terminal is too narrow."""
    lines = []
    for label, value in rows:
        line = f"{label:<{LABEL}}{value}"
        lines += [line] if width is None or len(line) <= width else [label, f"    {value}"]
    return "".join(line + "\n" for line in lines)


def state(check: CheckResult) -> str:
    """How a check came out."""
    return "not reached" if not check.reached else "ok" if check.holds else "FAILED"


def sentence(check: CheckResult) -> str:
    """What a check asks, what was compared, and where it fails what to look at."""
    said = f"{check.meaning}: {check.compared}"
    if not check.reached:
        said += "; it would hold" if check.holds else "; it would fail"
    return said if check.holds else f"{said}; look at: {check.look_at}"


def checks(found: Iterable[CheckResult], width: Optional[int], coloured: bool) -> str:
    """The fourteen checks, a line each, which a terminal shows in several that are not too wide."""
    lines = []
    for check in found:
        word = state(check)
        line = f"{check.number:>2} {word:<11} {sentence(check)}"
        first, *rest = [line] if width is None else textwrap.wrap(
            line, width, subsequent_indent=" " * INDENT, break_long_words=False, break_on_hyphens=False)
        lines.append(first.replace(word, f"\x1b[{COLOURS[word]}m{word}\x1b[0m", 1) if coloured else first)
        lines += rest
    return "\n".join(lines) + "\n"


def elements(message: bytes) -> dict[str, Any]:
    """What the content of a message is: a protocol, and how many elements of each name, on every level. NOTHING IS CHECKED."""
    try:
        held = content(message)
    except CalmizsedError as error:
        return {"protocol": None, "why": str(error)}
    for kind in Kind:
        try:
            root = ElementTree.fromstring(read(kind, held))
        except CalmizsedError:
            continue
        counted = Counter(element.tag.rpartition("}")[2] for element in root.iter() if element is not root)
        return {"protocol": kind.name.lower(), "type": root.get("type"), "elements": dict(counted)}
    return {"protocol": None, "why": "neither a message of the publication protocol nor one of the provisioning protocol"}


def inspection(shown: Inspection, counted: dict[str, Any], width: Optional[int] = None) -> str:
    """What is in a message, as a table."""
    certificate = shown["certificate"]
    said = counted.get("why") or f"{counted['protocol']} {counted['type']}"
    rows: list[tuple[str, object]] = [
        ("content", f"{said}, {shown['content_length']} octets"),
        *((f"  {name}", count) for name, count in counted.get("elements", {}).items()),
        ("content type", shown["content_type"]),
        ("content SHA-256", shown["content_sha256"]),
        ("signed digest", shown["message_digest"]),
        ("signed at", "it doesn't say" if shown["signing_time"] is None else shown_time(shown["signing_time"])),
        ("signer identifier", shown["signer_identifier"]),
        ("signature", f"{shown['signature_algorithm']['algorithm']}, {shown['signature_length']} octets"),
        ("certificate", f"serial number {certificate['serial_number']}"),
        ("  validity", f"{shown_time(certificate['not_before'])} to {shown_time(certificate['not_after'])}"),
        ("  subject key identifier", certificate["subject_key_identifier"]),
        ("  authority key identifier", certificate["authority_key_identifier"] or "none"),
        ("  key", f"{certificate['key_algorithm']}, modulus of {certificate['modulus_length']} octets"),
        ("  SHA-256", certificate["sha256"]),
    ]
    for crl in shown["crls"]:
        rows += [
            ("CRL", f"number {crl['crl_number'] or 'none'}, {crl['entries']} entries"),
            ("  validity", f"{shown_time(crl['this_update'])} to {shown_time(crl['next_update'])}"),
            ("  authority key identifier", crl["authority_key_identifier"] or "none")]
    return table(rows, width)


def bar(done: int, count: int) -> None:
    """How far work on many files is, on a terminal."""
    if is_terminal(sys.stderr):
        full = BAR * done // max(count, 1)
        end = "\r" + " " * (BAR + 24) + "\r" if done == count else ""
        sys.stderr.write(f"\r[{'#' * full}{'.' * (BAR - full)}] {done}/{count}{end}")
        sys.stderr.flush()
