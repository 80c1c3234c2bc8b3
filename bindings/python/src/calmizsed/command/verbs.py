"""What each command does. Each function gets what the words ask for, writes, and gives the exit status."""

from __future__ import annotations

import argparse
import base64
import datetime
import hashlib
import json
import pathlib
import sys
from collections import Counter
from typing import Any, Optional, cast

from cryptography import x509

import calmizsed
from calmizsed import files, keys, setup
from calmizsed._messages import shown_time
from calmizsed._values import moment_of
from calmizsed.command import shown
from calmizsed.command.inputs import decoded, is_terminal, public_key, signer, tell, write
from calmizsed.command.words import KINDS
from calmizsed.errors import CalmizsedError
from calmizsed.files import FileError

PEM_COLUMNS = 64
CHECK_FAILS = 6


def verifier(asked: argparse.Namespace) -> keys.RsaVerifier:
    """Which keys are taken."""
    return keys.RSA_SHORT_KEYS if asked.short_keys else keys.RSA


def say(asked: argparse.Namespace, text: str) -> None:
    """Tells the user something, on standard error."""
    if not asked.quiet:
        tell(text)


def write_text(asked: argparse.Namespace, text: str) -> None:
    """Writes a text; names of files come as they are."""
    write(asked.output, text.encode("utf-8", "surrogateescape"))


def write_json(asked: argparse.Namespace, value: object) -> None:
    """Writes a value as JSON."""
    write_text(asked, json.dumps(value, indent=2) + "\n")


def in_pem(label: str, octets: bytes) -> str:
    """Octets in PEM."""
    body = base64.b64encode(octets).decode("ascii")
    lines = [body[at:at + PEM_COLUMNS] for at in range(0, len(body), PEM_COLUMNS)]
    return "\n".join([f"-----BEGIN {label}-----", *lines, f"-----END {label}-----", ""])


def write_made(asked: argparse.Namespace, label: str, octets: bytes) -> int:
    """Writes what was made, in the form that is asked for."""
    if asked.form == "der" and asked.output is None and is_terminal(sys.stdout):
        raise FileError("Terminal", 2, "DER isn't for a terminal: give -o OUT, or --form")
    forms = {
        "der": octets,
        "pem": in_pem(label, octets).encode("ascii"),
        "base64": base64.b64encode(octets) + b"\n",
        "hexadecimal": octets.hex().encode("ascii") + b"\n",
    }
    write(asked.output, forms[asked.form])
    return 0


# ---- signed messages


def moment_for(asked: argparse.Namespace, message: bytes) -> datetime.datetime:
    """The moment at which a message is judged: that of the words, or when it says that it was signed."""
    if asked.at is not None:
        return asked.at  # type: ignore[no-any-return]
    seconds = calmizsed.inspect(message)["signing_time"]
    if seconds is None:
        raise FileError("NoTime", 15, "the message doesn't say when it was signed")
    try:
        return moment_of(seconds)
    except OverflowError:
        raise FileError("NoTime", 15, "the message says that it was signed in the year 0") from None


def received(asked: argparse.Namespace, name: str, public_keys: list[bytes]) -> calmizsed.Receipt:
    """The receipt of the message in a file."""
    message = decoded(name)
    return calmizsed.receive(
        KINDS[asked.kind], message, public_keys, moment_for(asked, message), after=asked.after, verifier=verifier(asked))


def receipt_shown(asked: argparse.Namespace, receipt: calmizsed.Receipt) -> dict[str, Any]:
    """A receipt as JSON has it."""
    seconds = receipt.signing_seconds
    return {
        "kind": receipt.kind.name.lower(), "key": asked.key[receipt.place], "place": receipt.place,
        "signing_time": None if seconds is None else shown_time(seconds), "signing_seconds": seconds, "text": receipt.text}


def receive(asked: argparse.Namespace) -> int:
    """A message, or a folder of them."""
    public_keys = [public_key(name) for name in asked.key]
    if asked.file != "-" and pathlib.Path(asked.file).is_dir():
        return receive_folder(asked, public_keys)
    receipt = received(asked, asked.file, public_keys)
    if asked.json:
        write_json(asked, receipt_shown(asked, receipt))
    else:
        write_text(asked, receipt.text + "\n")
    seconds = receipt.signing_seconds
    when = "it doesn't say when it was signed" if seconds is None else f"signed at {shown_time(seconds)}"
    say(asked, f"accepted under {asked.key[receipt.place]}; {when}")
    return 0


def receive_folder(asked: argparse.Namespace, public_keys: list[bytes]) -> int:
    """Each message in a folder: a line each, and how many came out how. The status is that of the first that is refused."""
    try:
        names = sorted(path for path in pathlib.Path(asked.file).iterdir() if path.is_file() and not path.name.startswith("."))
    except OSError as error:
        raise FileError("NoFile", 2, f"{asked.file}: {error.strerror}") from None
    if not names:
        raise FileError("EmptyFile", 2, f"{asked.file}: there is no file in it")
    verdicts: list[dict[str, Any]] = []
    for done, path in enumerate(names, 1):
        try:
            receipt = receipt_shown(asked, received(asked, str(path), public_keys))
            verdicts.append({"file": str(path), "name": "Ok", "status": 0, "check": None, "cause": "", **receipt})
        except CalmizsedError as error:
            verdicts.append({
                "file": str(path), "name": error.name, "status": error.status, "check": error.check, "cause": error.cause})
        if not asked.quiet:
            shown.bar(done, len(names))
    summary = Counter(verdict["name"] if verdict["status"] != 15 else "Replayed" for verdict in verdicts)
    if asked.json:
        write_json(asked, {"messages": verdicts, "summary": dict(summary)})
    else:
        write_text(asked, "".join(f"{one['file']}: {line_of(one)}\n" for one in verdicts))
    say(asked, f"{len(names)} messages: " + ", ".join(f"{count} {name}" for name, count in sorted(summary.items())))
    return next((int(one["status"]) for one in verdicts if one["status"]), 0)


def line_of(verdict: dict[str, Any]) -> str:
    """A verdict in words."""
    if verdict["status"]:
        return ": ".join(filter(None, (verdict["name"], verdict["cause"])))
    when = f"signed at {verdict['signing_time']}" if verdict["signing_time"] else "it doesn't say when it was signed"
    return f"Ok: under {verdict['key']}; {when}"


def create(asked: argparse.Namespace) -> int:
    """A signed message."""
    text, issuing_key = decoded(asked.file), signer(asked)
    made = calmizsed.create(KINDS[asked.kind], text, issuing_key, asked.at, verifier=verifier(asked))
    return write_made(asked, "CMS", made)


def inspect(asked: argparse.Namespace) -> int:
    """What is in a message."""
    message = decoded(asked.file)
    found, counted = calmizsed.inspect(message), shown.elements(message)
    if asked.json:
        write_json(asked, {"content": counted, **cast("dict[str, Any]", found)})
    else:
        write_text(asked, shown.inspection(found, counted, shown.columns(asked.output)))
    say(asked, "nothing of it was checked")
    return 0


def explain(asked: argparse.Namespace) -> int:
    """The fourteen checks."""
    key, message = public_key(asked.key), decoded(asked.file)
    found = calmizsed.explain(message, key, moment_for(asked, message), verifier=verifier(asked))
    if asked.json:
        write_json(asked, [{
            "check": one.number, "holds": one.holds, "reached": one.reached, "meaning": one.meaning, "compared": one.compared,
            "look_at": one.look_at} for one in found])
    else:
        columns = shown.columns(asked.output)
        write_text(asked, shown.checks(found, columns, columns is not None and shown.is_coloured(sys.stdout)))
    return 0 if all(one.holds for one in found) else CHECK_FAILS


# ---- setup messages, anchors and requests


def validity(certificate: bytes) -> Optional[tuple[str, str]]:
    """The times of a certificate, where `cryptography` reads it."""
    try:
        found = x509.load_der_x509_certificate(certificate)
        times = [getattr(found, name + "_utc", None) or getattr(found, name) for name in ("not_valid_before", "not_valid_after")]
    except ValueError:
        return None
    first, last = (time.replace(tzinfo=None).isoformat() + "Z" for time in times)
    return first, last


def setup_shown(receipt: setup.SetupReceipt) -> dict[str, Any]:
    """What is in a setup message."""
    message = receipt.message()
    fields = {name: value for name, value in vars(message).items() if name != "trust_anchor" and value is not None}
    key = keys.rsa_key(message.public_key)
    times = validity(message.trust_anchor)
    return {
        "kind": receipt.kind.name.lower(), **fields,
        "anchor_key_identifier": keys.identifier(message.public_key).hex(),
        "anchor_key_bits": None if key is None else key.key_size,
        "anchor_not_before": times and times[0], "anchor_not_after": times and times[1],
        "anchor_sha256": hashlib.sha256(message.trust_anchor).hexdigest()}


def setup_read(asked: argparse.Namespace) -> int:
    """A setup message, if its anchor's checks hold."""
    text = decoded(asked.file)
    receipt = setup.receive(setup.kind_of(text), text, asked.at, verifier=verifier(asked))
    found = setup_shown(receipt)
    if asked.json:
        write_json(asked, {**found, "signature_looked_at": receipt.signature_looked_at, "text": receipt.text})
    else:
        rows = [(name.replace("_", " "), value) for name, value in found.items()]
        write_text(asked, shown.table(rows, shown.columns(asked.output)))
    if not receipt.signature_looked_at:
        say(asked, "the certificate doesn't name its own key as its issuer's, and its signature was not looked at")
    return 0


def setup_make(asked: argparse.Namespace) -> int:
    """A setup message with the own anchor."""
    anchor = decoded(asked.anchor)
    calmizsed.anchor.public_key(anchor)
    made = setup.ChildRequest if asked.setup_kind == "child-request" else setup.PublisherRequest
    write_text(asked, made(anchor, asked.handle, asked.tag).to_xml() + "\n")
    return 0


def anchor_new(asked: argparse.Namespace) -> int:
    """A key's own certificate."""
    try:
        until = asked.at + datetime.timedelta(days=asked.days)
    except OverflowError:
        raise FileError("Moment", 2, "the certificate would be valid past the year 9999") from None
    made = calmizsed.anchor.create(signer(asked), asked.at, until, verifier=verifier(asked))
    return write_made(asked, "CERTIFICATE", made)


def request_new(asked: argparse.Namespace) -> int:
    """A certificate request."""
    made = calmizsed.request.create(signer(asked), asked.repository, asked.manifest, asked.notify, verifier=verifier(asked))
    return write_made(asked, "CERTIFICATE REQUEST", made)


def request_verify(asked: argparse.Namespace) -> int:
    """The key of a request, or of the one in an issue request."""
    held = decoded(asked.file)
    verify = calmizsed.request.verify_issue if files.is_text(held) else calmizsed.request.verify
    write_text(asked, in_pem("PUBLIC KEY", verify(held, verifier=verifier(asked))))
    return 0
