"""What `calmizsed serve` does."""

from __future__ import annotations

import argparse
import base64
import datetime
import json
import pathlib
from typing import Any, Callable, Optional

from cryptography.hazmat.primitives import serialization
from sqlalchemy.exc import SQLAlchemyError

from calmizsed import anchor, keys, setup
from calmizsed._messages import shown_time
from calmizsed._values import SetupKind, now, seconds_of
from calmizsed.command.inputs import decoded, private_key, public_key, tell, with_name, write
from calmizsed.errors import CalmizsedError
from calmizsed.server import answering, logs, publishers, running, settings, tables
from calmizsed.server.database import Database
from calmizsed.server.options import Options
from calmizsed.server.publishers import Publisher
from calmizsed.server.settings import Machine, Settings, SettingsError


def _say(asked: argparse.Namespace, text: str) -> None:
    """Tells the user something."""
    if not asked.quiet:
        tell(text)


def _drawn(folder: pathlib.Path) -> keys.SigningKey:
    """The issuing key of the data folder, which is drawn where there is none."""
    path = folder / settings.ISSUER
    if not path.exists():
        key: Any = keys.PrivateKey.generate().key  # the type stubs of some versions lack what follows
        settings.write_private(path, key.private_bytes(
            serialization.Encoding.PEM, serialization.PrivateFormat.PKCS8, serialization.NoEncryption()))
    return Machine("").signer(folder)


def _signer(asked: argparse.Namespace, folder: pathlib.Path, place: str) -> tuple[keys.SigningKey, Machine]:
    """Who signs, and what is kept of that on this machine."""
    whole = None if asked.key is None else str(pathlib.Path(asked.key).resolve())
    passphrase = None if asked.passphrase_file is None else str(pathlib.Path(asked.passphrase_file).resolve())
    if asked.sign_command is not None:
        key = public_key(asked.public_key)
        machine = Machine(place, public_key=base64.b64encode(key).decode("ascii"), sign_command=asked.sign_command)
        return machine.signer(folder), machine
    if whole is not None:
        return private_key(asked), Machine(place, whole, passphrase)
    return _drawn(folder), Machine(place, settings.ISSUER)


def init(asked: argparse.Namespace) -> int:
    """Sets a server up, or one more machine of it."""
    rsync_base = asked.rsync_base if asked.rsync_base.endswith("/") else asked.rsync_base + "/"
    answering.check_base(rsync_base)
    url = settings.http_uri(asked.url, "--url", "http", "https").rstrip("/")
    rrdp_uri = settings.rrdp_uri_of(asked.rrdp_uri)
    folder = pathlib.Path(asked.data)
    try:
        folder.mkdir(parents=True, exist_ok=True, mode=0o755)
        place = asked.database or f"sqlite:///{(folder / 'database.sqlite').resolve()}"
        database = Database(place)
        signer, machine = _signer(asked, folder, place)
        with database.writing() as connection:
            tables.create(connection)
            there = settings.load(connection)
            wanted = Settings(url, rsync_base, rrdp_uri, _anchor_of(asked, signer, there), asked.pause, asked.tree_pause, asked.keep)
            if there is not None and (there.rsync_base, there.url) != (rsync_base, url) and publishers.listed(connection):
                raise SettingsError("OtherServer", 2, f"publishers were told of {there.url} and {there.rsync_base}")
            settings.store(connection, wanted)
        settings.store_machine(folder, machine)
    except OSError as error:
        raise SettingsError("NoServer", 2, f"{error.filename or folder}: {error.strerror}") from None
    _say(asked, f"{'set up anew' if there is not None else 'set up'}: {folder}")
    return 0


def _anchor_of(asked: argparse.Namespace, signer: keys.SigningKey, there: Optional[Settings]) -> bytes:
    """The certificate of the issuing key. Publishers have that of the settings which there are, so that no other key can take its place."""
    if there is None:
        moment = now()
        return anchor.create(signer, moment, moment + datetime.timedelta(days=asked.days))
    known = there.anchor
    if anchor.public_key(known) != signer.public_key:
        raise SettingsError("OtherServer", 2, "the database is that of a server with another issuing key, which its publishers know")
    return known


def _response(server: running.Opened, publisher: Publisher, tag: Optional[str]) -> str:
    """What a publisher is told."""
    chosen = server.settings
    return setup.RepositoryResponse(
        chosen.anchor, publisher.handle, chosen.service_uri(publisher.word), publisher.base, chosen.rrdp_uri, tag).to_xml()


def add(asked: argparse.Namespace) -> int:
    """Adds a publisher, and writes what it is to be told."""
    server = running.opened(pathlib.Path(asked.data))
    verifier = keys.RSA_SHORT_KEYS if asked.short_keys else keys.RSA
    try:
        receipt = setup.receive(SetupKind.PUBLISHER_REQUEST, decoded(asked.file), now(), verifier=verifier)
    except CalmizsedError as error:
        raise with_name(error, asked.file) from None
    request = setup.PublisherRequest.from_xml(receipt.text)
    with server.database.writing() as connection:
        publisher = publishers.add(
            connection, server.settings.rsync_base, request.publisher_handle, request.public_key, seconds_of(now()))
        response = _response(server, publisher, request.tag)
    write(asked.output, (response + "\n").encode("utf-8"))
    _say(asked, f"{publisher.handle} publishes below {publisher.base}")
    return 0


def _shown(publisher: Publisher, number: int) -> dict[str, Any]:
    """A publisher as JSON has it."""
    return {
        "handle": publisher.handle, "base": publisher.base, "path": settings.PATH + publisher.word, "objects": number,
        "added": shown_time(publisher.added), "last_time": None if publisher.last_time is None else shown_time(publisher.last_time),
        "keys": {place: keys.identifier(key).hex() for place, key in zip(publisher.places, publisher.keys)}}


def show(asked: argparse.Namespace) -> int:
    """Lists the publishers."""
    server = running.opened(pathlib.Path(asked.data))
    with server.database.reading() as connection:
        found = [_shown(publisher, number) for publisher, number in publishers.listed(connection)]
    if asked.json:
        write(asked.output, (json.dumps(found, indent=2) + "\n").encode("ascii"))
        return 0
    lines = [
        f"{one['handle']}: {one['base']} objects={one['objects']} last={one['last_time'] or 'never'} "
        + " ".join(f"key{place}={identifier}" for place, identifier in one["keys"].items()) for one in found]
    write(asked.output, "".join(line + "\n" for line in lines).encode("utf-8", "surrogateescape"))
    return 0


def remove(asked: argparse.Namespace) -> int:
    """Removes a publisher."""
    server = running.opened(pathlib.Path(asked.data))
    with server.database.writing() as connection:
        number = publishers.remove(connection, asked.handle, seconds_of(now()))
    _say(asked, f"{asked.handle} was removed; {number} objects were withdrawn")
    return 0


def change_key(asked: argparse.Namespace) -> int:
    """Changes a publisher's keys."""
    if (asked.add is None) == (asked.retire is None):
        asked.parser.error("give --add or --retire")
    server = running.opened(pathlib.Path(asked.data))
    key = None if asked.add is None else public_key(asked.add)
    with server.database.writing() as connection:
        if key is not None:
            publisher = publishers.add_key(connection, asked.handle, key, seconds_of(now()))
        else:
            publisher = publishers.retire_key(connection, asked.handle, asked.retire)
    _say(asked, f"{asked.handle} has the keys {', '.join(map(str, publisher.places))}")
    return 0


def status(asked: argparse.Namespace) -> int:
    """Says how the server is."""
    server = running.opened(pathlib.Path(asked.data))
    write(asked.output, (json.dumps(running.status_of(server.database), indent=2) + "\n").encode("ascii"))
    return 0


def run(asked: argparse.Namespace) -> int:
    """Runs the server."""
    logs.begin(asked.log)
    host, port = asked.listen
    options = Options(
        host=host, port=port, threads=asked.threads, processes=asked.processes, connections=asked.connections, most=asked.most,
        hold=asked.hold, key_uses=asked.key_uses, key_seconds=asked.key_seconds, log=asked.log, worker=not asked.no_worker)
    running.Running(running.opened(pathlib.Path(asked.data)), options).run()
    return 0


VERBS: dict[str, Callable[[argparse.Namespace], int]] = {
    "serve_init": init, "serve_add": add, "serve_list": show, "serve_remove": remove, "serve_key": change_key, "serve_status": status,
    "serve_run": run}


def done(asked: argparse.Namespace) -> int:
    """Does what is asked for. A database that has no answer ends it with a line, in which nothing of a query is."""
    try:
        return VERBS[asked.verb](asked)
    except SQLAlchemyError as error:
        said = " ".join(str(getattr(error, "orig", None) or error).split())
        raise SettingsError("NoDatabase", 1, said) from None
