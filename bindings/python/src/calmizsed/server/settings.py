"""What a server is told once, by `calmizsed serve init`.

What is true of the server wherever it runs stands in the database. What is true of one machine stands in a file of the data folder, which
nobody else may read: the database's address, which may have a password in it, and who signs.
"""

from __future__ import annotations

import base64
import json
import os
import pathlib
from dataclasses import asdict, dataclass, fields
from typing import Any, Optional
from urllib.parse import urlsplit

from sqlalchemy import delete, insert, select
from sqlalchemy.engine import Connection

from calmizsed import files, keys
from calmizsed.errors import CalmizsedError
from calmizsed.server.tables import SETTINGS

FILE = "server.json"
ISSUER = "issuer.pem"
NOTIFICATION = "notification.xml"
PATH = "/rfc8181/"


class SettingsError(CalmizsedError):
    """The data folder or what was asked for can't be used: `NoServer`, `OtherServer`, `WrongUrl`."""


@dataclass(frozen=True)
class Settings:
    """What is true of a server wherever it runs."""

    url: str
    """Its address as publishers have it, without a slash at the end."""
    rsync_base: str
    rrdp_uri: str
    """The notification's URI."""
    anchor: bytes
    """The certificate of its issuing key, in DER."""
    pause: float = 1.0
    """Seconds between two serial numbers of RRDP, at least."""
    tree_pause: float = 10.0
    """Seconds between two versions of the tree for rsync, at least."""
    keep: float = 3600.0
    """Seconds for which a file that is no longer pointed to stays."""

    @property
    def rrdp_base(self) -> str:
        """The URI of the folder of RRDP's files."""
        return self.rrdp_uri[:-len(NOTIFICATION)]

    def service_uri(self, word: str) -> str:
        """Where a publisher sends its queries."""
        return self.url + PATH + word


def http_uri(uri: str, what: str, *schemes: str) -> str:
    """An address of one of these schemes, or an error that says what it was to be."""
    try:
        parts = urlsplit(uri)
        good = parts.scheme in schemes and bool(parts.hostname) and not (parts.query or parts.fragment or parts.username)
    except ValueError:
        good = False
    if not good:
        raise SettingsError("WrongUrl", 2, f"{what} is no address as https://HOST/PATH: {uri}")
    return uri


def rrdp_uri_of(uri: str) -> str:
    """The notification's URI, which may be given by its folder."""
    whole = uri + NOTIFICATION if uri.endswith("/") else uri
    if not http_uri(whole, "--rrdp-uri", "https").endswith("/" + NOTIFICATION):
        raise SettingsError("WrongUrl", 2, f"--rrdp-uri has to end in /, or in /{NOTIFICATION}: {uri}")
    return whole


def store(connection: Connection, settings: Settings) -> None:
    """Writes the settings."""
    values = {**asdict(settings), "anchor": base64.b64encode(settings.anchor).decode("ascii")}
    connection.execute(delete(SETTINGS))
    connection.execute(insert(SETTINGS), [{"name": name, "value": str(value)} for name, value in values.items()])


def load(connection: Connection) -> Optional[Settings]:
    """The settings, or None where none are stored."""
    rows = dict(connection.execute(select(SETTINGS.c.name, SETTINGS.c.value)).all())
    if not rows:
        return None
    values: dict[str, Any] = {field.name: rows[field.name] for field in fields(Settings) if field.name in rows}
    values["anchor"] = base64.b64decode(values["anchor"])
    values.update({name: float(values[name]) for name in ("pause", "tree_pause", "keep") if name in values})
    return Settings(**values)


@dataclass(frozen=True)
class Machine:
    """What is true of one machine: the database's address, and who signs."""

    database: str
    key_file: Optional[str] = None
    passphrase_file: Optional[str] = None
    public_key: Optional[str] = None
    """In base64, where a command signs."""
    sign_command: Optional[str] = None

    def signer(self, folder: pathlib.Path) -> keys.SigningKey:
        """Who signs. A file is named from the data folder, unless its whole name is given."""
        if self.sign_command is not None and self.public_key is not None:
            return keys.CommandKey.of(base64.b64decode(self.public_key), self.sign_command)
        path = folder / (self.key_file or ISSUER)
        passphrase = None
        try:
            if self.passphrase_file is not None:
                passphrase = (folder / self.passphrase_file).read_bytes().split(b"\n")[0].rstrip(b"\r")
            octets = path.read_bytes()
        except OSError as error:
            raise files.FileError("NoFile", 2, f"{error.filename}: {error.strerror}") from None
        return files.load_private_key(octets, passphrase)


def write_private(path: pathlib.Path, octets: bytes) -> None:
    """Writes a file that nobody else may read, whole or not at all."""
    new = path.with_name(path.name + ".new")
    new.unlink(missing_ok=True)
    with open(os.open(new, os.O_WRONLY | os.O_CREAT | os.O_EXCL | os.O_CLOEXEC, 0o600), "wb") as file:
        file.write(octets)
        file.flush()
        os.fsync(file.fileno())
    os.replace(new, path)


def store_machine(folder: pathlib.Path, machine: Machine) -> None:
    """Writes the file of a machine."""
    write_private(folder / FILE, (json.dumps(asdict(machine), indent=2) + "\n").encode("utf-8"))


def load_machine(folder: pathlib.Path) -> Machine:
    """What the file of a machine says."""
    try:
        found = json.loads((folder / FILE).read_bytes())
        return Machine(**found)
    except OSError as error:
        raise SettingsError("NoServer", 2, f"{folder / FILE}: {error.strerror}; calmizsed serve init makes it") from None
    except (ValueError, TypeError) as error:
        raise SettingsError("NoServer", 2, f"{folder / FILE}: {error}") from None
