"""`calmizsed publish`: a folder is published at a server."""

from __future__ import annotations

import argparse
import json
import pathlib
import re
from typing import Any

from calmizsed import keys, publication, setup
from calmizsed._values import SetupKind, now
from calmizsed.command.inputs import decoded, public_key, signer, tell, with_name, write
from calmizsed.command.words import Words, of_files
from calmizsed.errors import CalmizsedError
from calmizsed.files import FileError
from calmizsed.publishing import MOST_QUERY, SECONDS, Change, Publisher, Server, changes, found

MOST_SECONDS = 86400.0
PUBLISH = """
The server is asked what it has. What is in DIR and not there is published,
what differs by its SHA-256 is replaced, and what isn't in DIR is withdrawn: by
one query, of which the server makes all changes or none. A file lies at the
base URI with its path in DIR behind it; names that begin with a dot are left
out. A line is written for each change.

    calmizsed publish objects/ --response repository-response.xml \\
        --key publisher.pem
    calmizsed publish objects/ --response repository-response.xml \\
        --key publisher.pem --dry-run
    calmizsed publish objects/ --server https://localhost/rfc8181/carol \\
        --base rsync://localhost/repo/carol/ --server-key server.pem \\
        --key publisher.pem
"""


def seconds(word: str) -> float:
    """A number of seconds."""
    if re.fullmatch(r"\d{1,5}(\.\d{1,3})?", word) and 0 < float(word) <= MOST_SECONDS:
        return float(word)
    raise argparse.ArgumentTypeError(f"no number of seconds up to {MOST_SECONDS:g}: {word}")


def octets(word: str) -> int:
    """A number of octets."""
    if re.fullmatch(r"\d{1,10}", word) and int(word):
        return int(word)
    raise argparse.ArgumentTypeError(f"no number of octets: {word}")


def add_words(commands: Any) -> None:
    """The words of the command."""
    words = Words(commands, "publish", "publish", "Publish a folder at a server", PUBLISH).with_signing_key().with_short_keys().with_json()
    words.parser.set_defaults(run=publish)
    add = words.parser.add_argument
    of_files(add("folder", metavar="DIR", help="folder with what is to be published, and nothing else"))
    of_files(add("--response", metavar="FILE", help="the server's setup message, a repository_response"))
    add("--server", metavar="URL", help="in its place: the server's address for this publisher")
    add("--base", metavar="URI", help="with --server: the rsync URI under which the objects lie")
    of_files(add("--server-key", metavar="KEY", action="append", help="with --server: public key of the server; one to eight times"))
    add("--dry-run", action="store_true", help="ask what the server has, write what would be changed, and change nothing")
    add("--withdraw-all", action="store_true", help="let an empty DIR withdraw all")
    add("--seconds", type=seconds, default=SECONDS, metavar="N", help="how long to wait for the server, at most")
    add("--most", type=octets, default=MOST_QUERY, metavar="OCTETS", help="where a query were larger than this, send several")


def server_of(asked: argparse.Namespace) -> Server:
    """The server of the words."""
    if asked.response is None:
        if None in (asked.server, asked.base, asked.server_key):
            asked.parser.error("give --response, or --server, --base and --server-key")
        base = asked.base if asked.base.endswith("/") else asked.base + "/"
        return Server(asked.server, base, [public_key(name) for name in asked.server_key], asked.seconds)
    if (asked.server, asked.base, asked.server_key) != (None, None, None):
        asked.parser.error("--server, --base and --server-key are in place of --response")
    verifier = keys.RSA_SHORT_KEYS if asked.short_keys else keys.RSA
    try:
        receipt = setup.receive(SetupKind.REPOSITORY_RESPONSE, decoded(asked.response), now(), verifier=verifier)
    except CalmizsedError as error:
        raise with_name(error, asked.response) from None
    return Server.of(setup.RepositoryResponse.from_xml(receipt.text), asked.seconds)


def word_of(change: Change) -> str:
    """What a change does."""
    if isinstance(change, publication.Withdraw):
        return "withdraw"
    return "publish" if change.hash is None else "replace"


def publish(asked: argparse.Namespace) -> int:
    """Publishes a folder."""
    server = server_of(asked)
    files = found(pathlib.Path(asked.folder), server.base)
    if not files and not asked.withdraw_all:
        raise FileError("EmptyFile", 2, f"{asked.folder}: there is no file in it; with --withdraw-all all is withdrawn")
    made: list[tuple[str, str]] = []

    def make(change: Change) -> None:
        made.append((word_of(change), change.uri))

    verifier = keys.RSA_SHORT_KEYS if asked.short_keys else keys.RSA
    publisher = Publisher(server, signer(asked), verifier, lambda text: None if asked.quiet else tell(text))
    if asked.dry_run:
        for change in changes(publisher.listed(), files):
            make(change)
    else:
        publisher.publish(files, asked.most, make)
    if asked.json:
        listed = [{"change": word, "uri": uri} for word, uri in made]
        text = json.dumps({"dry_run": asked.dry_run, "changes": listed, "files": len(files)}, indent=2) + "\n"
    else:
        text = "".join(f"{word} {uri}\n" for word, uri in made)
    write(asked.output, text.encode("utf-8", "surrogateescape"))
    if not asked.quiet:
        tell(f"{len(made)} changes {'would be' if asked.dry_run else 'were'} made; {len(files)} objects")
    return 0
