"""The words of the command."""

from __future__ import annotations

import argparse
import datetime
import re
import sys
from typing import Any, Callable, Optional, Sequence

from calmizsed import Kind, __version__, now
from calmizsed._values import moment_of, seconds_of

KINDS = {kind.name.lower(): kind for kind in Kind}
SIGNED = "signed"
MOMENT = re.compile(r"(\d{4}-\d\d-\d\d)[Tt ](\d\d:\d\d:\d\d)(\.\d+)?([Zz]|[+-]\d\d:\d\d)")
FIRST, LAST = -62135596800, 253402300799  # the years 1 to 9999
MOST_DAYS = 3652058
FORMS = "der", "pem", "base64", "hexadecimal"

RECEIVE = """
FILE is a signed message, or a folder with many, each of which is judged. Its
message of the protocol is written, in XML, if all fourteen checks hold under
one of the keys; there may be up to eight.

    calmizsed receive publication query.der --key publisher-request.xml
    calmizsed receive publication query.der --key old.pem --key new.pem \\
        --after 2026-12-01T08:00:00Z -o query.xml
    calmizsed receive --kind publication captured/ --key publisher.pem \\
        --at signed
"""
CREATE = """
FILE is a message of the protocol, in XML. The attributes are signed by a key
that is drawn for this message alone. The passphrase of an encrypted key is
asked for on the terminal, where --passphrase-file has none.

    calmizsed create publication query.xml --key issuer.pem -o query.der
    calmizsed create publication query.xml --public-key issuer-public.pem \\
        --sign-command 'openssl dgst -sha256 -sign issuer.pem' -o query.der
    calmizsed create publication query.xml --public-key issuer-public.pem \\
        --sign-command "pkcs11-tool --module MODULE --token-label TOKEN \\
            --login --pin env:PIN --sign --mechanism SHA256-RSA-PKCS --id 01" \\
        -o query.der
"""
INSPECT = """
Nothing is checked.

    calmizsed inspect query.der
    calmizsed inspect query.der --json | jq .content
"""
EXPLAIN = """
Each check is `ok`, or `FAILED`, or `not reached`, as those behind the first
that fails. The values that were compared stand behind it, and where it fails
what to look at. The status is 6 where a check fails, else 0.

    calmizsed explain query.der --key publisher.pem --at 2026-12-01T08:00:00Z
    calmizsed explain query.der --key publisher.pem --at signed | grep FAILED
"""
SETUP = """
    calmizsed setup read child-request.xml
    calmizsed setup child-request --handle Carol --anchor anchor.der \\
        -o child-request.xml
"""
SETUP_READ = """
The five checks of the trust anchor's certificate have to hold. Whom the
message is from has to be known some other way (RFC 8183, 8).

    calmizsed setup read repository-response.xml
"""
SETUP_MAKE = """
    calmizsed setup child-request --handle Carol --anchor anchor.der \\
        -o child-request.xml
"""
ANCHOR = """
    calmizsed anchor new --key issuer.pem --days 3650 -o anchor.der
    calmizsed anchor new --key issuer.pem --form pem
"""
REQUEST = """
    calmizsed request new --key ca.pem --repository rsync://localhost/ca/ \\
        --manifest rsync://localhost/ca/ca.mft -o ca.csr
    calmizsed request verify ca.csr
"""
WHOLE = """
    calmizsed receive publication query.der --key publisher-request.xml

A FILE is a name, or - for standard input: a message, a certificate or a
request in DER, BER, PEM, base64 or hexadecimal, told apart by the first
octets; a text in XML. A KEY is a public key or a certificate in these forms,
or a setup message, whose anchor's key it is. A TIME is as in RFC 3339, or in
seconds since 1970.

The status is 0, or says why there is no result: 2 an argument or a file can't
be used, 4 no signed message, 5 not the form that is asked for, 6 a check
fails, 15 not signed later than the last message; docs/PROGRAMS.md has all.
"""


def moment(word: str) -> datetime.datetime:
    """The moment that a word names."""
    if re.fullmatch(r"-?\d{1,12}", word) and FIRST <= int(word) <= LAST:
        return moment_of(int(word))
    parts = MOMENT.fullmatch(word)
    try:
        if parts is not None:
            zone = "+00:00" if parts[4] in "Zz" else parts[4]
            return moment_of(seconds_of(datetime.datetime.fromisoformat(f"{parts[1]}T{parts[2]}{zone}")))
    except (ValueError, OverflowError):
        pass
    raise argparse.ArgumentTypeError(f"no time as 2026-12-01T08:00:00Z or 1796112000: {word}")


def moment_or_signed(word: str) -> Optional[datetime.datetime]:
    """The moment that a word names, or None for that at which a message says that it was signed."""
    return None if word == SIGNED else moment(word)


def days(word: str) -> int:
    """A number of days."""
    if re.fullmatch(r"\d{1,7}", word) and 0 < int(word) <= MOST_DAYS:
        return int(word)
    raise argparse.ArgumentTypeError(f"no number of days from 1 to {MOST_DAYS}: {word}")


def of_files(action: argparse.Action) -> None:
    """Has completions of bash and zsh, which shtab makes, offer files."""
    setattr(action, "complete", {"bash": "_shtab_compgen_files", "zsh": "_files"})


class Words:
    """A parser with the options that several commands have."""

    def __init__(self, commands: Any, name: str, verb: str, summary: str, example: str) -> None:
        self.parser: argparse.ArgumentParser = commands.add_parser(
            name, help=summary, description=f"{summary}.", epilog=example, formatter_class=argparse.RawDescriptionHelpFormatter)
        self.parser.set_defaults(verb=verb, parser=self.parser)
        self.parser.add_argument("-q", "--quiet", action="store_true", help="say nothing more than what is asked for")
        of_files(self.parser.add_argument("-o", "--output", metavar="OUT", help="the file to write to, in place of standard output"))

    def with_kind(self) -> Words:
        """The protocol."""
        self.parser.add_argument(
            "kind", metavar="KIND", choices=sorted(KINDS), help="the protocol: publication (RFC 8181), or provisioning (RFC 6492)")
        return self

    def with_file(self, what: str) -> Words:
        """The input."""
        of_files(self.parser.add_argument("file", metavar="FILE", help=f"{what}, or - for standard input"))
        return self

    def with_time(self, parse: Callable[[str], object] = moment) -> Words:
        """The moment."""
        said = f"; {SIGNED}: when the message says that it was signed" if parse is moment_or_signed else ""
        self.parser.add_argument("--at", type=parse, default=now(), metavar="TIME", help=f"in place of the clock's time{said}")
        return self

    def with_key(self) -> Words:
        """A public key."""
        of_files(self.parser.add_argument(
            "--key", required=True, metavar="KEY", help="public key, certificate or setup message of the sender"))
        return self

    def with_keys(self) -> Words:
        """Public keys."""
        of_files(self.parser.add_argument(
            "--key", required=True, metavar="KEY", action="append",
            help="public key, certificate or setup message of the sender; one to eight times"))
        return self

    def with_short_keys(self) -> Words:
        """Short keys."""
        self.parser.add_argument("--short-keys", action="store_true", help="take RSA keys of fewer than 2048 bits too (RFC 7935, 3)")
        return self

    def with_json(self) -> Words:
        """The form of what is written."""
        self.parser.add_argument("--json", action="store_true", help="write JSON")
        return self

    def with_signer(self) -> Words:
        """Who signs, and the form of what is made."""
        self.with_signing_key().parser.add_argument("--form", choices=FORMS, default="der", help="how what is made is written")
        return self

    def with_signing_key(self) -> Words:
        """Who signs."""
        add = self.parser.add_argument
        of_files(add("--key", metavar="PRIVATE-KEY", help="file of a private RSA key, in PEM or DER"))
        of_files(add("--passphrase-file", metavar="FILE", help="its first line is the passphrase of an encrypted key"))
        of_files(add("--public-key", metavar="KEY", help="public key, where something else holds the private one"))
        add("--sign-command", metavar="COMMAND", help="gets octets on standard input, and writes their signature")
        return self


def _add_messages(commands: Any) -> None:
    """The commands on signed messages."""
    receive = Words(commands, "receive", "receive", "Receive a signed message, or judge a folder of them", RECEIVE)
    receive.with_kind().with_file("signed message, a folder of them").with_keys()
    receive.with_time(moment_or_signed).with_json().with_short_keys()
    receive.parser.add_argument("--after", type=moment, metavar="TIME", help="it has to be signed later: the signing time of the last one")
    Words(commands, "create", "create", "Make a signed message", CREATE).with_kind().with_file(
        "message, in XML").with_signer().with_time().with_short_keys()
    Words(commands, "inspect", "inspect", "Show what is in a signed message", INSPECT).with_file("signed message").with_json()
    Words(commands, "explain", "explain", "Show the fourteen checks of a signed message", EXPLAIN).with_file(
        "signed message").with_key().with_time(moment_or_signed).with_json().with_short_keys()


def _add_setup(commands: Any) -> None:
    """The commands on setup messages."""
    parser = commands.add_parser(
        "setup", help="Read or make setup messages", epilog=SETUP, formatter_class=argparse.RawDescriptionHelpFormatter)
    own = parser.add_subparsers(required=True, metavar="COMMAND")
    Words(own, "read", "setup_read", "Show a setup message, if the checks of its trust anchor hold", SETUP_READ).with_file(
        "setup message").with_time().with_json().with_short_keys()
    for name in ("child-request", "publisher-request"):
        made = Words(own, name, "setup_make", f"Make a {name.replace('-', ' ')}", SETUP_MAKE.replace("child-request", name)).parser
        made.set_defaults(setup_kind=name)
        made.add_argument("--handle", required=True, help="the own handle")
        of_files(made.add_argument("--anchor", required=True, metavar="CERTIFICATE", help="the own trust anchor's certificate"))
        made.add_argument("--tag", help="text that the answer repeats")


def _add_others(commands: Any) -> None:
    """The commands on anchors and certificate requests."""
    parser = commands.add_parser(
        "anchor", help="Make a trust anchor", epilog=ANCHOR, formatter_class=argparse.RawDescriptionHelpFormatter)
    own = parser.add_subparsers(required=True, metavar="COMMAND")
    new = Words(own, "new", "anchor_new", "Make the own certificate of a key", ANCHOR).with_signer().with_time().with_short_keys()
    new.parser.add_argument("--days", type=days, default=365, help="how many days of 86400 seconds it is valid")
    parser = commands.add_parser(
        "request", help="Make or verify a certificate request", epilog=REQUEST, formatter_class=argparse.RawDescriptionHelpFormatter)
    own = parser.add_subparsers(required=True, metavar="COMMAND")
    new = Words(own, "new", "request_new", "Make a certificate request", REQUEST).with_signer().with_short_keys()
    new.parser.add_argument("--repository", required=True, metavar="URI", help="where its objects are published: an rsync URI")
    new.parser.add_argument("--manifest", required=True, metavar="URI", help="its manifest: an rsync URI")
    new.parser.add_argument("--notify", metavar="URI", help="the notification file of RRDP: an https URI")
    Words(own, "verify", "request_verify", "Write the key of a certificate request, if it is signed under it", REQUEST).with_file(
        "certificate request, or issue request of the provisioning protocol").with_short_keys()


def parser_of() -> argparse.ArgumentParser:
    """The parser of all words."""
    from calmizsed.command import publishing, serving  # their words are made of those here

    parser = argparse.ArgumentParser(
        prog="calmizsed", description="Signed messages of the RPKI's publication and provisioning protocols.", epilog=WHOLE,
        formatter_class=argparse.RawDescriptionHelpFormatter)
    parser.add_argument("--version", action="version", version=f"calmizsed {__version__}")
    commands = parser.add_subparsers(required=True, metavar="COMMAND")
    _add_messages(commands)
    _add_setup(commands)
    _add_others(commands)
    publishing.add_words(commands)
    serving.add_words(commands)
    return parser


def placed(words: Sequence[str]) -> list[str]:
    """The words with that of `--kind KIND` behind the command, where it stands without the option."""
    head, rest = list(words[:1]), list(words[1:])
    for place, word in enumerate(rest):
        if word == "--kind" and place + 1 < len(rest):
            return [*head, rest[place + 1], *rest[:place], *rest[place + 2:]]
        if word.startswith("--kind="):
            return [*head, word.partition("=")[2], *rest[:place], *rest[place + 1:]]
    return [*head, *rest]


def inputs_of(asked: argparse.Namespace) -> list[str]:
    """The files that are read."""
    named = [vars(asked).get(name) for name in (
        "file", "key", "public_key", "passphrase_file", "anchor", "response", "server_key")]
    return [name for one in named if one is not None for name in (one if isinstance(one, list) else [one])]


def asked_of(words: Optional[Sequence[str]]) -> argparse.Namespace:
    """What the words ask for."""
    asked = parser_of().parse_args(placed(sys.argv[1:] if words is None else words))
    if "sign_command" in asked:
        device = asked.public_key is not None, asked.sign_command is not None
        draws = getattr(asked, "may_draw", False) and asked.key is None and not any(device)
        if not draws and (asked.key is None) != all(device) or (asked.key is not None and any(device)):
            asked.parser.error("give --key, or --public-key and --sign-command")
        if asked.key is None and asked.passphrase_file is not None:
            asked.parser.error("--passphrase-file is for --key")
    if inputs_of(asked).count("-") > 1:
        asked.parser.error("standard input can be read once: give one - alone")
    return asked
