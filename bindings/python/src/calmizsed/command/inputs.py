"""Inputs and outputs of the command: what a named file holds, who signs, and files that are there whole or not at all."""

from __future__ import annotations

import argparse
import getpass
import os
import pathlib
import secrets
import stat
import sys
from typing import Optional, TextIO

from calmizsed import files, keys
from calmizsed.errors import CalmizsedError
from calmizsed.files import FileError

STANDARD_INPUT = "-"
WRITE_FAULT = 11


def is_terminal(stream: Optional[TextIO]) -> bool:
    """Whether a stream is a terminal; a closed one is none."""
    return stream is not None and stream.isatty()


def tell(text: str) -> None:
    """Says something on standard error, where that can be written to."""
    if sys.stderr is None:
        return
    try:
        print(f"calmizsed: {text}", file=sys.stderr, flush=True)
    except OSError:
        os.dup2(os.open(os.devnull, os.O_WRONLY), sys.stderr.fileno())


def shown_name(name: str) -> str:
    """How a file is called in what is said."""
    return "standard input" if name == STANDARD_INPUT else name


def with_name(error: CalmizsedError, name: str) -> CalmizsedError:
    """The error, with the name of the file that it is on before its cause."""
    error.cause = f"{shown_name(name)}: {error.cause}"
    return error


def read(name: str) -> bytes:
    """The octets of a file, or of standard input."""
    if name == STANDARD_INPUT and sys.stdin is None:
        raise FileError("NoFile", 2, "standard input: it is closed")
    try:
        octets = sys.stdin.buffer.read() if name == STANDARD_INPUT else pathlib.Path(name).read_bytes()
    except IsADirectoryError:
        raise FileError("NoFile", 2, f"{name}: a folder, where a file is wanted") from None
    except OSError as error:
        raise FileError("NoFile", 2, f"{shown_name(name)}: {error.strerror}") from None
    except ValueError as error:  # a name with a zero octet in it
        raise FileError("NoFile", 2, f"{name!r}: {error}") from None
    if not octets:
        raise FileError("EmptyFile", 2, f"{shown_name(name)}: there is nothing in it")
    return octets


def decoded(name: str) -> bytes:
    """What a file spells."""
    octets = read(name)
    try:
        return files.decoded(octets)
    except CalmizsedError as error:
        raise with_name(error, name) from None


def public_key(name: str) -> bytes:
    """The public key that a file holds, in DER."""
    octets = read(name)
    try:
        return files.load_public_key(octets)
    except CalmizsedError as error:
        raise with_name(error, name) from None


# ---- who signs


def may_ask(asked: argparse.Namespace) -> bool:
    """Whether a passphrase can be typed: standard input is a terminal, and nothing else is read from it."""
    return is_terminal(sys.stdin) and STANDARD_INPUT not in (asked.key, getattr(asked, "file", None))


def typed_passphrase(name: str) -> bytes:
    """The passphrase that is typed at the terminal, which doesn't show it."""
    try:
        return getpass.getpass(f"Passphrase of {name}: ").encode("utf-8", "surrogateescape")
    except EOFError:
        raise KeyboardInterrupt from None


def private_key(asked: argparse.Namespace) -> keys.PrivateKey:
    """The private key of a file, with its passphrase where it is encrypted."""
    passphrase = None if asked.passphrase_file is None else read(asked.passphrase_file).split(b"\n")[0].rstrip(b"\r")
    octets = read(asked.key)
    try:
        try:
            return files.load_private_key(octets, passphrase)
        except CalmizsedError as error:
            if error.name != "EncryptedKey" or passphrase is not None or not may_ask(asked):
                raise
        return files.load_private_key(octets, typed_passphrase(asked.key))
    except CalmizsedError as error:
        raise with_name(error, asked.key) from None


def signer(asked: argparse.Namespace) -> keys.SigningKey:
    """Who signs: the holder of a file, or a command."""
    if asked.key is None:
        return keys.CommandKey.of(public_key(asked.public_key), asked.sign_command)
    return private_key(asked)


# ---- outputs


def write_file(name: str, octets: bytes) -> None:
    """Writes a new file beside the named one, which takes its place once it is whole. Where that fails, what was there stays."""
    known = os.stat(name) if os.path.exists(name) else None
    if known is not None and not stat.S_ISREG(known.st_mode):
        pathlib.Path(name).write_bytes(octets)  # a device or a pipe can't be replaced
        return
    path = pathlib.Path(os.path.realpath(name))
    new = path.with_name(f".calmizsed-{secrets.token_hex(8)}")
    try:
        with open(os.open(new, os.O_WRONLY | os.O_CREAT | os.O_EXCL | os.O_CLOEXEC, 0o666), "wb") as file:
            if known is not None:
                os.chmod(file.fileno(), stat.S_IMODE(known.st_mode))
            file.write(octets)
            file.flush()
            os.fsync(file.fileno())
        os.replace(new, path)
    except BaseException:
        new.unlink(missing_ok=True)
        raise


def write(output: Optional[str], octets: bytes) -> None:
    """Writes a result to a file, or to standard output."""
    try:
        if output is not None:
            write_file(output, octets)
            return
        if sys.stdout is None:
            raise FileError("WriteFault", WRITE_FAULT, "standard output: it is closed")
        sys.stdout.buffer.write(octets)
        sys.stdout.buffer.flush()
    except BrokenPipeError:
        raise
    except OSError as error:
        raise FileError("WriteFault", WRITE_FAULT, f"{output or 'standard output'}: {error.strerror}") from None
    except ValueError as error:
        raise FileError("WriteFault", WRITE_FAULT, f"{output!r}: {error}") from None
