"""Why there is no result. Each error has a name and a status, which are those of the library and of its programs, and a cause in words."""

from __future__ import annotations

from typing import Optional

from calmizsed._causes import CHECKS, REFUSALS


class CalmizsedError(Exception):
    """There is no result.

    `name` is a word that programs can rely on, as `XmlError` or `Validation 5`; `status` is what the command exits with; `check` is the
    number of the check of a signed message that fails, or None; `cause` says it in words.
    """

    def __init__(self, name: str, status: int, cause: str = "", check: Optional[int] = None) -> None:
        super().__init__(name, status, cause, check)
        self.name = name
        self.status = status
        self.cause = cause
        self.check = check

    def __str__(self) -> str:
        return f"{self.name}: {self.cause}" if self.cause else self.name


class LibraryError(CalmizsedError):
    """There is no library, or it is another one than this package is for: `NoLibrary`, `OtherLibrary`."""


class KeyFileError(CalmizsedError):
    """What was given as a key is none, or can't be read: `NoKey`, `EncryptedKey`."""


class SigningError(CalmizsedError):
    """A signature could not be made: `SignCommand`, or `WrongSignature`, where it doesn't hold under the signer's public key."""


class OtherMessage(CalmizsedError):
    """The text is a message of the protocol, and not of the class that was asked for: `OtherMessage`."""


class Refusal(CalmizsedError):
    """The library gave no result."""


class WrongUse(Refusal):
    """An argument is none of those that are allowed: a key or a URI that is none, or more than eight keys (`Usage`)."""


class NotAMessage(Refusal):
    """The octets begin with no signed message (`CmsDecode`)."""


class WrongForm(Refusal):
    """A text or its parts haven't the form that is asked for: `XmlError`, `CertSyntax`, `InvalidCsrSyntax`, `InvalidTaCert`, .."""


class CheckFailed(Refusal):
    """A check fails: `Validation N` of a signed message, with N as `check`, or `Signature` of a certificate request."""


class UnsuitableKey(Refusal):
    """A key that is to sign can't: `IncompatibleKey`, `KeyReused`, and of this package `ShortKey`."""


class NoWindow(Refusal):
    """The 300 seconds before or after the moment leave the years 1970 to 9999 (`Moment`)."""


class TooLong(Refusal):
    """A key, a signature or a text is too long (`TooLong`)."""


class OutOfMemory(Refusal, MemoryError):
    """Memory ran out (`OutOfMemory`)."""


class OtherQuestions(Refusal):
    """The answers are to other questions (`OtherQuestions`)."""


class Replayed(Refusal):
    """The message is no later than the last one, or doesn't say when it was signed: `Replayed LAST TIME`, `NoTime`.

    `last_time` and `signing_time` are in seconds since 1970, and None with `NoTime`.
    """

    def __init__(
            self, name: str, status: int, cause: str = "", check: Optional[int] = None,
            last_time: Optional[int] = None, signing_time: Optional[int] = None) -> None:
        super().__init__(name, status, cause, check)
        self.args = (name, status, cause, check, last_time, signing_time)
        self.last_time = last_time
        self.signing_time = signing_time


class UnknownObject(Refusal):
    """A query names a URI of which nothing is known (`UnknownObject`)."""


BY_STATUS: dict[int, type[Refusal]] = {
    2: WrongUse,
    4: NotAMessage,
    5: WrongForm,
    6: CheckFailed,
    7: UnsuitableKey,
    8: NoWindow,
    9: TooLong,
    12: OutOfMemory,
    14: OtherQuestions,
    17: UnknownObject,
}


def refusal(name: str, status: int, check: int = 0, last_time: int = 0, signing_time: int = 0) -> Refusal:
    """The refusal that the library tells of."""
    cause = CHECKS[check].failure if check in CHECKS else REFUSALS.get(name.partition(" ")[0], "")
    if status == 15:
        times = (last_time, signing_time) if name != "NoTime" else (None, None)
        return Replayed(name, status, cause, None, *times)
    return BY_STATUS.get(status, Refusal)(name, status, cause, check or None)
