"""The shared object, by ctypes. This module alone has to do with pointers: all else hands in octets and numbers, and gets octets.

include/calmizsed.h says what each call does. The shared object is the one that CALMIZSED_LIBRARY names, else that in the package, else
that of the tree in which the package lies: where `make` puts it, or where a tar that `make dist` made has it.
"""

from __future__ import annotations

import ctypes
import functools
import os
import pathlib
from typing import Any, Iterator, NamedTuple, Optional, Union

from calmizsed._version import VERSION
from calmizsed.errors import LibraryError, refusal

NAME = "libcalmizsed.so.0"
NO_ROOM = 16
LEAST_ROOM = 4096

# The arguments of each call before its buffer: octets (a pointer and a length), a kind or a status (32 bits), a moment (64 bits).
CALLS = {
    "message_questions": "oo",
    "message_receive": "koomkmoo",
    "message_explain": "oomoo",
    "message_inspect": "o",
    "message_content": "o",
    "message_prepare": "komooo",
    "message_finish": "komoooooo",
    "setup_questions": "ko",
    "setup_receive": "komoo",
    "setup_read": "ko",
    "setup_anchor": "ko",
    "anchor_key": "o",
    "anchor_prepare": "mmo",
    "anchor_finish": "mmoo",
    "request_questions": "o",
    "request_verify": "ooo",
    "issue_questions": "o",
    "issue_verify": "ooo",
    "request_prepare": "oooo",
    "request_finish": "ooooo",
    "publication_decide": "ooo",
    "publication_refuse": "k",
    "text_read": "ko",
    "key_identifier": "o",
    "version": "",
}


class _Outcome(ctypes.Structure):
    """`struct calmizsed_outcome`."""

    _fields_ = [
        ("status", ctypes.c_int32),
        ("check", ctypes.c_int32),
        ("written", ctypes.c_size_t),
        ("place", ctypes.c_size_t),
        ("has_signing_time", ctypes.c_int32),
        ("signing_time", ctypes.c_int64),
        ("last_time", ctypes.c_int64),
        ("name", ctypes.c_char * 64),
    ]


_TYPES: dict[str, list[Any]] = {
    "o": [ctypes.c_char_p, ctypes.c_size_t],
    "k": [ctypes.c_int32],
    "m": [ctypes.c_int64],
}
_RESULT: list[Any] = [ctypes.c_char_p, ctypes.c_size_t, ctypes.POINTER(_Outcome)]


class Result(NamedTuple):
    """The octets of a call, and what else is told."""

    octets: bytes
    place: int
    signing_time: Optional[int]


class Library:
    """The calls of a shared object. They can be made from any threads at once."""

    def __init__(self, path: pathlib.Path) -> None:
        try:
            shared = ctypes.CDLL(str(path))
        except OSError as error:
            raise LibraryError("NoLibrary", 1, f"{path} can't be loaded: {error}") from error
        self._functions: dict[str, Any] = {}
        for name, shape in CALLS.items():
            try:
                function = shared["calmizsed_" + name]
            except AttributeError as error:
                raise LibraryError("OtherLibrary", 1, f"{path} has no call calmizsed_{name}") from error
            function.argtypes = [one for letter in shape for one in _TYPES[letter]] + _RESULT
            function.restype = ctypes.c_int32
            self._functions[name] = function
        self.path = path
        self.version = self.call("version").octets.decode("ascii")
        if self.version.split(".")[:2] != VERSION.split(".")[:2]:
            raise LibraryError("OtherLibrary", 1, f"{path} has version {self.version}, and this package is for {VERSION}")

    def call(self, name: str, *arguments: Union[bytes, int]) -> Result:
        """Makes a call, whose arguments are octets and numbers in the header's order, or raises the refusal that it tells of."""
        given: list[Union[bytes, int]] = []
        length = LEAST_ROOM
        for argument in arguments:
            if isinstance(argument, bytes):
                given += (argument, len(argument))
                length += len(argument)
            else:
                given.append(argument)
        room = 1 << (2 * length).bit_length()
        outcome = _Outcome()
        while True:
            out = ctypes.create_string_buffer(room)
            status = self._functions[name](*given, out, room, ctypes.byref(outcome))
            if status != NO_ROOM:
                break
            room = outcome.written
        if status:
            raise refusal(outcome.name.decode("ascii"), status, outcome.check, outcome.last_time, outcome.signing_time)
        signing_time = outcome.signing_time if outcome.has_signing_time else None
        return Result(ctypes.string_at(out, outcome.written), outcome.place, signing_time)


def _places() -> Iterator[pathlib.Path]:
    """Where the shared object may be."""
    here = pathlib.Path(__file__).resolve().parent
    yield here / NAME
    tree = here.parents[3]
    if (tree / "include" / "calmizsed.h").is_file():
        yield tree / "out" / "c" / NAME
        yield tree / "lib" / NAME


def found() -> pathlib.Path:
    """Where the shared object is."""
    named = os.environ.get("CALMIZSED_LIBRARY")
    if named:
        path = pathlib.Path(named)
        return path / NAME if path.is_dir() else path
    for place in _places():
        if place.is_file():
            return place
    raise LibraryError("NoLibrary", 1, f"there is no {NAME}: let CALMIZSED_LIBRARY name it; in the tree `make` builds it")


@functools.lru_cache(maxsize=1)
def library() -> Library:
    """The library, which is loaded at the first call."""
    return Library(found())
