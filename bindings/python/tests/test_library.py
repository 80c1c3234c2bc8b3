"""The shared object, and what is said where it can't be used."""

from __future__ import annotations

import pathlib
import pickle
import re

import pytest
from support import TREE

import calmizsed
from calmizsed import _causes, _library
from calmizsed.errors import BY_STATUS, CheckFailed, LibraryError, Replayed, refusal

HEADER = (TREE / "include" / "calmizsed.h").read_text(encoding="utf-8")
PROGRAMS = (TREE / "docs" / "PROGRAMS.md").read_text(encoding="utf-8")
SHAPES = {"const uint8_t": "o", "size_t": "", "int32_t": "k", "int64_t": "m", "uint8_t": "", "struct calmizsed_outcome": ""}


def shape_of(arguments: str) -> str:
    """The letters of a declaration's arguments."""
    types = [re.sub(r"\s*\*?\s*\w+$", "", argument.strip()) for argument in arguments.split(",")]
    return "".join(SHAPES[one] for one in types)


def test_calls_are_those_of_the_header() -> None:
    """Each call, with its arguments."""
    declared = re.findall(r"^int32_t calmizsed_(\w+)\((.*?)\);", HEADER, re.M | re.S)
    assert {name: shape_of(arguments) for name, arguments in declared} == _library.CALLS


def test_statuses_are_those_of_the_header() -> None:
    """Each has a class of its own."""
    statuses = {int(number) for number in re.findall(r"CALMIZSED_\w+ = (\d+),?$", HEADER.partition("enum calmizsed_kind")[0], re.M)}
    assert {*BY_STATUS, 0, 15, 16} == statuses


def test_names_are_those_of_the_header() -> None:
    """Each that a call can give has words."""
    names = set(re.findall(r"\b([A-Z]\w+)\b(?:,| \w+:|:| LAST)", HEADER.partition("};")[0].partition("enum calmizsed_status")[2]))
    named = names & set(_causes.REFUSALS)
    assert named == set(_causes.REFUSALS)


def test_the_fourteen_checks_have_the_words_of_the_documents() -> None:
    """What to look at begins as the table of docs/PROGRAMS.md has it, the key's name aside."""
    table = PROGRAMS.partition("### The fourteen checks")[2].partition("\n## ")[0]
    rows = {int(number): row.split("|")[-2].strip() for number, row in re.findall(r"^\| (\d+) (\|.*)$", table, re.M)}
    assert sorted(rows) == list(range(1, 15)) == sorted(_causes.CHECKS)
    for number, check in _causes.CHECKS.items():
        wanted, found = rows[number].replace("KEY", "the key").split(":")[0].split(",")[0], check.look_at
        assert found.startswith(wanted), number


def test_no_library(tmp_path: pathlib.Path) -> None:
    """No file, none that can be loaded, one of something else."""
    other = next(pathlib.Path("/").glob("lib*/**/libc.so.6"), pathlib.Path("/lib/x86_64-linux-gnu/libc.so.6"))
    (tmp_path / "text").write_text("no library")
    for path, name in ((tmp_path / "none", "NoLibrary"), (tmp_path / "text", "NoLibrary"), (other, "OtherLibrary")):
        with pytest.raises(LibraryError) as raised:
            _library.Library(path)
        assert (raised.value.name, raised.value.status) == (name, 1)


def test_a_library_of_another_version(monkeypatch: pytest.MonkeyPatch) -> None:
    """It is refused when it is loaded."""
    monkeypatch.setattr(_library, "VERSION", "7.5.0")
    with pytest.raises(LibraryError) as raised:
        _library.Library(_library.found())
    assert raised.value.name == "OtherLibrary" and "0.1.0" in raised.value.cause and "7.5.0" in raised.value.cause


def test_where_it_is_looked_for(monkeypatch: pytest.MonkeyPatch, tmp_path: pathlib.Path) -> None:
    """A file or a folder that CALMIZSED_LIBRARY names comes first."""
    monkeypatch.setenv("CALMIZSED_LIBRARY", str(tmp_path))
    assert _library.found() == tmp_path / "libcalmizsed.so.0"
    monkeypatch.setenv("CALMIZSED_LIBRARY", str(tmp_path / "other.so"))
    assert _library.found() == tmp_path / "other.so"


def test_a_result_larger_than_the_first_room(monkeypatch: pytest.MonkeyPatch) -> None:
    """The call is made again with the room that it asks for."""
    monkeypatch.setattr(_library, "LEAST_ROOM", 0)
    assert calmizsed.library().call("version").octets == b"0.1.0"


def test_errors_can_be_pickled() -> None:
    """As those of other libraries, with all that they say."""
    for error in (
            refusal("Validation 5", 6, 5), refusal("Replayed 5 4", 15, 0, 5, 4), refusal("NoTime", 15), LibraryError("NoLibrary", 1, "a")):
        again = pickle.loads(pickle.dumps(error))
        assert type(again) is type(error) and vars(again) == vars(error) and str(again) == str(error)
    assert isinstance(refusal("Validation 5", 6, 5), CheckFailed) and isinstance(refusal("NoTime", 15), Replayed)
    assert refusal("OutOfMemory", 12).check is None and isinstance(refusal("OutOfMemory", 12), MemoryError)
