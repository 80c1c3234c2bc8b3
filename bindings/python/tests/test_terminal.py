"""The command in a terminal of 80 columns: widths, colour, a bar, and passphrases that are typed."""

from __future__ import annotations

import pathlib
import re
import shutil

import pytest
from launcher import AT_SIGNED, CHILD_REQUEST, KEY, LIST, QUERY, Word, in_terminal
from support import EXAMPLES, Keys, openssl

COLOUR = re.compile(r"\x1b\[[0-9;]*m")
COMMANDS: list[tuple[Word, ...]] = [
    ("receive",), ("create",), ("inspect",), ("explain",), ("setup",), ("setup", "read"), ("setup", "child-request"),
    ("setup", "publisher-request"), ("anchor",), ("anchor", "new"), ("request",), ("request", "new"), ("request", "verify"), ()]


def name_of(words: tuple[Word, ...]) -> str:
    """The name of a test."""
    return " ".join(map(str, words[:2])) or "calmizsed"


@pytest.mark.parametrize("words", [("explain", QUERY, "--key", KEY), ("inspect", QUERY), ("setup", "read", CHILD_REQUEST)], ids=name_of)
def test_eighty_columns(words: tuple[Word, ...]) -> None:
    """No line is wider."""
    _, shown = in_terminal(*words)
    lines = COLOUR.sub("", shown).split("\r\n")
    assert len(lines) > 4 and [line for line in lines if len(line) > 80] == []


@pytest.mark.parametrize("words", COMMANDS, ids=name_of)
def test_each_help_has_an_example(words: tuple[Word, ...]) -> None:
    """Which begins with the command's own words, and no line is wider than the terminal."""
    status, shown = in_terminal(*words, "--help")
    assert status == 0 and "    calmizsed " + " ".join(map(str, words)) in shown
    assert [line for line in shown.split("\r\n") if len(line) > 80] == []


def test_colour_on_a_terminal_alone() -> None:
    """And NO_COLOR takes it away."""
    words: tuple[Word, ...] = "explain", QUERY, "--key", KEY
    status, shown = in_terminal(*words)
    assert status == 6 and "\x1b[31;1mFAILED\x1b[0m" in shown and "\x1b[32mok\x1b[0m" in shown
    for setting in ({"NO_COLOR": "1"}, {"TERM": "dumb"}):
        status, shown = in_terminal(*words, **setting)
        assert status == 6 and "\x1b[" not in shown and "FAILED" in shown


def test_der_is_not_for_a_terminal(keys: Keys) -> None:
    """It is refused, and another form is not."""
    words = "create", "publication", EXAMPLES / "query-list.xml", "--key", keys.private("2048")
    assert in_terminal(*words)[0] == 2
    status, shown = in_terminal(*words, "--form", "pem")
    assert status == 0 and shown.startswith("-----BEGIN CMS-----")


def test_a_bar(tmp_path: pathlib.Path) -> None:
    """It grows with the files that are judged, and goes before what is said."""
    for name in ("a", "b", "c"):
        shutil.copy(QUERY, tmp_path / name)
    _, shown = in_terminal("receive", "publication", tmp_path, "--key", KEY, "--at", AT_SIGNED)
    assert [f"{count}/3" in shown for count in (1, 2, 3)] == [True] * 3
    assert shown.endswith("calmizsed: 3 messages: 3 Ok\r\n")
    assert "/3" not in in_terminal("receive", "publication", tmp_path, "--key", KEY, "--at", AT_SIGNED, "-q")[1]


def test_a_passphrase_is_typed(keys: Keys, tmp_path: pathlib.Path) -> None:
    """It isn't shown; another one is refused."""
    made = tmp_path / "anchor.der"
    words = "anchor", "new", "--key", keys.private("encrypted"), "-o", made
    status, shown = in_terminal(*words, passphrase="open sesame")
    assert (status, shown.strip()) == (0, f"Passphrase of {keys.private('encrypted')}:")
    pem = openssl("x509", "-inform", "DER", "-in", made, "-noout", "-pubkey")
    assert pem == keys.public("2048").read_bytes()
    made.unlink()
    status, shown = in_terminal(*words, passphrase="open barley")
    assert status == 2 and "NoKey" in shown and "barley" not in shown and not made.exists()


def test_no_passphrase_is_asked_for_where_standard_input_is_read(keys: Keys) -> None:
    """The text comes from there."""
    words = "create", "publication", "-", "--key", keys.private("encrypted"), "--form", "pem"
    status, shown = in_terminal(*words, given=LIST.decode().strip())
    assert status == 2 and "EncryptedKey" in shown and "Passphrase of" not in shown
