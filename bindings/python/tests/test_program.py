"""The program rpkikeys, where it is built, beside the package: it writes and takes in hexadecimal what the library has in octets.

RPKIKEYS names it, else it is the one that is built in the tree. It isn't built here, since that takes a proof.
"""

from __future__ import annotations

import importlib
import os
import pathlib
import re
import shlex
import subprocess
from typing import Any

import pytest
from support import EXAMPLES, TREE, Keys

import calmizsed
from calmizsed import Kind
from calmizsed._asking import records
from calmizsed._values import moment_of
from calmizsed.keys import load_private_key

rsa_messages: Any = importlib.import_module("rsa_messages")

PROGRAM = pathlib.Path(os.environ.get("RPKIKEYS", str(TREE / "crates" / "rpkikeys" / "out" / "rpkikeys")))
SECONDS = 1800000000
TEXT = str(rsa_messages.DELTA)
EXAMPLES_OF_HELP = 17
pytestmark = pytest.mark.skipif(not PROGRAM.exists(), reason="the program rpkikeys isn't built")


def program(*words: str, given: bytes = b"") -> tuple[int, str]:
    """A run: its status, and what it writes."""
    ended = subprocess.run([str(PROGRAM), *words], input=given, stdout=subprocess.PIPE, check=False)
    return ended.returncode, ended.stdout.decode("latin-1")


@pytest.fixture(scope="module")
def message(keys: Keys) -> bytes:
    """A message that the package makes."""
    key = load_private_key(keys.private("2048").read_bytes())
    return calmizsed.create(Kind.PUBLICATION, TEXT, key, moment_of(SECONDS))


def digest_of(text: str) -> str:
    """The digest at the end of the questions that the program writes."""
    return text.splitlines()[-1].removeprefix("digest ")


def test_its_questions_are_those_of_the_library(keys: Keys, message: bytes) -> None:
    """Line by line."""
    names = {1: "attributes", 2: "certificate", 3: "crl"}
    public = [keys.der("2048"), keys.der("other")]
    lines, own, part = [], "-", ""
    for tag, octets in records(calmizsed.library().call("message_questions", message, b"".join(public)).octets):
        if tag == 17:
            own = octets.hex()
        elif tag == 16:
            lines.append(f"{part} {octets.hex()}")
        elif tag in names:
            part, own = f"{names[tag]} {own} {octets.hex()}", "-"
        else:
            lines.append(f"{'key' if tag == 18 else 'digest'} {octets.hex()}")
    status, text = program("questions", "message", *(key.hex() for key in public), given=message.hex().encode())
    assert (status, text.splitlines()) == (0, lines)


def test_answers(keys: Keys, message: bytes) -> None:
    """It receives by right ones, and says why it doesn't by others."""
    given, key, other = message.hex().encode(), keys.der("2048").hex(), keys.der("other").hex()
    digest = digest_of(program("questions", "message", key, given=given)[1])
    for of, digits, last, answer in (
            (digest, "111", "-", (0, f"0 {SECONDS}\n{TEXT}\n")), (digest, "011", "-", (6, "Validation 3\n")),
            (digest, "11", "-", (2, "Usage\n")), (digest, "112", "-", (2, "Usage\n")), (digest, "111", "-1", (2, "Usage\n")),
            (digest, "111", str(SECONDS), (15, f"Replayed {SECONDS} {SECONDS}\n")), ("0" * 64, "111", "-", (14, "OtherQuestions\n"))):
        assert program("receive", "publication", str(SECONDS), last, of, digits, key, given=given) == answer
    both = digest_of(program("questions", "message", other, key, given=given)[1])
    words = "receive", "publication", str(SECONDS), "-", both, "10011", other, key
    assert program(*words, given=given) == (0, f"1 {SECONDS}\n{TEXT}\n")
    assert program("explain", str(SECONDS), digest, "101", key, given=given) == (0, "11111110111111\n")


def test_words(keys: Keys, message: bytes) -> None:
    """Those that are no command."""
    for words in ((), ("questions",), ("questions", keys.der("2048").hex()), ("inspect", "x"), ("prepare",), ("finish", "anchor")):
        assert program(*words, given=message.hex().encode()) == (2, "Usage\n")


def test_the_examples_of_its_help_run() -> None:
    """Each, behind the variables that it names, with status 0; no line is wider than 80 columns."""
    status, text = program("--help")
    commands = re.findall(r"(\./rpkikeys (?:.*\\\n)*.*)\n", text)
    variables = re.search(r"( +key=.*\n +toy=.*\n)", text)
    assert status == 0 and len(commands) == EXAMPLES_OF_HELP and variables is not None
    assert [line for line in text.splitlines() if len(line) > 80] == []
    for command in commands:
        script = variables[1] + command.replace("./rpkikeys", shlex.quote(str(PROGRAM)))
        ended = subprocess.run(["sh", "-c", script], cwd=EXAMPLES.parent, stdout=subprocess.DEVNULL, check=False)
        assert ended.returncode == 0, command
