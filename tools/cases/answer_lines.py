"""How lines of crates/test_external's cases are spelled, for the scripts that write them."""

import re

import line_cases
from stored_cases import terms

USAGE = 2, b"Usage"
MOST = 1 << 16


def octets(field):
    """Octets as terms, where what is repeated stands once; or terms as they are."""
    if isinstance(field, str):
        return field
    return terms(field) if re.search(rb"(..)\1{99}", field, re.DOTALL) else line_cases.octets(field)


def word(text):
    """A word; a long one in hexadecimal, where what is repeated stands once."""
    return "#" + terms(text.encode()) if len(text) > 2000 else line_cases.word(text)


def case(name, how, words, field, status, output):
    """A line of a command: its name, how it is run, its words, its input, and what it answers."""
    return " ".join([name, how, str(status), octets(output), octets(field), *map(word, words)])


def row(name, words, field, answer):
    """A case of the program: status, and what is written without the last line feed."""
    status, output = answer
    return case(f"keys-{name}", "keys", words, field, status, output + b"\n")


def of_call(call, name, words, field, *answer):
    """A case of a public call, and the fields that it answers."""
    fields = ";".join(octets(part) if part else "'" for part in answer)
    return " ".join([f"call-{call}-{name}", call, fields, octets(field), *map(word, words)])
