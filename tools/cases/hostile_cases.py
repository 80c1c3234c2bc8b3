#!/usr/bin/env python3
"""Writes the stored cases of crates/test_hostile, whose head says what a line is.

The messages are made by the formats and by the toy rules alone (tools/cases/signed_messages.py). How many calls a source or a sink has
follows from the length of the input or of the line: the end of the input is a call of its own. How many calls `create`, `new_ta`, `new_ee`
and `construct_rpki_ca` make of the signer is as its documents say: keys, signatures and drawn serial numbers.
"""

from run_cases import create, receive
from signed_messages import (
    AUTHORITY_KEY, BASIC_CONSTRAINTS, MOST, NOW, QUERY, created, failing_cases, malformed_cases, message, octet_string,
    seq, zeros,
)
from stored_cases import terms, write

LARGEST = (1 << 64) - 1
OUT_OF_MEMORY, TOO_LONG, CMS_DECODE = b"OutOfMemory\n", b"TooLong\n", b"CmsDecode\n"


def line(*fields):
    """A line of these fields."""
    return " ".join(map(str, fields))


def segmented(count):
    """A good message whose content's octets are this many segments down."""
    return message(content_string=lambda octets: b"\x24\x80" * count + b"\4" + bytes([len(octets)]) + octets + b"\0\0" * count)


def stream_lines():
    """Commands of which each call of the source or of the sink fails in turn."""
    received, made = message(content=QUERY).hex().encode(), created(QUERY, 300).hex().encode() + b"\n"
    for name, words, given, written in (("receive", receive(), received, QUERY + b"\n"), ("create-at-300", create("300"), QUERY, made)):
        for piece in 200, 1000:
            calls = -(-len(given) // piece) + 1
            yield line(f"{name}-read-by-{piece}", "reads", calls, piece, terms(given), terms(written), *words)
        for piece in 5, 100:
            calls = -(-len(written) // piece)
            yield line(f"{name}-written-by-{piece}", "writes", calls, piece, terms(given), terms(written), *words)


def signer_lines():
    """Whatever is made, with each call of the signer failing in turn."""
    for maker, calls in (("publication", 6), ("provisioning", 6), ("anchor", 2), ("entity", 3), ("request", 2)):
        yield line(f"{maker}-signed", "signs", calls, maker)


def long_lines():
    """Signatures of any length; two of them are longer than memory can be."""
    for count in 0, MOST - 1, MOST:
        made = terms(created(QUERY, NOW, sign=zeros(count)).hex().encode() + b"\n")
        yield line(f"signatures-of-{count}", "long", 0, count, 0, 0, terms(QUERY), made, *create())
    for count in MOST + 1, 2 * MOST:
        yield line(f"signatures-of-{count}", "long", 9, count, 1, 0, terms(QUERY), terms(TOO_LONG), *create())
    # The first signature's length is looked at before the issuing key is asked for.
    for count, status, overlong, told in (MOST, 7, 0, b"KeyNotFound\n"), (MOST + 1, 9, 1, TOO_LONG):
        yield line(f"signatures-of-{count}-under-no-key", "long", status, count, overlong, 1, terms(QUERY), terms(told), *create())
    for count in 1 << 63, LARGEST:
        yield line(f"signatures-of-{count}", "long", 12, count, 0, 0, terms(QUERY), terms(OUT_OF_MEMORY), *create())


def received(name, octets, status, written):
    """A line of octets that are received, with the status and what is written."""
    return line(name, "run", status, terms(octets.hex().encode()), terms(written), *receive())


def run_lines():
    """Messages with parts that are malformed, come twice or come from elsewhere; and content that is nested deeper than any stack."""
    constraints, no_key = seq(BASIC_CONSTRAINTS, octet_string(seq())), seq(AUTHORITY_KEY, octet_string(seq()))
    for name, octets in malformed_cases():
        yield received(name, octets, 4, CMS_DECODE)
    yield received("certificate-with-constraints-twice", message(certificate_extensions=lambda xs: xs + 2 * [constraints]), 4, CMS_DECODE)
    yield received("certificate-with-a-last-authority-without-key", message(certificate_extensions=lambda xs: xs + [no_key]), 0,
        QUERY + b"\n")
    for name, octets, answer in failing_cases():
        yield received(name, octets, 6, b"Validation %s\n" % answer.split("-")[1].encode())
    for count in 0, 1000, 10**6:
        yield received(f"content-{count}-segments-down", segmented(count), 0, QUERY + b"\n")


def lines():
    """All lines."""
    yield from stream_lines()
    yield from signer_lines()
    yield from long_lines()
    yield from run_lines()


if __name__ == "__main__":
    write("test_hostile", lines())
