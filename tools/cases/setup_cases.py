#!/usr/bin/env python3
"""Writes setup messages and what their calls answer: crates/test_setup/data/cases.txt, and the stdout beside it.

The messages are laid out by RFC 8183, 5.2, the certificates those of tools/cases/certificate_cases.py; no expected answer comes from the
program under test.

A line is `NAME ber OCTETS STEP..`, with the steps of tools/cases/stored_cases.py. What the calls answer, or `refused` and the printed
error:

    child_request parent_response publisher_request repository_response
                                      the message as each call writes it: as a text, to a sink, and as octets of a copy; what it prints;
                                      whether the copy is equal; and the tag, or `-`
    made_child made_parent made_publisher made_repository
                                      the same of a message that calls put together, with the octets in the place of the certificate
    child_parts publisher_parts       what such a message is taken to: the octets, the handle and the tag
    child_anchor,'MOMENT parent_anchor,.. publisher_anchor,.. repository_anchor,..
                                      the certificate in the message, believed at the moment; anchor: the same of octets by themselves
    service                           of a service's URI its kind, its text, and what a copy prints
    found,NAMES                       the repository below this base, or the file in it; a line feed stands between their two names
"""

import base64

from certificate_cases import certificate, own_anchor
from run_cases import ROOTS, setup_message
from signed_messages import NOW
from stored_cases import SIZES, ber_line as line, step, write

NO_XML, NO_ENCODING, NO_ANCHOR = (("refused", text) for text in ("malformed XML", "Cannot decode TA cert", "Invalid TA cert"))
FILE = "rsync://localhost/repo/"


def written(call, text, tag="-"):
    """The step of a message that is written, with its tag."""
    return step(call, text, text, text, text, True, tag)


def message(number, octets, attributes=b""):
    """The message of this root, as it is written, with these octets in the place of the certificate."""
    root, own, child = ROOTS[number]
    return setup_message(root, own + attributes, child, base64.b64encode(octets))


def message_lines():
    """Each message, with a tag and without, and as another one; its certificate at both ends of its validity and a second outside."""
    octets = certificate(own_anchor(NOW, NOW + 60))
    for number, (root, _, _) in enumerate(ROOTS):
        call, anchor = root.decode(), f"{root.split(b'_')[0].decode()}_anchor"
        text = message(number, octets)
        others = [step(other.decode(), *NO_XML) for other, _, _ in ROOTS if other != root]
        believed = [step(anchor, octets, argument=moment) for moment in (NOW, NOW + 60)]
        outside = [step(anchor, *NO_ANCHOR, argument=moment) for moment in (NOW - 1, NOW + 61)]
        yield line(call, text, written(call, text), *others, *believed, *outside)
        tagged = message(number, octets, b' tag="a &lt; b"')
        yield line(f"{call}-with-a-tag", tagged, written(call, tagged, "a < b"))
        yield line(f"{call}-of-no-certificate", message(number, b"abc"), step(anchor, *NO_ENCODING, argument=NOW))
        for n in SIZES:
            sized = message(number, b"c" * n, b' tag="%s"' % (b"t" * n))
            yield line(f"{call}-of-{n}", sized, written(call, sized, "t" * n))
    yield line("anchor", octets, step("anchor", octets, argument=NOW), step("anchor", *NO_ANCHOR, argument=NOW + 61))
    yield line("no-anchor", octets[:-1], step("anchor", *NO_ENCODING, argument=NOW))


def handle_lines():
    """Handles of the greatest length, and one letter longer."""
    for n, answer in (1, True), (255, True), (256, False), (0, False):
        text = setup_message(b"child_request", b'child_handle="%s"' % (b"h" * n), b"child_bpki_ta", b"AAEC")
        yield line(f"handle-of-{n}", text, written("child_request", text) if answer else step("child_request", *NO_XML))


def made_lines():
    """Setup messages that calls put together."""
    octets = b"\0\1\2"
    attributes = (
        b'child_handle="Carol"', b'parent_handle="Bob" child_handle="Carol" service_uri="https://h/s" tag="a"',
        b'publisher_handle="Carol" tag="a"',
        b'publisher_handle="Carol" service_uri="https://h/s" sia_base="rsync://h/m/" rrdp_notification_uri="https://h/n.xml" tag="a"')
    for (root, _, child), own in zip(ROOTS, attributes):
        text, call = setup_message(root, own, child, b"AAEC"), f"made_{root.split(b'_')[0].decode()}"
        yield line(call, octets, written(call, text, "a" if b"tag" in own else "-"))
    yield line("parts", octets, step("child_parts", octets, "Carol", "-"), step("publisher_parts", octets, "Carol", "a"))


def uri_lines():
    """Service URIs, texts that are none, and files of a repository."""
    for number, (text, kind) in enumerate((
            ("https://h/s", "https"), ("HTTPS://h", "https"), ("http://h/s", "http"), ("HTTP://h/a b", "http"), ("http://", "http"))):
        yield line(f"service-{number}", text.encode(), step("service", kind, text, text))
    for number, (text, error) in enumerate((
            ("ftp://h/", "the URI has another scheme"), ("", "the URI has another scheme"),
            ("https:///", "the URI lacks its host or its module"),
            ("https://h/../a", "the URI has a segment of dots"), ("https://h/a b", "the URI has a character that is not allowed"),
            ("https://h/" + "u" * 65526, "the URI is too long"))):
        yield line(f"no-service-{number}", text.encode(), step("service", "refused", error))
    dots = "refused", "the URI has a segment of dots"
    yield line("files", FILE.encode(), *[step("found", answer, argument=names.encode()) for names, answer in (
        ("ca\nf.cer", FILE + "ca/f.cer"), ("\nf.cer", FILE + "f.cer"), ("ca\n/f.cer", FILE + "ca/f.cer"), ("ca", FILE + "ca/"),
        ("", FILE))],
        *[step("found", *dots, argument=names) for names in (b"..\nf.cer", b"ca\n../f.cer", b"..")])


def lines():
    """All lines."""
    for part in message_lines, handle_lines, made_lines, uri_lines:
        yield from part()


if __name__ == "__main__":
    write("test_setup", lines())
