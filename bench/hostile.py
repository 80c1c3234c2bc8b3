#!/usr/bin/env python3
"""Runs `rpkica` on inputs that are made to cost much, and says what each took.

    bench/hostile.py [WORD ..]

With words, only the inputs are run whose names have one of them. Each input is made in a temporary folder and removed. Printed are the
octets of the input, the status, the seconds (the best of three runs, with the program's start), the most memory that was held, in
millions of octets, and how many octets of it came on each octet of input beyond 64 million octets.

No input may take over 5 seconds on an idle machine, nor over 8 octets for each of its own and 64 million more, and each has its status:
where one is not so, the line says what, and the program ends with 1."""
import os
import sys
import tempfile

from measuring import TOP, best_of_three, build_program

sys.path.insert(0, os.path.join(TOP, "tools", "cases"))
import provisioning_cases as provisioning  # noqa: E402
import publication_cases as publication  # noqa: E402
import run_cases  # noqa: E402
import signed_messages as messages  # noqa: E402

LIMIT = 2**26
SECONDS, OCTETS, ROOM = 5, 8, 64 * 10**6
KEY = messages.seq(messages.seq(messages.RSA, messages.NULL), messages.bits(messages.key_bits(1, 0))).hex()
NOW = str(messages.NOW)
RECEIVE = ["receive", "publication", NOW, KEY]
CREATE = ["create", "publication", NOW]
CREATE_PROVISIONING = ["create", "provisioning", NOW]
SETUP = ["setup", "child_request", NOW]
OTHER_KEYS = [KEY[:-2] + f"{number:02}" for number in range(7, 0, -1)]
PUBLICATION = b'<msg xmlns="http://www.hactrn.net/uris/rpki/publication-spec/" version="4" type="%s">%s</msg>'
MILLION = 10**6


def nested(count):
    """A good message whose content's octets are this many segments down."""
    return messages.message(content_string=lambda octets: b"\x24\x80" * count + messages.octet_string(octets) + b"\0\0" * count)


def beside(count):
    """A good message before whose content's octets so many empty segments stand."""
    return messages.message(content_string=lambda octets: b"\x24\x80" + b"\4\0" * count + messages.octet_string(octets) + b"\0\0")


def extended(count, **parts):
    """A good message, with so many unknown extensions in the part that is named."""
    unknown = messages.seq(messages.oid("1.2.3"), messages.octet_string(b""))
    return messages.message(**{name: lambda extensions: extensions + [unknown] * count for name in parts})


def numbers(count):
    """So many serial numbers, each of three octets or four."""
    return range(2**16, 2**16 + count)


def attributes(length, prefix=b"a"):
    """Attributes of this length together, each with a name of its own."""
    found, number, held = [], 0, 0
    while held < length:
        found.append(b' %s%d=""' % (prefix, number))
        held += len(found[-1])
        number += 1
    return b"".join(found)


def falling(count, item):
    """The items of a set, the last one first, of which no two touch."""
    return b",".join(item(2 * number) for number in range(count, 0, -1))


def address(number):
    """An IPv4 address, by its number."""
    return b"%d.%d.%d.%d" % tuple((10 * 2**24 + number).to_bytes(4, "big"))


def long_address(number):
    """An IPv6 address, by its number."""
    return b"2001:db8::%x:%x" % divmod(number, 2**16)


def filled(length, element):
    """The element, as often as it fits into this length."""
    return element * (length // len(element))


def reply(*elements):
    """A reply of the publication protocol."""
    return publication.root(b"reply", *elements)


def query(*elements):
    """A query of the publication protocol."""
    return publication.root(b"query", *elements)


OBJECT = publication.element(b"list", uri=b"rsync://h/m/", hash=publication.digest(b""))
CHANGE = b'<publish tag="" uri="rsync://h/m/"/>'
LONGER_CHANGE = b'<publish tag="" uri="rsync://h/m/%s"/>' % (b"a" * ((LIMIT - 2**16) // MILLION - len(CHANGE)))


def classes(count):
    """As many classes as that, each with an issuer."""
    return b"".join(provisioning.class_of(class_name=b"%d" % number) for number in range(count))


def listed(**sets):
    """A list of one class with these sets."""
    return provisioning.root(b"list_response", provisioning.class_of(**sets))


# The name of each input, the words, the status, and what makes it.
INPUTS = [
    ("30 80, repeated", RECEIVE, 4, lambda: b"3080" * (LIMIT // 4)),
    ("hexadecimal zeros", RECEIVE, 4, lambda: b"0" * LIMIT),
    ("more than is read", RECEIVE, 9, lambda: b"0" * (LIMIT + 1)),
    ("30 80, a million times, closed", RECEIVE, 4, lambda: (b"\x30\x80" * MILLION + b"\0\0" * MILLION).hex().encode()),
    ("segments, 100000 nested", RECEIVE, 0, lambda: nested(100000).hex().encode()),
    ("segments, a million nested", RECEIVE, 0, lambda: nested(MILLION).hex().encode()),
    ("revoked serial numbers, a million", RECEIVE, 0, lambda: messages.message(entries=numbers(MILLION)).hex().encode()),
    ("revoked serial numbers, a million, under eight keys", [*RECEIVE[:3], *OTHER_KEYS, KEY], 0,
     lambda: messages.message(entries=numbers(MILLION)).hex().encode()),
    ("segments, as many beside one another as fit", RECEIVE, 0, lambda: beside((LIMIT // 2 - 2**16) // 2).hex().encode()),
    ("unknown extensions of the certificate, a million", RECEIVE, 0, lambda: extended(MILLION, certificate_extensions=1).hex().encode()),
    ("unknown extensions of the CRL, a million", RECEIVE, 0, lambda: extended(MILLION, crl_extensions=1).hex().encode()),
    ("objects, as many as fit, received", RECEIVE, 0,
     lambda: messages.message(content=reply(filled(LIMIT // 2 - 2**16, OBJECT))).hex().encode()),
    ("changes, as many as fit, received", RECEIVE, 0,
     lambda: messages.message(content=query(filled(LIMIT // 2 - 2**16, CHANGE))).hex().encode()),
    ("attributes of 2^25 octets", CREATE, 5, lambda: b"<msg" + attributes(2**25) + b"/>"),
    ("declarations of namespaces of 2^25 octets", CREATE, 5, lambda: b"<msg" + attributes(2**25, b"xmlns:a") + b"/>"),
    ("a name of 2^25 octets", CREATE, 5, lambda: b"<" + b"a" * 2**25 + b"/>"),
    ("elements, 100000 nested", CREATE, 5, lambda: b"<a>" * 100000 + b"</a>" * 100000),
    ("elements, as many nested as fit", CREATE, 5, lambda: b"<a>" * (LIMIT // 7) + b"</a>" * (LIMIT // 7)),
    ("empty PDUs, a million", CREATE, 5, lambda: PUBLICATION % (b"query", b"<list/>" * MILLION)),
    ("short changes without content, a million", CREATE, 0, lambda: query(CHANGE * MILLION)),
    ("changes without content, a million", CREATE, 0, lambda: query(LONGER_CHANGE * MILLION)),
    ("objects, as many as fit", CREATE, 0, lambda: reply(filled(LIMIT - 2**16, OBJECT))),
    ("changes, as many as fit", CREATE, 0, lambda: query(filled(LIMIT - 2**16, CHANGE))),
    ("signs for <, as many as fit", CREATE, 0, lambda: reply(publication.report(b"other_error", filled(LIMIT - 2**16, b"&lt;")))),
    ("an object of as many octets as fit", CREATE, 0,
     lambda: query(publication.element(b"publish", b"A" * (LIMIT - 2**16), tag=b"", uri=publication.URI))),
    ("a certificate of zeros, as many as fit", SETUP, 5, lambda: run_cases.setup_message(*run_cases.ROOTS[0], b"A" * (LIMIT - 2**16))),
    ("one comment", CREATE, 5, lambda: b"<!--" + b"-a" * (LIMIT // 2 - 4) + b"-->"),
    ("white space", CREATE, 5, lambda: b" " * LIMIT),
    ("empty classes, a million", CREATE_PROVISIONING, 5, lambda: provisioning.root(b"list_response", b"<class/>" * MILLION)),
    ("classes with an issuer, as many as fit", CREATE_PROVISIONING, 0,
     lambda: provisioning.root(b"list_response", classes((LIMIT - 2**16) // len(classes(10)) * 9))),
    ("AS numbers in falling order, a million", CREATE_PROVISIONING, 0,
     lambda: listed(asn=falling(MILLION, lambda number: b"%d" % number))),
    ("addresses in falling order, a million", CREATE_PROVISIONING, 0, lambda: listed(ipv4=falling(MILLION, address))),
    ("long addresses in falling order, a million", CREATE_PROVISIONING, 0, lambda: listed(ipv6=falling(MILLION, long_address))),
]


def measured(folder, name, words, expected, make):
    """The line of an input, and whether it is as it should be."""
    path = os.path.join(folder, "input")
    with open(path, "wb") as target:
        length = target.write(make())
    seconds, status, peak = best_of_three(path, os.path.join(TOP, "crates", "rpkica", "out", "rpkica"), *words)
    beyond = max(peak - ROOM, 0) / length
    faults = [said for said, is_so in (
        (f"status {status}, not {expected}", status != expected), ("too slow", seconds > SECONDS),
        ("too much memory", beyond > OCTETS)) if is_so]
    print(f"{name:45} {length:9} {status:2} {seconds:8.3f} {peak / 1e6:8.1f} {beyond:6.2f}  {', '.join(faults)}", flush=True)
    return not faults


def main():
    """Measures the inputs that are asked for, and prints them; 1 where one isn't answered as it should be."""
    build_program()
    asked = sys.argv[1:]
    print(f"{'input':45} {'octets':>9} {'':2} {'seconds':>8} {'peak MB':>8} {'each':>6}")
    with tempfile.TemporaryDirectory() as folder:
        good = [measured(folder, *row) for row in INPUTS if not asked or any(word in row[0] for word in asked)]
    sys.exit(0 if all(good) else 1)


if __name__ == "__main__":
    main()
