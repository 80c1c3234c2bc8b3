#!/usr/bin/env python3
"""Writes JSON texts, and what is read and written of them: crates/test_json/data/cases.txt, and the stdout beside it.

The expected answers come from Python's base64 and json and from the rows here; certificates and requests are those that
tools/cases/certificate_cases.py and tools/cases/request_cases.py put together.

A line is `NAME OCTETS STEP..`, with the steps of tools/cases/stored_cases.py. What the calls answer:

    limit                          what the limit prints that the JSON text states
    class_name service             the string of the JSON text
    class_name_to_json service_to_json
        the text as JSON
    certificate authority router   what is written of the certificate or the request that the JSON text holds
    certificate_to_json authority_to_json router_to_json
        the JSON text of the certificate or the request with which the octets begin
    issuance,LIMIT                 what the request prints in the class `0`, with the limit of this JSON text
"""

import base64
import json
from hashlib import sha1

import resource_sets as sets
from certificate_cases import certificate, options_of as certificate_options, own_anchor
from request_cases import HERE, MANIFEST, REPOSITORY, TRUE, access, constraints, description, options_of, request, usage
from signed_messages import NOW, NULL, indefinite, key_bits
from stored_cases import MALFORMED, SIZES, repeated, step, terms, within, write

# JSON texts, and what their limits print.
LIMITS = [
    ('{ "asn": "none", "v4": "none", "v6": "none" }', "none"),
    ('{ "v4": "10.0.0.0/8", "v6": "none" }', "ipv4: 10.0.0.0/8"),
    ("{}", "none"),
    ('{"asn":"none"}', "none"),
    ('{"asn":"AS64496-AS64500, 65536"}', "asn: 64496-64500,65536"),
    ('{"ipv4":"10.0.0.0/9,10.128.0.0/9"}', "ipv4: 10.0.0.0/8"),
    ('{"v4":"10.0.0.0/8"}', "ipv4: 10.0.0.0/8"),
    ('{"ipv6":"2001:DB8::/32"}', "ipv6: 2001:db8::/32"),
    ('{"v6":"2001:db8::/32"}', "ipv6: 2001:db8::/32"),
    ('{"v6":"::1","v4":"10.0.0.1","asn":"1"}', "asn: 1 ipv4: 10.0.0.1/32 ipv6: ::1/128"),
    ('{"asn":"1","ipv6":"::1"}', "asn: 1 ipv6: ::1/128"),
    ('{"ipv4":"10.0.0.1","ipv6":"::1","asn":"none"}', "ipv4: 10.0.0.1/32 ipv6: ::1/128"),
    # the empty set is stated by an empty text
    ('{"asn":""}', "asn: "),
    ('{"asn":" ","v4":"","v6":""}', "asn:  ipv4:  ipv6: "),
    # of members of one name the last counts
    ('{"asn":"1","asn":"2"}', "asn: 2"),
    ('{"asn":"1","asn":"none"}', "none"),
    ('{"asn":"none","asn":"1"}', "asn: 1"),
    ('{"v4":"none","asn":"1","v4":"10.0.0.0/8"}', "asn: 1 ipv4: 10.0.0.0/8"),
    ('{"asn":1,"asn":"1"}', "asn: 1"),
    ('{"v6":"::1","v6":"::2","v6":"::3"}', "ipv6: ::3/128"),
    # escapes are read
    ('{"\\u0061sn":"\\u006eone"}', "none"),
    (' \n{ "asn" :\t"1" } ', "asn: 1"),
]

NO_LIMITS = [
    "", "{", "none", '"none"', "[]", "null", "1", "true", '["asn"]', '{"asn":"1"} x', '{"asn":"1",}', "{'asn':'1'}",
    # another member, and both names of a kind
    '{"a":"none"}', '{"asn":"1","a":"1"}', '{"as":"1"}', '{"ASN":"1"}', '{"":"1"}', '{"asn ":"1"}', '{"ip":"none"}',
    '{"v4":"none","ipv4":"none"}', '{"ipv4":"10.0.0.0/8","v4":"10.0.0.0/8"}', '{"ipv6":"none","v6":"none"}',
    # another value
    '{"asn":1}', '{"asn":64496}', '{"asn":null}', '{"asn":true}', '{"asn":["1"]}', '{"asn":{}}', '{"v4":0}', '{"v6":null}',
    '{"asn":"1","asn":1}', '{"asn":"1","asn":null}',
    # a text that stands for no set
    '{"asn":"None"}', '{"asn":" none"}', '{"asn":"none "}', '{"asn":"NONE"}', '{"asn":"all"}', '{"asn":"2-1"}', '{"asn":"1,"}',
    '{"asn":"4294967296"}', '{"asn":"10.0.0.0/8"}', '{"v4":"::/0"}', '{"v4":"10.0.0.0/33"}', '{"v6":"10.0.0.0/8"}',
    '{"v6":"::/129"}', '{"ipv4":"none,none"}',
]

# JSON texts that are no string, and names of classes.
NO_STRINGS = ["", "a", "1", "null", "true", '["a"]', '{"a":"a"}', '"a', 'a"', '"a" x', "'a'", '"\\x"', '"\t"']
NAMES = ["", "0", "a b", "none", 'a"b', "a\\b", "a\tb\n", "a/b", "\u00e9", "\u20ac", "\U0001f600", "\x7f", "\x01", "A" * 300]

# Service URIs, and texts that are none.
SERVICES = ["https://h/s", "HTTPS://h", "http://h/s", "HTTP://", "http:// any \u00e9", 'http://a"b']
NO_SERVICES = ["", "h", "ftp://h/", "https:///", "https://h/../a", "https://h/a b", "https://h/\u00e9", "http:/h", "rsync://h/m/"]


def line(name, octets, *steps):
    """A line of the cases."""
    return " ".join((name, terms(octets) or "'", *steps))


def limit_lines():
    """JSON texts of limits, and texts that are none."""
    for number, (text, shown) in enumerate(LIMITS):
        yield line(f"limit-{number}", text.encode(), step("limit", shown.encode()))
    for number, text in enumerate(NO_LIMITS):
        yield line(f"no-limit-{number}", text.encode(), step("limit", MALFORMED))


def spellings(text):
    """A text as JSON, in two spellings."""
    yield json.dumps(text)
    yield json.dumps(text, ensure_ascii=False)


def string_lines():
    """JSON texts of names of classes and of service URIs, otherwise spelled, and texts that are none."""
    for number, text in enumerate(NAMES):
        yield line(f"name-{number}", text.encode(), step("class_name_to_json", json.dumps(text, ensure_ascii=False).encode()))
        for kind, spelled in enumerate(spellings(text)):
            yield line(f"name-{number}-spelled-{kind}", spelled.encode(), step("class_name", text.encode()))
    for number, text in enumerate(SERVICES):
        yield line(f"service-{number}", text.encode(), step("service_to_json", json.dumps(text, ensure_ascii=False).encode()))
        for kind, spelled in enumerate(spellings(text)):
            yield line(f"service-{number}-spelled-{kind}", spelled.encode(), step("service", text.encode()))
    for number, text in enumerate(NO_SERVICES):
        yield line(f"no-service-{number}", json.dumps(text).encode(), step("service", MALFORMED))
    for number, text in enumerate(NO_STRINGS):
        yield line(f"no-string-{number}", text.encode(),
            *[step(call, MALFORMED) for call in ("class_name", "service", "certificate", "authority", "router")])


def json_of(octets):
    """The JSON text of octets, in base64."""
    return json.dumps(base64.b64encode(octets).decode()).encode()


def wrapped(octets):
    """The same with white space in the base64 text, which is then that of no octets."""
    text = base64.b64encode(octets).decode()
    return json.dumps(" " + "\n".join(text[at:at + 64] for at in range(0, len(text), 64)) + "\t\r").encode()


def unpadded(octets):
    """The same without padding."""
    return json.dumps(base64.b64encode(octets).decode().rstrip("=")).encode()


CALLS = "certificate", "authority", "router"


def held_lines(name, call, octets):
    """What begins the octets counts, whatever stands behind it; and it is nothing else."""
    for label, given in (("", octets), ("-with-more", octets + NULL), ("-with-octets-behind", octets + b"\xff\xff")):
        yield line(f"{name}{label}", given, step(f"{call}_to_json", json_of(octets)))
        others = [step(other, MALFORMED) for other in CALLS if other != call]
        yield line(f"{name}{label}-json", json_of(given), step(call, octets), *others)
        yield line(f"{name}{label}-with-white-space", wrapped(given), *[step(other, MALFORMED) for other in CALLS])
        if unpadded(given) != json_of(given):
            yield line(f"{name}{label}-unpadded", unpadded(given), step(call, MALFORMED))
    for label, given in (("cut", octets[:-1]), ("behind", NULL + octets), ("none", b"")):
        yield line(f"{name}-{label}-json", json_of(given), *[step(other, MALFORMED) for other in CALLS])
    loose = indefinite(0x30, octets[4:] if octets[1] == 0x82 else octets[3:])
    yield line(f"{name}-in-ber", json_of(loose), *[step(other, MALFORMED) for other in CALLS])
    bare = base64.b64encode(octets)
    yield line(f"{name}-bare", bare, step(call, MALFORMED))
    yield line(f"{name}-in-hexadecimal", json.dumps(octets.hex()).encode(), step(call, MALFORMED))
    yield line(f"{name}-url-safe", b'"' + base64.urlsafe_b64encode(octets + b"\xff" * 6) + b'"', step(call, MALFORMED))


def signed_lines():
    """JSON texts of certificates and of certificate requests."""
    yield from held_lines("certificate", "certificate", certificate(own_anchor(NOW, NOW + 60)))
    yield from held_lines("authority", "authority", request(options_of()))
    yield from held_lines("router", "router", request(options_of(router=True)))


def issuance_lines():
    """Requests as they are printed."""
    identifier = sha1(key_bits(1, 0)).hexdigest().upper()
    repository, manifest, notify = (uri.decode() for uri in HERE)
    two = access(description(REPOSITORY, HERE[0]), description(MANIFEST, HERE[1]))
    none = access()
    for name, limit, shown, extensions, places in (
            ("whole", '{"v4":"10.0.0.0/8","asn":"1"}', "asn: 1 ipv4: 10.0.0.0/8", None, (notify, repository, manifest)),
            ("unlimited", "{}", "none", None, (notify, repository, manifest)),
            ("without-notification", "{}", "none", [constraints(TRUE), usage(), two], ("<none>", repository, manifest)),
            ("without-places", '{"asn":""}', "asn: ", [constraints(TRUE), usage(), none], ("<none>",) * 3)):
        options = options_of(**({} if extensions is None else dict(extensions=extensions)))
        printed = (f"class name '0' limit '{shown}' csr for key '{identifier}' rrdp notify '{places[0]}' ca repo '{places[1]}' "
            f"mft '{places[2]}'")
        yield line(f"issuance-{name}", request(options), step("issuance", printed.encode(), argument=limit.encode()))


def size_lines():
    """Parts of the sizes where a length or a count takes one octet more."""
    for n in SIZES:
        for label, text in ("letters", "A" * n), ("quotes", '"' * n):
            yield line(f"name-of-{n}-{label}", text.encode(), step("class_name_to_json", json.dumps(text).encode()))
            yield line(f"name-of-{n}-{label}-spelled", json.dumps(text).encode(), step("class_name", text.encode()))
        for scheme in "https", "http":
            text, is_one = f"{scheme}://localhost/".ljust(n, "a").encode(), scheme == "http" or n <= 65535
            spelled = b'"' + text + b'"'
            yield line(f"service-of-{n}-{scheme}", text, step("service_to_json", spelled if is_one else MALFORMED))
            yield line(f"service-of-{n}-{scheme}-spelled", spelled, step("service", text if is_one else MALFORMED))
        bits = b"k" * n
        for call, octets in (
                ("certificate", certificate(certificate_options(key=("rsa", bits)))), ("authority", request(options_of(key=("rsa", bits)))),
                ("router", request(options_of(router=True, key=("ec", bits))))):
            yield line(f"{call}-with-a-key-of-{n}", octets, step(f"{call}_to_json", json_of(octets)))
            yield line(f"{call}-with-a-key-of-{n}-json", json_of(octets), step(call, octets))
        yield from limit_size_lines(n)


def limit_size_lines(n):
    """Limits of so many items of one run, and of so many runs; the text of a long set is long, so that one of 65536 runs stands here."""
    for kind in sets.RULES:
        member = "asn" if kind == "as" else kind
        front, items = f"{member}: ".encode(), sets.singles(kind, n)
        stated = within(b'{"%s":"#"}' % member.encode(), b"#", repeated(items[1].encode() + b",", n - 1), terms(items[1].encode()))
        yield f"limit-of-{n}-items-of-{kind} {stated} limit={terms(front + sets.printed(kind, items[1]).encode())}"
        if n < 1000 or (kind, n) == ("ipv6", 65536):
            text = ",".join(items)
            stated = within(b'{"%s":"#"}' % member.encode(), b"#", "'" + text)
            yield f"limit-of-{n}-runs-of-{kind} {stated} limit={terms(front)}|'{sets.printed(kind, text)}"


def lines():
    """All lines."""
    for cases in (limit_lines, string_lines, signed_lines, issuance_lines, size_lines):
        yield from cases()


if __name__ == "__main__":
    write("test_json", lines())
