#!/usr/bin/env python3
"""Writes values and what their calls have to answer: crates/test_values/data/cases.txt, and the stdout beside it.

The octets are put together here from X.690 and RFC 5280, and each expected answer is what they were put together from, or comes from
Python's calendar and hashlib, from OpenSSL or from the library `cryptography`; none comes from the crates under test.

A line is `NAME MODE OCTETS STEP..`, with the steps of tools/cases/stored_cases.py; MODE is `der`, `ber` or `both`. What the calls answer:

    enter,TAG leave pass              ok (pass goes behind what is left of the level, and out of it)
    descend,TAG ascend                how often the cursor could enter or leave
    rest                              the octets of what is left of the level, which is left
    leave_since,N.                    takes as many values as the argument has octets, and leaves: what was passed, twice
    depth end here                    the depth; whether the level ends; the octets from here on
    primitive,TAG octets,TAG          the contents
    capture                           the value's octets
    next item,TAG optional,TAG        tag, form, contents, octets; none where nothing stands there
    tree tree_size                    the size, then each node as an item; the size and how many nodes there are
    oid whole_oid                     the contents; behind them what is printed
    bits bit_string                   the count of unused bits, and the octets
    time whole_time time_text moment  seconds, DER, RFC 3339
    serial whole_serial number        twenty octets, DER
    key whole_key decoded_key         format, bits, key identifier, DER; the last also the name that is made of the key
    x509 cms algorithm                what a certificate writes, and what a signer's information does
    data whole_data router_data       the signed octets, the signature, what is written
    data_algorithm signature          as algorithm; what a certificate writes of the algorithm, and the signature, of data that were entered
    extensions extensions_under,TAG   identifier and value of each, one behind the other; two_extensions: the same without what is round
                                      them
    append_constructed,TAG            the octets, and behind them the constructed value whose contents they are
    append_primitive,TAG              the same with a primitive value
"""

import calendar
import datetime
import hashlib

from signed_messages import (
    ALGORITHM, COMMON_NAME, NULL, RSA, RSA_SHA256, SUBJECT_KEY, bits, indefinite, integer, length, octet_string, oid,
    overlong, seq, time, value,
)
from stored_cases import DONE, MALFORMED, NOTHING, SIZES, step, terms, write

EC, P256, ECDSA = oid("1.2.840.10045.2.1"), oid("1.2.840.10045.3.1.7"), oid("1.2.840.10045.4.3.2")
ROUTER = seq(ECDSA)


def case(name, mode, octets, *steps):
    """A line of the cases."""
    return " ".join([name, mode, terms(octets) or "'", *steps])


def end(left=b""):
    """The step that says what is left."""
    return step("here", left)


# ---- values


class Node:
    """A value: its identifier, its contents or the nodes in it, and how its length is spelled."""

    def __init__(self, identifier, inside, spell=length):
        self.identifier = identifier
        self.constructed = isinstance(inside, list)
        self.nodes = inside if self.constructed else []
        self.contents = b"".join(node.octets for node in inside) if self.constructed else inside
        self.indefinite = spell is indefinite
        behind = b"\x80" if self.indefinite else spell(len(self.contents))
        self.octets = identifier + behind + self.contents + (b"\0\0" if self.indefinite else b"")
        self.tag = bytes([identifier[0] & 0xDF]) + identifier[1:]

    def item(self):
        """What is read of the value: tag, whether it is constructed, contents and octets."""
        return self.tag, self.constructed, self.contents, self.octets

    def preorder(self):
        """The items of the value and of all in it, in their order."""
        return [self.item(), *(item for node in self.nodes for item in node.preorder())]

    def walk(self):
        """The steps of a cursor through the value."""
        if not self.constructed:
            return [step("primitive", self.contents, argument=self.tag)]
        inside = [word for node in self.nodes for word in node.walk()]
        return [step("enter", DONE, argument=self.tag), *inside, step("end", True), step("leave", DONE)]


def leaf(identifier, contents, spell=length):
    """A primitive value."""
    return Node(bytes.fromhex(identifier), contents, spell)


def node(identifier, *nodes, spell=length):
    """A constructed value."""
    return Node(bytes.fromhex(identifier), list(nodes), spell)


A, B, SEVEN = leaf("04", b"a"), leaf("04", b"b"), leaf("02", b"\7")

# Each with whether it is a value in DER too.
SHAPES = {
    "null": (leaf("05", b""), True),
    "integer": (SEVEN, True),
    "empty-sequence": (node("30"), True),
    "empty-indefinite-sequence": (node("30", spell=indefinite), False),
    "two-integers": (node("30", leaf("02", b"\1"), leaf("02", b"\2")), True),
    "segments": (node("24", node("24", A), B, spell=indefinite), False),
    "context": (node("a0", leaf("80", b"\xff")), True),
    "indefinite-in-indefinite": (node("31", node("30", spell=indefinite), leaf("05", b""), spell=indefinite), False),
    "overlong": (node("30", leaf("04", b"", lambda n: b"\x81\0"), spell=lambda n: b"\x81\3"), False),
    "overlong-by-four": (node("30", A, spell=lambda n: overlong(n)), False),
    "long-identifier": (node("3f8101", leaf("05", b"")), True),
    "long-identifier-without-contents": (leaf("1f8101", b""), True),
    "identifier-of-four": (node("bf818203", leaf("9f818203", b"x")), True),
    "five-levels": (node("30", node("30", node("30", node("30", node("30"))))), True),
    "mixed": (node("30", node("24", A, spell=indefinite), SEVEN, node("30"), spell=indefinite), False),
    "long-forms": (node("30", leaf("04", bytes(200)), leaf("04", bytes(range(256)) * 2)), True),
}


def shape_cases():
    """Trees of values, as they are walked and read."""
    for name, (root, strict) in SHAPES.items():
        mode = "both" if strict else "ber"
        behind = b"\5\0"
        octets = root.octets + behind
        preorder = [field for item in root.preorder() for field in item]
        yield case(f"tree-{name}", mode, octets, step("tree", len(root.octets), *preorder), step("next", *root.item()),
            end(behind))
        yield case(f"walk-{name}", mode, octets, *root.walk(), step("null", True), step("end", True), step("next", NOTHING))
        yield case(f"item-{name}", mode, octets, step("item", *root.item(), argument=root.tag), end(behind))
        yield case(f"optional-{name}", mode, octets, step("optional", *root.item(), argument=root.tag), end(behind))
        yield case(f"capture-{name}", mode, octets, step("capture", root.octets), end(behind))
        if not strict:
            yield from refused(f"strict-{name}", "der", octets, "next", "capture", "tree")


# The calls that leave the cursor as it was where they refuse: its own, and those that have none.
KEEPING = ("enter", "primitive", "capture", "next", "item", "optional", "tree", "tree_size", "tag")


def refused(name, mode, octets, *calls):
    """Each of the calls, which may have an argument, refuses. The first that may pass something is the last of its line."""
    kept, passing = [], []
    for call, *argument in (call.split(",") for call in calls):
        word = step(call, MALFORMED, argument=bytes.fromhex(argument[0]) if argument else None)
        keeps = call in KEEPING or call.startswith("whole_") or call.endswith("_string") or call in ("decoded_key", "router_data")
        (kept if keeps else passing).append(word)
    lines = [case(name, mode, octets, *kept, end(octets))] if kept else []
    lines += [case(f"{name}-{word.split('=')[0].split(',')[0]}", mode, octets, word) for word in passing]
    return lines


NO_VALUES = {
    "end-mark": "0000", "identifier-00": "0001ff", "identifier-20": "2000", "no-length": "04", "no-contents": "0401",
    "short": "300400", "unended": "3080020100", "half-an-end-mark": "308000", "length-85": "3085000000000000",
    "length-ff": "04ff",
    "primitive-indefinite": "04800000", "identifier-of-five": "1f8181810100", "unended-identifier": "1f81",
    "child-past-the-end": "3003040261", "child-without-length": "300104", "end-mark-in-definite": "30020000",
    "end-mark-with-contents": "308000010000",
}


def no_value_cases():
    """Octets that are no value."""
    for name, octets in NO_VALUES.items():
        yield from refused(f"no-value-{name}", "both", bytes.fromhex(octets), "next", "capture", "tree", "tree_size")
    for name, octets in {"indefinite": "30800000", "indefinite-string": "24800000", "overlong": "0482000161",
            "81": "04810161"}.items():
        yield from refused(f"no-value-in-der-{name}", "der", bytes.fromhex(octets), "next", "capture", "tree")
    yield from refused("no-octets", "both", b"", "capture", "tree", "enter,10", "item,05", "primitive,05")
    yield case("nothing-left", "both", b"", step("next", NOTHING), step("optional", NOTHING, argument=b"\5"), step("end", True))


def level_cases():
    """Levels that are entered and left."""
    octets = bytes.fromhex("30800201000000") + NULL
    yield case(
        "a-level", "ber", octets, step("enter", MALFORMED, argument=b"\x11"), step("primitive", MALFORMED, argument=b"\x10"),
        step("enter", DONE, argument=b"\x10"), step("depth", 1), step("end", False), step("leave", MALFORMED),
        step("integer_if", DONE, argument=b"\0"), step("end", True),
        step("next", NOTHING), step("leave", DONE), step("depth", 0), step("capture", NULL), step("end", True))
    yield case(
        "a-level-of-one-value", "ber", octets[:-len(NULL)], step("enter", DONE, argument=b"\x10"),
        step("next", *leaf("02", b"\0").item()), step("leave", DONE), step("end", True))
    yield from refused("an-indefinite-level-in-der", "der", octets, "enter,10")
    yield from refused("an-indefinite-level-of-one-value-in-der", "der", octets[:-len(NULL)], "enter,10")
    yield case(
        "what-is-left", "both", seq(oid("1.2"), integer(7)) + octet_string(b""), step("enter", DONE, argument=b"\x10"),
        step("oid", b"\x2a"), step("pass", DONE), step("octets", b"", argument=b"\4"), step("end", True))
    octets = indefinite(0x30, integer(0) + NULL)
    yield case(
        "held-without-its-end-mark", "ber", octets + NULL, step("enter", DONE, argument=b"\x10"), step("rest", octets[2:-2]),
        end(NULL))
    yield case(
        "held-since", "ber", octets + NULL, step("enter", DONE, argument=b"\x10"),
        step("leave_since", octets[2:-2], octets[2:-2], argument=b"xx"), end(NULL))
    yield case(
        "held-since-the-second", "both", seq(integer(1), integer(2), integer(3)) + NULL, step("enter", DONE, argument=b"\x10"),
        step("integer", b"\1"), step("leave_since", integer(2) + integer(3), integer(2) + integer(3), argument=b"xx"), end(NULL))
    yield case(
        "held-too-early", "both", seq(integer(1), integer(2)), step("enter", DONE, argument=b"\x10"),
        step("leave_since", MALFORMED, argument=b"x"), step("depth", 1), end(integer(2)))
    yield case(
        "an-identifier-before-its-length", "both", b"\5\x85", step("optional", NOTHING, argument=b"\2"),
        step("optional", MALFORMED, argument=b"\5"), step("next", MALFORMED), end(b"\5\x85"))
    yield case(
        "another-tag", "both", integer(7), step("optional", NOTHING, argument=b"\4"), step("item", MALFORMED, argument=b"\4"),
        step("primitive", MALFORMED, argument=b"\4"), step("integer", b"\7"), end())
    yield from refused("no-identifier-next", "both", b"\0\0", "optional,05", "item,05")


def tag_cases():
    """Tags, and octets that are none."""
    lawful = {"30": "10", "04": "04", "a0": "80", "7f8101": "5f8101", "3f818203": "1f818203", "1f01": "1f01", "df8001": "df8001"}
    for octets, tag in lawful.items():
        yield case(f"tag-{octets}", "der", bytes.fromhex(octets), step("tag", bytes.fromhex(tag)))
    for octets in ("", "00", "20", "1f81", "1f8181818101", "0404", "3081", "1f"):
        yield case(f"no-tag-{octets}", "der", bytes.fromhex(octets), step("tag", MALFORMED))


# ---- leaves


def string_cases():
    """OCTET STRINGs, in segments too, and octets that are none."""
    loose = {
        "nested": node("24", node("24", A), B, spell=indefinite), "overlong": leaf("04", b"ab", lambda n: b"\x82\0\2"),
        "definite": node("24", A, B), "overlong-and-definite": node("24", A, B, spell=lambda n: b"\x81\6"),
        "with-empty-segments": node("24", leaf("04", b""), A, node("24"), B, node("24", spell=indefinite)),
    }
    for name, root in loose.items():
        octets = root.octets
        yield case(f"string-{name}", "ber", octets, step("octet_string", b"ab", 2, b"ab"),
            step("octets", b"ab", argument=b"\4"), end())
        yield from refused(f"strict-string-{name}", "der", octets, "octet_string", "octets,04")
        yield case(
            f"string-{name}-behind", "ber", octets + b"\4", step("octet_string", MALFORMED),
            step("octets", b"ab", argument=b"\4"),
            end(b"\4"))
    yield case("string-overlong-of-one", "ber", bytes.fromhex("0482000161"), step("octet_string", b"a", 1, b"a"),
        step("octets", b"a", argument=b"\4"), end())
    yield case("string", "both", octet_string(b"ab"), step("octet_string", b"ab", 2, b"ab"),
        step("octets", b"ab", argument=b"\4"), end())
    yield case("no-string-length", "both", octet_string(b""), step("octet_string", b"", 0, b""),
        step("octets", b"", argument=b"\4"))
    tagged = indefinite(0xA0, A.octets + B.octets)
    yield case("string-under-a-tag", "ber", tagged, step("octet_string", MALFORMED), step("octets", b"ab", argument=b"\x80"),
        end())
    yield case("string-under-a-tag-whole", "both", value(0x80, b"ab"), step("octets", b"ab", argument=b"\x80"), end())
    for name, octets in {
            "another-segment": "2403800161", "a-sequence-inside": "24023000", "tagged-segments": "a003800161",
            "unended": "2480040161",
            "nested-indefinite": "248024800401610000", "a-null-inside": "24800500" + "0000"}.items():
        calls = ("octets,80",) if octets[0] == "a" else ("octet_string", "octets,04")
        yield from refused(f"no-string-{name}", "both", bytes.fromhex(octets), *calls)
    yield from refused("indefinite-string-in-definite-in-der", "der", bytes.fromhex("30042480" + "0000"), "capture", "tree")


def arc_text(contents):
    """The arcs of an object identifier (X.690, 8.19); one that takes more than nine octets is a question mark."""
    groups, group = [], b""
    for octet in contents:
        group += bytes([octet])
        if octet < 128:
            groups, group = groups + [group], b""
    number = lambda octets: sum((octet & 127) << 7 * i for i, octet in enumerate(reversed(octets)))
    first = min(number(groups[0]) // 40, 2)
    words = ["?"] if len(groups[0]) > 9 else [str(first), str(number(groups[0]) - 40 * first)]
    return ".".join(words + ["?" if len(g) > 9 else str(number(g)) for g in groups[1:]])


PRINTED = {
    "2a864886f70d": "1.2.840.113549", "2700": "0.39.0", "28": "1.0", "4f": "1.39", "50": "2.0", "8837": "2.999",
    "2b0e03021a": "1.3.14.3.2.26",
    "00": "0.0", "508181818181818181810102": None, "81818181818181818101": None, "ffffffffffffffff7f": None,
    "55ffffffffffffffff7f": None,
    "8001": None,
}


def oid_cases():
    """OBJECT IDENTIFIERs, and octets that are none."""
    for contents, printed in PRINTED.items():
        octets = bytes.fromhex(contents)
        expected = printed or arc_text(octets)
        assert expected == arc_text(octets)
        root = value(6, octets)
        yield case(
            f"oid-{contents}", "both", root, step("whole_oid", octets, expected), step("oid_if", DONE, argument=octets), end())
        yield from refused(f"oid-{contents}-another", "both", root, "oid_if,5500")
        yield case(f"take-oid-{contents}", "both", root + NULL, step("whole_oid", MALFORMED), step("oid", octets), end(NULL))
    for octets in ("0600", "060180", "0602559d", "2600", "26032a0000", "0501"):
        yield from refused(f"no-oid-{octets}", "both", bytes.fromhex(octets), "oid", "whole_oid", "oid_if,55")
    yield case("oid-overlong", "ber", value(6, b"\x2a", overlong), step("whole_oid", b"\x2a", "1.2"), step("oid", b"\x2a"))


def leaf_cases():
    """BIT STRINGs, BOOLEANs and NULLs, and octets that are none."""
    for contents, read in {"00": (0, ""), "0780": (7, "80"), "00ff": (0, "ff"), "03a0f8": (3, "a0f8")}.items():
        fields = (bytes([read[0]]), bytes.fromhex(read[1]))
        octets = value(3, bytes.fromhex(contents))
        yield case(f"bits-{contents}", "both", octets, step("bit_string", *fields), step("bits", *fields), end())
    for octets in ("0300", "030101", "03020800", "0302ff00", "230403020000", "0402" + "0000"):
        yield from refused(f"no-bits-{octets}", "both", bytes.fromhex(octets), "bit_string", "bits")
    for octet, strict in ((0, True), (0xFF, True), (1, False), (0x80, False)):
        octets = value(1, bytes([octet]))
        yield case(f"boolean-{octet}", "both" if strict else "ber", octets, step("boolean", octet > 0), end())
        yield case(f"optional-boolean-{octet}", "both" if strict else "ber", octets, step("optional_boolean", octet > 0))
        if not strict:
            yield from refused(f"strict-boolean-{octet}", "der", octets, "boolean")
    for octets in ("0100", "01020000", "2100", "21030101ff"):
        yield from refused(f"no-boolean-{octets}", "both", bytes.fromhex(octets), "boolean")
        yield case(f"no-optional-boolean-{octets}", "both", bytes.fromhex(octets), step("optional_boolean", MALFORMED))
    yield case("another-than-boolean", "both", NULL, step("optional_boolean", NOTHING), end(NULL))
    yield case("null", "both", NULL + integer(0), step("null", True), step("null", False), step("integer", b"\0"),
        step("null", False))
    yield from refused("null-constructed", "both", b"\x25\0", "null")
    yield from refused("null-with-contents", "both", b"\5\1\0", "null")
    yield case("null-overlong", "ber", b"\5\x81\0", step("null", True), end())


def integer_cases():
    """INTEGERs, and octets that are none."""
    for number in (0, 1, 127, 128, 255, 256, 32767, 32768, (1 << 63) - 1, 1 << 63, (1 << 64) - 1):
        octets = integer(number)
        yield case(f"integer-{number}", "both", octets + NULL, step("integer", octets[2:]), end(NULL))
        yield case(f"u64-{number}", "both", octets + NULL, step("u64", number), end(NULL))
    for contents in ("ff", "80", "ff7f", "8000", "010000000000000000", "7fffffffffffffffff", "00ffffffffffffffffff"):
        octets = value(2, bytes.fromhex(contents))
        yield case(f"integer-no-u64-{contents}", "both", octets, step("integer", octets[2:]), end())
        yield from refused(f"integer-no-u64-{contents}", "both", octets, "u64")
    for octets in ("0200", "0202007f", "0202ff80", "020200" + "00", "2203020100", "0a0100"):
        yield from refused(f"no-integer-{octets}", "both", bytes.fromhex(octets), "integer", "u64", "integer_if,00")
    yield case("integer-overlong", "ber", value(2, b"\5", overlong), step("u64", 5), end())
    yield case("integer-small", "both", integer(127), step("integer_if", DONE, argument=b"\x7f"), end())
    yield from refused("integer-another", "both", integer(127), "integer_if,7e")


def whole_cases():
    """Values that have to be all that there is."""
    yield case("pair-of-one", "both", seq(integer(5)), step("whole_pair", b"\2", b"\5"))
    yield case("pair-of-two", "both", seq(integer(5), NULL), step("whole_pair", b"\2", b"\5", b"\5", b""))
    yield case("pair-indefinite", "ber", indefinite(0x30, integer(5) + NULL), step("whole_pair", b"\2", b"\5", b"\5", b""))
    yield case("pair-overlong", "ber", value(0x30, value(0x80, b"x", overlong), overlong), step("whole_pair", b"\x80", b"x"))
    for name, octets in {
            "of-none": seq(), "of-three": seq(NULL, NULL, NULL), "behind": seq(NULL) + NULL, "set": value(0x31, NULL),
            "constructed-inside": seq(seq()), "constructed-second": seq(NULL, seq()), "no-value": seq(b"\5"),
            "empty": b""}.items():
        yield case(f"no-pair-{name}", "both", octets, step("whole_pair", MALFORMED))
    yield case("no-pair-indefinite-in-der", "der", indefinite(0x30, integer(5)), step("whole_pair", MALFORMED))
    for name, octets, mode, *answer in (
            ("alone", b"\4\1a", "both", b"a"), ("behind", b"\4\1a\5\0", "both", MALFORMED),
            ("overlong", b"\4\x81\1a", "ber", b"a"),
            ("overlong-in-der", b"\4\x81\1a", "der", MALFORMED), ("constructed", b"\x24\0", "both", MALFORMED),
            ("another", NULL, "both", MALFORMED)):
        yield case(f"whole-primitive-{name}", mode, octets, step("whole_primitive", *answer, argument=b"\4"))


# ---- times

YEARS = (
    "0000-01-01T00:00:00", "0000-02-29T12:00:00", "0000-12-31T23:59:59", "0001-01-01T00:00:00", "0004-02-29T00:00:00",
    "0100-02-28T23:59:59", "0100-03-01T00:00:00", "0400-02-29T01:02:03", "0999-12-31T23:59:59", "1000-01-01T00:00:00",
    "1582-10-04T00:00:00", "1582-10-15T00:00:00", "1600-02-29T00:00:00", "1752-09-14T06:30:00", "1899-12-31T23:59:59",
    "1900-01-01T00:00:00", "1900-02-28T23:59:59", "1900-03-01T00:00:00", "1901-12-13T20:45:52", "1949-12-31T23:59:59",
    "1950-01-01T00:00:00", "1969-12-31T23:59:59", "1970-01-01T00:00:00", "1972-06-30T23:59:59", "1996-02-29T13:14:15",
    "1999-12-31T23:59:59", "2000-01-01T00:00:00", "2000-02-29T00:00:00", "2000-03-01T00:00:00", "2001-09-09T01:46:40",
    "2004-02-29T23:59:59", "2016-12-31T23:59:59", "2017-01-01T00:00:00", "2023-11-14T22:13:20", "2024-02-29T08:09:10",
    "2038-01-19T03:14:07", "2038-01-19T03:14:08", "2049-12-31T23:59:59", "2050-01-01T00:00:00", "2099-12-31T23:59:59",
    "2100-02-28T23:59:59", "2100-03-01T00:00:00", "2106-02-07T06:28:15", "2400-02-29T00:00:00", "4999-07-04T17:18:19",
    "9999-02-28T23:59:59", "9999-03-01T00:00:00", "9999-12-31T23:59:59")


def moment_of(printed):
    """The seconds since 1970, by Python's calendar, which has no year 0: there the calendar of 400 years later."""
    year, rest = int(printed[:4]), printed[4:]
    later = 400 if year == 0 else 0
    date = datetime.datetime.strptime(f"{year + later:04}{rest}", "%Y-%m-%dT%H:%M:%S")
    return calendar.timegm(date.timetuple()) - (146097 * 86400 if later else 0)


def time_cases():
    """Times, as they are read, written and printed."""
    for printed in YEARS:
        seconds = moment_of(printed)
        digits = printed.replace("-", "").replace(":", "").replace("T", "").encode() + b"Z"
        written = value(0x17, digits[2:]) if 1950 <= int(printed[:4]) < 2050 else value(0x18, digits)
        fields = seconds, written, printed + "Z"
        yield case(f"moment-{printed}", "der", str(seconds).encode(), step("moment", *fields))
        yield case(f"text-{printed}", "der", (printed + "Z").encode(), step("time_text", *fields))
        yield case(f"time-{printed}", "both", written, step("whole_time", *fields), step("time", *fields), end())
        general = value(0x18, digits)
        yield case(f"general-{printed}", "both", general, step("whole_time", *fields), step("time", *fields), end())
    for seconds in (-62167219201, 253402300800, (1 << 63) - 1, -(1 << 63)):
        yield case(f"no-moment-{seconds}", "der", str(seconds).encode(), step("moment", MALFORMED))
    yield case("time-overlong", "ber", value(0x17, b"491231235959Z", overlong),
        step("whole_time", 2524607999, time(2524607999), "2049-12-31T23:59:59Z"))


NO_TIMES = (
    (0x18, "19000229000000Z"), (0x18, "20230229000000Z"), (0x18, "99990229000000Z"), (0x18, "20161231235960Z"),
    (0x17, "230229000000Z"),
    (0x17, "161231235960Z"), (0x17, "161231240000Z"), (0x17, "1612312359590"), (0x17, "1612312359Z"), (0x18, "491231235959Z"),
    (0x37, "491231235959Z"), (0x17, "20491231235959Z"), (0x17, "161301000000Z"), (0x17, "160001000000Z"), (0x17, "160100000000Z"),
    (0x17, "160431000000Z"), (0x17, "160101006000Z"), (0x17, "16010100000 Z"), (0x17, "160101000000z"),
    (0x18, "20160101000000.0Z"),
    (0x17, "160101000000+0000"), (0x17, ""), (0x19, "160101000000Z"))


def no_time_cases():
    """Values that are no times."""
    for tag, contents in NO_TIMES:
        yield from refused(f"no-time-{tag:x}-{contents.replace(' ', '_')}", "both", value(tag, contents.encode()), "time",
            "whole_time")
    yield case("time-behind", "both", time(0) + b"\0", step("whole_time", MALFORMED),
        step("time", 0, time(0), "1970-01-01T00:00:00Z"), end(b"\0"))


# Texts in and near the form of RFC 3339, and what they are.
TEXTS = {
    "2023-11-14T23:13:20.9+01:00": 1700000000, "2023-11-14T21:43:20.000123-00:30": 1700000000,
    "2023-11-15T22:12:20+23:59": 1700000000,
    "2000-02-29T00:00:00Z": 951782400, "2023-11-14T22:13:20-00:00": 1700000000, "2023-11-14T22:13:20+00:00": 1700000000,
    "0000-01-01T00:01:00+00:01": -62167219200, "9999-12-31T23:58:59-00:01": 253402300799,
    **dict.fromkeys((
        "1900-02-29T00:00:00Z", "2023-02-29T00:00:00Z", "9999-02-29T00:00:00Z", "2016-12-31T23:59:60Z", "2023-11-14T24:00:00Z",
        "2023-13-01T00:00:00Z", "2023-00-01T00:00:00Z", "2023-04-31T00:00:00Z", "2023-11-14T22:13:20.Z", "2023-11-14t22:13:20Z",
        "2023-11-14T22:13:20z", "2023-11-14T22:13:20", "2023-11-14T22:13:20+24:00", "2023-11-14T22:13:20+01:60",
        "2023-11-14T22:13:20+0100",
        "2023-11-14T22:13:20Z ", " 2023-11-14T22:13:20Z", "0000-01-01T00:00:00+00:01", "9999-12-31T23:59:59-00:01", "",
        "2023-11-14",
        "2023-11-14 22:13:20Z", "+2023-11-14T22:13:20Z", "02023-11-14T22:13:20Z", "2023-11-14T22:60:20Z",
        "2023-11-14T22:13:20,5Z",
        "2023-1-14T22:13:20Z")),
}


def text_cases():
    """Texts of times, and texts that are none."""
    for number, (characters, seconds) in enumerate(TEXTS.items()):
        printed = lambda n: (datetime.datetime(1970, 1,
            1) + datetime.timedelta(seconds=n)).strftime("%Y-%m-%dT%H:%M:%SZ").rjust(20, "0")
        if seconds is None:
            fields = [MALFORMED]
        elif seconds == -62167219200:
            fields = [seconds, value(0x18, b"00000101000000Z"), "0000-01-01T00:00:00Z"]
        else:
            fields = [seconds, time(seconds), printed(seconds)]
        yield case(f"near-a-text-{number}", "der", characters.encode(), step("time_text", *fields))


def validity_cases():
    """Validities, and at which moments they hold."""
    first, last = 946684800, 946771200
    octets = seq(time(first), time(last))
    holds = [step("holds_at", moment in range(first, last + 1), argument=moment) for moment in (first - 1, first, last, last + 1)]
    yield case("validity", "both", octets + NULL, step("whole_validity", MALFORMED), step("validity", first, last), end(NULL))
    yield case("whole-validity", "both", octets, step("whole_validity", first, last), *holds)
    yield case("validity-of-one-second", "both", seq(time(first), time(first)), step("holds_at", True, argument=first),
        step("validity", first, first))
    yield case("validity-backwards", "both", seq(time(last), time(first)), step("validity", last, first))
    yield case("validity-in-two-forms", "both", seq(time(first), value(0x18, b"20000102000000Z")), step("validity", first, last))
    yield case("validity-indefinite", "ber", indefinite(0x30, time(first) + time(last)), step("whole_validity", first, last),
        step("validity", first, last))
    yield from refused("validity-indefinite-in-der", "der", indefinite(0x30, time(first) + time(last)), "whole_validity")
    for name, octets in {
            "of-three": seq(time(first), time(last), time(last)), "of-one": seq(time(first)),
            "set": value(0x31, time(first) + time(last)),
            "of-integers": seq(integer(1), integer(2)), "empty": seq()}.items():
        yield case(f"no-validity-{name}", "both", octets, step("whole_validity", MALFORMED), step("validity", MALFORMED))


# ---- numbers, identifiers and names


def serial_cases():
    """Serial numbers, and values that are none."""
    for number in (0, 1, 5, 127, 128, 255, 256, (1 << 64) - 1, 1 << 64, (1 << 159) - 1, 1 << 159, (1 << 160) - 1):
        octets = integer(number)
        fields = number.to_bytes(20, "big"), octets
        yield case(f"serial-{number:x}", "both", octets + NULL, step("whole_serial", MALFORMED), step("serial", *fields),
            end(NULL))
        yield case(f"whole-serial-{number:x}", "both", octets, step("whole_serial", *fields))
        if number < 1 << 64:
            yield case(f"serial-of-{number}", "der", str(number).encode(), step("number", *fields))
    for octets in (
            "0200", "0201ff", "020180", "0202007f", "0214" + "80" * 20, "0215" + "01" * 21, "0216" + "0080" + "01" * 20,
            "2201" + "00",
            "2203020100", "0500"):
        yield from refused(f"no-serial-{octets[:8]}-{len(octets)}", "both", bytes.fromhex(octets), "serial", "whole_serial")
    yield case("serial-overlong", "ber", value(2, b"\5", overlong), step("serial", (5).to_bytes(20, "big"), integer(5)))


TWENTY = bytes(range(0x7F, 0x7F + 20))


def identifier_cases():
    """Key identifiers, and values that are none."""
    fields = TWENTY, TWENTY.hex().upper()
    yield case("identifier", "both", octet_string(TWENTY) + NULL, step("identifier", *fields), end(NULL))
    yield case("identifier-under-a-tag", "both", value(0x80, TWENTY), step("identifier_under", *fields, argument=b"\x80"), end())
    yield from refused("identifier-under-another-tag", "both", value(0x80, TWENTY), "identifier")
    segments = value(0xA0, octet_string(TWENTY[:3]) + octet_string(TWENTY[3:]))
    yield case("identifier-in-segments", "ber", segments, step("identifier_under", *fields, argument=b"\x80"), end())
    yield case("identifier-in-segments-in-der", "der", segments, step("identifier_under", MALFORMED, argument=b"\x80"))
    for size in (0, 19, 21, 40):
        yield case(f"no-identifier-{size}", "both", octet_string(bytes(size)), step("identifier", MALFORMED))
        yield case(f"no-identifier-of-{size}", "der", bytes(size), step("identifier_of", MALFORMED))
    yield case("identifier-of-twenty", "der", TWENTY, step("identifier_of", TWENTY))


def relative(*attributes):
    """A part of a name: a SET of attributes."""
    return value(0x31, b"".join(attributes))


def attribute(kind, held):
    """An attribute of a name."""
    return seq(kind, held)


def names():
    """Names, and whether they are names in DER too."""
    country = attribute(oid("2.5.4.6"), value(0x13, b"AU"))
    short = lambda arc, held: attribute(value(6, bytes([arc])), held)
    yield "empty", seq(), True
    yield "of-an-empty-set", seq(relative()), True
    yield "of-a-country", seq(relative(country)), True
    yield "of-two-in-a-set", seq(relative(short(0x2A, value(12, b"a")), short(0x2B, value(12, b"b")))), True
    yield "of-two-sets", seq(relative(short(0x2A, seq())), relative(short(0x2B, NULL))), True
    yield "of-what-is-held", seq(relative(short(0x2A, seq(integer(1), seq(NULL))))), True
    yield "indefinite", indefinite(0x30, indefinite(0x31, indefinite(0x30, value(6, b"\x2a") + indefinite(0x24, b"")))), False
    yield "overlong", value(0x30, b"", overlong), False


# The subject of a certificate that the library `cryptography` makes of C=NL, O=RIPE NCC, and CN=A with an e-mail address beside it.
MADE_ELSEWHERE = bytes.fromhex(
    "3040310b3009060355040613024e4c3111300f060355040a0c0852495045204e4343311e300806035504030c0141301206092a864886f70d01090116056140"
    "622e63")


def name_cases():
    """Names, and values that are none."""
    yield case("name-made-elsewhere", "both", MADE_ELSEWHERE, step("whole_name", MADE_ELSEWHERE), step("name", MADE_ELSEWHERE),
        end())
    for name, octets, strict in names():
        mode = "both" if strict else "ber"
        yield case(f"name-{name}", mode, octets + NULL, step("whole_name", MALFORMED), step("name", octets), end(NULL))
        yield case(f"whole-name-{name}", mode, octets, step("whole_name", octets))
        if not strict:
            yield from refused(f"strict-name-{name}", "der", octets, "whole_name")
    for octets in ("", "3100", "30023000", "300431023000", "3007310530030601" + "2a", "300b3109300706012a05000500", "300030",
            "3002" + "0500",
                   "300731053003020100", "30073105300306010500"):
        yield case(f"no-name-{octets}", "both", bytes.fromhex(octets), step("whole_name", MALFORMED))


def extension_cases():
    """Extensions, and values that are none."""
    for name, parts, critical, strict in (
            ("critical", b"\1\1\xff", True, True), ("plain", b"", False, True), ("false", b"\1\1\0", False, True),
            ("loosely-critical", b"\1\1\1", True, False)):
        octets = seq(SUBJECT_KEY, parts, octet_string(b"ab"))
        fields = SUBJECT_KEY[2:], critical, b"ab"
        yield case(f"extension-{name}", "both" if strict else "ber", octets + NULL, step("extension", *fields), )
        if not strict:
            yield case(f"strict-extension-{name}", "der", octets, step("extension", MALFORMED))
    segmented = seq(SUBJECT_KEY, value(0x24, octet_string(b"a") + octet_string(b"b")))
    yield case("extension-in-segments", "ber", segmented, step("extension", SUBJECT_KEY[2:], False, b"ab"))
    for name, octets in {
            "in-segments-in-der": segmented, "without-identifier": seq(octet_string(b"")),
            "without-value": seq(SUBJECT_KEY, b"\1\1\xff"),
            "behind": seq(SUBJECT_KEY, octet_string(b""), NULL), "set": value(0x31, SUBJECT_KEY + octet_string(b"")),
            "two-booleans":
            seq(SUBJECT_KEY, b"\1\1\xff\1\1\xff", octet_string(b""))}.items():
        yield case(f"no-extension-{name}", "der" if name.endswith("der") else "both", octets, step("extension", MALFORMED))


def spelled_extension(kind, held, flag=b"", string=octet_string):
    """An extension."""
    return seq(kind, flag, string(held))


def gathering_cases():
    """Extensions that are gathered."""
    one, other = spelled_extension(SUBJECT_KEY, b"ab", b"\1\1\xff"), spelled_extension(oid("1.2"), b"")
    for name, parts, found in (
            ("none", (), b""), ("one", (one,), SUBJECT_KEY[2:] + b"ab"), ("two", (one, other), SUBJECT_KEY[2:] + b"ab" + b"\x2a"),
            ("turned", (other, one), b"\x2a" + SUBJECT_KEY[2:] + b"ab"), ("twice", (one, one), (SUBJECT_KEY[2:] + b"ab") * 2)):
        octets = seq(*parts)
        yield case(f"extensions-{name}", "both", octets + NULL, step("extensions", found), end(NULL))
        yield case(f"extensions-{name}-tagged", "both", value(0xA3, octets) + NULL,
            step("extensions_under", found, argument=b"\x83"), end(NULL))
        if len(parts) == 2:
            yield case(f"extensions-{name}-alone", "both", b"".join(parts) + NULL, step("two_extensions", found), end(NULL))
    loose = indefinite(0xA0, indefinite(0x30, spelled_extension(SUBJECT_KEY, b"a", b"\1\1\1",
        lambda held: value(0x24, octet_string(held)))))
    yield case("extensions-loose", "ber", loose, step("extensions_under", SUBJECT_KEY[2:] + b"a", argument=b"\x80"), end())
    yield from refused("extensions-loose-in-der", "der", loose, "extensions_under,80")
    for name, octets in {
            "set": value(0x31, one), "of-null": seq(one, NULL), "of-no-value": seq(one, b"\x30"), "bare": one,
            "unended": seq(one)[:-1], "without-value": seq(one, seq(SUBJECT_KEY))}.items():
        yield from refused(f"no-extensions-{name}", "both", octets, "extensions")
        yield from refused(f"no-extensions-{name}-tagged", "both", value(0xA3, octets), "extensions_under,83")
    yield from refused("extensions-under-another-tag", "both", value(0xA2, seq(one)), "extensions_under,83")
    yield from refused("extensions-with-something-behind", "both", value(0xA3, seq(one) + NULL), "extensions_under,83")


# ---- keys, algorithms, signed data


def made_name(key_bits):
    """The name that is made of a key."""
    printed = hashlib.sha1(key_bits).hexdigest().upper().encode()
    return seq(relative(attribute(COMMON_NAME, value(0x13, printed))))


def key_fields(form, key_bits, written):
    """What is read of a key."""
    return form, key_bits, hashlib.sha1(key_bits).digest(), written


def rsa_key(key_bits, parameters=NULL, spell=length):
    """An RSA key with these bits."""
    return seq(value(0x30, RSA + parameters, spell), bits(key_bits))


# A key on prime256v1 and one of RSA with 1024 bits, made and spelled by OpenSSL 3.
EC_KEY = bytes.fromhex(
    "3059301306072a8648ce3d020106082a8648ce3d03010703420004c529c461f5fbfb1ebbdd217e71402e05cfcb077a0a3319bca19f5b5366fabff4529607e607"
    "813451ff2b5ca40b5204cb86ed4e90f0da2bf5738ab3d6a0765cf0")
RSA_KEY = bytes.fromhex(
    "30819f300d06092a864886f70d010101050003818d0030818902818100b421e5a8f8d9c374df62858d76e24ea81f976b0fa273aa2fad740730f85b2b2f646a"
    "9d581f861091f198dfd5375d72c26ebd2eddb7e9a7afa4b9f6e3e8ffae0ae378bbb08bd57a0376317699550d35faf465765b08e08b6f7c2d879405ffe8fe8b"
    "827dc6487ae46608de59eeb4215dbb89270b967a6a5ca57fead3b9ac17f25f0203010001")


def key_cases():
    """Keys, and values that are none."""
    toy = bytes(7) + b"\1" + bytes(8)
    for name, octets, form, key_bits in (
            ("toy", rsa_key(toy), "rsa", toy), ("ec", EC_KEY, "ec", EC_KEY[26:]), ("rsa", RSA_KEY, "rsa", RSA_KEY[22:]),
            ("empty", rsa_key(b""), "rsa", b"")):
        assert octets.endswith(key_bits)
        fields = key_fields(form, key_bits, octets)
        yield case(f"key-{name}", "both", octets + NULL, step("whole_key", MALFORMED),
            step("decoded_key", *fields, made_name(key_bits)), step("key", *fields), end(NULL))
        yield case(f"whole-key-{name}", "both", octets, step("whole_key", *fields))
        yield case(f"written-key-{name}", "der", key_bits, step(f"write_{form}_key", octets))
    fields = key_fields("rsa", toy, rsa_key(toy))
    for name, octets, strict in (
            ("without-null", rsa_key(toy, b""), True), ("with-unused-bits", seq(seq(RSA, NULL), value(3, b"\3" + toy)), True),
            ("overlong", rsa_key(toy, NULL, overlong), False), ("indefinite", indefinite(0x30, rsa_key(toy)[2:]), False),
            ("overlong-and-without-null", rsa_key(toy, b"", overlong), False)):
        yield case(f"key-{name}", "both" if strict else "ber", octets, step("whole_key", *fields), step("key", *fields), end())
        if not strict:
            yield from refused(f"strict-key-{name}", "der", octets, "whole_key", "decoded_key")
    for name, octets in {
            "of-a-signature": seq(seq(RSA_SHA256, NULL), bits(toy)), "of-ec-with-null": seq(seq(EC, NULL), bits(toy)),
            "of-ec-alone": seq(seq(EC), bits(toy)), "of-another-curve": EC_KEY[:22] + b"\x08" + EC_KEY[23:],
            "of-rsa-with-a-curve": seq(seq(RSA, P256), bits(toy)),
            "with-8-unused-bits": seq(seq(RSA, NULL), value(3, b"\x08" + toy)),
            "of-octets": seq(seq(RSA, NULL), octet_string(toy)),
            "behind": seq(seq(RSA, NULL), bits(toy), NULL), "behind-the-algorithm": seq(seq(RSA, NULL, NULL), bits(toy)),
            "without-bits": seq(seq(RSA, NULL)), "too-long": b"\x30\x23" + rsa_key(toy)[2:]}.items():
        yield case(f"no-key-{name}", "both", octets, step("whole_key", MALFORMED), step("decoded_key", MALFORMED),
            step("key", MALFORMED))


def algorithm_cases():
    """Signature algorithms, and values that are none."""
    plain, alone, cms, cms_alone = seq(RSA_SHA256, NULL), seq(RSA_SHA256), seq(RSA, NULL), seq(RSA)
    loose = {
        "indefinite": (indefinite(0x30, RSA_SHA256 + NULL), plain, cms),
        "overlong": (value(0x30, RSA_SHA256, overlong), alone, cms_alone)}
    yield case("algorithm", "both", plain, step("x509", plain, cms), step("cms", plain, plain))
    yield case("algorithm-alone", "both", alone, step("x509", alone, cms_alone), step("cms", alone, alone))
    yield case("algorithm-of-signers", "both", cms, step("x509", MALFORMED), step("cms", plain, cms), step("router", MALFORMED))
    yield case("algorithm-of-signers-alone", "both", cms_alone, step("x509", MALFORMED), step("cms", alone, cms_alone))
    for name, (octets, *fields) in loose.items():
        yield case(f"algorithm-{name}", "ber", octets, step("x509", *fields), step("router", MALFORMED))
        yield case(f"strict-algorithm-{name}", "der", octets, step("x509", MALFORMED), step("cms", MALFORMED))
        yield case(f"taken-algorithm-{name}", "ber", octets + NULL, step("algorithm", *fields))
    yield case("taken-algorithm", "both", plain + NULL, step("algorithm", plain, cms))
    yield case("taken-algorithm-of-signers", "both", cms, step("algorithm", MALFORMED))
    yield case("router-algorithm", "both", ROUTER, step("router", ROUTER), step("x509", MALFORMED), step("cms", MALFORMED))
    yield case("router-algorithm-with-null", "both", seq(ECDSA, NULL), step("router", MALFORMED))
    yield case("router-algorithm-overlong", "ber", value(0x30, ECDSA, overlong), step("router", ROUTER))
    for name, octets in {
            "empty": seq(), "behind": plain + NULL, "of-three": seq(RSA_SHA256, NULL, NULL),
            "with-an-integer": seq(RSA_SHA256, integer(0)),
            "of-a-null": seq(NULL), "no-octets": b"", "set": value(0x31, RSA_SHA256 + NULL)}.items():
        yield case(f"no-algorithm-{name}", "both", octets, step("x509", MALFORMED), step("cms", MALFORMED),
            step("router", MALFORMED))


def data_cases():
    """Signed data, and values that are none."""
    inner, loose_inner = seq(integer(5)), indefinite(0x30, integer(5))
    data = lambda *parts: seq(*parts)
    good = data(inner, ALGORITHM, bits(b"\7"))
    yield case("data", "both", good + NULL, step("whole_data", MALFORMED), step("data", inner, b"\7", good), end(NULL))
    yield case("whole-data", "both", good, step("whole_data", inner, b"\7", good), step("router_data", MALFORMED),
        step("data_algorithm", ALGORITHM, seq(RSA, NULL)))
    alone = data(integer(5), seq(RSA_SHA256), bits(b"\7"))
    yield case("data-without-null", "both", alone, step("whole_data", integer(5), b"\7", alone),
        step("data_algorithm", seq(RSA_SHA256), seq(RSA)), step("data", integer(5), b"\7", alone))
    yield from left_cases(inner, good, alone)
    loose = data(loose_inner, ALGORITHM, bits(b"\7"))
    yield case("data-of-an-indefinite-value", "ber", loose, step("whole_data", loose_inner, b"\7", loose))
    yield from refused("strict-data-of-an-indefinite-value", "der", loose, "whole_data")
    outer = indefinite(0x30, loose_inner + value(0x30, RSA_SHA256, overlong) + value(3, b"\0\7", overlong))
    yield case("data-indefinite", "ber", outer,
        step("whole_data", loose_inner, b"\7", data(loose_inner, seq(RSA_SHA256), bits(b"\7"))))
    unused = data(inner, ALGORITHM, value(3, b"\3\x08"))
    yield case("data-with-unused-bits", "both", unused, step("whole_data", inner, b"\x08", data(inner, ALGORITHM, bits(b"\x08"))))
    router = data(inner, ROUTER, bits(b"\7"))
    yield case("data-of-routers", "both", router, step("router_data", inner, b"\7", router), step("whole_data", MALFORMED),
        step("data", MALFORMED))
    yield case("written-data", "der", inner, step("write_rsa_data", good, argument=b"\7"),
        step("write_ec_data", router, argument=b"\7"))
    for name, octets in {
            "of-signers": data(inner, seq(RSA, NULL), bits(b"")), "without-signature": data(inner, ALGORITHM),
            "behind": data(inner, ALGORITHM, bits(b""), NULL),
            "of-octets": data(inner, ALGORITHM, octet_string(b"")), "without-value": data(ALGORITHM, bits(b"")),
            "of-no-value": data(b"\0\0", ALGORITHM, bits(b"")),
            "set": value(0x31, good[2:])}.items():
        yield case(f"no-data-{name}", "both", octets, step("whole_data", MALFORMED), step("data", MALFORMED))


ENTERED = step("enter", DONE, argument=b"\x10")


def left_cases(inner, good, alone):
    """The signature behind the signed value, with which the data are left."""
    yield case("left-data", "both", good + NULL, step("signature", MALFORMED), ENTERED, step("capture", inner),
        step("signature", ALGORITHM, b"\7"), step("depth", 0), end(NULL))
    yield case("left-data-without-null", "both", alone + NULL, ENTERED, step("capture", integer(5)),
        step("signature", seq(RSA_SHA256), b"\7"), end(NULL))
    loose = indefinite(0x30, inner + value(0x30, RSA_SHA256, overlong) + value(3, b"\3\x08", overlong))
    yield case("left-data-indefinite", "ber", loose + NULL, ENTERED, step("capture", inner),
        step("signature", seq(RSA_SHA256), b"\x08"), end(NULL))
    for name, octets in {
            "of-signers": seq(inner, seq(RSA, NULL), bits(b"\7")), "of-routers": seq(inner, ROUTER, bits(b"\7")),
            "without-signature": seq(inner, ALGORITHM), "without-algorithm": seq(inner, bits(b"\7")),
            "behind": seq(inner, ALGORITHM, bits(b"\7"), NULL), "of-octets": seq(inner, ALGORITHM, octet_string(b"\7"))}.items():
        yield case(f"left-data-{name}", "both", octets, ENTERED, step("capture", inner), step("signature", MALFORMED))


# ---- sizes: parts of 127 to 65536 octets, values, segments and levels


def nested(count, identifier=0x30):
    """Levels of definite lengths round nothing: their octets from the innermost level on, turned round."""
    turned, size = bytearray(), 0
    for _ in range(count):
        header = bytes([identifier]) + length(size)
        turned += header[::-1]
        size += len(header)
    return bytes(turned[::-1])


# More levels than a reader that called itself at each could go into.
DEEP = 100000


def size_cases():
    """Values with parts of the sizes."""
    for n in SIZES:
        part = b"a" * n
        yield from string_sizes(n, part)
        yield from level_sizes(n)
        yield from leaf_sizes(n, part)
        yield from part_sizes(n, part)
        yield from written_sizes(n, part)
    yield from deep_cases(DEEP)


def string_sizes(n, part):
    """Strings of this size."""
    root = leaf("04", part)
    yield case(
        f"string-of-{n}", "both", root.octets, step("octet_string", part, n, part), step("whole_primitive", part, argument=b"\4"),
        step("tree", len(root.octets), *root.item()), step("octets", part, argument=b"\4"), end())
    yield case(f"item-of-{n}", "both", root.octets * 2, step("next", *root.item()), step("item", *root.item(), argument=b"\4"),
        end())
    yield case(
        f"primitive-of-{n}", "both", root.octets * 2, step("primitive", part, argument=b"\4"),
        step("optional", *root.item(), argument=b"\4"), end())
    segments = indefinite(0x24, octet_string(b"a") * n)
    yield case(f"string-in-{n}-segments", "ber", segments, step("octet_string", part, n, part),
        step("octets", part, argument=b"\4"), end())
    segments = value(0x24, octet_string(b"a") * n)
    yield case(f"string-in-{n}-segments-of-known-length", "ber", segments, step("octet_string", part, n, part),
        step("octets", part, argument=b"\4"))
    segments = indefinite(0x24, octet_string(b"") * n + octet_string(TWENTY))
    yield case(f"identifier-in-{n}-segments", "ber", segments, step("identifier", TWENTY, TWENTY.hex().upper()))


def level_sizes(n):
    """Levels with so many values."""
    inside = NULL * n
    for name, octets, mode in (("", value(0x30, inside), "both"), ("indefinite-", indefinite(0x30, inside), "ber")):
        enter = step("enter", DONE, argument=b"\x10")
        yield case(f"{name}level-of-{n}", mode, octets, step("tree_size", len(octets), n + 1), enter, step("pass", DONE), end())
        yield case(f"{name}rest-of-{n}", mode, octets, enter, step("null", True), step("rest", inside[2:]), end())
        yield case(f"{name}held-of-{n}", mode, octets, enter, step("leave_since", inside, inside, argument=b"x" * n), end())
        yield case(f"{name}capture-of-{n}", mode, octets, step("capture", octets), end())
        yield case(f"{name}next-of-{n}", mode, octets, step("next", b"\x10", True, inside, octets), end())
    for tag, call in ((b"\x30", "tree_size"), (b"\x24", "octets")):
        octets = (tag + b"\x80") * n + (b"" if call == "tree_size" else octet_string(b"")) + b"\0\0" * n
        answer = [step("tree_size", len(octets), n)] if call == "tree_size" else [step("octet_string", b"", 0, b"")]
        yield case(f"{n}-levels-{call}", "ber", octets, *answer, step("capture", octets), end())
        yield case(f"{n}-levels-of-{tag.hex()}", "ber", octets + NULL, step("descend", n, argument=tag), step("depth", n), *(
            [step("octets", b"", argument=b"\4")] if call == "octets" else []), step("ascend", n), step("depth", 0), end(NULL))
    octets = (b"\x24\x80") * n + octet_string(b"") + b"\0\0" * n
    yield case(f"{n}-levels-of-segments", "ber", octets + NULL, step("octets", b"", argument=b"\4"), end(NULL))
    if n < 1000 or n == 65536:
        octets = nested(n)
        yield case(f"{n}-definite-levels", "both", octets, step("tree_size", len(octets), n),
            step("descend", n, argument=b"\x10"), step("ascend", n), end())


def deep_cases(n):
    """So many levels of segments, round one segment without contents."""
    octets = (b"\x24\x80") * n + octet_string(b"") + b"\0\0" * n
    yield case(f"{n}-levels", "ber", octets, step("octet_string", b"", 0, b""), step("tree_size", len(octets), n + 1),
        step("capture", octets), end())
    yield from refused(f"{n}-levels-without-an-end", "ber", octets[:-2], "octet_string", "tree_size", "capture")


def leaf_sizes(n, part):
    """Object identifiers, bits, integers, pairs and fractions of seconds of this size."""
    for name, contents in (("octets", b"\x81" * (n - 1) + b"\1"), ("arcs", b"\x2a" + b"\1" * (n - 1))):
        octets = value(6, contents)
        yield case(
            f"oid-of-{n}-{name}", "both", octets * 2, step("oid_if", DONE, argument=contents),
            step("whole_oid", contents, arc_text(contents)),
            step("oid", contents), end())
        yield case(f"oid-of-{n}-{name}-another", "both", octets, step("oid_if", MALFORMED, argument=contents[:-1]))
    yield case(f"bits-of-{n}", "both", bits(part), step("bit_string", b"\0", part), step("bits", b"\0", part), end())
    yield case(f"integer-of-{n}", "both", value(2, part), step("whole_serial", MALFORMED), step("integer", part), end())
    yield from refused(f"integer-of-{n}", "both", value(2, part), "u64", "serial")
    octets = seq(value(0x80, part), value(0x81, part))
    yield case(f"pair-of-{n}", "both", octets, step("whole_pair", b"\x80", part, b"\x81", part))
    characters = "2023-11-14T22:13:20." + "9" * n + "Z"
    yield case(f"fraction-of-{n}", "der", characters.encode(),
        step("time_text", 1700000000, time(1700000000), "2023-11-14T22:13:20Z"))


def part_sizes(n, part):
    """Names, keys, extensions and signed data with parts of this size."""
    one = attribute(value(6, b"\x2a"), NULL)
    for name, octets in (
            ("names", seq(relative(one) * 1, *[relative(one)] * (n - 1))), ("attributes", seq(relative(*[one] * n))),
            ("octets", seq(relative(attribute(value(6, b"\x2a"), octet_string(part)))))):
        yield case(f"name-of-{n}-{name}", "both", octets, step("whole_name", octets), step("name", octets), end())
    octets = rsa_key(part)
    fields = key_fields("rsa", part, octets)
    yield case(f"key-of-{n}", "both", octets, step("whole_key", *fields), step("decoded_key", *fields, made_name(part)),
        step("key", *fields), end())
    ec = seq(seq(EC, P256), bits(part))
    yield case(f"ec-key-of-{n}", "both", ec, step("key", *key_fields("ec", part, ec)), end())
    kind = value(6, b"\x81" * (n - 1) + b"\1")
    for name, octets, fields in (
            ("octets", seq(SUBJECT_KEY, octet_string(part)), (SUBJECT_KEY[2:], False, part)),
            ("identifier", seq(kind, octet_string(b"")), (kind[-n:], False, b""))):
        yield case(f"extension-of-{n}-{name}", "both", octets, step("extension", *fields))
    for name, octets, fields in (
            ("octets", seq(octet_string(part), ALGORITHM, bits(b"x")), (octet_string(part), b"x")),
            ("signature", seq(NULL, ALGORITHM, bits(part)), (NULL, part))):
        yield case(f"data-of-{n}-{name}", "both", octets, step("whole_data", *fields, octets), step("data", *fields, octets),
            end())
        yield case(f"left-data-of-{n}-{name}", "both", octets, ENTERED, step("capture", fields[0]),
            step("signature", ALGORITHM, fields[1]), end())
    for name, octets, found in (
            ("octets", seq(spelled_extension(SUBJECT_KEY, part)), SUBJECT_KEY[2:] + part),
            ("identifier", seq(seq(kind, octet_string(b""))), kind[-n:]),
            ("extensions", seq(*[spelled_extension(oid("1.2"), b"")] * n), b"\x2a" * n)):
        yield case(f"extensions-of-{n}-{name}", "both", octets, step("extensions", found), end())
        yield case(f"extensions-of-{n}-{name}-tagged", "both", value(0xA0, octets),
            step("extensions_under", found, argument=b"\x80"), end())
    pair = spelled_extension(SUBJECT_KEY, part)
    yield case(f"two-extensions-of-{n}", "both", pair * 2, step("two_extensions", (SUBJECT_KEY[2:] + part) * 2), end())


def written_sizes(n, part):
    """What is written of parts of this size."""
    yield case(
        f"written-{n}", "der", part, step("write_primitive", octet_string(part), argument=b"\4"),
        step("write_constructed", *[value(0x30, part)] * 2, argument=b"\x10"),
        step("append_constructed", part + value(0x30, part), argument=b"\x10"),
        step("append_primitive", part + value(4, part), argument=b"\4"), step("write_rsa_key", rsa_key(part)),
        step("write_ec_key", seq(seq(EC, P256), bits(part))),
        step("write_rsa_data", seq(part, ALGORITHM, bits(part)), argument=part),
        step("write_ec_data", seq(part, ROUTER, bits(part)), argument=part))


def written_cases():
    """Values that are written."""
    inner = b"\1\1\xff" + integer(128) + NULL
    yield case("written-constructed", "der", inner, step("write_constructed", *[value(0xA0, inner)] * 2, argument=b"\x80"))
    yield case("appended-constructed", "der", inner, step("append_constructed", inner + value(0xA0, inner), argument=b"\x80"),
        step("append_constructed", inner + value(0x31, inner), argument=b"\x11"),
        step("append_constructed", MALFORMED, argument=b"\0"))
    yield case("appended-primitive", "der", b"ab", step("append_primitive", b"ab\x80\2ab", argument=b"\x80"),
        step("append_primitive", b"ab\4\2ab", argument=b"\4"), step("append_primitive", MALFORMED, argument=b"\0"))
    yield case("written-under-a-long-tag", "der", b"x",
        step("write_primitive", b"\x9f\x81\x82\3\1x", argument=bytes.fromhex("9f818203")))
    yield case("written-constructed-under-a-long-tag", "der", NULL,
        step("write_constructed", *[bytes.fromhex("bf818203020500")] * 2, argument=bytes.fromhex("9f818203")))
    for n in (0, 1, (1 << 24) - 1, 1 << 24):
        yield case(f"written-length-{n}", "der", b"a" * n, step("write_primitive", octet_string(b"a" * n), argument=b"\4"))


def lines():
    """All lines."""
    for cases in (
            shape_cases, no_value_cases, level_cases, tag_cases, string_cases, oid_cases, leaf_cases, integer_cases,
            whole_cases, time_cases,
            no_time_cases, text_cases, validity_cases, serial_cases, identifier_cases, name_cases, extension_cases,
            gathering_cases, key_cases,
            algorithm_cases,
            data_cases, size_cases, written_cases):
        yield from cases()


if __name__ == "__main__":
    write("test_values", lines())
