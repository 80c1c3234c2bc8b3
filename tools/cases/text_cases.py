#!/usr/bin/env python3
"""Writes the cases on which crates/test_texts calls rpki_text and rpki_sets: its data/cases.txt, and the stdout beside it.

The expected answers come from Python's base64, hashlib, ipaddress, json and re, and where no library says it from the rows below
and in tools/cases/resource_sets.py. None comes from the program under test.

A line is `NAME CALL ANSWER INPUT INPUT`, as crates/test_texts/src/main.rt says.
"""

import base64
import hashlib
import json
import pathlib
import re

import resource_sets as sets

ROOT = pathlib.Path(__file__).resolve().parents[2]
CRATE = ROOT / "crates" / "test_texts"

# Where counts of one and of two octets end, and the most octets of a URI.
SIZES = 127, 128, 255, 256, 65535, 65536

URI_OCTETS = b"!#$%&'()*+,-./0123456789:;=?@ABCDEFGHIJKLMNOPQRSTUVWXYZ[]_abcdefghijklmnopqrstuvwxyz~"
HANDLE = re.compile(r"[-_A-Za-z0-9/]{1,255}")
DIGEST = re.compile(r"[0-9A-Fa-f]{64}")


# ---- fields


def pieces(octets):
    """Octets as pieces: what stands eight times or more in a row by its number, and what stands between."""
    start = 0
    for run in re.finditer(rb"(.{1,65}?)\1{7,}", octets, re.DOTALL):
        if start < run.start():
            yield octets[start:run.start()].hex()
        yield f"{run[1].hex()}*{len(run[0]) // len(run[1])}"
        start = run.end()
    if start < len(octets):
        yield octets[start:].hex()


def field(given):
    """A field of a line: octets in hexadecimal, with what is repeated written once."""
    octets = given.encode() if isinstance(given, str) else bytes(given)
    found = "+".join(pieces(octets)) or "-"
    assert found == "-" or b"".join(spelled(piece) for piece in found.split("+")) == octets
    return found


def spelled(piece):
    """The octets of a piece of a field."""
    digits, _, count = piece.partition("*")
    return bytes.fromhex(digits) * int(count or "1")


class Refused(Exception):
    """A call that answers with a refusal."""


def line(name, call, answer, first, second=b""):
    """A line of the cases."""
    told = answer.args[0] if isinstance(answer, Refused) else "=" + field(answer)
    return " ".join((name, call, told, field(first), field(second)))


def answered(rule, *given):
    """What a rule gives, or why it refuses."""
    try:
        return rule(*given)
    except Refused as refusal:
        return refusal


# ---- the rules, by Python's libraries


def octets_of_base64(text):
    """RFC 4648, section 4, once white space is dropped: the text that Python writes of what it reads."""
    bare = re.sub("[\t\n\r ]", "", text)
    try:
        octets = base64.b64decode(bare.encode("ascii"), validate=True)
    except ValueError:
        raise Refused("Malformed") from None
    if base64.b64encode(octets).decode() != bare:
        raise Refused("Malformed")
    return octets


def string_of_json(text):
    """The string that a JSON text is."""
    try:
        found = json.loads(text)
    except ValueError:
        raise Refused("Malformed") from None
    if not isinstance(found, str):
        raise Refused("Malformed")
    return found


def octets_of_json(text):
    """The octets whose base64 text, without white space, is the one string of a JSON text."""
    found = string_of_json(text)
    octets = octets_of_base64(found)
    if base64.b64encode(octets).decode() != found:
        raise Refused("Malformed")
    return octets


def compact(text):
    """The value of a JSON text, without spaces."""
    try:
        return json.dumps(json.loads(text), ensure_ascii=False, separators=(",", ":"))
    except ValueError:
        raise Refused("Malformed") from None


def handle_of(text, refusal="Pattern"):
    """A handle, which a text has to be."""
    if not HANDLE.fullmatch(text):
        raise Refused(refusal)
    return text


def digest_of(text):
    """A digest in lower case, which a text has to be."""
    if not DIGEST.fullmatch(text):
        raise Refused("None")
    return text.lower()


def octets_of_ski(text):
    """20 octets in the URL-safe alphabet of RFC 4648, section 5, with padding or without."""
    try:
        octets = base64.b64decode((text.rstrip("=") + "=").encode("ascii"), b"-_", validate=True)
    except ValueError:
        raise Refused("None") from None
    written = base64.urlsafe_b64encode(octets).decode()
    if len(octets) != 20 or text not in (written, written.rstrip("=")):
        raise Refused("None")
    return octets


# ---- rows


def uri_rows():
    """URIs, and texts that are none."""
    for scheme, rows in (("rsync", RSYNC), ("https", HTTPS)):
        for number, (text, refusal) in enumerate(rows):
            answer = Refused(refusal) if refusal else text
            yield line(f"{scheme}-{number}", scheme, answer, text)
        for size in SIZES:
            text = f"{scheme}://localhost/repo/".ljust(size, "a")
            answer = text if size <= 65535 else Refused("TooLong")
            yield line(f"{scheme}-of-{size}", scheme, answer, text)
            base = f"{scheme}://localhost/repo/"
            yield line(f"{scheme}-joined-to-{size}", f"{scheme}_join", answer, base, text[len(base):])
            yield line(f"{scheme}-is-dir-of-{size}", f"{scheme}_is_dir", answer if size > 65535 else "false", text)
        for octet in range(256):
            path = bytes((97, octet))
            base = f"{scheme}://localhost/repo/x"
            answer = base + "/a" + chr(octet) if octet in URI_OCTETS else Refused("BadCharacter")
            yield line(f"{scheme}-octet-{octet:02x}", f"{scheme}_join", answer, base, path)
        for number, (base, path, joined) in enumerate(JOINED):
            answer = Refused("DotSegments") if joined is None else f"{scheme}:{joined}"
            yield line(f"{scheme}-joined-{number}", f"{scheme}_join", answer, f"{scheme}:{base}", path)
    for number, (text, answer) in enumerate(DIRECTORIES):
        yield line(f"is-dir-{number}", text[:5].lower() + "_is_dir", answer, text)


def hash_rows():
    """Hashes, and texts that are none."""
    for size in (0, 1, 3, *SIZES):
        octets = b"a" * size
        yield line(f"hash-of-{size}", "hash_of", hashlib.sha256(octets).hexdigest(), octets)
    digits = hashlib.sha256(b"abc").hexdigest()
    texts = ["", digits, digits.upper(), digits.title(), digits[:-1], digits + "0", " " + digits[1:], digits[:-1] + "\n"]
    texts += [chr(octet) + digits[1:] for octet in range(256)] + ["a" * size for size in SIZES]
    for number, text in enumerate(texts):
        yield line(f"hash-{number}", "hash", answered(digest_of, text), text)


def base64_rows():
    """Base64 texts, and texts that are none."""
    contents = [b"", b"a", b"ab", b"abc", bytes(range(256))] + [b"\xa5" * size for size in SIZES]
    contents += [b"\x00" * size for size in (10, 16, 1024, 1025, 12322)]
    for number, octets in enumerate(contents):
        text = base64.b64encode(octets).decode()
        yield line(f"base64-of-{number}", "base64_of", text, octets)
        yield line(f"base64-size-{number}", "base64_size", str(len(text) * 3 // 4), octets)
        yield line(f"base64-hash-{number}", "base64_hash", hashlib.sha256(octets).hexdigest(), octets)
        yield line(f"base64-to-json-{number}", "base64_to_json", json.dumps(text), octets)
        yield line(f"base64-read-{number}", "base64", octets, text)
        yield line(f"base64-spaced-{number}", "base64", octets, "\n".join(re.findall(".{1,64}", text)) + "\r\n")
    for size, above in (0, 0), (10, 2), (16, 2), (256, 2), (1024, 2), (1025, 1), (12322, 2):
        yield line(f"base64-size-of-{size}-octets", "base64_size", str(size + above), b"\x0c" * size)
    texts = BASE64 + [chr(octet) + "Q==" for octet in range(256)] + ["YQ=" + chr(octet) for octet in range(128)]
    texts += ["A" * size for size in SIZES] + [" " * size for size in SIZES]
    for number, text in enumerate(texts):
        yield line(f"base64-text-{number}", "base64", answered(octets_of_base64, text), text)
    for number, text in enumerate(JSON + [json.dumps(text) for text in texts]):
        answer = answered(lambda text: octets_of_base64(string_of_json(text)), text)
        yield line(f"base64-json-{number}", "base64_json", answer, text)


def handle_rows():
    """Handles and their JSON, and texts that are none."""
    texts = ["Carol", "Carol/1", "", "a\\b", "Carol ", " Carol", "Ca rol", "-_/", "\u00e9"]
    texts += [chr(octet) for octet in range(256)] + ["a" * size for size in SIZES] + ["a" * 254 + "/", "a" * 254 + " "]
    for number, text in enumerate(texts):
        yield line(f"handle-{number}", "handle", answered(handle_of, text), text)
        yield line(f"handle-to-json-{number}", "handle_to_json", json.dumps(text, ensure_ascii=False), text)
    for number, text in enumerate(JSON + [json.dumps(text) for text in texts]):
        answer = answered(lambda text: handle_of(string_of_json(text), "Malformed"), text)
        yield line(f"handle-json-{number}", "handle_json", answer, text)


def ski_rows():
    """Key identifiers as the provisioning protocol spells them, and texts that are none."""
    for number, octets in enumerate((bytes(20), b"\xff" * 20, bytes(range(20)), hashlib.sha1(b"abc").digest())):
        yield line(f"ski-of-{number}", "ski_of", base64.urlsafe_b64encode(octets).rstrip(b"="), octets)
    text = base64.urlsafe_b64encode(hashlib.sha1(b"abc").digest()).decode()
    bare = text.rstrip("=")
    texts = [text, bare, "", text + "=", bare[:-1], bare + "A", bare[:-1] + "B", bare[:-1] + "+", " " + bare]
    texts += [bare[:26] + "\n=", "_" * 26 + "8", "_" * 26 + "8=", "_" * 27, "A" * 27 + "=", "A" * 28, "A" * 26 + "=="]
    texts += [chr(octet) + bare[1:] for octet in range(256)] + ["A" * size for size in SIZES]
    for number, text in enumerate(texts):
        yield line(f"ski-{number}", "ski", answered(octets_of_ski, text), text)


def piece_rows():
    """Sources that are read and sinks that are written to, so many octets a call."""
    for size in (0, 1, *SIZES):
        octets = b"\x5a" * size
        for piece in (1, 7, 65536):
            kept = octets if size <= 65535 else Refused("TooLong")
            yield line(f"read-{size}-by-{piece}", "read_all", kept, octets, b"\x00" * piece)
            kept = octets if size <= 65535 else Refused("Failed")
            yield line(f"write-{size}-by-{piece}", "write_all", kept, octets, b"\x00" * piece)


def source_rows():
    """What a source over a reader gives."""
    for size in (0, 1, *SIZES):
        octets = bytes(place % 61 for place in range(size))
        for piece in sorted({0, 1, 7, size, 65536}):
            yield line(f"given-{size}-by-{piece}", "std_read", octets[:2 * piece], octets, b"\x00" * piece)


def json_rows():
    """JSON strings, and texts that are none."""
    texts = [chr(octet) for octet in range(256)] + ["\u20ac", "\U0001f600", "a\"b\\c/d"]
    texts += [letter * size for size in SIZES for letter in ("a", '"', "\u00e9")]
    spelled_texts = [json.dumps(text) for text in texts] + [json.dumps(text, ensure_ascii=False) for text in texts]
    for number, text in enumerate(texts):
        yield line(f"string-to-json-{number}", "string_to_json", json.dumps(text, ensure_ascii=False), text)
    for number, text in enumerate(JSON + JSON_VALUES + spelled_texts):
        yield line(f"json-string-{number}", "json_string", answered(string_of_json, text), text)
    for number, text in enumerate(JSON + JSON_VALUES + [f"[{text},{text}]" for text in spelled_texts]):
        yield line(f"json-value-{number}", "json_value", answered(compact, text), text)
    for size in SIZES:
        yield line(f"json-array-of-{size}", "json_value", "[" + "1," * (size - 1) + "1]", "[ " + "1 , " * (size - 1) + "1 ]")
    for levels, answer in ((127, None), (128, Refused("Malformed"))):
        text = "[" * levels + "]" * levels
        yield line(f"json-of-{levels}-levels", "json_value", answer or text, text)
    for number, text in enumerate([*BASE64, "", *["A" * size for size in SIZES], *["YWJj" * size for size in SIZES]]):
        yield line(f"json-octets-{number}", "json_octets", answered(octets_of_json, json.dumps(text)), json.dumps(text))
    for number, text in enumerate(JSON):
        yield line(f"json-octets-of-{number}", "json_octets", answered(octets_of_json, text), text)
    for number, text in enumerate(["", "a", "ab", "abc", "\u00ff~?", *["a" * size for size in SIZES]]):
        yield line(f"octets-to-json-{number}", "octets_to_json", json.dumps(base64.b64encode(text.encode()).decode()), text)


def ipv6_text(number):
    """Groups in lower case without leading zeros, of which the first of the longest runs of two zeros or more is `::`."""
    groups = [f"{number >> 16 * place & 0xFFFF:x}" for place in reversed(range(8))]
    for size in range(8, 1, -1):
        for at in range(9 - size):
            if groups[at:at + size] == ["0"] * size:
                return ":".join(groups[:at]) + "::" + ":".join(groups[at + size:])
    return ":".join(groups)


def number_rows():
    """AS numbers and addresses, as they are printed."""
    for number in (0, 1, 9, 10, 64496, 65535, 65536, (1 << 31) - 1, 1 << 31, 0x0A000001, 0xC0000201, (1 << 32) - 1):
        octets = number.to_bytes(4, "big")
        yield line(f"number-as-{number}", "number_as", str(number), octets)
        yield line(f"number-ipv4-{number}", "number_ipv4", ".".join(map(str, octets)), octets)
    groups = ["0", "1", "20010db8" + "0" * 24, "20010db8" + "0" * 23 + "1", "f" * 32, "00010002000300040005000600070008",
        "00010000000200000003000000040000", "00010000000000020000000000000003", "00000000000000010000000000000001", "0001" + "0" * 28,
        "00000000000000000000ffffc0000201", "0000ffff" * 4, "abcd" + "0" * 24 + "0010"]
    for number, digits in enumerate(groups):
        octets = bytes.fromhex(digits.zfill(32))
        yield line(f"number-ipv6-{number}", "number_ipv6", ipv6_text(int(digits, 16)), octets)


def set_rows():
    """Texts of sets, what they print, and texts that are none."""
    for kind, rows, none in sets.kinds():
        for number, (text, printed) in enumerate(rows):
            yield line(f"{kind}-{number}", kind, printed, text)
            yield line(f"{kind}-{number}-is-its-print", f"{kind}_same", "true", text, printed)
        for number, text in enumerate(none):
            yield line(f"no-{kind}-{number}", kind, Refused("Malformed"), text)
    for number, (whole, part, holds) in enumerate(CONTAINED):
        yield line(f"ipv4-contains-{number}", "ipv4_contains", holds, whole, part)
    for number, (text, count) in enumerate(((PARTS, "3"), (PART, "3"), ("", "0"))):
        yield line(f"ipv4-runs-{number}", "ipv4_runs", count, text)
    yield line("ipv4-same", "ipv4_same", "true", PARTS, PARTS)
    yield line("ipv4-of-a-part", "ipv4_same", "false", PARTS, PART)
    yield line("ipv4-of-none", "ipv4_in_none", "true", "")
    yield line("ipv4-of-some", "ipv4_in_none", "false", PART)
    resources, printed = "AS1-3;10.0.0.0/8;2001:DB8::/32", "asn: '1-3', ipv4: '10.0.0.0/8', ipv6: '2001:db8::/32'"
    yield line("resources", "resources", printed, resources)
    yield line("resources-changed", "resources_changed", printed, resources)
    yield line("resources-of-none", "resources", "asn: '', ipv4: '', ipv6: ''", ";;")
    yield line("resources-by-default", "resources_default", "asn: '', ipv4: '', ipv6: ''", ";;")
    for number, (one, other, holds) in enumerate(RESOURCES):
        yield line(f"resources-same-{number}", "resources_same", holds, one, other)


def run_rows():
    """Sets of so many runs, and of so many items, of which two runs come. A set of 65536 runs stands here once, since its text is long."""
    for kind in sets.RULES:
        for n in SIZES:
            items = sets.singles(kind, n)
            text, all_but_one = ",".join(items), ",".join(items[:-1])
            if n < 1000:
                printed = sets.printed(kind, text)
                yield line(f"{kind}-of-{n}-runs", kind, printed, text)
                yield line(f"{kind}-of-{n}-runs-is-its-print", f"{kind}_same", "true", ",".join(reversed(items)), printed)
                yield line(f"{kind}-of-{n}-runs-is-not-one-less", f"{kind}_same", "false", text, all_but_one)
                yield line(f"{kind}-runs-of-{n}", f"{kind}_runs", str(n), text)
                yield line(f"{kind}-of-{n}-runs-contains-one-less", f"{kind}_contains", "true", text, all_but_one)
                yield line(f"{kind}-of-{n}-runs-contains-one-more", f"{kind}_contains", "false", all_but_one, text)
            elif (kind, n) == ("as", 65536):
                yield line(f"{kind}-of-{n}-runs-contains-its-last", f"{kind}_contains", "true", text, items[-1])
            two = items[1::-1]
            yield line(f"{kind}-of-{n}-items", kind, sets.printed(kind, ",".join(two)), ",".join((two * n)[:n]))


def same_rows():
    """Of two values whether they are equal."""
    for number, (call, one, other, holds) in enumerate(SAME):
        yield line(f"same-{number}", call, holds, one, other)


def kept_rows():
    """Texts that are kept as they are."""
    for number, text in enumerate(("ripe-ncc", "", "any text")):
        yield line(f"text-{number}", "text", text, text)
        yield line(f"sequence-{number}", "sequence", text, text)
        yield line(f"sequence-empty-{number}", "sequence_empty", "false" if text else "true", text)
        yield line(f"handle-converted-{number}", "handle_converted", text, text)


# Texts and the first rule that each breaks, by what RFC 5781 and RFC 9110 ask for.
RSYNC = [
    ("rsync://localhost/repo/", None),
    ("RSync://localhost/repo/x/..y/z.cer", None),
    ("rsync://localhost/repo/x/.../z", None),
    ("rsync://localhost/repo", "BadUri"),
    ("rsync://localhost", "BadUri"),
    ("rsync://localhost//x", "BadUri"),
    ("rsync:///repo/x", "BadUri"),
    ("rsync://", "BadUri"),
    ("rsync://./repo/x", None),
    ("rsync://localhost/./x", "DotSegments"),
    ("rsync://localhost/repo/x/../y", "DotSegments"),
    ("rsync://localhost/repo/.", "DotSegments"),
    ("rsync://localhost/repo/..", "DotSegments"),
    ("https://localhost/repo/x", "BadScheme"),
    ("rsync:/", "BadScheme"),
    ("", "BadScheme"),
    ("https://local host/", "BadCharacter"),
    ("rsync://localhost/repo/\u00e9", "BadCharacter"),
    ("\u00e9" * 32768, "TooLong"),
]
HTTPS = [
    ("https://localhost", None),
    ("HTTPS://localhost/", None),
    ("https://localhost/a//b", None),
    ("https://..", None),
    ("https://", "BadUri"),
    ("https:///a", "BadUri"),
    ("https://localhost/..", "DotSegments"),
    ("https://localhost/a/./b", "DotSegments"),
    ("http://localhost/", "BadScheme"),
    ("https:/", "BadScheme"),
    ("https://localhost/\\", "BadCharacter"),
]
JOINED = [
    ("//localhost/repo/x", "/y", "//localhost/repo/x/y"),
    ("//localhost/repo/x", "y", "//localhost/repo/x/y"),
    ("//localhost/repo/x/", "y", "//localhost/repo/x/y"),
    ("//localhost/repo/x/", "/y", "//localhost/repo/x/y"),
    ("//localhost/repo/x", "//y/", "//localhost/repo/x//y/"),
    ("//localhost/repo/x", "", "//localhost/repo/x/"),
    ("//localhost/repo/x", "../z", None),
    ("//localhost/repo/x", "/.", None),
]
DIRECTORIES = [
    ("rsync://localhost/repo/", "true"),
    ("rsync://localhost/repo/x/", "true"),
    ("rsync://localhost/repo/x", "false"),
    ("https://localhost", "true"),
    ("https://localhost/", "true"),
    ("https://localhost/x", "false"),
    ("https://localhost/x/", "true"),
]
BASE64 = [
    "YQ==", "\n\tYW \r\nJj\n", " Y Q = = ", "  ", "YQ", "YQ=", "YR==", "YQ===", "=", "YWJj=", "Y-==", "Y_==",
    "YQ==YQ==", "YQ\u000b==", "Y\u00a0Q==", "YWI=", "YWJ=", "+/+/",
]
JSON = [
    ' "Y\\nQ\\u003d=" ', '"????????"', '"YR=="', "YQ==", '["YQ=="]', "1.5", "null", '"YQ==', '"YQ==" x', "",
    '"Carol\\/1"', '"Ca rol"', "Carol", '{"a":"Carol"}', "true", '""', '"\\u0043arol"',
]
JSON_VALUES = [
    "true", "false", "0", "-1", "18446744073709551615", "[]", "{}", ' [ 1 , "a" , null , { } ] ', '{"a":1,"b":[true,{"c":"d"}]}',
    '{"a":1,"a":2}', "[1,]", '{"a":1,}', "{a:1}", "[1 2]", "01", "+1", ".5", "1.", "tru", "[", '{"a"}', '"a', "\t[\n]\r", "\f[]",
    '"\\x41"', '"\\u12"', '"\t"', "'a'", "[] []", "// a\n1",
]
PARTS = "10.0.0.0/8,192.0.2.0/24,198.51.100.7"
PART = "10.1.0.0/16,192.0.2.1-192.0.2.9,198.51.100.7"
CONTAINED = [
    (PARTS, PARTS, "true"),
    (PARTS, PART, "true"),
    (PART, PARTS, "false"),
    (PARTS, "10.0.0.0/8,192.0.3.0", "false"),
    (PARTS, "9.255.255.255-10.0.0.1", "false"),
    (PARTS, "", "true"),
    ("", PART, "false"),
    ("", "", "true"),
]
RESOURCES = [
    ("AS1-3;10.0.0.0/8;2001:DB8::/32", "1-3;10.0.0.0/9,10.128.0.0/9;2001:db8::/32", "true"),
    ("AS1-3;10.0.0.0/8;2001:DB8::/32", "AS1-4;10.0.0.0/8;2001:DB8::/32", "false"),
    ("AS1-3;10.0.0.0/8;2001:DB8::/32", "AS1-3;10.0.0.0/9;2001:DB8::/32", "false"),
    ("AS1-3;10.0.0.0/8;2001:DB8::/32", "AS1-3;10.0.0.0/8;2001:DB8::/33", "false"),
    ("AS1-3;10.0.0.0/8;2001:DB8::/32", ";;", "false"),
    (";;", ";;", "true"),
]
SAME = [
    ("rsync_same", "rsync://localhost/repo/", "rsync://localhost/repo/", "true"),
    ("rsync_same", "rsync://localhost/repo/", "RSYNC://localhost/repo/", "false"),
    ("https_same", "https://localhost", "https://localhost", "true"),
    ("https_same", "https://localhost", "https://localhost/", "false"),
    ("base64_same", "YQ==", "Y Q = =", "true"),
    ("base64_same", "YQ==", "YWI=", "false"),
    ("handle_same", "Carol", "Carol", "true"),
    ("handle_same", "Carol", "carol", "false"),
    ("hash_same", "abc", "abc", "true"),
    ("hash_same", "abc", "", "false"),
    ("text_same", "ripe-ncc", "ripe-ncc", "true"),
    ("text_same", "ripe-ncc", "apnic", "false"),
    ("text_less", "apnic", "ripe-ncc", "true"),
    ("text_less", "ripe-ncc", "apnic", "false"),
    ("text_less", "apnic", "apnic", "false"),
    ("sequence_same", "ab", "ab", "true"),
    ("sequence_same", "ab", "ba", "false"),
]


def main():
    """Writes the cases, and what the program prints."""
    lines = [
        *uri_rows(), *hash_rows(), *base64_rows(), *handle_rows(), *ski_rows(), *piece_rows(), *source_rows(), *json_rows(),
        *number_rows(), *set_rows(), *run_rows(), *same_rows(), *kept_rows()]
    names = [line.split(" ")[0] for line in lines]
    assert len(names) == len(set(names))
    (CRATE / "data" / "cases.txt").write_text("".join(line + "\n" for line in lines))
    (CRATE / "stdout").write_text(f"{len(lines)} cases, 0 differ\n")


if __name__ == "__main__":
    main()
