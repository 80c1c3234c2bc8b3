#!/usr/bin/env python3
"""Writes the cases on which crates/test_lines runs the programs that answer line by line: its data/cases.txt, and the stdout beside
it.

    tools/cases/line_cases.py                    writes the rows of this script, and keeps the sets of cases that the file has
    tools/cases/line_cases.py PROGRAM FOLDER     takes the set of a program anew from a folder of cases

The cases of a set are named PROGRAM-N. A case of a folder is case-N.words (one word a line), case-N.in (the input) and case-N.expected
(the status in decimal, a line feed, then what is written); they come from a model that was written apart. The rows of this script are
made of examples/query-list.hex and of what stands here. No expected answer comes from the programs under test.

A line is `NAME PROGRAM STATUS OUTPUT INPUT WORD..`: the status in decimal, what is written and the input as stored octets, and the
words as they are, or behind a `#` in hexadecimal. A `-` stands for an empty field.

Four PROGRAMs are none: `parent`, a parent of several classes, writes its answers, what its issuer did and what the child is told of each
class; `issuer` is that issuer by itself, with lines `issue NAME REQUEST` and `revoke NAME KEY`; `class` is a class with the name, the
directory and the AS numbers that the words say, and writes where a certificate of the key is published that the input names, and what the
child is told; `state` reads the input as the state of a guard, and writes it again, or ends with 13.
"""

import base64
import hashlib
import pathlib
import re
import sys

from parent_talks import Talk, issuer_rows, program_rows, rows_of_class, rows_of_classes
from signed_messages import (
    CALLS, NULL, QUERY, RSA, SIGNING_TIME, bits, broken, drawn_serial, key_bits, message, numbered, seq, sign, without,
)
from stored_cases import SIZES, terms, write

ROOT = pathlib.Path(__file__).resolve().parents[2]
CRATE = ROOT / "crates" / "test_lines"
MESSAGE = (ROOT / "examples" / "query-list.hex").read_text().strip()
PROGRAMS = "guard", "state", "arch", "pub", "up", "parent", "issuer", "class", "decide"

MOMENT = 1700000000
KEY = "3022300d06092a864886f70d010101050003110000000000000000010000000000000000"
OTHER_KEY = KEY[:-2] + "09"
LEGIBLE = re.compile(rb"[0-9A-Za-z.:/,_-]{4,}")


def octets(field):
    """Octets as terms, legible where they can be; many in hexadecimal with what is repeated written once, where that is shorter."""
    legible = legible_octets(field)
    return min(legible, terms(field), key=len) if len(field) > 20000 else legible


def legible_octets(field):
    """Octets in terms, with what is legible as it is."""
    parts, at = [], 0
    for match in LEGIBLE.finditer(field):
        parts += [field[at:match.start()].hex()] if at < match.start() else []
        parts.append("'" + match[0].decode())
        at = match.end()
    return "|".join(parts + ([field[at:].hex()] if at < len(field) else [])) or "-"


def word(text):
    """A word, in hexadecimal where it isn't legible or is long."""
    if len(text) > 1000:
        return "#" + terms(text.encode())
    return text if re.fullmatch(r"[0-9A-Za-z]+", text) else "#" + text.encode().hex() if text else "-"


def case(name, program, words, field, status, output):
    """A line of a program: its words, its input, its status and what it writes."""
    return " ".join([name, program, str(status), octets(output), octets(field), *map(word, words)])


def cases_of(program, folder):
    """The cases of a folder."""
    for file in sorted(folder.glob("case-*.in")):
        words = file.with_suffix(".words").read_text().split("\n")[:-1]
        status, _, output = file.with_suffix(".expected").read_bytes().partition(b"\n")
        yield case(f"{program}-{file.stem[5:]}", program, words, file.read_bytes(), int(status), output)


def lines(*texts):
    """Texts as lines."""
    return "".join(text + "\n" for text in texts).encode()


def guard_rows():
    """Messages of one peer, and of another than signed."""
    sent, other = f"{KEY} {MESSAGE}", f"{OTHER_KEY} {MESSAGE}"

    def row(name, field, status, output, words=(str(MOMENT),)):
        return case(f"guard-{name}", "guard", words, field, status, output)

    yield row("twice", lines("-", sent, sent), 0,
        lines(f"ok {MOMENT}", f"Replayed {MOMENT} {MOMENT}", "-", f"{KEY} {MOMENT}"))
    yield row("state-and-other-key", lines(f"{KEY} {MOMENT - 1}", "-", sent, other), 0,
        lines(f"ok {MOMENT}", "Validation 6", "-", f"{KEY} {MOMENT}"))
    yield row("equal-time", lines(f"{KEY} {MOMENT}", "-", sent), 0,
        lines(f"Replayed {MOMENT} {MOMENT}", "-", f"{KEY} {MOMENT}"))
    yield row("refused-is-not-recorded", lines("-", other), 0, lines("Validation 6", "-"))
    yield row("new-key-goes-last", lines(f"{OTHER_KEY} 5", "-", sent), 0,
        lines(f"ok {MOMENT}", "-", f"{OTHER_KEY} 5", f"{KEY} {MOMENT}"))
    yield row("no-line-feed-at-the-end", lines("-", sent)[:-1], 0, lines(f"ok {MOMENT}", "-", f"{KEY} {MOMENT}"))
    yield row("dash-alone", b"-", 0, lines("-"))
    yield row("no-dash", lines(f"{KEY} 5"), 13, lines("BadState"))
    yield row("no-input", b"", 13, lines("BadState"))
    yield row("blank-line-before-the-dash", lines("", "-"), 13, lines("BadState"))
    yield row("blank-line-behind-the-dash", lines("-", ""), 3, lines("Hex"))
    yield row("second-dash", lines("-", "-"), 3, lines("Hex"))
    yield row("key-twice", lines(f"{KEY} 5", f"{OTHER_KEY} 6", f"{KEY} 7", "-"), 13, lines("BadState"))
    yield row("key-in-upper-case", lines(f"{KEY.upper()} 5", "-"), 13, lines("BadState"))
    yield row("key-without-null", lines("302030" + "0b06092a864886f70d010101" + KEY[34:] + " 5", "-"), 13, lines("BadState"))
    for name, seconds, status in (("zero", "0", 0), ("leading-zero", "05", 13), ("plus", "+5", 13), ("minus-zero", "-0", 13),
            ("first", "-62167219200", 0), ("before-the-first", "-62167219201", 13), ("last", "253402300799", 0),
            ("behind-the-last", "253402300800", 13), ("blank", "5 ", 13), ("two-blanks", " 5", 13), ("return", "5\r", 13),
            ("none", "", 13), ("large", "99999999999999999999", 13)):
        text = lines(f"{KEY} {seconds}", "-")
        yield row(f"seconds-{name}", text, status, lines("-", f"{KEY} {seconds}") if status == 0 else lines("BadState"))
    yield row("message-in-upper-case", lines("-", f"{KEY.upper()} {MESSAGE.upper()}"), 0,
        lines(f"ok {MOMENT}", "-", f"{KEY} {MOMENT}"))
    yield row("no-octets", lines("-", f"{KEY} "), 0, lines("CmsDecode", "-"))
    yield row("one-word", lines("-", KEY), 3, lines("Hex"))
    yield row("three-words", lines("-", sent + " 00"), 3, lines("Hex"))
    yield row("two-blanks-in-a-message", lines("-", f"{KEY}  {MESSAGE}"), 3, lines("Hex"))
    yield row("odd-digits", lines("-", sent, sent + "0"), 3, lines("Hex"))
    yield row("no-key", lines("-", sent, f"00 {MESSAGE}"), 3, lines("Hex"))
    yield row("octets-behind-a-key", lines("-", f"{KEY}00 {MESSAGE}"), 3, lines("Hex"))
    yield row("octets-behind-a-message", lines("-", sent + "00"), 0, lines(f"ok {MOMENT}", "-", f"{KEY} {MOMENT}"))
    yield row("bad-state-before-hex", lines(f"{KEY} 05", "-", "x"), 13, lines("BadState"))
    yield row("no-words", lines("-"), 2, lines("Usage"), ())
    yield row("two-words", lines("-"), 2, lines("Usage"), ("0", "0"))
    yield row("no-moment", lines("-"), 2, lines("Usage"), ("00",))


def sized_key(n):
    """A key of so many bits, in octets, and a message that is signed under it."""
    held = b"k" * n
    identifier = hashlib.sha1(held).digest()

    def signed(seed, number, signed_octets, spoilt=False):
        return sign(seed, number, signed_octets, spoilt) if number else hashlib.sha256(held + signed_octets).digest()

    sent = message(authority_key=identifier, crl_authority=identifier, sign=signed)
    return seq(seq(RSA, NULL), bits(held)).hex(), sent.hex()


def untold_rows():
    """Messages that say no time, and messages under keys of the sizes where a length takes one octet more."""
    untold = message(attributes=without(SIGNING_TIME)).hex()
    yield case("guard-no-time", "guard", (str(MOMENT),), lines("-", f"{KEY} {untold}", f"{KEY} {MESSAGE}", f"{KEY} {untold}"), 0,
        lines("NoTime", f"ok {MOMENT}", "NoTime", "-", f"{KEY} {MOMENT}"))
    for n in SIZES:
        key, sent = sized_key(n)
        yield case(f"guard-key-of-{n}", "guard", (str(MOMENT),), lines("-", f"{key} {sent}", f"{KEY} {sent}", f"{key} {sent}"), 0,
            lines(f"ok {MOMENT}", "Validation 6", f"Replayed {MOMENT} {MOMENT}", "-", f"{key} {MOMENT}"))


def state_rows():
    """Texts that are states, and texts that are none."""
    def row(name, *texts, status=0, end="\n"):
        text = "\n".join(texts) + (end if texts else "")
        return case(f"state-{name}", "state", (), text.encode(), status, b"" if status else text.encode())

    yield row("empty")
    yield row("of-one", f"{KEY} 5")
    yield row("of-two", f"{OTHER_KEY} 6", f"{KEY} 5")
    yield row("below-zero", f"{KEY} -62167219200")
    for n in SIZES:
        yield row(f"of-a-key-of-{n}", f"{sized_key(n)[0]} 0")
        if n < 1000:
            yield row(f"of-{n}", *(f"{KEY[:-32]}{key_bits(1, number).hex()} {number}" for number in range(n)))
    for name, text in (("dash", "-"), ("blank", ""), ("key-alone", KEY), ("no-key", "00 5"), ("in-upper-case", f"{KEY.upper()} 5"),
            ("plus", f"{KEY} +5"), ("leading-zero", f"{KEY} 05"), ("too-late", f"{KEY} 253402300800"), ("three-words", f"{KEY} 5 5")):
        yield row(name, text, status=13)
    yield row("no-line-feed-at-the-end", f"{KEY} 5", status=13, end="")
    yield row("key-twice", f"{KEY} 5", f"{OTHER_KEY} 6", f"{KEY} 7", status=13)


def archive_rows():
    """Messages at moments, under keys, and lines that are none."""
    here, late = f"publication {MOMENT} {KEY} {MESSAGE}", f"publication {MOMENT + 301} {KEY} {MESSAGE}"
    other = f"publication {MOMENT} {OTHER_KEY} {MESSAGE}"
    digest = hashlib.sha256(QUERY).hexdigest()

    def row(name, word, texts, answers, output=None):
        return case(f"arch-{name}", "arch", (word,), lines(*texts), 0, lines(*answers))

    yield row("batch", "batch", (here, late, "x"), (f"0 {digest}", "6 Validation 5", "2 Usage", "total 3 accepted 1"))
    yield row("explain", "explain", (late, other, f"publication {MOMENT} {KEY} "),
        ("11110111111011", "11111010101101", "CmsDecode"))
    yield row("same-beside-others", "batch", ("x", "", here, here, ""),
        ("2 Usage", "2 Usage", f"0 {digest}", f"0 {digest}", "2 Usage", "total 5 accepted 2"))
    yield case("arch-no-line-feed-at-the-end", "arch", ("batch",), lines("x", here)[:-1], 0,
        lines("2 Usage", f"0 {digest}", "total 2 accepted 1"))
    yield row("no-lines", "batch", (), ("total 0 accepted 0",))
    yield row("no-lines-explained", "explain", (), ())
    yield row("two-keys", "batch", (f"publication {MOMENT} {KEY} {KEY} {MESSAGE}",), ("2 Usage", "total 1 accepted 0"))
    yield row("three-words", "explain", (f"publication {MOMENT} {KEY}",), ("Usage",))
    yield row("another-protocol", "batch", (f"provisioning {MOMENT} {KEY} {MESSAGE}",), ("5 XmlError", "total 1 accepted 0"))
    yield row("another-protocol-explained", "explain", (f"provisioning {MOMENT} {KEY} {MESSAGE}",), ("1" * 14,))
    yield row("odd-digits", "batch", (here + "0",), ("3 Hex", "total 1 accepted 0"))
    yield row("odd-digits-explained", "explain", (here + "0",), ("Hex",))
    yield row("return", "batch", (here + "\r",), ("3 Hex", "total 1 accepted 0"))
    yield case("arch-octets-that-are-no-text", "arch", ("batch",), b"\xff " + here.encode() + b"\n\xff 0 00 \n", 0,
        lines("2 Usage", "2 Usage", "total 2 accepted 0"))
    parts = {
        (here, "x"): (f"0 {digest}", "2 Usage"),
        (late, here): ("6 Validation 5", f"0 {digest}"),
        (other,): ("6 Validation 6",),
        ("", here + "0"): ("2 Usage", "3 Hex"),
    }
    for place, (texts, answers) in enumerate(parts.items()):
        accepted = answers.count(f"0 {digest}")
        yield row(f"part-{place}-of-four", "batch", texts, (*answers, f"total {len(texts)} accepted {accepted}"))
    yield row("four-parts", "batch", sum(parts, ()), (*sum(parts.values(), ()), "total 7 accepted 2"))
    yield case("arch-no-words", "arch", (), b"", 2, lines("Usage"))
    yield case("arch-two-words", "arch", ("batch", "batch"), b"", 2, lines("Usage"))
    yield case("arch-other-word", "arch", ("Batch",), b"", 2, lines("Usage"))


BASE = "rsync://localhost/ca/"
MEANINGS = {
    "bad_cms_signature": "Encountered bad CMS signature.",
    "xml_error": "Encountered an XML problem.",
    "permission_failure": "Client does not have permission to update this URI.",
    "object_already_present": 'An object is already present at this URI, yet a "hash" attribute was not specified.',
    "no_object_present": 'There is no object present at this URI, yet a "hash" attribute was specified.',
    "no_object_matching_hash":
        'The "hash" attribute supplied does not match the "hash" attribute of the object at this URI.',
}


def hash_of(octets):
    """The SHA-256 of octets, in hexadecimal."""
    return hashlib.sha256(octets).hexdigest()


def publish(name, octets, old=None):
    """A publish with its digest as the tag; in another object's place, where that is given."""
    old = "" if old is None else f' hash="{hash_of(old)}"'
    text = base64.b64encode(octets).decode()
    return f'<publish tag="{hash_of(octets)}" uri="{BASE}{name}"{old}>{text}</publish>'


def withdraw(name, octets):
    """The element that withdraws an object."""
    return f'<withdraw tag="{hash_of(octets)}" uri="{BASE}{name}" hash="{hash_of(octets)}"/>'


def protocol_text(kind, *elements):
    """A message of the publication protocol, as a text."""
    inside = "".join(elements)
    start = f'<msg xmlns="http://www.hactrn.net/uris/rpki/publication-spec/" version="4" type="{kind}"'
    return (f"{start}>{inside}</msg>" if inside else start + "/>").encode()


def query(*elements):
    """A signed query of these elements, in hexadecimal."""
    return message(content=protocol_text("query", *elements)).hex()


def error(code, element=None):
    """The element that reports an error, with the element that failed, if any."""
    tag = "" if element is None else f' tag="{element.split(chr(34))[1]}"'
    failed = "" if element is None else f"<failed_pdu>{element}</failed_pdu>"
    return f'<report_error error_code="{code}"{tag}><error_text>{MEANINGS[code]}</error_text>{failed}</report_error>'


def listed(*objects):
    """The elements that list these objects."""
    return "".join(f'<list uri="{BASE}{name}" hash="{hash_of(octets)}"/>' for name, octets in objects)


def replies(*elements):
    """The signed replies: the signer draws a key for each and then a serial number, of the numbers 1 and up."""
    return [numbered(protocol_text("reply", element), MOMENT, drawn_serial(1, 2 * n + 2), ee=2 * n + 1).hex()
        for n, element in enumerate(elements)]


def server_rows():
    """Queries of one publisher, and the replies to them; each call of the signer fails in turn."""
    words = str(MOMENT), BASE, KEY
    done = "<success/>"
    f1, f2, f3 = publish("f1.txt", b"a"), publish("f2.txt", b"b", b"c"), withdraw("f3.txt", b"d")
    ask = query("<list/>")

    def row(name, queries, answers, words=words, status=0):
        return case(f"pub-{name}", "pub", words, lines(*queries), status, lines(*answers))

    def served(name, queries, *elements):
        return row(name, queries, replies(*elements))

    yield served("none-or-all", [query(f1, f2, f3), ask], error("no_object_present", f2), "")
    twice = [query(f1), query(f1), ask]
    yield served("published-twice", twice, done, error("object_already_present", f1), listed(("f1.txt", b"a")))
    for call in range(1, CALLS + 1):
        yield case(f"pub-signer-fails-at-{call}", f"pub{call}", words, lines(*twice), 7, lines("Signer"))
    yield case("pub-signer-fails-later", f"pub{CALLS + 1}", words, lines(*twice), 7, lines(*replies(done), "Signer"))
    one, other = publish("f1.txt", b"a"), publish("f1.txt", b"b", b"a")
    yield served("replaced-and-withdrawn", [query(one), query(other), ask, query(withdraw("f1.txt", b"b")), ask],
        done, done, listed(("f1.txt", b"b")), done, "")
    yield served("one-behind-the-other", [query(one, other, withdraw("f1.txt", b"b"), f1), ask],
        done, listed(("f1.txt", b"a")))
    yield served("last-fails", [query(publish("f0.txt", b"0")), query(withdraw("f0.txt", b"0"), one, other, one), ask],
        done, error("object_already_present", one), listed(("f0.txt", b"0")))
    yield served("in-order-of-uris", [query(publish("b", b"1")), query(publish("a", b"2"), publish("aa", b"3")), ask],
        done, done, listed(("a", b"2"), ("aa", b"3"), ("b", b"1")))
    sizes = [(f"{size}.roa", bytes(size)) for size in (127, 128, 256, 65536)]
    yield served("sizes", [query(*(publish(*each) for each in sizes)), ask, query(*(withdraw(*each) for each in sizes)), ask],
        done, listed(*sorted(sizes)), done, "")
    yield served("old-digest", [query(one), query(publish("f1.txt", b"b", b"b")), query(withdraw("f1.txt", b"b")), ask],
        done, error("no_object_matching_hash", publish("f1.txt", b"b", b"b")),
        error("no_object_matching_hash", withdraw("f1.txt", b"b")), listed(("f1.txt", b"a")))
    outside = publish("f1.txt", b"a").replace(BASE, BASE[:-1] + "x/")
    yield served("outside-of-the-base", [query(outside), query(one, outside), ask],
        error("permission_failure", outside), error("permission_failure", outside), "")
    reply = message(content=protocol_text("reply", done)).hex()
    yield served("not-believed", [broken(3).hex(), message(content=b"<a/>").hex(), reply, "", ask],
        error("bad_cms_signature"), error("xml_error"), error("xml_error"), error("bad_cms_signature"), "")
    yield row("no-lines", [], [])
    yield case("pub-no-line-feed-at-the-end", "pub", words, lines(ask)[:-1], 0, lines(*replies("")))
    yield row("odd-digits", [ask, ask + "0"], ["Hex"], status=3)
    yield row("hex-before-moment", ["x"], ["Hex"], ("299", BASE, KEY), 3)
    for moment, status in (("299", 8), ("300", 0), ("253402300499", 0), ("253402300500", 8)):
        yield row(f"moment-{moment}", [], ["Moment"] if status else [], (moment, BASE, KEY), status)
    for name, wrong in (("no-words", ()), ("two-words", words[:2]), ("four-words", (*words, KEY)),
            ("no-base", (words[0], "rsync://h", KEY)),
            ("no-directory", (words[0], BASE + "a", KEY)), ("no-key", (*words[:2], KEY + "00")), ("no-moment", ("01", *words[1:]))):
        yield row(name, ["x"], ["Usage"], wrong, 2)


def decided_rows():
    """Queries that are decided by what is known of objects: what is replied, and whether the changes are made."""
    done = "<success/>"
    one, other = publish("f1.txt", b"a"), publish("f1.txt", b"b", b"a")

    def at(name, octets=None, base=BASE):
        return f"{base}{name}={'-' if octets is None else hash_of(octets)}"

    def row(name, elements, known, made, reply, kind="query"):
        text = f"{'made' if made else 'kept'}\n".encode() + protocol_text("reply", reply)
        return case(f"decide-{name}", "decide", (BASE, *known), protocol_text(kind, *elements), 0, text)

    def unknown(name, elements, known):
        return case(f"decide-{name}", "decide", (BASE, *known), protocol_text("query", *elements), 1, b"")

    f1 = at("f1.txt")
    objects = ("b", b"1"), ("a", b"2")
    yield row("list", ["<list/>"], [at(*objects[0]), at("aa"), at(*objects[1])], False, listed(*objects))
    yield row("list-of-none", ["<list/>"], [], False, "")
    yield row("reply", [done], [], False, error("xml_error"), "reply")
    yield row("no-changes", [], [], True, done)
    yield row("published", [one], [f1], True, done)
    yield row("one-behind-the-other", [one, other, withdraw("f1.txt", b"b"), one], [at("f2.txt", b"x"), f1], True, done)
    yield row("there-already", [one], [at("f1.txt", b"z")], False, error("object_already_present", one))
    yield row("published-twice", [one, one], [f1], False, error("object_already_present", one))
    yield row("replaced", [other], [at("f1.txt", b"a")], True, done)
    yield row("replaced-where-none-is", [other], [f1], False, error("no_object_present", other))
    yield row("old-digest", [other], [at("f1.txt", b"b")], False, error("no_object_matching_hash", other))
    gone = withdraw("f1.txt", b"a")
    yield row("withdrawn", [gone], [at("f1.txt", b"a")], True, done)
    yield row("withdrawn-twice", [gone, gone], [at("f1.txt", b"a")], False, error("no_object_present", gone))
    outside = one.replace(BASE, BASE[:-1] + "x/")
    yield row("outside-of-the-base", [outside], [at("f1.txt", base=BASE[:-1] + "x/")], False, error("permission_failure", outside))
    yield row("the-first-that-is-known", [one], [f1, at("f1.txt", b"a")], True, done)
    yield unknown("nothing-known", [one], [])
    yield unknown("another-known", [one], [at("f1.tx"), at("f1.txt.")])
    yield unknown("unknown-behind-a-refused-one", [one, publish("f2.txt", b"b")], [at("f1.txt", b"a")])
    sizes = [(f"{size}.roa", bytes(size)) for size in (127, 128, 256, 65536)]
    yield row("sizes", [publish(*each) for each in sizes], [at(name) for name, _ in sizes], True, done)


def parent_rows():
    """Messages of a child, and what its parent answers; each call of a signer fails."""
    words = str(MOMENT), KEY
    for name, behind, sent, answers, status in program_rows():
        yield case(f"up-{name}", f"up{behind}", words, lines(*sent), status, lines(*answers))
    talk = Talk().list()
    ask, told = talk.sent[0], talk.answers[0]

    def row(name, field, status, *answers, words=words):
        return case(f"up-{name}", "up", words, field, status, lines(*answers))

    yield row("in-upper-case", lines(ask.upper()), 0, told, words=(str(MOMENT), KEY.upper()))
    yield row("no-line-feed-at-the-end", ask.encode(), 0, told)
    yield row("octets-behind-a-message", lines(ask + "00"), 0, told)
    yield row("empty-line", lines("", ask), 0, "CmsDecode", told)
    yield row("no-input", b"", 0)
    yield row("another-key", lines(ask), 0, "Validation 6", words=(str(MOMENT), OTHER_KEY))
    yield row("another-protocol", lines(MESSAGE), 0, "XmlError")
    for name, field in ("odd-digits", ask[:-1]), ("blank", ask + " "), ("return", ask + "\r"):
        yield row(name, lines(ask, field), 3, "Hex")
    yield row("hex-before-moment", lines("x"), 3, "Hex", words=("299", KEY))
    for moment, status in ("0", 8), ("299", 8), ("300", 0), ("253402300499", 0), ("253402300500", 8):
        yield row(f"moment-{moment}", b"", status, *(["Moment"] if status else []), words=(moment, KEY))
    for name, wrong in (("no-words", ()), ("no-key", words[:1]), ("two-keys", (*words, KEY)), ("no-moment", ("00", KEY)),
            ("bad-key", (words[0], KEY + "00")), ("swapped", words[::-1])):
        yield row(name, lines("x"), 2, "Usage", words=wrong)


def class_rows():
    """The same of a parent of several classes, with what its issuer did."""
    for name, behind, sent, answers, status in rows_of_classes():
        yield case(f"parent-{name}", f"parent{behind}", (str(MOMENT), KEY), lines(*sent), status, lines(*answers))


def issuing_rows():
    """An issuer by itself."""
    for name, behind, sent, answers, status in issuer_rows():
        yield case(f"issuer-{name}", f"issuer{behind}", (), lines(*sent), status, lines(*answers))


def told_rows():
    """Classes by themselves."""
    for name, words, identifier, answers in rows_of_class():
        yield case(f"class-{name}", "class", words, identifier.encode(), 0, lines(*answers))


def guarded_rows():
    """Rows of guards that are called for each message."""
    yield from guard_rows()
    yield from untold_rows()


ROWS = {
    "guard": guarded_rows, "state": state_rows, "arch": archive_rows, "pub": server_rows, "up": parent_rows, "parent": class_rows,
    "issuer": issuing_rows, "class": told_rows, "decide": decided_rows}


def main():
    """Writes the rows and the sets that are kept, or takes a set anew from a folder."""
    file = CRATE / "data" / "cases.txt"
    kept = file.read_text().splitlines() if file.exists() else []
    sets = {name: [line for line in kept if re.match(rf"{name}-[0-9]+ ", line)] for name in PROGRAMS}
    if len(sys.argv) > 1:
        name, folder = sys.argv[1:]
        sets[name] = list(cases_of(name, pathlib.Path(folder)))
    write("test_lines", [line for name in PROGRAMS for line in sets[name] + list(ROWS.get(name, tuple)())])


if __name__ == "__main__":
    main()
